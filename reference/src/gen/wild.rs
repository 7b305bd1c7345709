//! Well-typed tables whose blocks are joined at random, so that what locals hold and which references are marked
//! depends on the walk. The judge accepts some and refuses the others with 11 to 14.

use super::plan::{asm::*, Code, Plan, ProcPlan};
use super::rng::Rng;
use crate::program::Sort;

#[derive(Clone, Copy, Debug, PartialEq, Eq)]
pub enum Flavour {
    /// Numbers and references come and go.
    Locals,
    /// Records are moved about.
    Records,
    /// References to guarded fields are handed about and frozen; every local is full.
    Leaks,
    /// One branch after another, each with or without an effect: very many states of the locals together.
    Broad,
    /// The same as `Leaks` in several procedures, mostly private, that call one another and themselves.
    Helpers,
}

const COIN: u16 = 0;
/// Takes a reference.
const SINK: u16 = 0;
/// Takes a reference and gives it back.
const PASS: u16 = 1;
/// The same with a read-only one.
const SHOW: u16 = 2;
/// Takes a read-only reference to a coin and gives one to its first number.
const LOOK: u16 = 3;

/// Parameters and results.
type Signature = (Vec<Sort>, Vec<Sort>);

pub fn plan(rng: &mut Rng, flavour: Flavour) -> Plan {
    let trusted = matches!(flavour, Flavour::Leaks | Flavour::Broad | Flavour::Helpers) || rng.chance(50);
    let mut plan = Plan { trusted: vec![trusted], ..Plan::default() };
    if rng.chance(30) {
        plan.trusted.push(rng.chance(50));
    }
    let first_guarded = trusted && rng.chance(85);
    plan.add_type(0, &[(Sort::Number, first_guarded), (Sort::Number, trusted && !first_guarded)]);
    let view = [Sort::NumberView];
    let helpers: [(Sort, &[Sort], &[Code]); 4] = [
        (Sort::NumberRef, &[], &[mv(0), pop(), ret()]),
        (Sort::NumberRef, &[Sort::NumberRef], &[mv(0), ret()]),
        (Sort::NumberView, &view, &[mv(0), ret()]),
        (Sort::RecordView(COIN as u8), &view, &[mv(0), field(COIN, 0), ret()]),
    ];
    for (param, results, code) in helpers {
        let (params, results, code) = (vec![param], results.to_vec(), code.to_vec());
        let public = rng.chance(if flavour == Flavour::Helpers { 30 } else { 50 });
        plan.add_proc(ProcPlan { public, params, results, code, ..ProcPlan::default() });
    }
    if flavour == Flavour::Helpers {
        add_web(&mut plan, rng);
        return plan;
    }
    for _ in 0..rng.within(1, 2) {
        let one = if flavour == Flavour::Broad {
            broad(rng)
        } else {
            let signature = some_signature(rng);
            Maze::procedure(rng, flavour, signature, &[])
        };
        let maze = plan.add_proc(one);
        if rng.chance(50) {
            let driver = driver(&plan, maze);
            plan.add_proc(driver);
        }
    }
    plan
}

/// Adds procedures that know one another, and a driver for some of them.
fn add_web(plan: &mut Plan, rng: &mut Rng) {
    let count = rng.within(2, 3);
    let first = plan.procs.len();
    let mut web: Vec<(u16, Signature)> = Vec::new();
    for number in first..first + count {
        web.push((number as u16, some_signature(rng)));
    }
    let mut private = Vec::new();
    for (_, signature) in &web {
        let mut one = Maze::procedure(rng, Flavour::Helpers, signature.clone(), &web);
        let gives_refs = signature.1.contains(&Sort::NumberRef);
        one.public = rng.chance(if gives_refs { 18 } else { 30 });
        private.push(!one.public);
        plan.add_proc(one);
    }
    for (number, private) in (first..).zip(private) {
        if rng.chance(35) {
            let driver = driver_through(plan, number as u16, private);
            plan.add_proc(driver);
        }
    }
}

/// A procedure that a list can call: it makes a coin, sends references through the maze and breaks the coin up.
fn driver(plan: &Plan, maze: u16) -> ProcPlan {
    driver_through(plan, maze, false)
}

/// The same; one that gives guarded references writes through what comes back.
fn driver_through(plan: &Plan, maze: u16, guarded: bool) -> ProcPlan {
    let inside = &plan.procs[usize::from(maze)];
    let mut code = vec![load(4), load(6), pack(COIN), st(2)];
    code.extend(guarded.then_some(cp(0)));
    for sort in &inside.params {
        match sort {
            Sort::Number => code.push(cp(0)),
            Sort::NumberRef if guarded => code.extend([borrow(2), field(COIN, 0)]),
            Sort::NumberRef | Sort::NumberView => code.push(borrow(1)),
            _ => code.push(borrow(2)),
        }
        if sort.is_view() {
            code.push(freeze());
        }
    }
    code.push(call(maze));
    let results = inside.results.len();
    if guarded && inside.results.first() == Some(&Sort::NumberRef) {
        code.resize(code.len() + results - 1, pop());
        code.push(write());
    } else {
        code.resize(code.len() + results + usize::from(guarded), pop());
    }
    code.extend([mv(2), unpack(COIN), ret()]);
    ProcPlan {
        module: 0,
        public: true,
        params: vec![Sort::Number, Sort::Number],
        others: vec![Sort::Record(COIN as u8)],
        results: vec![Sort::Number, Sort::Number],
        code,
    }
}

/// A row of branches over one small effect each. Locals: 0 a reference to a coin, 1 a number, then references to
/// numbers, all full, then numbers and one read-only reference, empty.
fn broad(rng: &mut Rng) -> ProcPlan {
    let refs = rng.within(4, 8) as u16;
    let numbers = rng.within(2, 5) as u16;
    let view = 2 + refs + numbers;
    let mut code = Vec::new();
    for local in 2..2 + refs {
        code.extend([borrow(1), st(local)]);
    }
    for _ in 0..rng.within(8, 18) {
        let (one, other) = (2 + rng.below(refs.into()) as u16, 2 + rng.below(refs.into()) as u16);
        let number = 2 + refs + rng.below(numbers.into()) as u16;
        let effect = match rng.below(9) {
            0 | 1 => vec![cp(0), field(COIN, rng.below(2) as u16), st(one)],
            2 => vec![borrow(1), st(one)],
            3 | 4 => vec![cp(one), st(other)],
            5 => vec![cp(one), freeze(), st(view)],
            _ => vec![load(1), st(number)],
        };
        let over = code.len() + 2 + effect.len();
        code.extend([cp(1), jump_if(over as u16)]);
        code.extend(effect);
    }
    for _ in 0..rng.below(4) {
        let one = 2 + rng.below(refs.into()) as u16;
        let number = 2 + refs + rng.below(numbers.into()) as u16;
        code.extend(match rng.below(7) {
            0 => vec![cp(one), call(SINK)],
            1 | 2 => vec![borrow(1), st(one), cp(one), call(SINK)],
            3 => vec![load(1), st(number), cp(number), pop()],
            4 => vec![cp(one), freeze(), call(SHOW), pop()],
            5 => vec![cp(one), freeze(), st(view), cp(view), read(), pop()],
            _ => vec![cp(number), pop()],
        });
    }
    if rng.chance(30) {
        code.extend([cp(1), jump_if(2 * refs)]);
    }
    let results = rng.pick(&[&[][..], &[], &[], &[Sort::NumberRef], &[Sort::NumberView]]).to_vec();
    for sort in &results {
        code.push(cp(2));
        if sort.is_view() {
            code.push(freeze());
        }
    }
    code.push(ret());
    let others = [vec![Sort::NumberRef; refs.into()], vec![Sort::Number; numbers.into()], vec![Sort::NumberView]];
    let others = others.concat();
    let params = vec![Sort::RecordRef(COIN as u8), Sort::Number];
    ProcPlan { module: 0, public: true, params, others, results, code }
}

/// One procedure whose blocks are being written.
struct Maze<'a> {
    rng: &'a mut Rng,
    flavour: Flavour,
    web: Vec<(u16, Signature)>,
    results: Vec<Sort>,
    numbers: Vec<u16>,
    refs: Vec<u16>,
    record_refs: Vec<u16>,
    views: Vec<u16>,
    record_views: Vec<u16>,
    coins: Vec<u16>,
    code: Vec<Code>,
}

/// Parameters that bring a number and a reference to a coin, and some results.
fn some_signature(rng: &mut Rng) -> Signature {
    let coin = COIN as u8;
    let params = match rng.below(5) {
        0 => vec![Sort::RecordRef(coin), Sort::Number],
        1 => vec![Sort::RecordRef(coin), Sort::Number, Sort::NumberRef],
        2 => vec![Sort::RecordRef(coin), Sort::Number, Sort::NumberView],
        3 => vec![Sort::RecordView(coin), Sort::RecordRef(coin), Sort::Number],
        _ => vec![Sort::Number, Sort::RecordRef(coin), Sort::NumberRef],
    };
    let (reference, view) = (Sort::NumberRef, Sort::NumberView);
    let results: [&[Sort]; 6] =
        [&[], &[reference], &[Sort::Number, reference], &[reference, reference], &[view], &[reference, view]];
    (params, rng.pick(&results).to_vec())
}

impl Maze<'_> {
    /// `web`: procedures that it calls too.
    fn procedure(rng: &mut Rng, flavour: Flavour, (params, results): Signature, web: &[(u16, Signature)]) -> ProcPlan {
        let coin = COIN as u8;
        let mut others = vec![Sort::Number; rng.within(1, 2)];
        let most = if flavour == Flavour::Helpers { (2, 1) } else { (4, 2) };
        others.resize(others.len() + rng.within(1, most.0), Sort::NumberRef);
        others.resize(others.len() + rng.within(1, most.1), Sort::NumberView);
        others.resize(others.len() + rng.below(2), Sort::RecordRef(coin));
        others.resize(others.len() + rng.below(2), Sort::RecordView(coin));
        let coins = if flavour == Flavour::Records { rng.within(1, 3) } else { rng.below(2) };
        others.resize(others.len() + coins, Sort::Record(coin));
        let locals = [&params[..], &others[..]].concat();
        let of_sort = |sort: Sort| -> Vec<u16> {
            (0..locals.len()).filter(|&local| locals[local] == sort).map(|local| local as u16).collect()
        };
        let mut maze = Maze {
            rng,
            flavour,
            web: web.to_vec(),
            results: results.clone(),
            numbers: of_sort(Sort::Number),
            refs: of_sort(Sort::NumberRef),
            record_refs: of_sort(Sort::RecordRef(coin)),
            views: of_sort(Sort::NumberView),
            record_views: of_sort(Sort::RecordView(coin)),
            coins: of_sort(Sort::Record(coin)),
            code: Vec::new(),
        };
        let first_number = params.iter().position(|&sort| sort == Sort::Number).unwrap_or(0) as u16;
        let first_record_ref = params.iter().position(|&sort| sort == Sort::RecordRef(coin)).unwrap_or(0) as u16;
        if flavour != Flavour::Locals || maze.rng.chance(60) {
            maze.fill_all(first_number, first_record_ref);
        }
        if flavour == Flavour::Records && maze.rng.chance(50) {
            let coin = maze.rng.pick(&maze.coins);
            maze.put(&[load(1), load(2), pack(COIN), st(coin)]);
        }
        maze.blocks();
        let code = maze.code;
        ProcPlan { module: 0, public: true, params, others, results, code }
    }

    fn put(&mut self, codes: &[Code]) {
        self.code.extend_from_slice(codes);
    }

    /// Fills every local but those of records.
    fn fill_all(&mut self, number: u16, record_ref: u16) {
        for local in self.numbers.clone() {
            self.put(&[load(1), st(local)]);
        }
        for local in self.refs.clone() {
            self.put(&[borrow(number), st(local)]);
        }
        for local in self.record_refs.clone() {
            self.put(&[cp(record_ref), st(local)]);
        }
        for local in self.views.clone() {
            self.put(&[borrow(number), freeze(), st(local)]);
        }
        for local in self.record_views.clone() {
            self.put(&[cp(record_ref), freeze(), st(local)]);
        }
    }

    fn blocks(&mut self) {
        let count = self.rng.within(2, if self.flavour == Flavour::Helpers { 4 } else { 7 });
        let mut begins = Vec::new();
        for number in 0..count {
            // Now and then the first block is a target of its own walks, fillings and all.
            begins.push(if number == 0 && self.rng.chance(30) { 0 } else { self.code.len() });
            let many = matches!(self.flavour, Flavour::Leaks | Flavour::Helpers);
            for _ in 0..self.rng.below(if many { 6 } else { 4 }) {
                self.item(1);
            }
            self.terminator(number + 1 == count, count);
        }
        for code in &mut self.code {
            if code.target().is_some() {
                code.b = begins[usize::from(code.b)] as u16;
            }
        }
    }

    /// Ends a block. Jumps name blocks until all are written.
    fn terminator(&mut self, last: bool, count: usize) {
        let to = self.rng.below(count) as u16;
        match self.rng.below(10) {
            0..=4 if !last => {
                let number = self.rng.pick(&self.numbers);
                let condition = if self.rng.chance(50) { load(1) } else { cp(number) };
                self.put(&[condition, jump_if(to)]);
            }
            5 | 6 => self.put(&[jump(to)]),
            7 if !last => {}
            _ => self.give_back(),
        }
    }

    fn give_back(&mut self) {
        for sort in self.results.clone() {
            match sort {
                Sort::Number => self.put(&[load(2)]),
                Sort::NumberView if self.rng.chance(40) => {
                    let view = self.rng.pick(&self.views);
                    self.put(&[cp(view)]);
                }
                Sort::NumberView => {
                    self.push_ref();
                    self.put(&[freeze()]);
                }
                _ => self.push_ref(),
            }
        }
        self.put(&[ret()]);
    }

    fn push_ref(&mut self) {
        let (number, one) = (self.rng.pick(&self.numbers), self.rng.pick(&self.refs));
        let push = match self.rng.below(4) {
            0 => borrow(number),
            1 if self.flavour == Flavour::Locals => mv(one),
            _ => cp(one),
        };
        self.put(&[push]);
    }

    /// Some instructions that leave the operands as they were.
    fn item(&mut self, nesting: usize) {
        match (self.rng.below(24), self.flavour) {
            (0..=3, Flavour::Locals) => self.number_item(),
            (0..=6, Flavour::Records) => self.coin_item(),
            (0..=4, Flavour::Leaks) => self.borrow_item(),
            (0..=2, Flavour::Helpers) => self.borrow_item(),
            (3..=7, Flavour::Helpers) => self.web_item(),
            (7, Flavour::Locals) if !self.coins.is_empty() => self.coin_item(),
            (8..=11, _) => self.borrow_item(),
            (12 | 13, _) => self.hand_on_item(),
            (14, _) if nesting > 0 => self.held_item(),
            (15..=17, _) => self.call_item(),
            (18..=20, _) => self.freeze_item(),
            (21, _) => self.view_item(),
            _ => self.ref_item(),
        }
    }

    fn number_item(&mut self) {
        let (one, other) = (self.rng.pick(&self.numbers), self.rng.pick(&self.numbers));
        match self.rng.below(5) {
            0 | 1 => self.put(&[load(3), st(one)]),
            2 => self.put(&[cp(one), pop()]),
            3 => self.put(&[mv(one), pop()]),
            _ => self.put(&[mv(one), st(other)]),
        }
    }

    fn ref_item(&mut self) {
        let (one, number) = (self.rng.pick(&self.refs), self.rng.pick(&self.numbers));
        match self.rng.below(6) {
            0 | 1 => self.put(&[borrow(number), st(one)]),
            2 => self.put(&[cp(one), read(), pop()]),
            3 => self.put(&[load(5), cp(one), write()]),
            4 if self.flavour == Flavour::Locals => self.put(&[mv(one), pop()]),
            _ => self.put(&[cp(one), pop()]),
        }
    }

    /// Freezes a reference, marked or not.
    fn freeze_item(&mut self) {
        let (one, view) = (self.rng.pick(&self.refs), self.rng.pick(&self.views));
        let record_ref = self.rng.pick(&self.record_refs);
        let number = self.rng.below(2) as u16;
        match self.rng.below(7) {
            0 | 1 => self.put(&[cp(one), freeze(), st(view)]),
            2 => self.put(&[cp(one), freeze(), call(SHOW), st(view)]),
            3 => self.put(&[cp(record_ref), field(COIN, number), freeze(), st(view)]),
            4 => self.put(&[cp(record_ref), freeze(), field(COIN, number), st(view)]),
            5 => self.put(&[cp(record_ref), freeze(), call(LOOK), st(view)]),
            _ => self.put(&[cp(one), cp(one), freeze(), call(SHOW), pop(), pop()]),
        }
    }

    /// Uses a read-only reference.
    fn view_item(&mut self) {
        let (one, other) = (self.rng.pick(&self.views), self.rng.pick(&self.views));
        if !self.record_views.is_empty() && self.rng.chance(40) {
            let record_view = self.rng.pick(&self.record_views);
            let number = self.rng.below(2) as u16;
            return self.put(&[cp(record_view), field(COIN, number), st(one)]);
        }
        match self.rng.below(5) {
            0 => self.put(&[cp(one), read(), pop()]),
            1 => self.put(&[cp(one), call(SHOW), st(other)]),
            2 if self.flavour == Flavour::Locals => self.put(&[mv(one), st(other)]),
            3 if self.flavour == Flavour::Locals => self.put(&[mv(one), pop()]),
            _ => self.put(&[cp(one), st(other)]),
        }
    }

    /// Borrows one of the two fields of a coin: one may be guarded.
    fn borrow_item(&mut self) {
        let (one, record_ref) = (self.rng.pick(&self.refs), self.rng.pick(&self.record_refs));
        let number = self.rng.below(2) as u16;
        self.put(&[cp(record_ref), field(COIN, number)]);
        match self.rng.below(4) {
            0 => self.put(&[read(), pop()]),
            1 => self.put(&[pop()]),
            _ => self.put(&[st(one)]),
        }
    }

    fn hand_on_item(&mut self) {
        let (one, other) = (self.rng.pick(&self.refs), self.rng.pick(&self.refs));
        if self.flavour == Flavour::Locals && self.rng.chance(40) {
            self.put(&[mv(one), st(other)]);
        } else {
            self.put(&[cp(one), st(other)]);
        }
    }

    fn call_item(&mut self) {
        let (one, other) = (self.rng.pick(&self.refs), self.rng.pick(&self.refs));
        match self.rng.below(3) {
            0 => self.put(&[cp(one), call(SINK)]),
            1 => self.put(&[cp(one), call(PASS), st(other)]),
            _ => self.put(&[cp(one), cp(other), call(SINK), pop()]),
        }
    }

    /// Calls a procedure of the web with any references and keeps those that come back.
    fn web_item(&mut self) {
        let at = self.rng.below(self.web.len());
        let (number, (params, results)) = self.web[at].clone();
        for sort in params {
            let push = match sort {
                Sort::Number => load(self.rng.below(2) as u64),
                Sort::NumberRef => cp(self.rng.pick(&self.refs)),
                Sort::NumberView => cp(self.rng.pick(&self.views)),
                _ => cp(self.rng.pick(&self.record_refs)),
            };
            self.put(&[push]);
            if matches!(sort, Sort::RecordView(_)) {
                self.put(&[freeze()]);
            }
        }
        self.put(&[call(number)]);
        for sort in results.into_iter().rev() {
            let take = match sort {
                Sort::NumberRef => st(self.rng.pick(&self.refs)),
                Sort::NumberView => st(self.rng.pick(&self.views)),
                _ => pop(),
            };
            self.put(&[take]);
        }
    }

    /// Holds a reference among the operands while other items are done.
    fn held_item(&mut self) {
        let (one, other) = (self.rng.pick(&self.refs), self.rng.pick(&self.refs));
        self.put(&[cp(one)]);
        for _ in 0..self.rng.within(1, 2) {
            self.item(0);
        }
        match self.rng.below(3) {
            0 => self.put(&[pop()]),
            1 => self.put(&[st(other)]),
            _ => self.put(&[call(SINK)]),
        }
    }

    fn coin_item(&mut self) {
        let (one, other) = (self.rng.pick(&self.coins), self.rng.pick(&self.coins));
        let reference = self.rng.pick(&self.refs);
        match self.rng.below(8) {
            0..=2 => self.put(&[load(1), load(2), pack(COIN), st(one)]),
            3..=5 => self.put(&[load(1), load(2), pack(COIN), unpack(COIN), pop(), st(self.numbers[0])]),
            6 => match self.rng.below(3) {
                0 => self.put(&[mv(one), unpack(COIN), pop(), pop()]),
                1 => self.put(&[mv(one), load(9), move_to(COIN)]),
                _ => self.put(&[mv(one), st(other)]),
            },
            _ => self.put(&[borrow(one), field(COIN, 1), st(reference)]),
        }
    }
}
