//! Modules in which a reference to a guarded number is handed on: through locals and branches, to helpers and back from
//! them, round in a recursion, until it leaks (13, 14) or does no harm. Of a module that leaks there is one that is
//! mended: the mark is lost on its way, or the last use is a harmless one, and the module is accepted.

use super::plan::{asm::*, Code, Plan, ProcPlan};
use super::rng::Rng;
use crate::program::Sort;
use crate::row::{limit, op};

const N: Sort = Sort::Number;
const R: Sort = Sort::NumberRef;
const V: Sort = Sort::NumberView;

/// What a call names that leaves the module, until all procedures have numbers.
const OUTSIDE: u16 = 1_000;

#[derive(Clone, Copy, Debug, PartialEq, Eq)]
pub enum Family {
    /// A chain of helpers; the last one gives the reference to a public procedure.
    Down,
    /// A chain of helpers whose results come up to a public procedure, which returns them.
    Up,
    /// A chain of helpers, each of which returns what it was given.
    Through,
    /// A helper is given the reference at one call, and another caller of it leaks.
    OtherSite,
    /// A helper calls itself with its parameters rotated.
    Rotated,
    /// Helpers call one another and come back with the reference in another parameter.
    Mutual,
    /// Nobody calls the procedure that makes the reference, and it is private.
    Uncalled,
    /// A public procedure of the module is given the reference.
    OwnPublic,
    /// A public procedure is given the reference and would leak it if it were marked there.
    ToPublic,
    /// A public procedure returns the reference, and its callers would leak it if it were marked there.
    FromPublic,
    /// All of this in any order; the reference is given.
    MixedGiven,
    /// The same; the reference is returned.
    MixedReturned,
    /// A private procedure of another module is given the reference.
    Foreign,
}

/// Each family with the refusal that it is made to get.
pub const FAMILIES: [(u32, Family); 13] = [
    (13, Family::Down),
    (14, Family::Up),
    (14, Family::Through),
    (14, Family::OtherSite),
    (13, Family::Rotated),
    (13, Family::Mutual),
    (13, Family::Uncalled),
    (13, Family::OwnPublic),
    (13, Family::ToPublic),
    (14, Family::FromPublic),
    (13, Family::MixedGiven),
    (14, Family::MixedReturned),
    (10, Family::Foreign),
];

/// One part of the reference's way.
#[derive(Clone, Copy, Debug, PartialEq, Eq)]
enum Hop {
    /// To another local.
    Copy,
    /// To another local, on one of two walks.
    Branch,
    /// To a parameter of a new helper.
    Down,
    /// Back to the caller that gave it, or to a new one if there is none.
    Back,
    /// To a new caller, which gives the helper nothing marked itself.
    Up,
    /// To another parameter of the same helper, which calls itself with parameters rotated.
    Round,
    /// The same by way of a new helper.
    Mutual,
}

#[derive(Clone, Copy, Debug, PartialEq, Eq)]
enum End {
    GivenOwn,
    GivenOutside,
    Returned,
    Harmless,
}

/// Adds a module of the family. A mended one is accepted, except that `Foreign` cannot be mended.
pub fn add(plan: &mut Plan, rng: &mut Rng, family: Family, mended: bool) {
    match family {
        Family::Foreign => return add_foreign(plan, rng),
        Family::ToPublic => return add_to_public(plan, rng, mended),
        Family::FromPublic => return add_from_public(plan, rng, mended),
        _ => {}
    }
    let hops = some_hops(rng, family);
    let given = if rng.chance(50) { End::GivenOwn } else { End::GivenOutside };
    let leaking = match family {
        Family::OwnPublic => End::GivenOwn,
        _ if FAMILIES.contains(&(14, family)) => End::Returned,
        _ => given,
    };
    // Mended by another end, by what is borrowed, on the way, or because a guest has nothing guarded.
    let mut trusted = true;
    let (end, borrows, lost) = match rng.below(8) {
        _ if !mended => (leaking, true, None),
        0 => (End::Harmless, true, None),
        1 => (leaking, false, None),
        2 => {
            trusted = false;
            (leaking, true, None)
        }
        _ => {
            // Not where parameters that stay marked would change places afterwards.
            let fits = |at: &usize| {
                let after = &hops[at + 1..];
                let leaves = matches!(hops[*at], Hop::Down | Hop::Up) && !after.contains(&Hop::Back);
                leaves || !after.iter().any(|hop| turns(*hop))
            };
            let places: Vec<usize> = (0..hops.len()).filter(fits).collect();
            (leaking, true, Some(rng.pick(&places)))
        }
    };
    let outside_first = rng.chance(50);
    let outside_trusted = rng.chance(30);
    let outside = outside_first.then(|| add_outside(plan, outside_trusted));
    let module = plan.trusted.len();
    plan.trusted.push(trusted);
    let coin = plan.add_type(module, &[(N, trusted), (N, false)]);
    let mut path = Path::new(rng, module, coin);
    path.begin(family, borrows);
    for (at, &hop) in hops.iter().enumerate() {
        path.hop(hop, lost == Some(at), turns_after(&hops, at));
    }
    path.end(end);
    let procs = path.finished(plan.procs.len() as u16, outside);
    for one in procs {
        plan.add_proc(one);
    }
    if outside.is_none() {
        add_outside(plan, outside_trusted);
    }
}

/// Whether parameters change places.
fn turns(hop: Hop) -> bool {
    matches!(hop, Hop::Round | Hop::Mutual)
}

/// Whether the reference is in the same procedure afterwards.
fn stays(hop: Hop) -> bool {
    turns(hop) || matches!(hop, Hop::Copy | Hop::Branch)
}

/// Whether parameters change places after this hop and before the reference leaves the procedure.
fn turns_after(hops: &[Hop], at: usize) -> bool {
    let mut inside = hops[at + 1..].iter().take_while(|hop| stays(**hop));
    inside.any(|hop| turns(*hop))
}

/// Adds a module with a public procedure that reads what it is given.
fn add_outside(plan: &mut Plan, trusted: bool) -> u16 {
    let module = plan.trusted.len();
    plan.trusted.push(trusted);
    let code = vec![mv(0), read(), pop(), ret()];
    plan.add_proc(ProcPlan { module, public: true, params: vec![R], code, ..ProcPlan::default() })
}

/// Adds procedures of one trusted module in any order. Their calls name places in the list.
fn add_shuffled(plan: &mut Plan, rng: &mut Rng, module: usize, mut procs: Vec<ProcPlan>) {
    let first = plan.procs.len();
    let mut order: Vec<usize> = (0..procs.len()).collect();
    rng.shuffle(&mut order);
    for one in &mut procs {
        one.module = module;
        for code in one.code.iter_mut().filter(|code| code.op == op::CALL) {
            let at = order.iter().position(|&made| made == usize::from(code.b));
            code.b = (first + at.unwrap_or(0)) as u16;
        }
    }
    for made in order {
        plan.add_proc(procs[made].clone());
    }
}

/// A module of coins whose first number is guarded.
fn add_coins(plan: &mut Plan) -> (usize, u16, Sort) {
    let module = plan.trusted.len();
    plan.trusted.push(true);
    let coin = plan.add_type(module, &[(N, true), (N, false)]);
    (module, coin, Sort::RecordRef(coin as u8))
}

/// Only the Call that gives the reference is at fault: parameters of public procedures start unmarked.
fn add_to_public(plan: &mut Plan, rng: &mut Rng, mended: bool) {
    let (module, coin, coin_ref) = add_coins(plan);
    let give = vec![mv(0), field(coin, mended.into()), call(1), pop(), ret()];
    let on = if rng.chance(50) { vec![cp(0), call(2), mv(0), ret()] } else { vec![mv(0), call(3), ret()] };
    let procs = vec![
        ProcPlan { public: rng.chance(50), params: vec![coin_ref], code: give, ..ProcPlan::default() },
        ProcPlan { public: true, params: vec![R], results: vec![R], code: on, ..ProcPlan::default() },
        ProcPlan { public: true, params: vec![R], code: vec![ret()], ..ProcPlan::default() },
        ProcPlan { params: vec![R], results: vec![R], code: vec![mv(0), ret()], ..ProcPlan::default() },
    ];
    add_shuffled(plan, rng, module, procs);
}

/// Only the Ret of the public procedure is at fault: what calls of public procedures give is unmarked.
fn add_from_public(plan: &mut Plan, rng: &mut Rng, mended: bool) {
    let (module, coin, coin_ref) = add_coins(plan);
    let params = vec![coin_ref];
    let slot = vec![mv(0), field(coin, mended.into()), ret()];
    let mut procs = vec![
        ProcPlan { public: true, params: params.clone(), results: vec![R], code: slot, ..ProcPlan::default() },
        ProcPlan { public: true, params: vec![R], code: vec![ret()], ..ProcPlan::default() },
        ProcPlan { params: vec![R], code: vec![mv(0), call(1), ret()], ..ProcPlan::default() },
    ];
    for _ in 0..rng.within(1, 3) {
        let (results, end) = match rng.below(3) {
            0 => (vec![R], vec![ret()]),
            1 => (vec![], vec![call(1), ret()]),
            _ => (vec![], vec![call(2), ret()]),
        };
        let code = [&[mv(0), call(0)], &end[..]].concat();
        procs.push(ProcPlan { public: true, params: params.clone(), results, code, ..ProcPlan::default() });
    }
    add_shuffled(plan, rng, module, procs);
}

/// A marked reference is given to a private procedure of another module, which 10 forbids before leaks are judged.
fn add_foreign(plan: &mut Plan, rng: &mut Rng) {
    let module = plan.trusted.len();
    plan.trusted.extend([true, rng.chance(60)]);
    let coin = plan.add_type(module, &[(N, true)]);
    let callee = plan.procs.len() as u16 + 1;
    let code = vec![mv(0), field(coin, 0), call(callee), ret()];
    let params = vec![Sort::RecordRef(coin as u8)];
    plan.add_proc(ProcPlan { module, public: rng.chance(50), params, code, ..ProcPlan::default() });
    let module = module + 1;
    plan.add_proc(ProcPlan { module, params: vec![R], code: vec![mv(0), pop(), ret()], ..ProcPlan::default() });
}

fn some_hops(rng: &mut Rng, family: Family) -> Vec<Hop> {
    let times = rng.within(1, 4);
    let turns = rng.within(1, 2);
    let mut hops = match family {
        Family::Down | Family::Uncalled => vec![Hop::Down; times],
        Family::Up => vec![Hop::Up; times],
        Family::Through => [vec![Hop::Down; times], vec![Hop::Back; times]].concat(),
        Family::OtherSite => vec![Hop::Down, Hop::Up],
        Family::Rotated => [vec![Hop::Down], vec![Hop::Round; turns]].concat(),
        Family::Mutual => [vec![Hop::Down], vec![Hop::Mutual; turns]].concat(),
        Family::OwnPublic => rng.pick(&[&[Hop::Copy][..], &[Hop::Branch], &[Hop::Up], &[Hop::Down]]).to_vec(),
        _ => {
            let kinds = [Hop::Down, Hop::Down, Hop::Back, Hop::Back, Hop::Up, Hop::Round, Hop::Mutual, Hop::Branch];
            (0..rng.within(2, 7)).map(|_| rng.pick(&kinds)).collect()
        }
    };
    for _ in 0..rng.below(3) {
        hops.insert(rng.below(hops.len() + 1), rng.pick(&[Hop::Copy, Hop::Branch]));
    }
    hops
}

/// How a mark gets lost at a call or at a Ret.
#[derive(Clone, Copy, Debug, PartialEq, Eq)]
enum Loss {
    None,
    /// It goes to another place than the one that is used.
    Misplaced,
    /// No walk reaches the row.
    Unreached,
}

/// The procedures that are being written, and where the reference is.
struct Path<'a> {
    rng: &'a mut Rng,
    module: usize,
    coin: u16,
    /// Calls name a place in this list until all procedures have numbers.
    procs: Vec<ProcPlan>,
    /// Whether the procedure has its end.
    ended: Vec<bool>,
    /// Whether it is called, so that its results are fixed.
    called: Vec<bool>,
    /// Whether more than one of its parameters may be marked.
    turned: Vec<bool>,
    /// Local of a coin to break up before the end.
    coins: Vec<Option<u16>>,
    /// Callers that wait: the caller, the helper, and the local of each of the helper's results.
    waiting: Vec<(usize, usize, Vec<Option<u16>>)>,
    /// The procedure and its local that hold the reference.
    me: usize,
    at: u16,
}

impl Path<'_> {
    fn new(rng: &mut Rng, module: usize, coin: u16) -> Path<'_> {
        Path {
            rng,
            module,
            coin,
            procs: Vec::new(),
            ended: Vec::new(),
            called: Vec::new(),
            turned: Vec::new(),
            coins: Vec::new(),
            waiting: Vec::new(),
            me: 0,
            at: 0,
        }
    }

    // Procedures.

    fn add(&mut self, public: bool, params: Vec<Sort>, results: Vec<Sort>) -> usize {
        self.procs.push(ProcPlan { module: self.module, public, params, results, ..ProcPlan::default() });
        self.ended.push(false);
        self.called.push(false);
        self.turned.push(false);
        self.coins.push(None);
        self.procs.len() - 1
    }

    /// A helper with a number, at least so many references, and now and then a read-only one.
    fn add_helper(&mut self, refs: usize) -> usize {
        let mut params = vec![R; self.rng.within(refs, 4)];
        params.insert(self.rng.below(params.len() + 1), N);
        if self.rng.chance(20) {
            params.insert(self.rng.below(params.len() + 1), V);
        }
        let mut results = vec![R; self.rng.weighted(&[(1, 0), (3, 1), (3, 2), (1, 3)]).unwrap_or(1)];
        if self.rng.chance(25) {
            results.insert(self.rng.below(results.len() + 1), self.rng.pick(&[N, N, V]));
        }
        self.add(false, params, results)
    }

    /// A procedure of numbers, public or not, that nobody calls yet. A list can call it.
    fn add_caller(&mut self) -> usize {
        let public = self.rng.chance(75);
        let params = vec![N; self.rng.within(1, 2)];
        let results = vec![N; self.rng.below(2)];
        self.add(public, params, results)
    }

    fn put(&mut self, me: usize, codes: &[Code]) {
        self.procs[me].code.extend_from_slice(codes);
    }

    fn here(&self, me: usize) -> u16 {
        self.procs[me].code.len() as u16
    }

    fn local(&mut self, me: usize, sort: Sort) -> Option<u16> {
        let one = &mut self.procs[me];
        let count = one.params.len() + one.others.len();
        (count < limit::LOCALS).then(|| {
            one.others.push(sort);
            count as u16
        })
    }

    /// A number parameter.
    fn number(&self, me: usize) -> u16 {
        self.procs[me].params.iter().position(|&sort| sort == N).expect("each procedure has a number") as u16
    }

    /// The parameters that are writable references.
    fn refs(&self, me: usize) -> Vec<u16> {
        let params = &self.procs[me].params;
        (0..params.len()).filter(|&local| params[local] == R).map(|local| local as u16).collect()
    }

    fn has_ref_result(&self, me: usize) -> bool {
        self.procs[me].results.contains(&R)
    }

    fn ref_result(&mut self, me: usize) -> usize {
        let results = &self.procs[me].results;
        let found: Vec<usize> = (0..results.len()).filter(|&at| results[at] == R).collect();
        self.rng.pick(&found)
    }

    // Calls and ends.

    /// Calls a helper with these references, unmarked ones where none is given. Tells the locals of its results.
    fn put_call(&mut self, me: usize, callee: usize, given: &[(usize, u16)], count_down: bool) -> Vec<Option<u16>> {
        let number = self.number(me);
        for (at, sort) in self.procs[callee].params.clone().into_iter().enumerate() {
            match (given.iter().find(|(position, _)| *position == at), sort) {
                (Some(&(_, local)), _) => self.put(me, &[cp(local)]),
                (None, Sort::Number) if count_down => self.put(me, &[cp(number), load(1), arith(SUB)]),
                (None, Sort::Number) => self.put(me, &[cp(number)]),
                (None, Sort::NumberView) => self.put(me, &[borrow(number), freeze()]),
                _ => self.put(me, &[borrow(number)]),
            }
        }
        self.put(me, &[call(callee as u16)]);
        self.called[callee] = true;
        let mut kept = Vec::new();
        for sort in self.procs[callee].results.clone().into_iter().rev() {
            let local = if sort == R { self.local(me, R) } else { None };
            self.put(me, &[local.map_or(pop(), st)]);
            kept.push(local);
        }
        kept.reverse();
        kept
    }

    /// Puts what is written by `write` behind a jump over it, where no walk comes.
    fn put_unreached<T>(&mut self, me: usize, write: impl FnOnce(&mut Self) -> T) -> T {
        let jump_at = self.procs[me].code.len();
        self.put(me, &[jump(0)]);
        let answer = write(self);
        self.procs[me].code[jump_at].b = self.here(me);
        answer
    }

    /// Calls only while the number is not 0, with 1 less.
    fn put_counted_call(&mut self, me: usize, callee: usize, given: &[(usize, u16)]) {
        let (number, here) = (self.number(me), self.here(me));
        self.put(me, &[cp(number), jump_if(here + 3), jump(0)]);
        self.put_call(me, callee, given, true);
        self.procs[me].code[usize::from(here) + 2].b = self.here(me);
    }

    /// Returns, with the local in one of the results.
    fn put_ret(&mut self, me: usize, given: Option<(usize, u16)>) {
        if let Some(local) = self.coins[me] {
            self.put(me, &[mv(local), unpack(self.coin), pop(), pop()]);
        }
        let number = self.number(me);
        for (at, sort) in self.procs[me].results.clone().into_iter().enumerate() {
            match (given, sort) {
                (Some((position, local)), _) if position == at => self.put(me, &[cp(local)]),
                (_, Sort::Number) => self.put(me, &[cp(number)]),
                (_, Sort::NumberView) => self.put(me, &[borrow(number), freeze()]),
                _ => self.put(me, &[borrow(number)]),
            }
        }
        self.put(me, &[ret()]);
        self.ended[me] = true;
    }

    // The beginning.

    fn begin(&mut self, family: Family, guarded: bool) {
        let me = match (family, self.rng.below(3)) {
            (Family::Up, _) => self.add_helper(1),
            (_, 0) => {
                let mut params = vec![N, Sort::RecordRef(self.coin as u8)];
                self.rng.shuffle(&mut params);
                let public = self.rng.chance(70);
                self.add(public, params, vec![])
            }
            _ => self.add_caller(),
        };
        if family == Family::Uncalled {
            self.procs[me].public = false;
        }
        self.me = me;
        self.push_record_ref(me);
        self.put(me, &[field(self.coin, u16::from(!guarded))]);
        self.at = self.local(me, R).expect("there is room for a first local");
        self.put(me, &[st(self.at)]);
    }

    /// A reference to a coin: given, in a local or published.
    fn push_record_ref(&mut self, me: usize) {
        let coin = self.coin;
        let given = self.procs[me].params.iter().position(|&sort| sort == Sort::RecordRef(coin as u8));
        if let Some(local) = given {
            return self.put(me, &[cp(local as u16)]);
        }
        if self.rng.chance(25) {
            let local = self.local(me, Sort::Record(coin as u8)).expect("there is room for a first local");
            self.coins[me] = Some(local);
            return self.put(me, &[load(4), load(6), pack(coin), st(local), borrow(local)]);
        }
        let key = self.rng.below(2) as u64;
        let over = self.here(me) + 8;
        let publish = [load(key), exists(coin), jump_if(over), load(5), load(6), pack(coin), load(key), move_to(coin)];
        self.put(me, &publish);
        self.put(me, &[load(key), global(coin)]);
    }

    // The way.

    /// The mark gets lost if `lost`. `turns_later`: parameters will change places in the procedure that comes next.
    fn hop(&mut self, hop: Hop, lost: bool, turns_later: bool) {
        match hop {
            Hop::Copy => {
                if let Some(local) = self.local(self.me, R) {
                    self.put(self.me, &[cp(self.at), st(local)]);
                    self.at = local;
                }
                self.lose_here(lost);
            }
            Hop::Branch => {
                self.branch();
                self.lose_here(lost);
            }
            Hop::Down => self.down(1, lost, turns_later),
            Hop::Back => self.up(false, lost),
            Hop::Up => self.up(true, lost),
            Hop::Round => self.round(lost),
            Hop::Mutual => self.mutual(lost),
        }
    }

    /// Another reference takes the place of this one.
    fn lose_here(&mut self, lost: bool) {
        if lost {
            self.put(self.me, &[borrow(self.number(self.me)), st(self.at)]);
        }
    }

    fn branch(&mut self) {
        let (me, number) = (self.me, self.number(self.me));
        let Some(local) = self.local(me, R) else { return };
        let other = [borrow(number), st(local)];
        let this = [cp(self.at), st(local)];
        let here = self.here(me);
        if self.rng.chance(50) {
            self.put(me, &other);
            self.put(me, &[cp(number), jump_if(here + 6)]);
            self.put(me, &this);
        } else {
            self.put(me, &[cp(number), jump_if(here + 5)]);
            self.put(me, &this);
            self.put(me, &[jump(here + 7)]);
            self.put(me, &other);
        }
        self.at = local;
    }

    fn some_loss(&mut self, lost: bool, can_misplace: bool) -> Loss {
        match self.rng.below(2) {
            _ if !lost => Loss::None,
            0 if can_misplace => Loss::Misplaced,
            _ => Loss::Unreached,
        }
    }

    fn down(&mut self, refs: usize, lost: bool, turns_later: bool) {
        let helper = self.add_helper(refs);
        let mut places = self.refs(helper);
        self.rng.shuffle(&mut places);
        let (me, at) = (self.me, self.at);
        let misplaced = places.get(1).filter(|_| !turns_later).copied();
        let kept = match self.some_loss(lost, misplaced.is_some()) {
            Loss::None => self.put_call(me, helper, &[(places[0].into(), at)], false),
            Loss::Misplaced => {
                let place = misplaced.unwrap_or(places[0]);
                self.put_call(me, helper, &[(place.into(), at)], false)
            }
            Loss::Unreached => {
                self.put_unreached(me, |path| {
                    let at = path.borrow_again(at);
                    path.put_call(me, helper, &[(places[0].into(), at)], false)
                });
                self.put_call(me, helper, &[], false)
            }
        };
        self.waiting.push((me, helper, kept));
        self.me = helper;
        self.at = places[0];
    }

    fn up(&mut self, new_caller: bool, lost: bool) {
        while self.procs[self.me].public || !self.has_ref_result(self.me) {
            self.down(1, false, false);
        }
        let (me, at) = (self.me, self.at);
        let position = self.ref_result(me);
        let results = self.procs[me].results.clone();
        let other = (0..results.len()).find(|&other| other != position && results[other] == R);
        match self.some_loss(lost, other.is_some()) {
            Loss::None if self.rng.chance(30) => {
                // One of two walks returns it.
                let over = self.here(me) + 2;
                self.put(me, &[cp(self.number(me)), jump_if(0)]);
                self.put_ret(me, Some((position, at)));
                self.procs[me].code[usize::from(over) - 1].b = self.here(me);
                self.put_ret(me, None);
            }
            Loss::None => self.put_ret(me, Some((position, at))),
            Loss::Misplaced => self.put_ret(me, other.map(|other| (other, at))),
            Loss::Unreached => {
                self.put_ret(me, None);
                let at = self.borrow_again(at);
                self.put_ret(me, Some((position, at)));
            }
        }
        let waits = self.waiting.last().is_some_and(|(_, helper, kept)| *helper == me && kept[position].is_some());
        let (caller, kept) = if waits && !new_caller {
            let (caller, _, kept) = self.waiting.pop().expect("a caller waits");
            (caller, kept)
        } else {
            let caller = if self.rng.chance(50) { self.add_caller() } else { self.add_helper(1) };
            let kept = self.put_call(caller, me, &[], false);
            (caller, kept)
        };
        self.me = caller;
        self.at = kept[position].expect("a new caller has room for results");
    }

    /// In half of the cases a new reference in another local takes the place of this one.
    fn borrow_again(&mut self, at: u16) -> u16 {
        let me = self.me;
        let new = if self.rng.chance(50) { self.local(me, R) } else { None };
        if let Some(local) = new {
            self.put(me, &[load(0), global(self.coin), field(self.coin, 0), st(local)]);
        }
        new.unwrap_or(at)
    }

    /// Whether the mark can get lost between two parameters: it must stand in one, and no other may be marked.
    fn can_cut(&mut self, lost: bool) -> bool {
        let turned = std::mem::replace(&mut self.turned[self.me], true);
        lost && !turned && self.refs(self.me).contains(&self.at)
    }

    /// The references of the helper move on by one parameter at each call.
    fn round(&mut self, lost: bool) {
        if self.refs(self.me).len() < 2 || self.procs[self.me].public {
            self.down(2, false, true);
        }
        let me = self.me;
        let refs = self.refs(me);
        let from = refs.iter().position(|&local| local == self.at).unwrap_or_else(|| self.rng.below(refs.len()));
        let steps = self.rng.within(1, refs.len() - 1);
        let to = (from + steps) % refs.len();
        let cut = self.can_cut(lost);
        let mut given = Vec::new();
        for (order, &local) in refs.iter().enumerate() {
            let next = (order + 1) % refs.len();
            let source = if order == from { self.at } else { local };
            if !(cut && next == to) {
                given.push((usize::from(refs[next]), source));
            }
        }
        if self.rng.chance(60) {
            self.put_counted_call(me, me, &given);
        } else {
            self.put_call(me, me, &given, false);
        }
        self.at = refs[to];
        self.lose_here(lost && !cut);
    }

    /// Another helper is given the reference and gives it back as another parameter.
    fn mutual(&mut self, lost: bool) {
        if self.refs(self.me).len() < 2 || self.procs[self.me].public {
            self.down(2, false, true);
        }
        let me = self.me;
        let others: Vec<u16> = self.refs(me).into_iter().filter(|&local| local != self.at).collect();
        let to = self.rng.pick(&others);
        let cut = self.can_cut(lost);
        let other = self.add_helper(1);
        let places = self.refs(other);
        let place = self.rng.pick(&places);
        self.put_counted_call(me, other, &[(place.into(), self.at)]);
        let given = [(usize::from(to), place)];
        let counted = self.rng.chance(60);
        match (cut, counted) {
            (true, _) => {
                self.put_unreached(other, |path| path.put_call(other, me, &given, false));
                self.put_call(other, me, &[], true);
            }
            (_, true) => self.put_counted_call(other, me, &given),
            _ => {
                self.put_call(other, me, &given, true);
            }
        }
        self.put_ret(other, None);
        self.at = to;
        self.lose_here(lost && !cut);
    }

    // The end.

    fn end(&mut self, end: End) {
        match end {
            End::GivenOwn => self.give_own(),
            End::GivenOutside => self.put(self.me, &[cp(self.at), call(OUTSIDE)]),
            End::Returned => self.give_back(),
            End::Harmless => self.use_it(),
        }
        for me in 0..self.procs.len() {
            if !self.ended[me] {
                self.put_ret(me, None);
            }
        }
    }

    /// A public procedure of the module that takes it among others.
    fn give_own(&mut self) {
        let mut params = vec![R; self.rng.within(1, 3)];
        let at = self.rng.below(params.len());
        params.push(N);
        let own = self.add(true, params, vec![]);
        self.put_call(self.me, own, &[(at, self.at)], false);
    }

    /// A public procedure returns it, often beside others.
    fn give_back(&mut self) {
        if self.called[self.me] {
            self.up(true, false);
        }
        let me = self.me;
        self.procs[me].public = true;
        self.procs[me].results = some_results(self.rng);
        let position = self.ref_result(me);
        self.put_ret(me, Some((position, self.at)));
    }

    fn use_it(&mut self) {
        let (me, at) = (self.me, self.at);
        match self.rng.below(4) {
            0 => self.put(me, &[cp(at), read(), pop()]),
            1 => self.down(1, false, false),
            2 => {
                let own = self.add(true, vec![V, N], vec![]);
                self.put(me, &[cp(at), freeze(), cp(self.number(me)), call(own as u16)]);
            }
            _ => self.put(me, &[load(9), cp(at), write()]),
        }
    }

    /// The procedures in an order of their own: as made, the other way round, or any. Those outside come first if they
    /// have a number already.
    fn finished(self, first: u16, outside: Option<u16>) -> Vec<ProcPlan> {
        let count = self.procs.len();
        let mut order: Vec<usize> = (0..count).collect();
        match self.rng.below(3) {
            0 => {}
            1 => order.reverse(),
            _ => self.rng.shuffle(&mut order),
        }
        let number = |made: usize| first + order.iter().position(|&have| have == made).unwrap_or(0) as u16;
        let outside = outside.unwrap_or(first + count as u16);
        let renumbered = |mut one: ProcPlan| {
            for code in one.code.iter_mut().filter(|code| code.op == op::CALL) {
                code.b = if code.b == OUTSIDE { outside } else { number(usize::from(code.b)) };
            }
            one
        };
        order.iter().map(|&made| renumbered(self.procs[made].clone())).collect()
    }
}

fn some_results(rng: &mut Rng) -> Vec<Sort> {
    let mut results = vec![R; rng.within(1, 3)];
    if rng.chance(30) {
        results.insert(rng.below(results.len() + 1), rng.pick(&[N, V]));
    }
    results
}
