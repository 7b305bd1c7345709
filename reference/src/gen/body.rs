//! Bodies of procedures that the judge accepts, written with the sorts, the fullness and the marks in view.
//!
//! Every function that writes instructions answers nothing if it cannot go on; the statement that called it is then
//! taken back as a whole.

use super::plan::{asm::*, Code, Plan};
use super::rng::Rng;
use crate::program::Sort;
use crate::row::{limit, op};

#[derive(Clone, Copy, Debug, PartialEq, Eq)]
enum Fill {
    Empty,
    Full,
    /// Empty on some walk, full on another. Records are never so.
    Unsure,
}

#[derive(Clone, Copy, Debug, PartialEq, Eq)]
struct Slot {
    fill: Fill,
    /// Marked on some walk.
    marked: bool,
}

/// A way to push a value.
#[derive(Clone, Copy, Debug)]
enum Way {
    Const,
    Copy(u16),
    Move(u16),
    Local(u16),
    Read,
    Arith,
    Exists(u16),
    Call(u16),
    Field(u16, u16),
    Pack,
    MoveFrom,
    Global,
    Freeze,
}

#[derive(Clone, Copy, Debug)]
enum Statement {
    Assign,
    Drop,
    Write,
    Look,
    Show,
    Help,
    Call,
    If,
    Count,
    Repeat,
    MoveTo,
    Return,
    Reborrow,
    Ensure,
}

pub struct Body<'a> {
    plan: &'a Plan,
    carries: &'a [bool],
    rng: &'a mut Rng,
    me: usize,
    module: usize,
    sorts: Vec<Sort>,
    slots: Vec<Slot>,
    code: Vec<Code>,
    height: usize,
    /// Whether the body may call procedures at and after its own number.
    forward: bool,
    most_code: usize,
}

/// Writes the body of procedure `me` of the plan. `carries`: for each procedure, whether references that it is given and
/// returns may be marked. Such a one is private and of a trusted module.
pub fn write_body(
    plan: &Plan,
    carries: &[bool],
    rng: &mut Rng,
    me: usize,
    statements: usize,
    most_code: usize,
) -> Vec<Code> {
    let forward = rng.chance(15);
    let procedure = &plan.procs[me];
    let sorts = procedure.locals();
    let slots = (0..sorts.len())
        .map(|local| Slot {
            fill: if local < procedure.params.len() { Fill::Full } else { Fill::Empty },
            marked: carries[me] && local < procedure.params.len() && sorts[local] == Sort::NumberRef,
        })
        .collect();
    let mut body = Body {
        plan,
        carries,
        rng,
        me,
        module: procedure.module,
        sorts,
        slots,
        code: Vec::new(),
        height: 0,
        forward,
        most_code,
    };
    for _ in 0..statements {
        body.statement(2);
    }
    body.ending();
    body.code
}

impl Body<'_> {
    // Writing and taking back.

    fn emit(&mut self, code: Code, takes: usize, gives: usize) -> Option<()> {
        self.code.push(code);
        self.height = self.height + gives - takes;
        (self.height <= limit::OPERANDS && self.code.len() <= self.most_code).then_some(())
    }

    /// Does `work`, or leaves everything as it was.
    fn attempt<T>(&mut self, work: impl FnOnce(&mut Self) -> Option<T>) -> Option<T> {
        let before = (self.code.len(), self.slots.clone(), self.height);
        let answer = work(self);
        if answer.is_none() {
            self.code.truncate(before.0);
            self.slots = before.1;
            self.height = before.2;
        }
        answer
    }

    fn here(&self) -> u16 {
        self.code.len() as u16
    }

    /// Writes a jump whose target is set later.
    fn emit_jump(&mut self, code: Code) -> Option<usize> {
        let takes = usize::from(code.op == op::BRANCH_COND);
        self.emit(code, takes, 0)?;
        Some(self.code.len() - 1)
    }

    fn land(&mut self, jump: usize) {
        self.code[jump].b = self.here();
    }

    // What there is to work with.

    fn locals_with(&self, fits: impl Fn(Sort, Slot) -> bool) -> Vec<u16> {
        (0..self.sorts.len())
            .filter(|&local| fits(self.sorts[local], self.slots[local]))
            .map(|local| local as u16)
            .collect()
    }

    fn full(&self, sort: Sort, marked_ok: bool) -> Vec<u16> {
        self.locals_with(|s, slot| s == sort && slot.fill == Fill::Full && (marked_ok || !slot.marked))
    }

    fn own_types(&self) -> Vec<u16> {
        (0..self.plan.types.len()).filter(|&of| self.plan.types[of].module == self.module).map(|of| of as u16).collect()
    }

    fn owns(&self, of: u8) -> bool {
        self.plan.types[usize::from(of)].module == self.module
    }

    /// Fields of own types that borrow to the wanted sort: guarded ones freely if that is read-only.
    fn own_fields(&self, wanted: Sort, marked_ok: bool) -> Vec<(u16, u16)> {
        let mut found = Vec::new();
        for of in self.own_types() {
            for (number, field) in self.plan.types[usize::from(of)].fields.iter().enumerate() {
                let writable = field.sort.borrowed();
                let fits = writable == Some(wanted) && (marked_ok || !field.guarded);
                if fits || writable.and_then(Sort::frozen) == Some(wanted) {
                    found.push((of, number as u16));
                }
            }
        }
        found
    }

    fn callable(&self, fits: impl Fn(usize) -> bool) -> Vec<u16> {
        let last = if self.forward { self.plan.procs.len() } else { self.me };
        (0..last)
            .filter(|&number| {
                let one = &self.plan.procs[number];
                (one.public || one.module == self.module) && fits(number)
            })
            .map(|number| number as u16)
            .collect()
    }

    /// Procedures that give just this result; not `any_params` if the parameters must be simple to push.
    fn callable_for(&self, result: Sort, any_params: bool, marked_ok: bool) -> Vec<u16> {
        self.callable(|number| {
            let one = &self.plan.procs[number];
            let simple = any_params || one.params.iter().all(|&sort| sort == Sort::Number);
            one.results == [result] && simple && (marked_ok || !self.gives_marked(number, result))
        })
    }

    /// Whether a result of this sort that the procedure gives may be marked.
    fn gives_marked(&self, number: usize, result: Sort) -> bool {
        self.carries[number] && result == Sort::NumberRef
    }

    // Values.

    /// Pushes a value of the sort; tells whether it may be marked.
    fn value(&mut self, sort: Sort, depth: usize, marked_ok: bool) -> Option<bool> {
        let ways = self.ways(sort, depth, marked_ok);
        let way = self.rng.weighted(&ways)?;
        let leads_deeper = !matches!(way, Way::Freeze);
        self.go_way(way, sort, depth.saturating_sub(leads_deeper.into()))
    }

    fn ways(&self, sort: Sort, depth: usize, marked_ok: bool) -> Vec<(usize, Way)> {
        let mut ways = Vec::new();
        for local in self.full(sort, marked_ok) {
            if !sort.is_record() {
                ways.push((3, Way::Copy(local)));
            }
            ways.push((if sort.is_record() { 4 } else { 1 }, Way::Move(local)));
        }
        match sort {
            Sort::Number => self.number_ways(&mut ways, depth),
            Sort::NumberRef => {
                ways.extend(self.full(Sort::Number, true).into_iter().map(|local| (2, Way::Local(local))))
            }
            Sort::Record(of) => {
                if self.owns(of) {
                    ways.push((6, Way::Pack));
                    ways.push((1, Way::MoveFrom));
                }
            }
            Sort::RecordRef(of) => {
                ways.extend(self.full(Sort::Record(of), true).into_iter().map(|local| (3, Way::Local(local))));
                if self.owns(of) {
                    ways.push((1, Way::Global));
                }
            }
            Sort::NumberView | Sort::RecordView(_) => ways.push((3, Way::Freeze)),
        }
        if depth > 0 {
            ways.extend(self.own_fields(sort, marked_ok).into_iter().map(|(of, field)| (3, Way::Field(of, field))));
        }
        if depth > 0 || sort.is_record() {
            for number in self.callable_for(sort, depth > 0, marked_ok) {
                let weight = if sort.is_view() || self.gives_marked(number.into(), sort) { 5 } else { 1 };
                ways.push((weight, Way::Call(number)));
            }
        }
        ways
    }

    fn number_ways(&self, ways: &mut Vec<(usize, Way)>, depth: usize) {
        ways.push((3, Way::Const));
        if depth > 0 {
            ways.push((2 + 2 * self.full(Sort::NumberView, true).len(), Way::Read));
            ways.push((3, Way::Arith));
            ways.extend(self.own_types().into_iter().map(|of| (1, Way::Exists(of))));
        }
    }

    fn go_way(&mut self, way: Way, sort: Sort, depth: usize) -> Option<bool> {
        match way {
            Way::Copy(local) => {
                self.emit(cp(local), 0, 1)?;
                Some(self.slots[usize::from(local)].marked)
            }
            Way::Move(local) => {
                self.emit(mv(local), 0, 1)?;
                let slot = &mut self.slots[usize::from(local)];
                slot.fill = Fill::Empty;
                Some(std::mem::replace(&mut slot.marked, false))
            }
            Way::Field(owner, number) => {
                let of = owner as u8;
                let through = if sort.is_view() { Sort::RecordView(of) } else { Sort::RecordRef(of) };
                self.value(through, depth, false)?;
                self.emit(field(owner, number), 1, 1)?;
                Some(!sort.is_view() && self.plan.types[usize::from(owner)].fields[usize::from(number)].guarded)
            }
            Way::Call(number) => {
                self.call(number, depth)?;
                Some(self.gives_marked(number.into(), sort))
            }
            _ => self.go_unmarked(way, sort, depth).map(|()| false),
        }
    }

    /// The ways that give no marked reference.
    fn go_unmarked(&mut self, way: Way, sort: Sort, depth: usize) -> Option<()> {
        let of = match sort {
            Sort::Record(of) | Sort::RecordRef(of) => u16::from(of),
            _ => 0,
        };
        match way {
            Way::Const => {
                let number = self.constant();
                self.emit(load(number), 0, 1)
            }
            Way::Local(local) => self.emit(borrow(local), 0, 1),
            Way::Read => {
                let chance = if self.full(Sort::NumberView, true).is_empty() { 30 } else { 75 };
                let from = if self.rng.chance(chance) { Sort::NumberView } else { Sort::NumberRef };
                self.value(from, depth, true)?;
                self.emit(read(), 1, 1)
            }
            Way::Freeze => {
                let writable = match sort {
                    Sort::RecordView(of) => Sort::RecordRef(of),
                    _ => Sort::NumberRef,
                };
                self.value(writable, depth, true)?;
                self.emit(freeze(), 1, 1)
            }
            Way::Arith => {
                self.value(Sort::Number, depth, false)?;
                self.value(Sort::Number, depth, false)?;
                let which = self.rng.pick(&[ADD, ADD, SUB, EQUAL, LESS]);
                self.emit(arith(which), 2, 1)
            }
            Way::Exists(of) => {
                self.address()?;
                self.emit(exists(of), 1, 1)
            }
            Way::Pack => self.pack(of, depth),
            Way::MoveFrom => {
                self.key()?;
                self.emit(move_from(of), 1, 1)
            }
            _ => {
                self.key()?;
                self.emit(global(of), 1, 1)
            }
        }
    }

    fn pack(&mut self, of: u16, depth: usize) -> Option<()> {
        let fields = &self.plan.types[usize::from(of)].fields;
        for field in fields {
            self.value(field.sort, depth, false)?;
        }
        self.emit(pack(of), fields.len(), 1)
    }

    fn constant(&mut self) -> u64 {
        match self.rng.below(12) {
            0 => u64::MAX,
            1 => u64::MAX - self.rng.below(3) as u64,
            2 => self.rng.draw(),
            3..=5 => self.rng.pick(&[10, 100, 255, 256, 500, 65_536]),
            _ => self.rng.below(5) as u64,
        }
    }

    /// A small number, so that keys meet again.
    fn address(&mut self) -> Option<()> {
        let locals = self.full(Sort::Number, true);
        if !locals.is_empty() && self.rng.chance(50) {
            let local = self.rng.pick(&locals);
            return self.emit(cp(local), 0, 1);
        }
        let number = self.rng.below(4) as u64;
        self.emit(load(number), 0, 1)
    }

    /// An address that something is likely published under.
    fn key(&mut self) -> Option<()> {
        if self.rng.chance(15) {
            return self.address();
        }
        let number = self.rng.below(2) as u64;
        self.emit(load(number), 0, 1)
    }

    fn call(&mut self, number: u16, depth: usize) -> Option<()> {
        let callee = &self.plan.procs[usize::from(number)];
        for &sort in &callee.params {
            self.value(sort, depth, self.carries[usize::from(number)])?;
        }
        self.emit(call(number), callee.params.len(), callee.results.len())
    }

    // Getting rid of values.

    fn store(&mut self, local: u16, marked: bool) -> Option<()> {
        self.emit(st(local), 1, 0)?;
        self.slots[usize::from(local)] = Slot { fill: Fill::Full, marked };
        Some(())
    }

    /// Takes the results of a call away.
    fn consume_results(&mut self, number: u16, keep: bool) -> Option<()> {
        let results = self.plan.procs[usize::from(number)].results.clone();
        for sort in results.into_iter().rev() {
            self.consume(sort, keep, self.gives_marked(number.into(), sort))?;
        }
        Some(())
    }

    /// Takes the topmost operand away, keeping it in a local where one fits.
    fn consume(&mut self, sort: Sort, keep: bool, marked: bool) -> Option<()> {
        if let Sort::Record(of) = sort {
            let free = self.locals_with(|s, slot| s == sort && slot.fill == Fill::Empty);
            if keep && !free.is_empty() && self.rng.chance(60) {
                let local = self.rng.pick(&free);
                return self.store(local, false);
            }
            return self.dispose(of);
        }
        let locals = self.locals_with(|s, _| s == sort);
        if !locals.is_empty() && self.rng.chance(40) {
            let local = self.rng.pick(&locals);
            return self.store(local, marked);
        }
        self.emit(pop(), 1, 0)
    }

    fn dispose(&mut self, of: u8) -> Option<()> {
        if !self.owns(of) || self.rng.chance(10) {
            let droppers = self.callable(|number| {
                let one = &self.plan.procs[number];
                one.params == [Sort::Record(of)] && !one.results.iter().any(|sort| sort.is_record())
            });
            if droppers.is_empty() {
                return None;
            }
            let dropper = self.rng.pick(&droppers);
            let results = self.plan.procs[usize::from(dropper)].results.len();
            self.emit(call(dropper), 1, results)?;
            return self.consume_results(dropper, false);
        }
        if self.rng.chance(35) {
            self.address()?;
            return self.emit(move_to(of.into()), 2, 0);
        }
        let sorts: Vec<Sort> = self.plan.types[usize::from(of)].fields.iter().map(|field| field.sort).collect();
        self.emit(unpack(of.into()), 1, sorts.len())?;
        sorts.into_iter().rev().try_for_each(|sort| self.consume(sort, false, false))
    }

    // Statements. Operands are empty before and after each.

    fn statement(&mut self, nesting: usize) {
        let kinds = [
            (5, Statement::Assign),
            (1, Statement::Drop),
            (3, Statement::Write),
            (1, Statement::Look),
            (2, Statement::Show),
            (2, Statement::Help),
            (3, Statement::Call),
            (if nesting > 0 { 3 } else { 0 }, Statement::If),
            (if nesting > 0 { 1 } else { 0 }, Statement::Count),
            (if nesting > 0 { 1 } else { 0 }, Statement::Repeat),
            (2, Statement::MoveTo),
            (1, Statement::Return),
            (2, Statement::Reborrow),
            (3, Statement::Ensure),
        ];
        for _ in 0..4 {
            let Some(kind) = self.rng.weighted(&kinds) else { return };
            if self.attempt(|body| body.write_statement(kind, nesting)).is_some() {
                return;
            }
        }
    }

    fn write_statement(&mut self, kind: Statement, nesting: usize) -> Option<()> {
        match kind {
            Statement::Assign => self.assign(),
            Statement::Drop => self.drop_record(),
            Statement::Write => {
                self.value(Sort::Number, 1, false)?;
                self.value(Sort::NumberRef, 2, true)?;
                self.emit(write(), 2, 0)
            }
            Statement::Look => {
                self.value(Sort::NumberView, 3, true)?;
                self.emit(read(), 1, 1)?;
                self.consume(Sort::Number, true, false)
            }
            Statement::Show => {
                let takes_view = |number: usize| self.plan.procs[number].params.iter().any(|sort| sort.is_view());
                let callable = self.callable(takes_view);
                self.call_statement(&callable)
            }
            Statement::Help => {
                let takes_ref = |number: usize| self.plan.procs[number].params.contains(&Sort::NumberRef);
                let callable = self.callable(|number| self.carries[number] && takes_ref(number));
                self.call_statement(&callable)
            }
            Statement::Call => {
                let callable = self.callable(|_| true);
                self.call_statement(&callable)
            }
            Statement::If => self.branch(nesting - 1),
            Statement::Count => self.count(nesting - 1),
            Statement::Repeat => self.repeat(nesting - 1),
            Statement::MoveTo => {
                let own = self.own_types();
                let of = (!own.is_empty()).then(|| self.rng.pick(&own))?;
                self.value(Sort::Record(of as u8), 1, false)?;
                self.address()?;
                self.emit(move_to(of), 2, 0)
            }
            Statement::Return => self.early_return(),
            Statement::Reborrow => self.reborrow(),
            Statement::Ensure => self.ensure(),
        }
    }

    fn assign(&mut self) -> Option<()> {
        let locals = self.locals_with(|sort, slot| !sort.is_record() || slot.fill == Fill::Empty);
        let local = (!locals.is_empty()).then(|| self.rng.pick(&locals))?;
        let marked = self.value(self.sorts[usize::from(local)], 2, true)?;
        // The value itself may have filled or emptied locals of records.
        let slot = self.slots[usize::from(local)];
        if self.sorts[usize::from(local)].is_record() && slot.fill != Fill::Empty {
            return None;
        }
        self.store(local, marked)
    }

    /// Gives a reference on from local to local, or borrows again through one.
    fn reborrow(&mut self) -> Option<()> {
        let refs = self.locals_with(|sort, _| sort.is_reference());
        let local = (!refs.is_empty()).then(|| self.rng.pick(&refs))?;
        let marked = self.value(self.sorts[usize::from(local)], 3, true)?;
        self.store(local, marked)
    }

    fn drop_record(&mut self) -> Option<()> {
        let full = self.locals_with(|sort, slot| sort.is_record() && slot.fill == Fill::Full);
        let local = (!full.is_empty()).then(|| self.rng.pick(&full))?;
        self.empty_record(local)
    }

    fn empty_record(&mut self, local: u16) -> Option<()> {
        self.emit(mv(local), 0, 1)?;
        self.slots[usize::from(local)].fill = Fill::Empty;
        self.consume(self.sorts[usize::from(local)], false, false)
    }

    fn call_statement(&mut self, callable: &[u16]) -> Option<()> {
        let number = (!callable.is_empty()).then(|| self.rng.pick(callable))?;
        self.call(number, 1)?;
        self.consume_results(number, true)
    }

    fn statements(&mut self, nesting: usize) {
        for _ in 0..self.rng.within(1, 2) {
            self.statement(nesting);
        }
    }

    fn branch(&mut self, nesting: usize) -> Option<()> {
        self.value(Sort::Number, 2, false)?;
        let to_then = self.emit_jump(jump_if(0))?;
        let before = self.slots.clone();
        if self.rng.chance(70) {
            self.statements(nesting);
        }
        let to_end = self.emit_jump(jump(0))?;
        let after_else = std::mem::replace(&mut self.slots, before);
        self.dead_code();
        self.land(to_then);
        self.statements(nesting);
        self.meet_records(&after_else)?;
        self.land(to_end);
        self.join(&after_else);
        Some(())
    }

    /// Walks with other slots come in here; their records are as ours.
    fn join(&mut self, others: &[Slot]) {
        for (slot, other) in self.slots.iter_mut().zip(others) {
            slot.marked |= other.marked;
            if slot.fill != other.fill {
                slot.fill = Fill::Unsure;
            }
        }
    }

    /// Publishes a record under a small key unless there is one.
    fn ensure(&mut self) -> Option<()> {
        let own = self.own_types();
        let of = (!own.is_empty()).then(|| self.rng.pick(&own))?;
        let key = self.rng.below(2) as u64;
        self.emit(load(key), 0, 1)?;
        self.emit(exists(of), 1, 1)?;
        let over = self.emit_jump(jump_if(0))?;
        let before = self.slots.clone();
        self.value(Sort::Record(of as u8), 1, false)?;
        self.emit(load(key), 0, 1)?;
        self.emit(move_to(of), 2, 0)?;
        self.meet_records(&before)?;
        self.land(over);
        self.join(&before);
        Some(())
    }

    /// Fills and empties the locals of records until they are as in `wanted`.
    fn meet_records(&mut self, wanted: &[Slot]) -> Option<()> {
        for (local, then) in wanted.iter().enumerate() {
            if !self.sorts[local].is_record() || self.slots[local].fill == then.fill {
                continue;
            }
            if then.fill == Fill::Empty {
                self.empty_record(local as u16)?;
            } else {
                self.value(self.sorts[local], 1, false)?;
                self.store(local as u16, false)?;
            }
        }
        // Making one record may have used up another.
        let met = |local: usize| !self.sorts[local].is_record() || self.slots[local].fill == wanted[local].fill;
        (0..self.sorts.len()).all(met).then_some(())
    }

    /// At the head of a loop a local that is empty may come back full.
    fn loosen(&mut self) {
        for (slot, sort) in self.slots.iter_mut().zip(&self.sorts) {
            if slot.fill == Fill::Empty && !sort.is_record() {
                slot.fill = Fill::Unsure;
            }
        }
    }

    /// Makes what holds here fit what was taken to hold at the loop's head.
    fn close_loop(&mut self, head: &[Slot]) -> Option<()> {
        self.meet_records(head)?;
        for (local, then) in head.iter().enumerate() {
            let must_fill = then.fill == Fill::Full && self.slots[local].fill != Fill::Full;
            let must_clear = self.slots[local].marked && !then.marked;
            if must_fill || must_clear {
                let marked = self.value(self.sorts[local], 1, then.marked)?;
                self.store(local as u16, marked)?;
            }
        }
        let fits = |local: usize| {
            let (now, then) = (self.slots[local], head[local]);
            let filled = then.fill == Fill::Unsure || now.fill == then.fill;
            filled && (then.marked || !now.marked)
        };
        (0..self.sorts.len()).all(fits).then_some(())
    }

    /// A loop counted down in a number local.
    fn count(&mut self, nesting: usize) -> Option<()> {
        let locals = self.locals_with(|sort, _| sort == Sort::Number);
        let counter = (!locals.is_empty()).then(|| self.rng.pick(&locals))?;
        let rounds = self.rng.below(6) as u64;
        self.emit(load(rounds), 0, 1)?;
        self.store(counter, false)?;
        self.loosen();
        let head = self.slots.clone();
        let head_at = self.here();
        self.emit(cp(counter), 0, 1)?;
        let to_body = self.emit_jump(jump_if(0))?;
        let to_end = self.emit_jump(jump(0))?;
        self.dead_code();
        self.land(to_body);
        self.statements(nesting);
        self.close_loop(&head)?;
        self.emit(cp(counter), 0, 1)?;
        self.emit(load(1), 0, 1)?;
        self.emit(arith(SUB), 2, 1)?;
        self.store(counter, false)?;
        self.emit_jump(jump(head_at))?;
        self.land(to_end);
        self.slots = head;
        Some(())
    }

    /// A loop that goes round again while some number is not 0.
    fn repeat(&mut self, nesting: usize) -> Option<()> {
        self.loosen();
        let head = self.slots.clone();
        let head_at = self.here();
        self.statements(nesting);
        self.close_loop(&head)?;
        let ways: Vec<u16> = self.full(Sort::Number, true);
        if ways.is_empty() || self.rng.chance(40) {
            self.emit(load(0), 0, 1)?;
        } else {
            let local = self.rng.pick(&ways);
            self.emit(cp(local), 0, 1)?;
        }
        self.emit_jump(jump_if(head_at)).map(drop)
    }

    fn early_return(&mut self) -> Option<()> {
        self.value(Sort::Number, 1, false)?;
        let on = self.emit_jump(jump_if(0))?;
        let before = self.slots.clone();
        self.return_now()?;
        self.dead_code();
        self.slots = before;
        self.land(on);
        Some(())
    }

    /// Pushes the results, gets rid of all records and returns.
    fn return_now(&mut self) -> Option<()> {
        let results = self.plan.procs[self.me].results.clone();
        let first = self.rng.chance(50);
        if first {
            self.clear_records()?;
        }
        for &sort in &results {
            self.value(sort, 2, self.carries[self.me])?;
        }
        self.clear_records()?;
        self.emit(ret(), results.len(), 0)?;
        (self.height == 0).then_some(())
    }

    fn clear_records(&mut self) -> Option<()> {
        for local in self.locals_with(|sort, slot| sort.is_record() && slot.fill == Fill::Full) {
            self.empty_record(local)?;
        }
        Some(())
    }

    /// Rows that no walk reaches: well typed, but careless of locals and marks. They end in a jump to row 0.
    fn dead_code(&mut self) {
        if self.rng.chance(12) {
            let before = self.slots.clone();
            if self.attempt(|body| body.write_dead_code()).is_some() {
                self.slots = before;
            }
        }
    }

    fn write_dead_code(&mut self) -> Option<()> {
        for _ in 0..self.rng.within(1, 3) {
            let local = (!self.sorts.is_empty()).then(|| self.rng.below(self.sorts.len()))?;
            self.emit(mv(local as u16), 0, 1)?;
            if self.sorts[local].is_record() {
                self.emit(st(local as u16), 1, 0)?;
                continue;
            }
            if self.sorts[local].frozen().is_some() && self.rng.chance(40) {
                self.emit(freeze(), 1, 1)?;
            }
            self.emit(pop(), 1, 0)?;
        }
        self.emit_jump(jump(0)).map(drop)
    }

    // The end of the body.

    fn ending(&mut self) {
        // The last try is nothing but the barest end: it fits unless results cannot be made at all.
        for _ in 0..40 {
            let round = self.rng.chance(12);
            let limit = self.most_code;
            self.most_code = 250;
            let done = self.attempt(|body| if round { body.end_in_jump() } else { body.return_now() });
            self.most_code = limit;
            if done.is_some() {
                self.most_code = 256;
                self.dead_code();
                return;
            }
        }
        self.barest_end();
    }

    /// The return stands before the last row, which jumps back to where it is decided.
    fn end_in_jump(&mut self) -> Option<()> {
        let head_at = self.here();
        let locals = self.full(Sort::Number, true);
        if locals.is_empty() || self.rng.chance(60) {
            self.emit(load(0), 0, 1)?;
        } else {
            let local = self.rng.pick(&locals);
            self.emit(cp(local), 0, 1)?;
        }
        let to_last = self.emit_jump(jump_if(0))?;
        self.return_now()?;
        self.land(to_last);
        self.emit_jump(jump(head_at)).map(drop)
    }

    /// Goes round for ever: an end for every body.
    fn barest_end(&mut self) {
        let here = self.here();
        self.code.push(jump(here));
    }
}
