//! Faults with read-only references, put into a plan (7, 10, 13, 14) or into the rows of a table (4, 6, 18).

use super::plan::{asm::*, Code, Plan, ProcPlan, TypePlan};
use super::plan_faults::some_proc;
use super::rng::Rng;
use super::value_faults::too_large;
use crate::program::Sort;
use crate::row::{kind, limit, op, sort, Row};

#[derive(Clone, Copy, Debug, PartialEq, Eq)]
pub enum Family {
    /// An unused byte of Freeze or of sort 4 that is not 0.
    Dirty,
    /// An opcode or sort that is too large.
    TooLarge,
    /// Sort 5 with a type that is not there.
    NoType,
    /// WriteRef through a read-only reference.
    Write,
    /// A read-only reference where a writable one is asked, the other way round, or one of another type.
    StandIn,
    /// Freeze of a number, a record, a read-only reference or nothing.
    Unfit,
    /// BorrowLoc of a local that is a reference.
    BorrowRef,
    /// BorrowFld through a read-only reference to a record of another type, or to a number.
    OtherType,
    /// BorrowFld of another module's type through a read-only reference.
    Foreign,
    /// A marked reference is given to a Call beside a frozen one.
    Given,
    /// A marked reference is returned beside a frozen one.
    Returned,
}

/// Each family with the refusal that it is made to get.
pub const FAMILIES: [(u32, Family); 11] = [
    (4, Family::Dirty),
    (18, Family::TooLarge),
    (6, Family::NoType),
    (7, Family::Write),
    (7, Family::StandIn),
    (7, Family::Unfit),
    (7, Family::BorrowRef),
    (7, Family::OtherType),
    (10, Family::Foreign),
    (13, Family::Given),
    (14, Family::Returned),
];

pub fn put_in_plan(plan: &mut Plan, rng: &mut Rng, family: Family) {
    match family {
        Family::Dirty | Family::TooLarge | Family::NoType => {}
        Family::Write => put_in_some(plan, rng, write_through),
        Family::StandIn => stand_in(plan, rng),
        Family::Unfit => put_in_some(plan, rng, unfit_freeze),
        Family::BorrowRef => put_in_some(plan, rng, borrow_ref),
        Family::OtherType => put_in_some(plan, rng, other_type),
        Family::Foreign => foreign(plan, rng),
        Family::Given => add_pair(plan, rng, 13, false),
        Family::Returned => add_pair(plan, rng, 14, false),
    }
}

pub fn put_in_rows(rows: &mut [Row], rng: &mut Rng, family: Family) {
    match family {
        Family::Dirty => dirty(rows, rng),
        Family::TooLarge => sort_or_opcode_too_large(rows, rng),
        Family::NoType => no_type(rows, rng),
        _ => {}
    }
}

// Rows.

/// One of the rows that fit.
fn some_row<'r>(rows: &'r mut [Row], rng: &mut Rng, fits: impl Fn(&Row) -> bool) -> Option<&'r mut Row> {
    let found: Vec<usize> = (0..rows.len()).filter(|&at| fits(&rows[at])).collect();
    if found.is_empty() {
        return None;
    }
    Some(&mut rows[rng.pick(&found)])
}

fn has_sort(row: &Row) -> bool {
    matches!(row.kind, kind::LOCAL | kind::RESULT)
}

fn dirty(rows: &mut [Row], rng: &mut Rng) {
    if rng.chance(50) {
        let Some(row) = some_row(rows, rng, |row| row.kind == kind::INSTRUCTION) else { return };
        *row = freeze().row();
        match rng.below(3) {
            0 => row.b = rng.pick(&[1, 1, 7, 256]),
            1 => row.d = 1 << rng.below(64),
            _ => row.c = 1 << rng.below(32),
        }
    } else {
        let Some(row) = some_row(rows, rng, has_sort) else { return };
        (row.a, row.b) = (sort::NUMBER_VIEW, rng.pick(&[1, 1, 7, 256]));
    }
}

/// B, and D of an instruction, count as used and may hold anything.
fn sort_or_opcode_too_large(rows: &mut [Row], rng: &mut Rng) {
    let instruction = rng.chance(50);
    let fits = |row: &Row| if instruction { row.kind == kind::INSTRUCTION } else { has_sort(row) };
    let Some(row) = some_row(rows, rng, fits) else { return };
    row.a = too_large(rng, row.kind);
    row.b = rng.pick(&[0, 0, 1, 7, 256]);
    if instruction {
        row.d = row.b.into();
    }
}

fn no_type(rows: &mut [Row], rng: &mut Rng) {
    let types = rows.iter().filter(|row| row.kind == kind::TYPE).count() as u16;
    let wanted = rng.pick(&[kind::LOCAL, kind::RESULT]);
    let any = !rows.iter().any(|row| row.kind == wanted);
    let Some(row) = some_row(rows, rng, |row| row.kind == wanted || any && has_sort(row)) else { return };
    row.a = sort::RECORD_VIEW;
    row.b = rng.pick(&[types, types, types, types + 1, 64, 255, 256, 65_535]);
}

// Operands.

/// A local of the sort, added if there is none.
fn local_of(one: &mut ProcPlan, sort: Sort) -> Option<u16> {
    let locals = one.locals();
    if let Some(local) = locals.iter().position(|&have| have == sort) {
        return Some(local as u16);
    }
    (locals.len() < limit::LOCALS).then(|| {
        one.others.push(sort);
        locals.len() as u16
    })
}

/// Pushes a local, or freezes one on the way.
fn push(one: &mut ProcPlan, rng: &mut Rng, sort: Sort) -> Option<Vec<Code>> {
    let writable = match sort {
        Sort::NumberView => Sort::NumberRef,
        Sort::RecordView(of) => Sort::RecordRef(of),
        Sort::Record(_) => return Some(vec![mv(local_of(one, sort)?)]),
        _ => return Some(vec![cp(local_of(one, sort)?)]),
    };
    Some(match rng.below(4) {
        0 | 1 => vec![cp(local_of(one, sort)?)],
        2 => vec![cp(local_of(one, writable)?), freeze()],
        _ if sort == Sort::NumberView => vec![borrow(local_of(one, Sort::Number)?), freeze()],
        _ => vec![mv(local_of(one, writable)?), freeze()],
    })
}

/// Puts instructions in where operands are empty.
fn put_at_edge(one: &mut ProcPlan, rng: &mut Rng, codes: &[Code]) {
    let ends_block = |code: &Code| matches!(code.op, op::RET | op::BRANCH | op::BRANCH_COND);
    let after_end = (1..one.code.len()).filter(|&at| ends_block(&one.code[at - 1]));
    let edges: Vec<usize> = [0, 0].into_iter().chain(after_end).collect();
    let at = rng.pick(&edges);
    one.insert(at, codes);
}

/// Puts what `write` gives into some procedure.
fn put_in_some(plan: &mut Plan, rng: &mut Rng, write: fn(&mut ProcPlan, &mut Rng, &[TypePlan]) -> Option<Vec<Code>>) {
    let types = plan.types.clone();
    let Some(one) = some_proc(plan, rng) else { return };
    if let Some(codes) = write(one, rng, &types) {
        put_at_edge(one, rng, &codes);
    }
}

fn write_through(one: &mut ProcPlan, rng: &mut Rng, types: &[TypePlan]) -> Option<Vec<Code>> {
    let has_number = |of: &TypePlan| of.fields.first().is_some_and(|field| field.sort == Sort::Number);
    let own: Vec<usize> =
        (0..types.len()).filter(|&of| types[of].module == one.module && has_number(&types[of])).collect();
    let mut codes = vec![load(1)];
    if own.is_empty() || rng.chance(50) {
        codes.extend(push(one, rng, Sort::NumberView)?);
    } else {
        let of = rng.pick(&own);
        if rng.chance(50) {
            codes.extend([cp(local_of(one, Sort::RecordRef(of as u8))?), field(of as u16, 0), freeze()]);
        } else {
            codes.extend(push(one, rng, Sort::RecordView(of as u8))?);
            codes.push(field(of as u16, 0));
        }
    }
    codes.push(write());
    Some(codes)
}

fn unfit_freeze(one: &mut ProcPlan, rng: &mut Rng, types: &[TypePlan]) -> Option<Vec<Code>> {
    let mut sorts = vec![Sort::Number, Sort::NumberView];
    if !types.is_empty() {
        let of = rng.below(types.len()) as u8;
        sorts.extend([Sort::Record(of), Sort::RecordView(of)]);
    }
    let sort = rng.pick(&sorts);
    let mut codes = if rng.chance(20) { Vec::new() } else { push(one, rng, sort)? };
    codes.extend([freeze(), pop()]);
    Some(codes)
}

fn borrow_ref(one: &mut ProcPlan, rng: &mut Rng, types: &[TypePlan]) -> Option<Vec<Code>> {
    let mut sorts = vec![Sort::NumberRef, Sort::NumberView];
    if !types.is_empty() {
        let of = rng.below(types.len()) as u8;
        sorts.extend([Sort::RecordRef(of), Sort::RecordView(of)]);
    }
    let sort = rng.pick(&sorts);
    Some(vec![borrow(local_of(one, sort)?), pop()])
}

fn other_type(one: &mut ProcPlan, rng: &mut Rng, types: &[TypePlan]) -> Option<Vec<Code>> {
    let with_fields: Vec<usize> = (0..types.len()).filter(|&of| !types[of].fields.is_empty()).collect();
    let of = (!with_fields.is_empty()).then(|| rng.pick(&with_fields))?;
    let other = (of + rng.below(types.len())) % types.len();
    let given = if other == of { Sort::NumberView } else { Sort::RecordView(other as u8) };
    let mut codes = push(one, rng, given)?;
    codes.extend([field(of as u16, rng.below(types[of].fields.len()) as u16), pop()]);
    Some(codes)
}

/// What is asked and what is given instead.
fn unlike(plan: &Plan, rng: &mut Rng) -> (Sort, Sort) {
    let mut pairs = vec![(Sort::NumberRef, Sort::NumberView), (Sort::NumberView, Sort::NumberRef)];
    let types = plan.types.len();
    if types > 0 {
        let of = rng.below(types) as u8;
        let other = ((usize::from(of) + 1) % types) as u8;
        let (writable, view) = (Sort::RecordRef(of), Sort::RecordView(of));
        pairs.extend([(writable, view), (view, writable), (writable, view), (view, writable)]);
        if other != of {
            pairs.extend([(view, Sort::RecordView(other)); 2]);
        }
        pairs.extend([(view, Sort::NumberView), (Sort::NumberView, view)]);
    }
    rng.pick(&pairs)
}

fn stand_in(plan: &mut Plan, rng: &mut Rng) {
    let (asked, given) = unlike(plan, rng);
    let module = plan.trusted.len() - 1;
    let public = true;
    let callee = match rng.below(3) {
        0 => None,
        1 => Some(plan.add_proc(ProcPlan {
            module,
            public,
            params: vec![asked],
            code: vec![ret()],
            ..ProcPlan::default()
        })),
        _ => {
            let mut one = ProcPlan { module, public, results: vec![asked], ..ProcPlan::default() };
            one.params.push(given);
            one.code = push(&mut one, rng, given).unwrap_or_default();
            one.code.push(ret());
            plan.add_proc(one);
            return;
        }
    };
    let Some(one) = some_proc(plan, rng) else { return };
    let Some(mut codes) = push(one, rng, given) else { return };
    let use_it = match callee {
        Some(number) => Some(call(number)),
        None => local_of(one, asked).map(st),
    };
    codes.extend(use_it);
    put_at_edge(one, rng, &codes);
}

fn foreign(plan: &mut Plan, rng: &mut Rng) {
    let found = |plan: &Plan| -> Vec<(usize, usize)> {
        let fields = |of: &usize| !plan.types[*of].fields.is_empty();
        let outside =
            |of: usize| (0..plan.procs.len()).filter(move |&me| plan.procs[me].module != plan.types[of].module);
        (0..plan.types.len()).filter(fields).flat_map(|of| outside(of).map(move |me| (of, me))).collect()
    };
    if found(plan).is_empty() {
        let module = plan.trusted.len();
        plan.trusted.push(true);
        plan.add_type(module, &[(Sort::Number, true)]);
    }
    let pairs = found(plan);
    if pairs.is_empty() {
        return;
    }
    let (of, me) = rng.pick(&pairs);
    let number = rng.below(plan.types[of].fields.len()) as u16;
    let one = &mut plan.procs[me];
    if let Some(mut codes) = push(one, rng, Sort::RecordView(of as u8)) {
        codes.extend([field(of as u16, number), pop()]);
        put_at_edge(one, rng, &codes);
    }
}

// Leaks.

/// Adds a module that gives (13) or returns (14) two references to a guarded number. The second is frozen; the first
/// is too if `frozen`, and the module is accepted. Otherwise it is marked, and that is the only difference.
pub fn add_pair(plan: &mut Plan, rng: &mut Rng, number: u32, frozen: bool) {
    let module = plan.trusted.len();
    plan.trusted.push(true);
    let of = plan.add_type(module, &[(Sort::Number, true), (Sort::Number, false)]);
    let first = if frozen { Sort::NumberView } else { Sort::NumberRef };
    let leaving = vec![Sort::Number, first, Sort::NumberView];
    let sink = plan.procs.len() as u16 + 1;
    let out = if number == 13 { vec![call(sink), ret()] } else { vec![ret()] };
    let results = if number == 13 { Vec::new() } else { leaving.clone() };
    let params = vec![Sort::RecordRef(of as u8), Sort::Number];
    let others = vec![Sort::NumberRef, Sort::NumberView];
    let code = pair_code(rng, of, frozen, &out);
    plan.add_proc(ProcPlan { module, public: true, params, others, results, code });
    if number == 13 {
        // The callee is a public one of the module's own or a guest's.
        let guest = rng.chance(60);
        if guest {
            plan.trusted.push(false);
        }
        let module = module + usize::from(guest);
        let code = vec![mv(2), read(), pop(), mv(1), pop(), ret()];
        plan.add_proc(ProcPlan { module, public: true, params: leaving, code, ..ProcPlan::default() });
    }
}

/// Locals: 0 a reference to a record, 1 a number, 2 a reference to a number, 3 a read-only one.
fn pair_code(rng: &mut Rng, of: u16, frozen: bool, out: &[Code]) -> Vec<Code> {
    let harmless = [borrow(1), st(2)];
    let guarded = [cp(0), field(of, 0), st(2)];
    let beside = match rng.below(3) {
        0 => vec![cp(2), freeze(), st(3)],
        1 => vec![cp(0), field(of, 0), freeze(), st(3)],
        _ => vec![cp(0), freeze(), field(of, 0), st(3)],
    };
    let freezing: &[Code] = if frozen { &[freeze()] } else { &[] };
    let out = [&[load(6), cp(2)], freezing, &[cp(3)], out].concat();
    let below = |codes: &[&[Code]]| codes.iter().map(|part| part.len()).sum::<usize>() as u16;
    match rng.below(3) {
        0 => [&guarded[..], &beside, &out].concat(),
        1 => {
            // Marked on one of two walks.
            let over = below(&[&harmless, &guarded]) + 2;
            [&harmless[..], &[cp(1), jump_if(over)], &guarded, &beside, &out].concat()
        }
        _ => {
            // Marked only on the way back from below.
            let head = harmless.len() as u16;
            let back = head + 2 + below(&[&beside, &out]);
            let head_code = [cp(1), jump_if(back)];
            [&harmless[..], &head_code, &beside, &out, &guarded, &[jump(head)]].concat()
        }
    }
}
