//! Faults put into a plan: those of the passes "operands", "locals" and "leaks" (7 to 14).

use super::plan::{asm::*, Code, Plan, ProcPlan};
use super::rng::Rng;
use crate::program::Sort;
use crate::row::{limit, op};

pub fn put_in_plan(plan: &mut Plan, rng: &mut Rng, number: u32) {
    match number {
        7 => wrong_operand(plan, rng),
        8 => too_many_operands(plan, rng),
        9 => left_operand(plan, rng),
        10 => foreign(plan, rng),
        11 => empty_local(plan, rng),
        12 => left_record(plan, rng),
        13 | 14 => add_leak(plan, rng, number),
        _ => {}
    }
}

// 7

/// A procedure that has instructions.
pub fn some_proc<'p>(plan: &'p mut Plan, rng: &mut Rng) -> Option<&'p mut ProcPlan> {
    let found: Vec<usize> = (0..plan.procs.len()).filter(|&number| !plan.procs[number].code.is_empty()).collect();
    if found.is_empty() {
        return None;
    }
    Some(&mut plan.procs[rng.pick(&found)])
}

fn wrong_operand(plan: &mut Plan, rng: &mut Rng) {
    let types = plan.types.len();
    let procs = plan.procs.len();
    let Some(one) = some_proc(plan, rng) else { return };
    let at = rng.below(one.code.len());
    match rng.below(10) {
        0 => {
            // Jump targets past the end would give 6 instead.
            one.code.remove(at);
            let last = one.code.len().saturating_sub(1) as u16;
            one.code.iter_mut().filter(|code| code.target().is_some()).for_each(|code| code.b = code.b.min(last));
        }
        1 => one.insert(at, &[rng.pick(&[pop(), read(), write(), arith(ADD), arith(LESS)])]),
        2 if types > 0 => {
            let of = rng.below(types) as u16;
            one.insert(at, &[rng.pick(&[pack(of), unpack(of), move_to(of), exists(of), global(of)])]);
        }
        3 => one.insert(at, &[load(1), call(rng.below(procs) as u16)]),
        4 => change_sort(one, rng, types),
        _ => unfit_local(plan, rng),
    }
}

/// Uses a local for what its sort or type does not fit, or pushes it where another is wanted.
fn unfit_local(plan: &mut Plan, rng: &mut Rng) {
    let types = plan.types.len().max(1);
    // Procedures with the most sorts of locals show the most.
    let Some(first) = some_proc(plan, rng).map(|one| one.locals().len()) else { return };
    let wide = plan.procs.iter().rposition(|one| one.locals().len() >= first.max(4));
    let number = wide.filter(|_| rng.chance(60)).unwrap_or(rng.below(plan.procs.len()));
    let one = &mut plan.procs[number];
    let sorts = one.locals();
    if sorts.is_empty() {
        return;
    }
    let local = rng.below(sorts.len());
    let (x, y) = (local as u16, rng.below(sorts.len()) as u16);
    let of = rng.below(types) as u16;
    let unfit = match sorts[local] {
        Sort::Number => rng.pick(&[[cp(x), read()], [cp(x), field(of, 0)], [cp(x), unpack(of)], [cp(x), st(y)]]),
        Sort::NumberView => rng.pick(&[[borrow(x), pop()], [cp(x), write()], [cp(x), freeze()], [cp(x), st(y)]]),
        Sort::RecordView(_) => rng.pick(&[[borrow(x), pop()], [cp(x), read()], [cp(x), freeze()], [cp(x), st(y)]]),
        Sort::NumberRef => rng.pick(&[[borrow(x), pop()], [cp(x), exists(of)], [cp(x), jump_if(0)], [cp(x), st(y)]]),
        Sort::Record(_) => rng.pick(&[[cp(x), st(x)], [mv(x), pop()], [mv(x), unpack(of)], [mv(x), st(y)]]),
        Sort::RecordRef(_) => rng.pick(&[[borrow(x), pop()], [cp(x), read()], [cp(x), field(of, 0)], [cp(x), st(y)]]),
    };
    one.insert(0, &unfit);
}

/// Gives a local or result of the procedure another sort or type.
fn change_sort(one: &mut ProcPlan, rng: &mut Rng, types: usize) {
    let mut sorts: Vec<&mut Sort> = one.params.iter_mut().chain(&mut one.others).chain(&mut one.results).collect();
    if sorts.is_empty() {
        return;
    }
    let at = rng.below(sorts.len());
    let of = rng.below(types.max(1)) as u8;
    *sorts[at] = match rng.below(if types > 0 { 6 } else { 3 }) {
        0 => Sort::Number,
        1 => Sort::NumberRef,
        2 => Sort::NumberView,
        3 => Sort::Record(of),
        4 => Sort::RecordRef(of),
        _ => Sort::RecordView(of),
    };
}

// 8

fn too_many_operands(plan: &mut Plan, rng: &mut Rng) {
    let (number, gives) = wide_giver(plan, rng);
    let Some(one) = some_proc(plan, rng) else { return };
    let locals = one.params.len() as u16;
    let push = if locals > 0 && one.params[0] == Sort::Number && rng.chance(40) { cp(0) } else { load(4) };
    let mut codes = Vec::new();
    if rng.chance(50) {
        let before = rng.within(limit::OPERANDS - gives, limit::OPERANDS - gives + 1);
        codes.resize(before, push);
        codes.push(call(number));
        codes.resize(codes.len() + before + gives, pop());
    } else {
        let count = rng.within(limit::OPERANDS, limit::OPERANDS + 2);
        codes.resize(count, push);
        codes.resize(2 * count, pop());
    }
    one.insert(0, &codes);
}

/// Adds a procedure that takes nothing and gives some numbers; tells its number and how many it gives.
fn wide_giver(plan: &mut Plan, rng: &mut Rng) -> (u16, usize) {
    let gives = rng.within(2, limit::RESULTS);
    let module = plan.trusted.len() - 1;
    let mut code: Vec<Code> = (0..gives as u64).map(load).collect();
    code.push(ret());
    let results = vec![Sort::Number; gives];
    let number = plan.add_proc(ProcPlan { module, public: true, results, code, ..ProcPlan::default() });
    (number, gives)
}

// 9

fn left_operand(plan: &mut Plan, rng: &mut Rng) {
    let Some(one) = some_proc(plan, rng) else { return };
    let at = rng.below(one.code.len());
    match rng.below(4) {
        0 => one.insert(at, &[load(8)]),
        1 => {
            // A target in the middle of a block makes an edge there.
            let to = rng.below(one.code.len() + 1) as u16;
            one.insert(0, &[load(0), jump_if(to + 2)]);
        }
        2 => {
            let end = one.code.iter().rposition(|code| matches!(code.op, op::RET | op::BRANCH));
            one.insert(end.unwrap_or(at), &[load(8)]);
        }
        _ => one.insert(0, &[load(1), load(2), jump_if(2), pop()]),
    }
}

// 10

fn foreign(plan: &mut Plan, rng: &mut Rng) {
    while plan.trusted.len() < 2 {
        plan.trusted.push(rng.chance(50));
    }
    let module = plan.trusted.len() - 1;
    if !plan.procs.iter().any(|one| one.module == module) {
        plan.add_proc(ProcPlan { module, public: true, code: vec![ret()], ..ProcPlan::default() });
    }
    let me = rng.below(plan.procs.len());
    let home = plan.procs[me].module;
    let types: Vec<usize> = (0..plan.types.len()).filter(|&of| plan.types[of].module != home).collect();
    let private = |one: &ProcPlan| {
        one.module != home && one.params.is_empty() && !one.results.iter().any(|sort| sort.is_record())
    };
    let procs: Vec<usize> = (0..plan.procs.len()).filter(|&number| private(&plan.procs[number])).collect();
    let codes: Vec<Code> = if !types.is_empty() && rng.chance(70) {
        let of = rng.pick(&types);
        foreign_use(plan, rng, me, of as u16)
    } else if !procs.is_empty() {
        let number = rng.pick(&procs);
        plan.procs[number].public = rng.chance(20);
        let mut codes = vec![call(number as u16)];
        codes.resize(1 + plan.procs[number].results.len(), pop());
        codes
    } else {
        return;
    };
    plan.procs[me].insert(0, &codes);
}

/// Works on a type, typed well, from the outside.
fn foreign_use(plan: &mut Plan, rng: &mut Rng, me: usize, of: u16) -> Vec<Code> {
    let fields = plan.types[usize::from(of)].fields.clone();
    let numbers = fields.iter().all(|field| field.sort == Sort::Number);
    match rng.below(7) {
        0 => vec![load(1), exists(of), pop()],
        1 => vec![load(1), global(of), pop()],
        2 => vec![load(1), move_from(of), load(2), move_to(of)],
        3 | 6 if !fields.is_empty() && plan.procs[me].params.len() + plan.procs[me].others.len() < 15 => {
            let one = &mut plan.procs[me];
            one.others.push(Sort::RecordRef(of as u8));
            let local = (one.params.len() + one.others.len() - 1) as u16;
            vec![mv(local), field(of, rng.below(fields.len()) as u16), pop()]
        }
        4 if numbers => {
            let mut codes: Vec<Code> = fields.iter().map(|_| load(1)).collect();
            codes.extend([pack(of), load(2), move_to(of)]);
            codes
        }
        5 if numbers => {
            let mut codes = vec![load(1), move_from(of), unpack(of)];
            codes.resize(3 + fields.len(), pop());
            codes
        }
        _ => vec![load(1), exists(of), pop()],
    }
}

// 11 and 12

fn empty_local(plan: &mut Plan, rng: &mut Rng) {
    let Some(one) = some_proc(plan, rng) else { return };
    let sorts = one.locals();
    let plain: Vec<usize> = (0..sorts.len()).filter(|&local| !sorts[local].is_record()).collect();
    if plain.is_empty() {
        return;
    }
    let local = rng.pick(&plain) as u16;
    let at = rng.below(one.code.len());
    // A jump into the middle of a block would rather give 9.
    match rng.below(3) {
        0 => one.insert(0, &[cp(local), pop()]),
        1 => one.insert(at, &[mv(local), pop()]),
        _ => one.insert(0, &[load(1), jump_if(4), mv(local), pop()]),
    }
}

fn left_record(plan: &mut Plan, rng: &mut Rng) {
    let simple = |plan: &Plan, of: usize| plan.types[of].fields.iter().all(|field| field.sort == Sort::Number);
    if plan.procs.is_empty() {
        return;
    }
    let me = rng.below(plan.procs.len());
    let home = plan.procs[me].module;
    let own: Vec<usize> =
        (0..plan.types.len()).filter(|&of| plan.types[of].module == home && simple(plan, of)).collect();
    let one = &plan.procs[me];
    if own.is_empty() || one.params.len() + one.others.len() >= limit::LOCALS {
        return;
    }
    let of = rng.pick(&own);
    let fields = plan.types[of].fields.len();
    let one = &mut plan.procs[me];
    one.others.push(Sort::Record(of as u8));
    let local = (one.params.len() + one.others.len() - 1) as u16;
    let mut make: Vec<Code> = (0..fields as u64).map(load).collect();
    make.extend([pack(of as u16), st(local)]);
    if rng.chance(30) {
        make = [&make[..], &make[..]].concat();
    }
    if rng.chance(40) {
        let over = make.len() as u16 + 2;
        make.splice(0..0, [load(0), jump_if(over)]);
    }
    one.insert(0, &make);
}

// 13 and 14

/// Adds a module that leaks.
fn add_leak(plan: &mut Plan, rng: &mut Rng, number: u32) {
    let module = plan.trusted.len();
    plan.trusted.push(rng.chance(92));
    let of = plan.add_type(module, &[(Sort::Number, plan.trusted[module]), (Sort::Number, false)]);
    let sink = plan.add_proc(ProcPlan {
        module,
        public: rng.chance(90),
        params: vec![Sort::Number, Sort::NumberRef],
        code: vec![mv(1), pop(), ret()],
        ..ProcPlan::default()
    });
    plan.add_proc(leaking_proc(rng, number, module, of, sink));
}

/// A reference to a guarded field goes through some locals, on one of two walks, and then out.
fn leaking_proc(rng: &mut Rng, number: u32, module: usize, of: u16, sink: u16) -> ProcPlan {
    let params = vec![Sort::RecordRef(of as u8), Sort::Number];
    let refs = rng.within(1, 4);
    let others = vec![Sort::NumberRef; refs];
    let local = |at: usize| (2 + at) as u16;
    let mut code = Vec::new();
    for at in 0..refs {
        code.extend([borrow(1), st(local(at))]);
    }
    let guarded = u16::from(rng.chance(10));
    let mut path = vec![cp(0), field(of, guarded), st(local(0))];
    let mut holder = 0;
    for _ in 0..rng.below(4) {
        let next = rng.below(refs);
        path.push(if rng.chance(50) || next == holder { cp(local(holder)) } else { mv(local(holder)) });
        path.push(st(local(next)));
        if path[path.len() - 2].op == op::MV_LOC {
            path.extend([borrow(1), st(local(holder))]);
        }
        holder = next;
    }
    let here = code.len() as u16;
    match rng.below(3) {
        0 => {
            let over = here + 2 + path.len() as u16;
            code.extend([cp(1), jump_if(over)]);
            code.extend(path);
        }
        1 => {
            // The mark comes round only on the way back from below.
            let leave = leave(number, sink, local(holder));
            let back = here + 2 + leave.len() as u16;
            code.extend([cp(1), jump_if(back)]);
            code.extend(leave);
            code.extend(path);
            code.push(jump(here));
            return finished(module, params, others, number, code);
        }
        _ => code.extend(path),
    }
    if rng.chance(15) {
        code.extend([borrow(1), st(local(holder))]);
    }
    code.extend(leave(number, sink, local(holder)));
    finished(module, params, others, number, code)
}

fn leave(number: u32, sink: u16, holder: u16) -> Vec<Code> {
    if number == 13 {
        vec![load(6), cp(holder), call(sink), ret()]
    } else {
        vec![load(6), cp(holder), ret()]
    }
}

fn finished(module: usize, params: Vec<Sort>, others: Vec<Sort>, number: u32, code: Vec<Code>) -> ProcPlan {
    let results = if number == 13 { Vec::new() } else { vec![Sort::Number, Sort::NumberRef] };
    ProcPlan { module, public: true, params, others, results, code }
}
