//! Accepted tables whose modules call one another and themselves, for rule files. Calls are done, or a branch may pass
//! over them, or no walk reaches them.

use super::plan::{asm::*, Code, Plan, ProcPlan};
use super::rng::Rng;
use crate::program::Sort;

const N: Sort = Sort::Number;

/// How many modules, with weights.
const MODULES: [(usize, usize); 9] = [(1, 1), (9, 2), (8, 3), (5, 4), (2, 5), (1, 7), (1, 11), (1, 15), (2, 16)];

pub fn plan(rng: &mut Rng) -> Plan {
    let modules = rng.weighted(&MODULES).unwrap_or(2);
    if rng.chance(12) {
        everyone(rng, modules)
    } else {
        some(rng, modules)
    }
}

/// Modules with up to two procedures each, and some with none. Local 0 of each procedure says how many more frames
/// there may be: with 0 the procedure returns at once.
fn some(rng: &mut Rng, modules: usize) -> Plan {
    let mut plan = Plan::default();
    let most = if modules > 3 { 1 } else { 2 };
    for module in 0..modules {
        plan.trusted.push(rng.chance(50));
        if rng.chance(20) {
            plan.add_type(module, &[(N, plan.trusted[module])]);
        }
        for _ in 0..rng.within(0, most) {
            add_header(&mut plan, rng, module);
        }
    }
    // Something that a list can call.
    if !plan.procs.iter().any(|one| one.public) {
        add_header(&mut plan, rng, modules - 1);
        plan.procs.iter_mut().for_each(|one| one.public = true);
    }
    for me in 0..plan.procs.len() {
        plan.procs[me].code = body(&plan, rng, me);
    }
    plan
}

/// Adds a procedure without a body.
fn add_header(plan: &mut Plan, rng: &mut Rng, module: usize) {
    let (params, results) = (vec![N; rng.within(1, 2)], vec![N; rng.below(2)]);
    plan.add_proc(ProcPlan { module, public: rng.chance(75), params, others: vec![N], results, ..ProcPlan::default() });
}

fn body(plan: &Plan, rng: &mut Rng, me: usize) -> Vec<Code> {
    let results = plan.procs[me].results.len();
    let mut code = vec![cp(0), jump_if(3 + results as u16)];
    code.extend(end(rng, results));
    for _ in 0..rng.within(0, 2) {
        let called = some_call(plan, rng, me);
        let over = (code.len() + called.len()) as u16;
        match rng.below(10) {
            0..=4 => code.extend(called),
            5 | 6 => {
                code.extend([load(rng.below(2) as u64), jump_if(over + 2)]);
                code.extend(called);
            }
            _ => {
                code.push(jump(over + 1));
                code.extend(called);
            }
        }
    }
    code.extend(end(rng, results));
    // Below the last Ret nothing is reached.
    if rng.chance(25) {
        code.extend(some_call(plan, rng, me));
        code.push(jump(0));
    }
    code
}

fn end(rng: &mut Rng, results: usize) -> Vec<Code> {
    let mut code: Vec<Code> = (0..results).map(|_| load(rng.below(9) as u64)).collect();
    code.push(ret());
    code
}

/// A call of a procedure that this one may call, with its arguments before it and its results put away.
fn some_call(plan: &Plan, rng: &mut Rng, me: usize) -> Vec<Code> {
    let inside = &plan.procs[me];
    let callee = some_callee(plan, rng, me);
    let one = &plan.procs[callee];
    let mut code = vec![cp(0), load(1), arith(SUB)];
    code.extend(one.params[1..].iter().map(|_| load(rng.below(4) as u64)));
    code.push(call(callee as u16));
    let away = if rng.chance(50) { pop() } else { st(inside.params.len() as u16) };
    code.resize(code.len() + one.results.len(), away);
    code
}

/// Of the own module, or a public one of another, if there is one.
fn some_callee(plan: &Plan, rng: &mut Rng, me: usize) -> usize {
    let module = plan.procs[me].module;
    let within = rng.chance(35);
    let fits = |&number: &usize| {
        let one = &plan.procs[number];
        if within {
            one.module == module
        } else {
            one.module != module && one.public
        }
    };
    let fitting: Vec<usize> = (0..plan.procs.len()).filter(fits).collect();
    if fitting.is_empty() {
        me
    } else {
        rng.pick(&fitting)
    }
}

/// Modules of one procedure each, which calls those of all modules or of most, its own too.
fn everyone(rng: &mut Rng, modules: usize) -> Plan {
    let mut plan = Plan::default();
    let (calls, reached) = (rng.pick(&[100, 90, 50]), rng.pick(&[100, 70]));
    for module in 0..modules {
        plan.trusted.push(rng.chance(50));
        let mut code = Vec::new();
        for other in 0..modules as u16 {
            if rng.chance(calls) {
                let at = code.len() as u16;
                code.extend((!rng.chance(reached)).then_some(jump(at + 2)));
                code.push(call(other));
            }
        }
        code.push(ret());
        plan.add_proc(ProcPlan { module, public: true, code, ..ProcPlan::default() });
    }
    plan
}
