//! Tables at each limit of document 01 and one past it.

use super::plan::{asm::*, module_row, proc_row, Plan, ProcPlan};
use crate::program::Sort;
use crate::row::{limit, write_rows};

/// Each limit: at it (accepted), then one past it.
pub const TABLES: usize = 18;

pub fn table(number: usize) -> Vec<u8> {
    let extra = number % 2;
    match number / 2 {
        0 => modules(limit::MODULES + extra),
        1 => types(limit::TYPES + extra),
        2 => fields(limit::FIELDS + extra),
        3 => procedures(limit::PROCEDURES + extra),
        4 => locals(limit::LOCALS + extra),
        5 => results(limit::RESULTS + extra),
        6 => instructions(limit::INSTRUCTIONS + extra),
        7 => operands(limit::OPERANDS + extra),
        _ => rows(limit::ROWS + extra),
    }
}

fn single(procedure: ProcPlan) -> Plan {
    Plan { trusted: vec![true], types: Vec::new(), procs: vec![procedure] }
}

fn modules(count: usize) -> Vec<u8> {
    let mut plan = single(ProcPlan { code: vec![ret()], ..ProcPlan::default() });
    plan.trusted = (0..count).map(|number| number % 2 == 0).collect();
    plan.bytes()
}

fn types(count: usize) -> Vec<u8> {
    let mut plan = Plan { trusted: vec![true, false], ..Plan::default() };
    for number in 0..count {
        let module = usize::from(number >= 32);
        plan.add_type(module, &[(Sort::Number, false)]);
    }
    plan.bytes()
}

fn fields(count: usize) -> Vec<u8> {
    let mut plan = Plan { trusted: vec![true], ..Plan::default() };
    plan.add_type(0, &[(Sort::Number, true)]);
    let fields: Vec<_> = (0..count)
        .map(|number| if number % 2 == 1 { (Sort::Record(0), false) } else { (Sort::Number, true) })
        .collect();
    plan.add_type(0, &fields);
    let code = vec![load(3), move_from(1), load(4), move_to(1), ret()];
    plan.add_proc(ProcPlan { public: true, code, ..ProcPlan::default() });
    plan.bytes()
}

fn procedures(count: usize) -> Vec<u8> {
    let mut plan = single(ProcPlan { code: vec![ret()], ..ProcPlan::default() });
    for number in 1..count {
        let public = number % 3 == 0;
        plan.add_proc(ProcPlan { public, code: vec![call((number - 1) as u16), ret()], ..ProcPlan::default() });
    }
    plan.bytes()
}

fn locals(count: usize) -> Vec<u8> {
    let last = (count.min(limit::LOCALS) - 1) as u16;
    let code = vec![mv(0), st(last), borrow(last), read(), ret()];
    single(ProcPlan {
        public: true,
        params: vec![Sort::Number; 3],
        others: vec![Sort::Number; count - 3],
        results: vec![Sort::Number],
        code,
        ..ProcPlan::default()
    })
    .bytes()
}

fn results(count: usize) -> Vec<u8> {
    let mut code: Vec<_> = (0..count as u64).map(load).collect();
    code.push(ret());
    single(ProcPlan { public: true, results: vec![Sort::Number; count], code, ..ProcPlan::default() }).bytes()
}

fn instructions(count: usize) -> Vec<u8> {
    let mut code = vec![jump((count.min(limit::INSTRUCTIONS) - 1) as u16)];
    code.resize(count - 1, jump(0));
    code.push(ret());
    single(ProcPlan { public: true, code, ..ProcPlan::default() }).bytes()
}

fn operands(count: usize) -> Vec<u8> {
    let mut code = vec![load(1); count];
    code.resize(2 * count, pop());
    code.push(ret());
    single(ProcPlan { public: true, code, ..ProcPlan::default() }).bytes()
}

/// Procedures of branches, as long as they may be, until the table is as long as asked.
fn rows(count: usize) -> Vec<u8> {
    let mut rows = vec![module_row(false)];
    while rows.len() < count {
        let length = (count - rows.len() - 1).min(limit::INSTRUCTIONS);
        if length == 0 {
            rows.push(module_row(false));
        } else {
            rows.push(proc_row(true));
            rows.extend((1..length).map(|next| jump(next as u16).row()));
            rows.push(ret().row());
        }
    }
    write_rows(&rows)
}
