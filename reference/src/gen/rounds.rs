//! Accepted tables that keep the judge busy with marks, to measure it with.

use super::plan::{asm::*, Code, Plan, ProcPlan};
use crate::program::Sort;
use crate::row::limit;

const R: Sort = Sort::NumberRef;
const COIN: u16 = 0;
const COIN_REF: Sort = Sort::RecordRef(COIN as u8);

/// One trusted module with a type of one guarded number.
fn coins() -> Plan {
    let mut plan = Plan { trusted: vec![true], ..Plan::default() };
    plan.add_type(0, &[(Sort::Number, true)]);
    plan
}

/// Helpers that hand their parameters round: each gives them to the one before it in the table and the first to the last
/// with all moved on by one, so that a mark needs helpers times parameters calls to have been everywhere. A public
/// procedure gives the last helper one marked reference. `ring(57, 16)` has 2,020 rows.
pub fn ring(helpers: usize, parameters: usize) -> Vec<u8> {
    assert!((1..limit::PROCEDURES).contains(&helpers) && (1..=limit::LOCALS).contains(&parameters));
    let mut plan = coins();
    for helper in 0..helpers {
        let mut code: Vec<Code> = (0..parameters as u16).map(mv).collect();
        let next = if helper == 0 {
            code.rotate_right(1);
            helpers - 1
        } else {
            helper - 1
        };
        code.extend([call(next as u16), ret()]);
        plan.add_proc(ProcPlan { params: vec![R; parameters], code, ..ProcPlan::default() });
    }
    let mut code = vec![mv(0), field(COIN, 0)];
    code.resize(1 + parameters, borrow(1));
    code.extend([call(helpers as u16 - 1), ret()]);
    plan.add_proc(ProcPlan { public: true, params: vec![COIN_REF, Sort::Number], code, ..ProcPlan::default() });
    plan.bytes()
}

/// A chain of helpers in table order: each gives its marked parameters to the next, and returns what that returned. A
/// public procedure before them writes through what it gets. As many references as there can be results.
/// `chain(127)`, the deepest, has 1,930 rows.
pub fn chain(depth: usize) -> Vec<u8> {
    assert!((1..limit::PROCEDURES).contains(&depth));
    let refs = limit::RESULTS;
    let mut plan = coins();
    let mut code = Vec::new();
    for _ in 0..refs {
        code.extend([cp(0), field(COIN, 0)]);
    }
    code.push(call(1));
    code.extend((1..=refs as u16).rev().map(st));
    code.extend([load(7), mv(1), write(), ret()]);
    let (params, others) = (vec![COIN_REF], vec![R; refs]);
    plan.add_proc(ProcPlan { public: true, params, others, code, ..ProcPlan::default() });
    for helper in 1..=depth {
        let mut code: Vec<Code> = (0..refs as u16).map(mv).collect();
        code.extend((helper < depth).then(|| call(helper as u16 + 1)));
        code.push(ret());
        plan.add_proc(ProcPlan { params: vec![R; refs], results: vec![R; refs], code, ..ProcPlan::default() });
    }
    plan.bytes()
}

/// A table of about so many rows without private procedures: public ones that call one another in a ring with nothing
/// marked, and copy a marked reference through all the locals that they have.
pub fn plain(rows: usize) -> Vec<u8> {
    let last = limit::LOCALS as u16 - 1;
    let mut code = vec![cp(0), field(COIN, 0), st(1)];
    for local in 1..last {
        code.extend([cp(local), st(local + 1)]);
    }
    code.extend([mv(0), call(0), ret()]);
    let one = 1 + limit::LOCALS + code.len();
    let rows = rows.clamp(3 + one, limit::ROWS) - 3;
    let count = rows / one;
    let mut plan = coins();
    for number in 0..count {
        let mut code = code.clone();
        if number == 0 {
            let rest = rows % one / 2;
            code.splice(0..0, [cp(0), pop()].repeat(rest));
        }
        let at = code.len() - 2;
        code[at] = call(((number + 1) % count) as u16);
        let (params, others) = (vec![COIN_REF], vec![R; usize::from(last)]);
        plan.add_proc(ProcPlan { public: true, params, others, code, ..ProcPlan::default() });
    }
    plan.bytes()
}
