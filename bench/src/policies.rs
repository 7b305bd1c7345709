//! A table of 16 modules that call one another, and rule files for it.

use reference::gen::plan::{asm::*, rule_row, Plan, ProcPlan};
use reference::gen::squares;
use reference::row::{limit, write_rows};
use reference::rules::Rule;

/// Sixteen modules of one procedure each, which calls those of all modules in turn, so often that the table has `rows` rows.
/// 2,048 is the most that there can be.
pub fn table(rows: usize) -> Vec<u8> {
    let mut plan = Plan::default();
    for module in 0..limit::MODULES {
        plan.trusted.push(module % 2 == 0);
        // The rows of the module, of the procedure and of its Ret are no Calls.
        let calls = rows / limit::MODULES - 3;
        let mut code: Vec<_> = (0..calls).map(|number| call((number % limit::MODULES) as u16)).collect();
        code.push(ret());
        plan.add_proc(ProcPlan { module, public: true, code, ..ProcPlan::default() });
    }
    plan.bytes()
}

fn written(rules: &[Rule]) -> Vec<u8> {
    let rows: Vec<_> = rules.iter().map(rule_row).collect();
    write_rows(&rows)
}

/// Rule files by name: each pair stands under one row, alone or with all others; or under as many rows as there can be (21).
pub fn files() -> [(&'static str, Vec<u8>); 3] {
    [
        ("one row for all", written(&[squares::whole(squares::LAST)])),
        ("256 rows of one pair", written(&squares::singles(squares::LAST))),
        ("256 rows for all", written(&[squares::whole(squares::LAST); limit::RULES])),
    ]
}
