//! Refusals of the pass rules: 20, 21 and 22.

use super::declared::instruction_at;
use super::phrases::{all_causes, listed, needed_length_fault, row_named, Cause};
use super::{padding, Words};
use reference::program::Instr;
use reference::row::{limit, read_rows, Row, Uses};
use reference::rules::{read_rules, Rule, RULE};

const LAST_MODULE: u8 = limit::MODULES as u8 - 1;

/// 20: the length, or a bad row.
pub fn form(file: &[u8], at: usize) -> Option<Words> {
    if let Some(fault) = needed_length_fault("the rule file", file.len(), limit::RULES) {
        return Some(Words::new(fault, None));
    }
    let row = *read_rows(file).get(at)?;
    let [first_caller, last_caller, first_called, last_called] = row.c.to_le_bytes();
    let used = Uses { a: true, b: false, c: true, d: false };
    let causes = [
        (row.kind != RULE).then(|| (format!("byte 0 is {}; it must be {RULE}", row.kind), None)),
        allowing_fault(&row),
        order_fault("calling", first_caller, last_caller),
        range_fault("calling", last_caller),
        order_fault("called", first_called, last_called),
        range_fault("called", last_called),
        padding::fault(&row, used, |_| "a rule".to_string()),
    ];
    all_causes(format!("row {at} of the rule file"), causes.into_iter().flatten().collect())
}

fn allowing_fault(row: &Row) -> Option<Cause> {
    (row.a > 1).then(|| (format!("byte 1 is {}; 1 allows, 0 forbids", row.a), None))
}

fn order_fault(which: &str, first: u8, last: u8) -> Option<Cause> {
    (first > last).then(|| (format!("the first {which} module is {first}, above the last, {last}"), None))
}

fn range_fault(which: &str, last: u8) -> Option<Cause> {
    let fault = || (format!("the last {which} module is {last}; modules are 0 to {LAST_MODULE}"), None);
    (last > LAST_MODULE).then(fault)
}

/// The rows of the file that a pair of modules stands under.
fn rows_over(rules: &[Rule], caller: u8, called: u8) -> Vec<usize> {
    (0..rules.len()).filter(|&row| rules[row].covers(caller, called)).collect()
}

/// 21: a pair of modules under no row or several.
pub fn pair(file: &[u8], value: usize) -> Option<Words> {
    let rules = read_rules(file).ok()?;
    let (caller, called) = ((value / limit::MODULES) as u8, (value % limit::MODULES) as u8);
    let (under, mend) = match rows_over(&rules, caller, called).as_slice() {
        [] => ("no row".to_string(), "add a row for the pair, or widen one"),
        [_] => return None,
        rows => (format!("rows {}", listed(rows)), "take rows out or narrow them until one is left for the pair"),
    };
    let fault = format!("module {caller} calling module {called} stands under {under} of the rule file");
    Some(Words::new(fault, Some(mend.to_string())))
}

/// 22: a Call that the file forbids.
pub fn call(table: &[u8], file: &[u8], at: usize) -> Option<Words> {
    let rules = read_rules(file).ok()?;
    let program = reference::type_check(table).ok()?;
    let (inside, place) = instruction_at(&program, at)?;
    let caller = &program.procedures[inside];
    let Instr::Call(callee) = program.code(caller)[place] else {
        return None;
    };
    let (caller, called) = (caller.module, program.procedure(callee).module);
    let [rule] = rows_over(&rules, caller, called)[..] else {
        return None;
    };
    let named = row_named(&read_rows(table), at)?;
    let fault = format!("{named}: module {caller} calls module {called}, which row {rule} of the rule file forbids");
    let mend = format!("leave the Call out, also where no walk reaches it, or allow the pair in row {rule}");
    Some(Words::new(fault, Some(mend)))
}
