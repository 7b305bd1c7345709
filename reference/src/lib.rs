//! The judge of bytecode tables and the stack machine of documents 01 and 02 (papers 1 to 7), a second time: to
//! compare the other implementation with; and a generator of inputs for both.

pub mod arith;
pub mod gen;
pub mod helper_counts;
pub mod list;
pub mod machine;
pub mod marks;
mod names;
mod operands;
pub mod orders;
pub mod overdrawn;
pub mod program;
pub mod row;
pub mod rule_counts;
pub mod rule_readings;
pub mod rules;
mod shape;
pub mod stop;
pub mod text;
pub mod walks;

pub use list::check_list;

use list::ListCall;
use machine::{Entry, Machine, Watch};
use program::Program;
use std::collections::BTreeMap;

/// A refusal's number and its row.
pub type Refusal = (u32, usize);

/// The passes over a table in their order, each with its refusals: on one row the first of them that holds is told. The
/// last pass is asked under a rule file only; each of its refusals has rows of its own.
pub const TABLE_PASSES: [(&str, &[u32]); 7] = [
    ("length", &[1]),
    ("rows", &[2, 3, 4, 18, 19]),
    ("names", &[5, 6]),
    ("operands", &[7, 8, 9, 10]),
    ("locals", &[11, 12]),
    ("leaks", &[13, 14]),
    ("rules", &[20, 21, 22]),
];

/// What a run judges after the table, in the same way.
pub const RUN_PASSES: [(&str, &[u32]); 2] = [("list", &[15, 16]), ("buffer", &[17])];

/// A line for each refusal of the passes, in their order, with how often it came; those that never came too.
pub fn refusal_lines(passes: &[(&str, &[u32])], counts: &BTreeMap<u32, u64>) -> String {
    let mut lines = String::new();
    for (pass, refusals) in passes {
        for number in *refusals {
            lines.push_str(&format!("  {pass}, refused {number}: {}\n", counts.get(number).unwrap_or(&0)));
        }
    }
    lines
}

/// Judges a table without a rule file: its number of rows, or the refusal.
pub fn judge(table: &[u8]) -> Result<usize, Refusal> {
    judge_under(table, None)
}

/// Judges a table under a rule file, if there is one.
pub fn judge_under(table: &[u8], rules: Option<&[u8]>) -> Result<usize, Refusal> {
    admit_under(table, rules).map(|program| program.rows)
}

/// Judges a table without a rule file and hands back the decoded program if it is accepted.
pub fn admit(table: &[u8]) -> Result<Program, Refusal> {
    let program = type_check(table)?;
    let faults = walks::find_faults(&program);
    match faults.locals.or(faults.leaks) {
        Some(refusal) => Err(refusal),
        None => Ok(program),
    }
}

/// The same under a rule file, if there is one.
pub fn admit_under(table: &[u8], rules: Option<&[u8]>) -> Result<Program, Refusal> {
    let program = admit(table)?;
    if let Some(file) = rules {
        rules::check_rules(&program, file)?;
    }
    Ok(program)
}

/// The passes before locals and leaks: length, rows, names, operands.
pub fn type_check(table: &[u8]) -> Result<Program, Refusal> {
    let mut program = name_check(table)?;
    program.view_on_top = operands::check_operands(&program)?;
    Ok(program)
}

/// The passes before operands: length, rows, names.
pub fn name_check(table: &[u8]) -> Result<Program, Refusal> {
    shape::check_length(table)?;
    let rows = row::read_rows(table);
    let outline = shape::check_rows(&rows)?;
    names::check_names(&rows, &outline)?;
    Ok(Program::decode(&rows, &outline))
}

/// Runs a call list over a table under a rule file, if there is one, for a text buffer of `text_len` bytes: the text, or
/// the refusal.
pub fn run(table: &[u8], list: &[u8], rules: Option<&[u8]>, text_len: usize) -> Result<Vec<u8>, Refusal> {
    run_with_store(table, list, rules, text_len).map(|(text, _)| text)
}

/// The same, with the store's entries after the last call.
pub fn run_with_store(
    table: &[u8],
    list: &[u8],
    rules: Option<&[u8]>,
    text_len: usize,
) -> Result<(Vec<u8>, Vec<Entry>), Refusal> {
    let (program, calls) = admit_run(table, list, rules, text_len)?;
    Ok(run_calls(&program, &calls, &mut ()))
}

/// Judges all that a run is given: the program and the calls if nothing is refused.
pub fn admit_run(
    table: &[u8],
    list: &[u8],
    rules: Option<&[u8]>,
    text_len: usize,
) -> Result<(Program, Vec<ListCall>), Refusal> {
    let program = admit_under(table, rules)?;
    let calls = check_list(&program, list)?;
    if text_len < row::limit::TEXT_BYTES {
        return Err((17, 0));
    }
    Ok((program, calls))
}

/// The text of the calls, with the store's entries after the last one.
pub fn run_calls(program: &Program, calls: &[ListCall], watch: &mut impl Watch) -> (Vec<u8>, Vec<Entry>) {
    let mut machine = Machine::new(program);
    let mut text = Vec::new();
    for (number, call) in calls.iter().enumerate() {
        let (outcome, _) = machine.call_watched(call.procedure, &call.arguments, call.budget, watch);
        text::write_call(&mut text, number, &outcome);
    }
    text::write_store(&mut text, &machine);
    (text, machine.store().to_vec())
}
