//! Refusals of a run: of the list, 15 and 16, and of the text buffer, 17.

use super::phrases::{a_sort, all_causes, counted, length_fault, numbered, Cause};
use super::{padding, Words};
use reference::program::Sort;
use reference::row::{limit, read_rows, Row, Uses, ROW_BYTES};

const CALL: u8 = 1;
const ARGUMENT: u8 = 2;

fn named(at: usize) -> String {
    format!("row {at} of the list")
}

/// 15: the length, or a row that is neither a call nor an argument below one.
pub fn form(list: &[u8], at: usize) -> Option<Words> {
    if let Some(fault) = length_fault("the list", list.len(), limit::LIST_BYTES / ROW_BYTES) {
        return Some(Words::new(fault, None));
    }
    let row = *read_rows(list).get(at)?;
    let (user, used) = match row.kind {
        CALL => ("a call", Uses { a: false, b: true, c: true, d: false }),
        ARGUMENT => ("an argument", Uses { a: false, b: false, c: false, d: true }),
        kind => return all_causes(named(at), vec![(format!("kind {kind}; 1 is a call, 2 is an argument"), None)]),
    };
    let first = (row.kind == ARGUMENT && at == 0)
        .then(|| ("an argument stands first; arguments stand below their call".to_string(), None));
    let dirty = padding::fault(&row, used, |_| user.to_string());
    all_causes(named(at), [first, dirty].into_iter().flatten().collect())
}

/// 16: a call that cannot be made.
pub fn call(table: &[u8], list: &[u8], at: usize) -> Option<Words> {
    let program = reference::type_check(table).ok()?;
    let rows = read_rows(list);
    let row = rows.get(at)?;
    let (number, budget) = (row.b, budget_fault(row));
    let Some(procedure) = program.procedures.get(usize::from(number)) else {
        let there = numbered(program.procedures.len(), "procedure");
        let fault = format!("calls procedure {number}; the table has {there}");
        return all_causes(named(at), [Some((fault, None)), budget].into_iter().flatten().collect());
    };
    let private = (!procedure.public)
        .then(|| (format!("calls procedure {number}, which is private; only public ones can be called"), None));
    let arguments = rows[at + 1..].iter().take_while(|row| row.kind == ARGUMENT).count();
    let causes = [
        private,
        no_number("parameter", number, program.params(procedure)),
        no_number("result", number, program.results(procedure)),
        argument_fault(arguments, number, procedure.params),
        budget,
    ];
    all_causes(named(at), causes.into_iter().flatten().collect())
}

fn no_number(what: &str, procedure: u16, sorts: &[Sort]) -> Option<Cause> {
    let (number, &sort) = sorts.iter().enumerate().find(|(_, &sort)| sort != Sort::Number)?;
    Some((
        format!("{what} {number} of procedure {procedure} is {}; a list can give and get numbers only", a_sort(sort)),
        Some("call a public procedure that takes and gives numbers and calls this one".to_string()),
    ))
}

fn argument_fault(arguments: usize, procedure: u16, params: usize) -> Option<Cause> {
    let stand = if arguments == 1 { "stands" } else { "stand" };
    let fault = || {
        let (there, taken) = (counted(arguments, "argument"), counted(params, "parameter"));
        (format!("{there} {stand} below it; procedure {procedure} has {taken}"), None)
    };
    (arguments != params).then(fault)
}

fn budget_fault(row: &Row) -> Option<Cause> {
    let good = (1..=limit::BUDGET).contains(&row.c);
    (!good).then(|| (format!("its budget is {}; a budget is 1 to {}", row.c, limit::BUDGET), None))
}

/// 17: the text buffer. Its length is not known here.
pub fn buffer() -> Words {
    let least = limit::TEXT_BYTES;
    Words::new(
        format!("the text buffer has fewer than {least} bytes; a run needs {least}, however short its text is"),
        Some(format!("lend a buffer of {least} bytes")),
    )
}
