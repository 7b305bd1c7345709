//! Refusals of the passes length (1) and rows (2, 3, 4, 18, 19).

use super::declared::{procedure_rows, Counts};
use super::phrases::{a, all_causes, joined, needed_length_fault, row_named, Cause};
use super::{padding as unused, Words};
use crate::words::{kind_name, may_follow, most, opcode_name, KINDS};
use reference::row::{kind, last_a, limit, op, sort, uses, Row};

pub fn length(table: &[u8]) -> Option<Words> {
    let fault = needed_length_fault("the table", table.len(), limit::ROWS)?;
    Some(Words::new(fault, None))
}

/// 2: a kind that is unknown, not a module at row 0, or not allowed after the row above.
pub fn order(rows: &[Row], at: usize) -> Option<Words> {
    let this = rows.get(at)?.kind;
    let Some(name) = kind_name(this) else {
        let first = if at == 0 { ", and row 0 must be a module" } else { "" };
        return Some(Words::new(format!("row {at} has kind {this}; kinds are 1 to {}{first}", KINDS.len()), None));
    };
    let this_named = a(name);
    let Some(above) = at.checked_sub(1) else {
        let fault = format!("row 0, {this_named}, stands first; row 0 must be a module");
        let rows = match this {
            kind::FIELD => "a module row and a type row",
            kind::LOCAL | kind::RESULT | kind::INSTRUCTION => "a module row and a procedure row",
            _ => "a module row",
        };
        return Some(Words::new(fault, Some(format!("put {rows} above it"))));
    };
    let allowed: Vec<String> = may_follow(this)?.iter().filter_map(|&kind| kind_name(kind)).map(a).collect();
    let above_named = a(kind_name(rows[above].kind)?);
    let fault = format!(
        "row {at}, {this_named}, stands after row {above}, {above_named}; {this_named} may follow {}",
        joined(&allowed, "or")
    );
    Some(Words::new(fault, order_mend(rows, at).map(str::to_string)))
}

fn order_mend(rows: &[Row], at: usize) -> Option<&'static str> {
    let module = rows[..at].iter().rposition(|row| row.kind == kind::MODULE)?;
    let no = |owner: u8| !rows[module..at].iter().any(|row| row.kind == owner);
    match rows[at].kind {
        kind::FIELD if no(kind::TYPE) => Some("put a type row below the module row, and the field below that"),
        kind::LOCAL | kind::RESULT if no(kind::PROCEDURE) => Some("put a procedure row above it"),
        kind::TYPE => Some("put the types of a module above its procedures"),
        kind::FIELD => Some("put the fields of a type directly below its row"),
        kind::LOCAL => Some("put the locals of a procedure directly below its row, then results, then instructions"),
        kind::RESULT => Some("put the results of a procedure below its locals and above its instructions"),
        kind::INSTRUCTION => Some("put a procedure row above the instructions"),
        _ => None,
    }
}

/// 3: a count limit passed.
pub fn count(rows: &[Row], at: usize) -> Option<Words> {
    let this = rows.get(at)?.kind;
    let counts = Counts::up_to(rows, at)?;
    let most = most(this);
    let owner = match this {
        kind::FIELD => format!(" of type {}", counts.last(kind::TYPE)?),
        kind::LOCAL..=kind::INSTRUCTION => format!(" of procedure {}", counts.last(kind::PROCEDURE)?),
        _ => String::new(),
    };
    // One more than each of the limits is a "th".
    let fault = format!("row {at}: a {}th {}{owner}; at most {most}", counts.count(this), kind_name(this)?);
    Some(Words::new(fault, count_mend(&rows[at]).map(str::to_string)))
}

fn count_mend(row: &Row) -> Option<&'static str> {
    match row.kind {
        kind::LOCAL if row.c == 1 => Some("take a record in place of some of the parameters"),
        kind::FIELD => Some("put some of the fields into a record of another type"),
        kind::LOCAL => Some("use a local again for another value of its sort, or split the procedure"),
        kind::RESULT => Some("return a record, or split the procedure"),
        kind::INSTRUCTION => Some("split the procedure and Call the other part"),
        _ => None,
    }
}

/// 4: an unused byte is not zero.
pub fn padding(rows: &[Row], at: usize) -> Option<Words> {
    let row = rows.get(at)?;
    let fault = unused::fault(row, uses(row.kind, row.a), |part| user(row, part))?;
    all_causes(row_named(rows, at)?, vec![fault])
}

/// What has no use for this part of the row.
fn user(row: &Row, part: char) -> String {
    let name = kind_name(row.kind).unwrap_or("row");
    match (row.kind, part) {
        (kind::INSTRUCTION, _) => opcode_name(row.a).map_or_else(|| a(name), str::to_string),
        (kind::FIELD, 'B') => "a field that is a number".to_string(),
        (kind::LOCAL | kind::RESULT, 'B') => format!("{} of sort {}", a(name), row.a),
        _ => a(name),
    }
}

/// 18: a value not allowed in its bytes, or a parameter after another local.
pub fn values(rows: &[Row], at: usize) -> Option<Words> {
    let row = rows.get(at)?;
    let causes = [a_fault(row), c_fault(row), late_parameter(rows, at), op_fault(row)];
    all_causes(row_named(rows, at)?, causes.into_iter().flatten().collect())
}

fn a_fault(row: &Row) -> Option<Cause> {
    let allowed = match row.kind {
        kind::MODULE => "1 is trusted, 0 is guest".to_string(),
        kind::FIELD => "0 is a number, 1 is a record".to_string(),
        kind::PROCEDURE => "1 is public, 0 is private".to_string(),
        kind::LOCAL | kind::RESULT => format!("sorts are 0 to {}", sort::LAST),
        _ => format!("opcodes are 0 to {}", op::LAST),
    };
    (row.a > last_a(row.kind)).then(|| (format!("A is {}; {allowed}", row.a), None))
}

fn c_fault(row: &Row) -> Option<Cause> {
    let allowed = match row.kind {
        kind::FIELD => "1 is guarded, 0 is not",
        kind::LOCAL => "1 is a parameter, 0 is not",
        _ => return None,
    };
    (row.c > 1).then(|| (format!("C is {}; {allowed}", row.c), None))
}

fn late_parameter(rows: &[Row], at: usize) -> Option<Cause> {
    let row = rows.get(at)?;
    if row.kind != kind::LOCAL || row.c != 1 {
        return None;
    }
    let first = procedure_rows(rows, at)?.start;
    let other = (first + 1..at).find(|&above| rows[above].c == 0)?;
    Some((
        format!("a parameter below row {other}, a local that is none; parameters stand above other locals"),
        Some("put the parameters first; locals are numbered in the order of their rows".to_string()),
    ))
}

fn op_fault(row: &Row) -> Option<Cause> {
    let unknown = row.kind == kind::INSTRUCTION && row.a == op::OP && row.b > op::LAST_OP;
    unknown.then(|| (format!("B is {}; 0 is add, 1 subtract, 2 equal, 3 less", row.b), None))
}

/// 19: a guard on a record field or in a guest.
pub fn guard(rows: &[Row], at: usize) -> Option<Words> {
    let row = rows.get(at)?;
    let module = Counts::up_to(rows, at)?.last(kind::MODULE)?;
    let module_row = rows.get(..=at)?.iter().rposition(|row| row.kind == kind::MODULE)?;
    let in_guest = rows[module_row].a == 0;
    let record = (row.a != sort::NUMBER).then(|| {
        (
            "guards a record; only a number can be guarded".to_string(),
            (!in_guest).then(|| match can_guard(rows, row.b.into()) {
                true => format!("set C to 0 and guard the numbers in type {}", row.b),
                false => "set C to 0".to_string(),
            }),
        )
    });
    let guest = in_guest.then(|| {
        (
            format!("guards a field of module {module}, a guest; only a trusted module can guard fields"),
            Some("set C to 0: who may write a guest's field is for its own module to see to".to_string()),
        )
    });
    all_causes(row_named(rows, at)?, [record, guest].into_iter().flatten().collect())
}

/// Whether the type is one of a trusted module and has a number.
fn can_guard(rows: &[Row], of: usize) -> bool {
    let Some((at, _)) = rows.iter().enumerate().filter(|(_, row)| row.kind == kind::TYPE).nth(of) else {
        return false;
    };
    let trusted = rows[..at].iter().rfind(|row| row.kind == kind::MODULE).is_some_and(|module| module.a == 1);
    let mut fields = rows[at + 1..].iter().take_while(|row| row.kind == kind::FIELD);
    trusted && fields.any(|field| field.a == sort::NUMBER)
}
