//! Refusals of the pass names: 5 and 6.

use super::declared::{fields_of, procedure_rows, Counts};
use super::phrases::{numbered, row_named, Cause};
use super::Words;
use crate::words::kind_name;
use reference::row::{kind, op, sort, Row};
use std::collections::BTreeSet;

/// 5: a procedure without instructions, or one whose last is neither Ret nor Branch.
pub fn end(rows: &[Row], at: usize) -> Option<Words> {
    let inside = procedure_rows(rows, at)?;
    let last = inside.end - 1;
    let procedure = Counts::up_to(rows, at)?.last(kind::PROCEDURE)?;
    let fault = match rows[last].kind {
        kind::INSTRUCTION => format!("its last instruction, {}, is neither Ret nor Branch", row_named(rows, last)?),
        _ => "it has no instructions; the last must be Ret or Branch".to_string(),
    };
    let mend = match rows[last].kind {
        kind::RESULT => "push its results and end it with Ret",
        _ => "end it with Ret",
    };
    Some(Words::new(format!("row {at}, procedure {procedure}: {fault}"), Some(mend.to_string())))
}

/// 6: something named does not exist, or a field's type is not lower than its own.
pub fn name(rows: &[Row], at: usize) -> Option<Words> {
    let (fault, mend) = match rows.get(at)?.kind {
        kind::FIELD => field(rows, at)?,
        kind::INSTRUCTION => instruction(rows, at)?,
        _ => (no_such_type(rows, rows[at].b), None),
    };
    Some(Words::new(format!("{}: {fault}", row_named(rows, at)?), mend))
}

fn no_such_type(rows: &[Row], of: u16) -> String {
    let types = Counts::of(rows).count(kind::TYPE);
    format!("names type {of}; the table has {}", numbered(types, "type"))
}

fn field(rows: &[Row], at: usize) -> Option<Cause> {
    let of = rows[at].b;
    let own = Counts::up_to(rows, at)?.last(kind::TYPE)?;
    if usize::from(of) >= Counts::of(rows).count(kind::TYPE) {
        return Some((no_such_type(rows, of), None));
    }
    let fault = format!("a record of type {of} in type {own}; the type of a field must be lower than its own");
    Some((fault, Some(type_mend(rows, of.into(), own))))
}

/// How a record of type `of` can be kept in type `own`, which is not above it.
fn type_mend(rows: &[Row], of: usize, own: usize) -> String {
    let number = "let the field be a number, the address of a published record";
    let held = held_by(rows, of);
    let module =
        |of: usize| Some(rows.get(..type_row(rows, of)?)?.iter().filter(|row| row.kind == kind::MODULE).count());
    if of == own {
        format!("a type cannot hold itself: {number}")
    } else if held.contains(&own) {
        format!("type {of} holds type {own} already: {number}")
    } else if module(of) != module(own) {
        let moved = (0..Counts::of(rows).count(kind::TYPE)).filter(|&other| module(other) == module(of));
        let between = |held: &usize| module(*held) >= module(own) && module(*held) < module(of);
        if moved.into_iter().any(|other| held_by(rows, other).iter().any(between)) {
            return number.to_string();
        }
        format!("put the module of type {of} above that of type {own}; types are numbered in the order of their rows")
    } else {
        let with = if held.iter().any(|&held| held > own) { " and the types that it holds" } else { "" };
        format!("put type {of}{with} above type {own}; types are numbered in the order of their rows")
    }
}

fn type_row(rows: &[Row], of: usize) -> Option<usize> {
    (0..rows.len()).filter(|&at| rows[at].kind == kind::TYPE).nth(of)
}

/// The types that a type holds, in its fields or in theirs.
fn held_by(rows: &[Row], of: usize) -> BTreeSet<usize> {
    let mut held = BTreeSet::new();
    let mut waiting = vec![of];
    while let Some(row) = waiting.pop().and_then(|of| type_row(rows, of)) {
        let fields = rows[row + 1..].iter().take_while(|row| row.kind == kind::FIELD);
        let records = fields.filter(|field| field.a == sort::RECORD).map(|field| usize::from(field.b));
        let there = |of: &usize| type_row(rows, *of).is_some();
        waiting.extend(records.filter(there).filter(|&of| held.insert(of)));
    }
    held
}

fn instruction(rows: &[Row], at: usize) -> Option<Cause> {
    let row = rows[at];
    match row.a {
        op::MV_LOC | op::CP_LOC | op::ST_LOC | op::BORROW_LOC => Some((within(rows, at, kind::LOCAL)?, None)),
        op::BORROW_FLD => field_of_type(rows, row.b),
        op::CALL => {
            let procedures = numbered(Counts::of(rows).count(kind::PROCEDURE), "procedure");
            Some((format!("names procedure {}; the table has {procedures}", row.b), None))
        }
        op::BRANCH | op::BRANCH_COND => {
            let inside = procedure_rows(rows, at)?;
            let first = inside.clone().find(|&at| rows[at].kind == kind::INSTRUCTION)?;
            let mend = format!("name the target by its place among the instructions: row {first} is 0");
            Some((within(rows, at, kind::INSTRUCTION)?, Some(mend)))
        }
        _ => Some((no_such_type(rows, row.b), None)),
    }
}

/// The row names a local or an instruction that its procedure does not have.
fn within(rows: &[Row], at: usize, kind: u8) -> Option<String> {
    let name = kind_name(kind)?;
    let procedure = Counts::up_to(rows, at)?.last(kind::PROCEDURE)?;
    let there = procedure_rows(rows, at)?.filter(|&at| rows[at].kind == kind).count();
    let there = numbered(there, name);
    Some(format!("names {name} {}; procedure {procedure} has {there}", rows[at].b))
}

fn field_of_type(rows: &[Row], b: u16) -> Option<Cause> {
    let (of, field) = (b / 8, b % 8);
    let named = format!("names field {field} of type {of}");
    let there = match fields_of(rows, of.into()) {
        Some(fields) => format!("type {of} has {}", numbered(fields, "field")),
        None => format!("the table has {}", numbered(Counts::of(rows).count(kind::TYPE), "type")),
    };
    let any = rows.iter().any(|row| row.kind == kind::FIELD);
    let mend = any.then(|| "write 8 times the type plus the field as B".to_string());
    Some((format!("{named}; {there}"), mend))
}
