//! Refusals in words. The expected lines are written from the rules by hand.

mod made;
mod mends;
mod names;
mod operands;
mod rows;
mod rules;
mod runs;
mod walks;

use reference::gen::plan::{asm, field_row, local_row, module_row, proc_row, result_row, type_row, Code};
use reference::program::Sort;
use reference::row::{write_rows, Row};
use tools::explain::{refusal, Given};

/// What is said of a table's refusal.
fn said(rows: &[Row], number: u32, at: usize) -> String {
    said_of_bytes(&write_rows(rows), number, at)
}

fn said_of_bytes(table: &[u8], number: u32, at: usize) -> String {
    said_under(table, None, number, at)
}

fn said_under(table: &[u8], rules: Option<&[u8]>, number: u32, value: usize) -> String {
    refusal(&Given { table, list: None, rules }, number, value).expect("the refusal is explained")
}

/// The first line of what is said of a table's refusal.
fn first_line(rows: &[Row], number: u32, at: usize) -> String {
    first(said(rows, number, at))
}

fn first(text: String) -> String {
    text.lines().next().expect("there is a line").to_string()
}

/// The credit module: type 0 with a guarded number, and procedure 0 that publishes one. Rows 0 to 9.
fn credit() -> Vec<Row> {
    let mut rows = vec![module_row(true), type_row(), field_row(Sort::Number, true)];
    rows.extend([proc_row(true), local_row(Sort::Number, true)]);
    rows.extend(codes(&[asm::load(500), asm::pack(0), asm::mv(0), asm::move_to(0), asm::ret()]));
    rows
}

fn codes(codes: &[Code]) -> Vec<Row> {
    codes.iter().map(|code| code.row()).collect()
}

/// A guest module with two types, the first of a number, the second of a number and a record of the first, in rows 1 to 5, and with one
/// procedure, in row 6.
fn procedure(public: bool, locals: &[(Sort, bool)], results: &[Sort], code: &[Code]) -> Vec<Row> {
    let mut rows = vec![module_row(false), type_row(), field_row(Sort::Number, false)];
    rows.extend([type_row(), field_row(Sort::Number, false), field_row(Sort::Record(0), false)]);
    rows.push(proc_row(public));
    rows.extend(locals.iter().map(|&(sort, parameter)| local_row(sort, parameter)));
    rows.extend(results.iter().map(|&sort| result_row(sort)));
    rows.extend(codes(code));
    rows
}

#[test]
fn another_verdict_is_not_explained() {
    let table = write_rows(&credit());
    let given = Given { table: &table, list: None, rules: None };
    let no = |number, value| refusal(&given, number, value).expect_err("nothing is explained");
    assert_eq!(no(11, 8), "the second implementation says accepted 10: please report this table");
    assert_eq!(no(17, 0), "the second implementation says accepted 10: please report this table");

    let table = &table[..table.len() - 16];
    let given = Given { table, list: None, rules: None };
    let no = |number, value| refusal(&given, number, value).expect_err("nothing is explained");
    assert_eq!(no(5, 4), "the second implementation says refused 5 row 3: please report this table");
    assert_eq!(no(6, 3), "the second implementation says refused 5 row 3: please report this table");
    assert_eq!(no(99, 3), "the second implementation says refused 5 row 3: please report this table");
}
