//! 15, 16 and 17.

use super::{credit, first};
use reference::gen::plan::{argument_row, asm, call_row, local_row, proc_row, result_row};
use reference::program::Sort;
use reference::row::{write_rows, Row};
use tools::explain::{refusal, Given};

/// The credit module with a private procedure 1 and a procedure 2 that takes and gives read-only references.
fn table() -> Vec<u8> {
    let mut rows = credit();
    rows.extend([proc_row(false), asm::ret().row()]);
    rows.extend([proc_row(true), local_row(Sort::NumberView, true), result_row(Sort::NumberView)]);
    rows.extend([asm::mv(0).row(), asm::ret().row()]);
    write_rows(&rows)
}

fn said_of_list(list: &[u8], number: u32, value: usize) -> String {
    let table = table();
    let given = Given { table: &table, list: Some(list), rules: None };
    refusal(&given, number, value).expect("the refusal is explained")
}

fn line(list: &[Row], number: u32, at: usize) -> String {
    first(said_of_list(&write_rows(list), number, at))
}

#[test]
fn lengths() {
    let line = |bytes: usize| first(said_of_list(&vec![1; bytes], 15, 0));
    assert_eq!(line(20), "the list has 20 bytes, no multiple of 16: its last row has 4 bytes");
    assert_eq!(line(4_112), "the list has 4112 bytes, 257 rows; at most 4096 bytes, 256 rows");
    assert_eq!(line(1_048_577), "the list has over 1048576 bytes; at most 4096 bytes, 256 rows");
    assert_eq!(line(4_099), "the list has 4099 bytes, over 4096 and no multiple of 16: its last row has 3 bytes");
}

#[test]
fn rows_of_the_list() {
    let good = [call_row(0, 100), argument_row(7)];
    let after = |row: Row| [&good[..], &[row]].concat();
    let unknown = Row { kind: 7, ..Row::default() };
    assert_eq!(line(&after(unknown), 15, 2), "row 2 of the list: kind 7; 1 is a call, 2 is an argument");
    let rest = "and unused bytes must be 0";
    let dirty = Row { a: 4, ..call_row(0, 1) };
    assert_eq!(line(&after(dirty), 15, 2), format!("row 2 of the list: byte 1 is 4; a call uses no A, {rest}"));
    let dirty = Row { d: 3 << 8, ..call_row(0, 1) };
    assert_eq!(line(&after(dirty), 15, 2), format!("row 2 of the list: byte 9 is 3; a call uses no D, {rest}"));
    let dirty = Row { b: 1, ..argument_row(1) };
    assert_eq!(
        line(&[call_row(0, 1), dirty], 15, 1),
        format!("row 1 of the list: byte 2 is 1; an argument uses no B, {rest}")
    );
    let stands_first = "row 0 of the list: an argument stands first; arguments stand below their call";
    assert_eq!(line(&[argument_row(1)], 15, 0), stands_first);
    let dirty = Row { c: 1, ..argument_row(1) };
    assert_eq!(line(&[dirty], 15, 0), format!("{stands_first}; also byte 4 is 1; an argument uses no C, {rest}"));
}

#[test]
fn calls() {
    assert_eq!(
        line(&[call_row(0, 9), argument_row(7), call_row(3, 9)], 16, 2),
        "row 2 of the list: calls procedure 3; the table has 3 procedures, numbered from 0"
    );
    assert_eq!(
        line(&[call_row(1, 9)], 16, 0),
        "row 0 of the list: calls procedure 1, which is private; only public ones can be called"
    );
    let numbers_only = "a list can give and get numbers only";
    assert_eq!(
        line(&[call_row(2, 9), argument_row(1)], 16, 0),
        format!(
            "row 0 of the list: parameter 0 of procedure 2 is a read-only reference to a number; {numbers_only}; also \
             result 0 of procedure 2 is a read-only reference to a number; {numbers_only}"
        )
    );
    let text = said_of_list(&write_rows(&[call_row(2, 9), argument_row(1)]), 16, 0);
    let mend = "call a public procedure that takes and gives numbers and calls this one";
    assert!(text.ends_with(&format!("{numbers_only}\n  mend: {mend}\n")), "it is said once: {text}");
    assert_eq!(
        line(&[call_row(0, 9)], 16, 0),
        "row 0 of the list: no arguments stand below it; procedure 0 has 1 parameter"
    );
    assert_eq!(
        line(&[call_row(0, 9), argument_row(1), argument_row(2)], 16, 0),
        "row 0 of the list: 2 arguments stand below it; procedure 0 has 1 parameter"
    );
    let budget = |budget| line(&[call_row(0, budget), argument_row(1)], 16, 0);
    assert_eq!(budget(0), "row 0 of the list: its budget is 0; a budget is 1 to 65535");
    assert_eq!(budget(65_536), "row 0 of the list: its budget is 65536; a budget is 1 to 65535");
}

#[test]
fn a_table_is_refused_in_a_run_as_without_one() {
    let table = &table()[..16 * 9];
    let given = Given { table, list: Some(&[1]), rules: None };
    let text = refusal(&given, 5, 3).expect("the refusal is explained");
    assert_eq!(first(text), "row 3, procedure 0: its last instruction, row 8 MoveTo 0, is neither Ret nor Branch");
}

#[test]
fn a_short_buffer() {
    let list = write_rows(&[call_row(0, 9), argument_row(7)]);
    assert_eq!(
        said_of_list(&list, 17, 0),
        "the text buffer has fewer than 65536 bytes; a run needs 65536, however short its text is\n  \
         mend: lend a buffer of 65536 bytes\n"
    );
    let table = table();
    let given = |list| Given { table: &table, list, rules: None };
    assert!(refusal(&given(Some(&list)), 17, 1).is_err());
    assert!(refusal(&given(Some(&list[..17])), 17, 0).is_err());
    assert!(refusal(&given(None), 17, 0).is_err());
}
