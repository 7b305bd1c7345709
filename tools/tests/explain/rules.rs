//! 20, 21 and 22.

use super::{first, said_under};
use reference::gen::plan::rule_row;
use reference::row::{read_rows, write_rows, Row};
use reference::rules::Rule;

const GUESTS: &[u8] = include_bytes!("../../../examples/guests.bin");
const GUESTS_RULES: &[u8] = include_bytes!("../../../examples/guests-rules.bin");

fn rule(allows: bool, callers: (u8, u8), called: (u8, u8)) -> Row {
    rule_row(&Rule { allows, callers, called })
}

fn line_of_bytes(file: &[u8], number: u32, value: usize) -> String {
    first(said_under(GUESTS, Some(file), number, value))
}

fn line(rows: &[Row], number: u32, value: usize) -> String {
    line_of_bytes(&write_rows(rows), number, value)
}

#[test]
fn lengths() {
    let line = |bytes: usize| line_of_bytes(&vec![0; bytes], 20, 0);
    assert_eq!(line(0), "the rule file has no bytes; it must have 1 to 256 rows of 16 bytes");
    assert_eq!(line(33), "the rule file has 33 bytes, no multiple of 16: its last row has 1 byte");
    assert_eq!(line(1_048_577), "the rule file has over 1048576 bytes; at most 4096 bytes, 256 rows");
    assert_eq!(line(4_112), "the rule file has 4112 bytes, 257 rows; at most 4096 bytes, 256 rows");
}

#[test]
fn bad_rows() {
    let all = rule(true, (0, 15), (0, 15));
    let bad = |row: Row| line(&[all, all, row], 20, 2);
    assert_eq!(bad(Row { kind: 3, ..all }), "row 2 of the rule file: byte 0 is 3; it must be 1");
    assert_eq!(bad(Row { a: 2, ..all }), "row 2 of the rule file: byte 1 is 2; 1 allows, 0 forbids");
    let rest = "and unused bytes must be 0";
    assert_eq!(bad(Row { b: 256, ..all }), format!("row 2 of the rule file: byte 3 is 1; a rule uses no B, {rest}"));
    assert_eq!(bad(Row { d: 5, ..all }), format!("row 2 of the rule file: byte 8 is 5; a rule uses no D, {rest}"));
    assert_eq!(
        bad(rule(true, (5, 3), (0, 1))),
        "row 2 of the rule file: the first calling module is 5, above the last, 3"
    );
    assert_eq!(
        bad(rule(true, (0, 1), (1, 0))),
        "row 2 of the rule file: the first called module is 1, above the last, 0"
    );
    assert_eq!(
        bad(rule(true, (0, 16), (0, 1))),
        "row 2 of the rule file: the last calling module is 16; modules are 0 to 15"
    );
    assert_eq!(
        bad(rule(true, (0, 15), (20, 30))),
        "row 2 of the rule file: the last called module is 30; modules are 0 to 15"
    );
    assert_eq!(
        bad(rule(true, (30, 20), (0, 1))),
        "row 2 of the rule file: the first calling module is 30, above the last, 20; also \
         the last calling module is 20; modules are 0 to 15"
    );
}

#[test]
fn pairs() {
    let mut rows = read_rows(GUESTS_RULES);
    let under_none = {
        let mut rows = rows.clone();
        rows.remove(2);
        write_rows(&rows)
    };
    assert_eq!(
        said_under(GUESTS, Some(&under_none), 21, 33),
        "module 2 calling module 1 stands under no row of the rule file\n  mend: add a row for the pair, or widen one\n"
    );
    rows[3] = rule(true, (2, 15), (1, 15));
    assert_eq!(line(&rows, 21, 33), "module 2 calling module 1 stands under rows 2 and 3 of the rule file");
    let all = rule(true, (0, 15), (0, 15));
    let text = said_under(GUESTS, Some(&write_rows(&[all; 3])), 21, 0);
    assert!(text.ends_with("\n  mend: take rows out or narrow them until one is left for the pair\n"), "{text}");
    assert_eq!(reference::judge_under(GUESTS, Some(&write_rows(&[all]))), Ok(26));
    assert_eq!(line(&[all; 3], 21, 0), "module 0 calling module 0 stands under rows 0, 1 and 2 of the rule file");
    assert_eq!(
        line(&[all; 256], 21, 0),
        "module 0 calling module 0 stands under rows 0, 1, 2, 3, 4, 5, 6, 7 and 248 more of the rule file"
    );
}

#[test]
fn forbidden_calls() {
    assert_eq!(
        line_of_bytes(GUESTS_RULES, 22, 24),
        "row 24 Call 1: module 3 calls module 1, which row 2 of the rule file forbids"
    );
    assert_eq!(
        line(&[rule(false, (0, 15), (0, 15))], 22, 19),
        "row 19 Call 0: module 2 calls module 0, which row 0 of the rule file forbids"
    );
}
