//! Listings turn back into the same bytes, and say what the rows say. Expected lines are written by hand.

use reference::gen::{rng::Rng, runs, tables};
use reference::row::{Row, ROW_BYTES};
use std::fs;
use tools::notation::{bytes_of, lines};
use tools::show;

const SEED: u64 = 24;

fn example(name: &str) -> Vec<u8> {
    fs::read(format!("../examples/{name}.bin")).expect("an example")
}

fn read(text: &str) -> Vec<u8> {
    bytes_of(text.as_bytes()).expect("a good text")
}

fn error(text: &str) -> String {
    bytes_of(text.as_bytes()).expect_err("a bad text").to_string()
}

/// The comments of a listing, without labels and indentation.
fn comments(listing: &str) -> Vec<&str> {
    listing.lines().skip(1).map(|line| line.split_once(": ").expect("a comment").1.trim_start()).collect()
}

fn table_says(text: &str, expected: &[&str]) {
    assert_eq!(comments(&show::table(&read(text))), expected);
}

fn list_says(table: &[u8], text: &str, expected: &[&str]) {
    assert_eq!(comments(&show::list(table, &read(text))), expected);
}

fn rules_say(text: &str, expected: &[&str]) {
    assert_eq!(comments(&show::rules(&read(text))), expected);
}

/// Every listing of the bytes turns back, as a table, as a list over another table and over itself, as a rule file.
fn turns_back(bytes: &[u8], table: &[u8]) {
    for listing in [show::table(bytes), show::list(table, bytes), show::list(bytes, bytes), show::rules(bytes)] {
        assert_eq!(bytes_of(listing.as_bytes()).as_deref(), Ok(bytes), "{listing}");
    }
}

#[test]
fn made_tables_turn_back() {
    for number in 0..2_000 {
        let case = tables::case(SEED, number);
        turns_back(&case.table, &[]);
        turns_back(&case.rules.bytes, &case.table);
    }
}

#[test]
fn made_runs_turn_back() {
    for number in 0..500 {
        let case = runs::case(SEED, number);
        turns_back(&case.list, &case.table);
        turns_back(&case.table, &case.list);
        turns_back(&case.rules.bytes, &case.table);
    }
}

#[test]
fn random_bytes_turn_back() {
    let mut rng = Rng::new(SEED);
    for _ in 0..2_000 {
        let bytes: Vec<u8> = (0..rng.within(0, 600)).map(|_| rng.draw() as u8).collect();
        turns_back(&bytes, &example("till"));
    }
}

#[test]
fn random_rows_turn_back() {
    let mut rng = Rng::new(SEED);
    for rows in (0..400).chain([2_047, 2_048, 2_049, 5_000]) {
        let mut bytes = Vec::new();
        for _ in 0..rows {
            let (kind, a) = (rng.within(0, 8) as u8, rng.within(0, 22) as u8);
            let (b, c, d) = (rng.within(0, 40) as u16, rng.within(0, 2) as u32, rng.within(0, 1) as u64);
            bytes.extend(Row { kind, a, b, c, d }.to_bytes());
        }
        turns_back(&bytes, &example("till"));
    }
}

#[test]
fn beginnings_of_the_examples_turn_back() {
    for entry in fs::read_dir("../examples").expect("examples") {
        let path = entry.expect("an example").path();
        if path.extension().is_some_and(|extension| extension == "bin") {
            let bytes = fs::read(path).expect("an example");
            turns_back(&bytes, &bytes);
            for length in 0..=bytes.len().min(64) {
                turns_back(&bytes[..length], &bytes);
            }
        }
    }
}

#[test]
fn tables_past_every_limit_turn_back() {
    for kind in 1..=7 {
        let start =
            [Row { kind: 1, ..Row::default() }, Row { kind: 2, ..Row::default() }, Row { kind: 4, ..Row::default() }];
        let many = [Row { kind, c: 1, ..Row::default() }; 3_000];
        let bytes: Vec<u8> = start.iter().chain(&many).flat_map(|row| row.to_bytes()).collect();
        turns_back(&bytes, &bytes);
    }
}

/// Whether a comment says that something is not allowed.
fn faulty(comment: &str) -> bool {
    let mut notes = comment.split("; ").skip(1);
    notes.any(|note| !note.starts_with("from row"))
        || ["which ", "neither ", "of no "].iter().any(|word| comment.contains(word))
}

/// Nothing is noted in an accepted file; in one that is refused for a row by itself that row has a note.
fn notes_agree(listing: &str, verdict: Result<(), reference::Refusal>, by_itself: &[u32]) {
    let comments = comments(listing);
    match verdict {
        Ok(()) => assert!(!comments.iter().any(|comment| faulty(comment)), "{listing}"),
        Err((number, row)) if by_itself.contains(&number) => {
            assert!(faulty(comments[row]), "refused {number} row {row}\n{listing}");
        }
        Err(_) => {}
    }
}

#[test]
fn notes_agree_with_the_judge() {
    for number in 0..2_000 {
        let table = tables::case(SEED, number).table;
        notes_agree(&show::table(&table), reference::judge(&table).map(|_| ()), &[2, 3, 4, 6, 18, 19]);
    }
    for number in 0..500 {
        let runs::Case { table, list, rules, .. } = runs::case(SEED, number);
        let whole = |bytes: &[u8]| bytes.len().is_multiple_of(ROW_BYTES) && (1..=4_096).contains(&bytes.len());
        if let (Ok(program), true) = (reference::admit(&table), whole(&list)) {
            let verdict = reference::check_list(&program, &list).map(|_| ());
            notes_agree(&show::list(&table, &list), verdict, &[15, 16]);
        }
        if whole(&rules.bytes) {
            let verdict = reference::rules::read_rules(&rules.bytes).map(|_| ());
            notes_agree(&show::rules(&rules.bytes), verdict, &[20]);
        }
    }
}

#[test]
fn the_credit_module() {
    let expected = "\
# kind A B C D
1 1 0 0 0    # row 0: module 0, trusted
2 0 0 0 0    # row 1:   type 0 of module 0
3 0 0 1 0    # row 2:     field 0 of type 0: number, guarded
4 1 0 0 0    # row 3:   procedure 0 of module 0, public
5 0 0 1 0    # row 4:     local 0: number, parameter
7 1 0 0 500  # row 5:       0 LoadConst 500
7 9 0 0 0    # row 6:       1 Pack 0: type 0 of module 0
7 2 0 0 0    # row 7:       2 MvLoc 0: local 0, number
7 11 0 0 0   # row 8:       3 MoveTo 0: type 0 of module 0
7 16 0 0 0   # row 9:       4 Ret
";
    assert_eq!(show::table(&example("credit")), expected);
}

#[test]
fn the_credit_calls() {
    let expected = "\
# kind A B C D
1 0 0 100 0  # row 0: call 0: procedure 0 (row 3), budget 100
2 0 0 0 7    # row 1:   argument 0: 7
1 0 0 100 0  # row 2: call 1: procedure 0 (row 3), budget 100
2 0 0 0 7    # row 3:   argument 0: 7
";
    assert_eq!(show::list(&example("credit"), &example("credit-calls")), expected);
}

#[test]
fn the_rules_for_guests() {
    let listing = show::rules(&example("guests-rules"));
    let expected = [
        "allow modules 0 to 1 to call modules 0 to 15",
        "allow modules 2 to 15 to call module 0",
        "forbid modules 2 to 15 to call module 1",
        "allow modules 2 to 15 to call modules 2 to 15",
    ];
    assert_eq!(comments(&listing), expected);
}

#[test]
fn labels_keep_comments_in_a_column() {
    let listing = lines(&[0; 11 * ROW_BYTES], |row| format!("at {row}"));
    let expected: Vec<String> = (0..=9).map(|row| format!("0 0 0 0 0  # row {row}:  at {row}")).collect();
    assert_eq!(listing.lines().skip(1).take(10).collect::<Vec<_>>(), expected);
    assert_eq!(listing.lines().last(), Some("0 0 0 0 0  # row 10: at 10"));
}

#[test]
fn the_largest_numbers() {
    let listing = lines(&[255; ROW_BYTES + 1], |_| "all".to_string());
    let expected = "\
# kind A B C D
255 255 65535 4294967295 18446744073709551615  # row 0: all
bytes 255             # row 1: 1 of 16 bytes: not a whole row
";
    assert_eq!(listing, expected);
    assert_eq!(bytes_of(listing.as_bytes()), Ok(vec![255; ROW_BYTES + 1]));
}

#[test]
fn no_rows() {
    assert_eq!(lines(&[], |_| String::new()), "# kind A B C D\n");
    assert_eq!(bytes_of(b""), Ok(Vec::new()));
    assert_eq!(bytes_of(b"\n \t\r\n# nothing"), Ok(Vec::new()));
}

#[test]
fn everything_that_an_operand_names() {
    let text = "
        1 1 0 0 0
        2 0 0 0 0
        3 0 0 0 0
        2 0 0 0 0
        3 0 0 1 0
        3 1 0 0 0
        4 0 0 0 0
        5 1 1 1 0
        5 3 1 1 0
        6 4 0 0 0
        7 2 1 0 0
        7 8 8 0 0
        7 8 9 0 0
        7 20 0 0 0
        7 16 0 0 0
        1 0 0 0 0
        4 1 0 0 0
        5 5 0 0 0
        7 15 0 0 0
        7 14 1 0 0
        7 18 0 0 0
        7 19 3 0 0
        7 1 0 0 18446744073709551615
        7 18 4 0 0
        7 17 4 0 0";
    let expected = [
        "module 0, trusted",
        "type 0 of module 0",
        "field 0 of type 0: number",
        "type 1 of module 0",
        "field 0 of type 1: number, guarded",
        "field 1 of type 1: record of type 0",
        "procedure 0 of module 0, private",
        "local 0: record of type 1, parameter",
        "local 1: writable reference to a record of type 1, parameter",
        "result 0: read-only reference to a number",
        "0 MvLoc 1: local 1, writable reference to a record of type 1",
        "1 BorrowFld 8: field 0 of type 1, guarded number",
        "2 BorrowFld 9: field 1 of type 1, record of type 0",
        "3 Freeze",
        "4 Ret",
        "module 1, guest",
        "procedure 1 of module 1, public",
        "local 0: read-only reference to a record of type 0",
        "0 Call 0: private, module 0, takes 2, gives 1; from row 20",
        "1 Exists 1: type 1 of module 0",
        "2 BranchCond 0: to row 18",
        "3 Op 3: less",
        "4 LoadConst 18446744073709551615; from rows 23, 24",
        "5 BranchCond 4: to row 22",
        "6 Branch 4: to row 22",
    ];
    table_says(text, &expected);
}

#[test]
fn many_jumps_to_one_row() {
    let text = "1 0 0 0 0\n4 0 0 0 0\n7 17 0 0 0\n7 17 0 0 0\n7 17 0 0 0\n7 17 0 0 0\n7 17 0 0 0";
    let listing = show::table(&read(text));
    assert_eq!(comments(&listing)[2], "0 Branch 0: to row 2; from rows 2, 3, 4 and 2 more");
}

#[test]
fn names_of_nothing() {
    let text = "
        1 1 0 0 0
        2 0 0 0 0
        3 1 0 0 0
        3 1 9 0 0
        4 0 0 0 0
        5 3 9 0 0
        6 1 9 0 0
        7 3 1 0 0
        7 8 8 0 0
        7 8 2 0 0
        7 9 9 0 0
        7 15 9 0 0
        7 17 6 0 0
        7 19 4 0 0
        7 21 5 0 0";
    let expected = [
        "module 0, trusted",
        "type 0 of module 0",
        "field 0 of type 0: record of type 0, which is not lower",
        "field 1 of type 0: record of type 9, which is none",
        "procedure 0 of module 0, private",
        "local 0: writable reference to a record of type 9, which is none",
        "result 0: record of type 9, which is none",
        "0 CpLoc 1: local 1, which is none",
        "1 BorrowFld 8: type 1, which is none",
        "2 BorrowFld 2: field 2 of type 0, which is none",
        "3 Pack 9: type 9, which is none",
        "4 Call 9: procedure 9, which is none",
        "5 Branch 6: to row 13",
        "6 Op 4: operation 4, which is none; from row 12",
        "7 opcode 21, which is none",
    ];
    table_says(text, &expected);
}

#[test]
fn a_broken_table() {
    let text = "
        7 17 0 0 0
        3 0 0 0 0
        2 0 0 0 0
        1 2 0 0 0
        9 1 2 3 4
        3 0 0 1 0
        4 2 0 0 0
        5 0 0 0 0
        5 6 0 1 0
        5 0 0 2 0
        6 0 3 0 0
        5 0 0 0 0
        7 17 7 0 0
        7 16 0 0 0x0300000000
        bytes 7 16 0";
    let expected = [
        "0 Branch 0: instruction 0, which is none; in no procedure; the first row must be a module",
        "field 0 of no type: number; field may not follow instruction",
        "type 0 of no module",
        "module 0, trust 2, which is none",
        "kind 9, which is none",
        "field 0 of type 0: number, guarded; field may not follow kind 9",
        "procedure 0 of module 0, visibility 2, which is none",
        "local 0: number",
        "local 1: sort 6, which is none, parameter; a parameter after another local",
        "local 2: number, C 2, which is none",
        "result 0: number; unused byte 2 is 3",
        "local 3: number; local may not follow result",
        "0 Branch 7: instruction 7, which is none",
        "1 Ret; unused byte 12 is 3",
        "3 of 16 bytes: not a whole row",
    ];
    table_says(text, &expected);
}

#[test]
fn guards_and_unused_bytes() {
    let text = "
        1 1 0 0 0
        2 1 0x0201 0 0x8000000000000000
        3 0 0 0 0
        2 0 0 0 0
        3 1 0 1 0
        3 2 0 0 0
        1 0 0 0 0
        2 0 0 0 0
        3 0 0 1 0";
    let expected = [
        "module 0, trusted",
        "type 0 of module 0; unused byte 1 is 1 and 3 more not 0",
        "field 0 of type 0: number",
        "type 1 of module 0",
        "field 0 of type 1: record of type 0, guarded; a guard on what is no number",
        "field 1 of type 1: sort 2, which no field has",
        "module 1, guest",
        "type 2 of module 1",
        "field 0 of type 2: number, guarded; a guard in a guest",
    ];
    table_says(text, &expected);
}

#[test]
fn rows_past_a_limit() {
    let mut expected: Vec<String> = (0..16).map(|number| format!("module {number}, guest")).collect();
    expected.push("module 16, guest; past the limit of 16".to_string());
    let expected: Vec<&str> = expected.iter().map(String::as_str).collect();
    table_says(&"1 0 0 0 0\n".repeat(17), &expected);
}

#[test]
fn broken_lists() {
    let text = "
        2 0 0 0 5
        1 0 1 0 0
        2 0 0 0 5
        2 1 0 0 6
        1 0 9 65536 0
        3 0 0 0 0
        1 0 0 1 256
        bytes 1";
    let expected = [
        "argument 0 of no call: 5",
        "call 0: procedure 1 (row 10), which is private, budget 0; given 2, takes 1; takes or gives what is no number; \
         a budget is 1 to 65535",
        "argument 0: 5",
        "argument 1: 6; unused byte 1 is 1",
        "call 1: procedure 9, which is none, budget 65536; a budget is 1 to 65535",
        "kind 3, which is none",
        "call 2: procedure 0 (row 3), budget 1; given 0, takes 1; unused byte 9 is 1",
        "1 of 16 bytes: not a whole row",
    ];
    list_says(&example("helped"), text, &expected);
}

#[test]
fn broken_rules() {
    let text = "
        1 2 0 0x00000000 0
        1 1 0 0x01000305 0
        1 0 0 0x10001000 0
        1 1 1 0x0f000f00 1
        0 1 0 0x0f000f00 0
        bytes 1 1";
    let expected = [
        "A 2, neither allow nor forbid: module 0 to call module 0",
        "allow modules 5 to 3 to call modules 0 to 1; 5 is above 3",
        "forbid modules 0 to 16 to call modules 0 to 16; module 16 is above 15; module 16 is above 15",
        "allow modules 0 to 15 to call modules 0 to 15; unused byte 2 is 1 and 1 more not 0",
        "kind 0, which is none",
        "2 of 16 bytes: not a whole row",
    ];
    rules_say(text, &expected);
}

#[test]
fn edited_text() {
    let row = [7, 1, 0, 0, 0, 0, 0, 0, 0xf4, 1, 0, 0, 0, 0, 0, 0];
    let good = [
        "7 1 0 0 500",
        "7 1 0 0 500\n",
        "7 1 0 0 500 # a constant",
        "7 1 0 0 500# a # constant\r\n",
        "\t7\t1  0\t 0   500 \t\r\n\r\n",
        "# nothing\n\n  # nothing\n0x7 0x01 0x0000 0x0 0x1F4\n",
        "0x07 1 0 0 0x00000000000000000001f4",
        "007 01 00 0 0000000000000000000000000500",
    ];
    for text in good {
        assert_eq!(bytes_of(text.as_bytes()), Ok(row.to_vec()), "{text:?}");
    }
    assert_eq!(bytes_of(b"7 1 0 0 500 # \xff\xfe\0\r \x80\n"), Ok(row.to_vec()));
    assert_eq!(bytes_of(b"bytes 7 0x1 255"), Ok(vec![7, 1, 255]));
    assert_eq!(bytes_of(b"1 2 0x0403 0x08070605 0x100f0e0d0c0b0a09"), Ok((1..=16).collect()));
    assert_eq!(bytes_of(b"7 1 0 0 500\nbytes 9 # short\n\n# end\n"), Ok([&row[..], &[9]].concat()));
}

#[test]
fn words_that_are_no_numbers() {
    for word in ["x", "-1", "+1", "0x", "0xg", "1f", "1.0", "0X1", "byte", "Bytes", "1_000", "0b1"] {
        let expected = format!("line 1: '{word}' is no number, decimal or 0x hexadecimal");
        assert_eq!(error(&format!("{word} 0 0 0 0")), expected);
        assert_eq!(error(&format!("1 0 0 {word}")), expected);
        assert_eq!(error(&format!("bytes 1 {word}")), expected);
    }
    let bytes = bytes_of(b"1 0 0 0 0\n\x01\xff\0 2").expect_err("no number");
    assert_eq!(bytes.to_string(), "line 2: '\\u{1}\u{fffd}\\0' is no number, decimal or 0x hexadecimal");
    let long = error(&"z".repeat(1_000));
    assert_eq!(long, format!("line 1: '{}..' is no number, decimal or 0x hexadecimal", "z".repeat(40)));
}

#[test]
fn too_few_or_too_many_numbers() {
    assert_eq!(error("1"), "line 1: 1 number; a row has five: kind A B C D");
    assert_eq!(error("# one\n1 0 0 0\n"), "line 2: 4 numbers; a row has five: kind A B C D");
    assert_eq!(error("1 0 0 0 0\n\n7 16 0 0 0 0"), "line 3: 6 numbers; a row has five: kind A B C D");
    assert_eq!(error("bytes"), "line 1: 0 bytes; a short row has 1 to 15");
    assert_eq!(error("bytes 0 0 0 0 0 0 0 0 0 0 0 0 0 0 0 0"), "line 1: 16 bytes; a short row has 1 to 15");
}

#[test]
fn numbers_too_large_for_their_place() {
    assert_eq!(error("256 0 0 0 0"), "line 1: kind is 256; at most 255");
    assert_eq!(error("1 0x100 0 0 0"), "line 1: A is 0x100; at most 255");
    assert_eq!(error("1 0 70000 0 0"), "line 1: B is 70000; at most 65535");
    assert_eq!(error("1 0 0 4294967296 0"), "line 1: C is 4294967296; at most 4294967295");
    let expected = "line 1: D is 18446744073709551616; at most 18446744073709551615";
    assert_eq!(error("1 0 0 0 18446744073709551616"), expected);
    assert_eq!(error("bytes 0 0 300"), "line 1: byte 2 is 300; at most 255");
}

#[test]
fn a_short_row_is_the_last() {
    let expected = "line 4: a row below a short one; only the last row can be short";
    assert_eq!(error("1 0 0 0 0\nbytes 1\n# more\n1 0 0 0 0\n"), expected);
    assert_eq!(error("1 0 0 0 0\nbytes 1\n\nbytes 2"), expected);
}
