//! The examples of document 01 with the numbers of document 02, written as bytes, the same with Freeze, and the example
//! of the readings.

mod common;

use common::*;
use reference::row::{write_rows, Row};

/// Rows of table T, byte by byte.
const T: [[u8; 16]; 16] = [
    [1, 1, 0, 0, 0, 0, 0, 0, 0, 0, 0, 0, 0, 0, 0, 0],
    [2, 0, 0, 0, 0, 0, 0, 0, 0, 0, 0, 0, 0, 0, 0, 0],
    [3, 0, 0, 0, 1, 0, 0, 0, 0, 0, 0, 0, 0, 0, 0, 0],
    [4, 1, 0, 0, 0, 0, 0, 0, 0, 0, 0, 0, 0, 0, 0, 0],
    [5, 0, 0, 0, 1, 0, 0, 0, 0, 0, 0, 0, 0, 0, 0, 0],
    [7, 1, 0, 0, 0, 0, 0, 0, 0xF4, 0x01, 0, 0, 0, 0, 0, 0],
    [7, 9, 0, 0, 0, 0, 0, 0, 0, 0, 0, 0, 0, 0, 0, 0],
    [7, 2, 0, 0, 0, 0, 0, 0, 0, 0, 0, 0, 0, 0, 0, 0],
    [7, 11, 0, 0, 0, 0, 0, 0, 0, 0, 0, 0, 0, 0, 0, 0],
    [7, 16, 0, 0, 0, 0, 0, 0, 0, 0, 0, 0, 0, 0, 0, 0],
    [4, 1, 0, 0, 0, 0, 0, 0, 0, 0, 0, 0, 0, 0, 0, 0],
    [5, 3, 0, 0, 1, 0, 0, 0, 0, 0, 0, 0, 0, 0, 0, 0],
    [6, 2, 0, 0, 0, 0, 0, 0, 0, 0, 0, 0, 0, 0, 0, 0],
    [7, 2, 0, 0, 0, 0, 0, 0, 0, 0, 0, 0, 0, 0, 0, 0],
    [7, 8, 0, 0, 0, 0, 0, 0, 0, 0, 0, 0, 0, 0, 0, 0],
    [7, 16, 0, 0, 0, 0, 0, 0, 0, 0, 0, 0, 0, 0, 0, 0],
];

fn t() -> Vec<u8> {
    T.concat()
}

fn s() -> Vec<u8> {
    T[..10].concat()
}

fn s_rows() -> Vec<Row> {
    T[..10].iter().map(|bytes| Row::from_bytes(bytes)).collect()
}

#[test]
fn table_t() {
    assert_eq!(reference::judge(&t()), Err((14, 15)));
}

#[test]
fn the_rows_by_name_are_those_bytes() {
    let rows = [
        trusted(),
        ty(),
        guarded(),
        public(),
        param(N),
        load(500),
        pack(0),
        mv(0),
        move_to(0),
        ret(),
        public(),
        param(rec_ref(0)),
        result(R),
        mv(0),
        field(0, 0),
        ret(),
    ];
    assert_eq!(write_rows(&rows), t());
}

/// Row of the opcode, byte by byte.
fn instruction(opcode: u8) -> [u8; 16] {
    let mut row = [0; 16];
    (row[0], row[1]) = (7, opcode);
    row
}

#[test]
fn t_with_freeze() {
    let mut rows = T.to_vec();
    rows.insert(15, instruction(20));
    // The result is still of sort 2.
    assert_eq!(reference::judge(&rows.concat()), Err((7, 16)));
    rows[12][1] = 4;
    assert_eq!(reference::judge(&rows.concat()), Ok(17));
    // Without Freeze a writable reference stands where a read-only one is asked.
    rows.remove(15);
    assert_eq!(reference::judge(&rows.concat()), Err((7, 15)));
    // Frozen before BorrowFld, which then gives a read-only reference to the guarded number.
    rows.insert(14, instruction(20));
    assert_eq!(reference::judge(&rows.concat()), Ok(17));
}

#[test]
fn t_with_freeze_and_write() {
    let mut rows = T.to_vec();
    rows.remove(12);
    rows.insert(12, instruction(1));
    // 12 LoadConst, 13 MvLoc, 14 BorrowFld, 15 WriteRef
    rows.insert(15, instruction(7));
    assert_eq!(reference::judge(&rows.concat()), Ok(17));
    // With Freeze after BorrowFld, then before it.
    let mut late = rows.clone();
    late.insert(15, instruction(20));
    assert_eq!(reference::judge(&late.concat()), Err((7, 16)));
    rows.insert(14, instruction(20));
    assert_eq!(reference::judge(&rows.concat()), Err((7, 16)));
}

/// Table S, then a public procedure that gives a frozen reference to the number under an address to the guest's.
fn labels() -> Vec<Row> {
    let mut rows = s_rows();
    // Rows 10 to 18.
    rows.extend([public(), param(N), result(N), mv(0), global(0), field(0, 0), freeze(), call(2), ret()]);
    // Rows 19 to 25: the guest.
    rows.extend([guest(), public(), param(V), result(N), mv(0), read(), ret()]);
    rows
}

#[test]
fn a_guest_reads_a_guarded_number() {
    accepted(&labels());
    let list = calls(&[(0, &[7]), (1, &[7])]);
    prints(&labels(), &list, &["call 0 done", "call 1 done 500", "store 0 7 500"]);
    // MvLoc, BorrowGlobal and BorrowFld spend a budget of 3; Freeze is row 16.
    let list = [&calls(&[(0, &[7])])[..], &[call_of(1, 3), argument(7)]].concat();
    prints(&labels(), &list, &["call 0 done", "call 1 stop 31 row 16", "store 0 7 500"]);
}

#[test]
fn a_guest_gets_no_writable_reference_to_a_guarded_number() {
    let mut rows = labels();
    rows[21] = param(R);
    refused(&rows, 7, 17);
    rows.remove(16);
    refused(&rows, 13, 16);
    rows[20] = param(V);
    refused(&rows, 7, 16);
}

#[test]
fn t_unguarded() {
    let mut rows = T;
    rows[2][4] = 0;
    assert_eq!(reference::judge(&rows.concat()), Ok(16));
}

#[test]
fn t_of_a_guest() {
    let mut rows = T;
    rows[0][1] = 0;
    assert_eq!(reference::judge(&rows.concat()), Err((19, 2)));
}

#[test]
fn lengths() {
    assert_eq!(reference::judge(&[]), Err((1, 0)));
    assert_eq!(reference::judge(&t()[..255]), Err((1, 0)));
}

#[test]
fn rows_up_to_2048() {
    let mut rows = vec![guest()];
    for _ in 0..8 {
        rows.push(public());
        rows.extend(vec![jump(0); 254]);
    }
    assert_eq!(rows.len(), 2_041);
    rows.extend([private(), jump(0), jump(0), jump(0), jump(0), jump(0), jump(0)]);
    accepted(&rows);
    rows.push(jump(0));
    refused(&rows, 1, 0);
}

#[test]
fn table_s() {
    assert_eq!(reference::judge(&s()), Ok(10));
}

#[test]
fn s_with_another_end() {
    let mut rows = s_rows();
    rows[9] = pop();
    refused(&rows, 5, 3);
}

#[test]
fn s_without_row_7() {
    let mut rows = s_rows();
    rows.remove(7);
    refused(&rows, 7, 7);
}

#[test]
fn s_with_its_parameter_moved_twice() {
    let mut rows = s_rows();
    rows.splice(8..8, [mv(0), pop()]);
    refused(&rows, 11, 8);
}

#[test]
fn a_marked_reference_given_to_an_own_procedure() {
    let mut rows: Vec<Row> = T[..12].iter().map(|bytes| Row::from_bytes(bytes)).collect();
    rows.extend([mv(0), field(0, 0), call(2), ret(), private(), param(R), ret()]);
    accepted(&rows);
    // The same with a public procedure.
    rows[16] = public();
    refused(&rows, 13, 14);
}

/// A call of procedure 0 with argument 7, byte by byte.
fn call_s(budget: u8) -> [u8; 32] {
    let mut rows = [0; 32];
    (rows[0], rows[4]) = (1, budget);
    (rows[16], rows[24]) = (2, 7);
    rows
}

fn run_s(list: &[u8]) -> String {
    String::from_utf8(reference::run(&s(), list, None, BUFFER).expect("not refused")).expect("plain text")
}

#[test]
fn s_run_twice() {
    let list = [call_s(100), call_s(100)].concat();
    assert_eq!(run_s(&list), "call 0 done\ncall 1 stop 33 row 8\nstore 0 7 500\n");
}

#[test]
fn s_with_budgets() {
    assert_eq!(run_s(&call_s(5)), "call 0 done\nstore 0 7 500\n");
    assert_eq!(run_s(&call_s(4)), "call 0 stop 31 row 9\n");
}

#[test]
fn a_walk_goes_on_past_a_faulty_row() {
    let rows = [guest(), public(), local(N), jump(4), cp(0), pop(), ret(), mv(0), pop(), jump(1)];
    // Instruction 0 is row 3, so instruction 1 is row 4.
    refused(&rows, 11, 4);
}
