//! Rows by name, for tables written by hand.
#![allow(dead_code)]

use reference::gen::plan::{self, asm, Code};
use reference::program::Sort;
use reference::row::{write_rows, Row};

pub use reference::gen::plan::{argument_row as argument, call_row as call_of};

pub const N: Sort = Sort::Number;
pub const R: Sort = Sort::NumberRef;
pub const V: Sort = Sort::NumberView;

pub const ADD: u16 = 0;
pub const SUB: u16 = 1;
pub const EQUAL: u16 = 2;
pub const LESS: u16 = 3;

pub const ENOUGH: u32 = 65_535;
pub const BUFFER: usize = 65_536;

pub fn rec(of: u8) -> Sort {
    Sort::Record(of)
}
pub fn rec_ref(of: u8) -> Sort {
    Sort::RecordRef(of)
}
pub fn rec_view(of: u8) -> Sort {
    Sort::RecordView(of)
}

pub fn trusted() -> Row {
    plan::module_row(true)
}
pub fn guest() -> Row {
    plan::module_row(false)
}
pub fn ty() -> Row {
    plan::type_row()
}
pub fn num() -> Row {
    plan::field_row(N, false)
}
pub fn guarded() -> Row {
    plan::field_row(N, true)
}
pub fn nested(of: u8) -> Row {
    plan::field_row(rec(of), false)
}
pub fn public() -> Row {
    plan::proc_row(true)
}
pub fn private() -> Row {
    plan::proc_row(false)
}
pub fn param(sort: Sort) -> Row {
    plan::local_row(sort, true)
}
pub fn local(sort: Sort) -> Row {
    plan::local_row(sort, false)
}
pub fn result(sort: Sort) -> Row {
    plan::result_row(sort)
}

/// An instruction row as it stands.
pub fn instr(op: u8, b: u16) -> Row {
    Code { op, b, d: 0 }.row()
}

macro_rules! instructions {
    ($($name:ident($($argument:ident: $kind:ty),*);)*) => {
        $(pub fn $name($($argument: $kind),*) -> Row {
            asm::$name($($argument),*).row()
        })*
    };
}

instructions! {
    load(number: u64);
    pop();
    mv(local: u16);
    cp(local: u16);
    st(local: u16);
    borrow(local: u16);
    read();
    write();
    field(of: u16, number: u16);
    pack(of: u16);
    unpack(of: u16);
    move_to(of: u16);
    move_from(of: u16);
    global(of: u16);
    exists(of: u16);
    call(number: u16);
    ret();
    jump(to: u16);
    jump_if(to: u16);
    arith(which: u16);
    freeze();
}

pub fn judge(rows: &[Row]) -> Result<usize, (u32, usize)> {
    reference::judge(&write_rows(rows))
}

#[track_caller]
pub fn accepted(rows: &[Row]) {
    assert_eq!(judge(rows), Ok(rows.len()));
}

#[track_caller]
pub fn refused(rows: &[Row], number: u32, row: usize) {
    assert_eq!(judge(rows), Err((number, row)));
}

/// The text of a run, which must not be refused.
#[track_caller]
pub fn text(table: &[Row], list: &[Row]) -> String {
    let text = reference::run(&write_rows(table), &write_rows(list), None, BUFFER).expect("not refused");
    String::from_utf8(text).expect("plain text")
}

/// A list of calls with ample budgets.
pub fn calls(of: &[(u16, &[u64])]) -> Vec<Row> {
    let mut rows = Vec::new();
    for &(procedure, arguments) in of {
        rows.push(call_of(procedure, ENOUGH));
        rows.extend(arguments.iter().map(|&number| argument(number)));
    }
    rows
}

#[track_caller]
pub fn prints(table: &[Row], list: &[Row], lines: &[&str]) {
    let expected: String = lines.iter().map(|line| format!("{line}\n")).collect();
    assert_eq!(text(table, list), expected);
}
