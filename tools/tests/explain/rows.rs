//! 1, 2, 3, 4, 18 and 19.

use super::{credit, first, first_line, said, said_of_bytes};
use reference::gen::plan::{asm, field_row, local_row, module_row, proc_row, result_row, type_row};
use reference::program::Sort;
use reference::row::{write_rows, Row, ROW_BYTES};

#[test]
fn length() {
    let line = |bytes: usize| first(said_of_bytes(&vec![0; bytes], 1, 0));
    assert_eq!(line(0), "the table has no bytes; it must have 1 to 2048 rows of 16 bytes");
    assert_eq!(line(1), "the table has 1 byte, no multiple of 16: its last row has 1 byte");
    assert_eq!(line(250), "the table has 250 bytes, no multiple of 16: its last row has 10 bytes");
    assert_eq!(line(32_784), "the table has 32784 bytes, 2049 rows; at most 32768 bytes, 2048 rows");
    assert_eq!(line(32_769), "the table has 32769 bytes, over 32768 and no multiple of 16: its last row has 1 byte");
}

#[test]
fn unknown_kinds_and_first_rows() {
    let mut rows = credit();
    rows[4].kind = 9;
    assert_eq!(first_line(&rows, 2, 4), "row 4 has kind 9; kinds are 1 to 7");
    rows[0].kind = 0;
    assert_eq!(first_line(&rows, 2, 0), "row 0 has kind 0; kinds are 1 to 7, and row 0 must be a module");
    assert_eq!(first_line(&[type_row()], 2, 0), "row 0, a type, stands first; row 0 must be a module");
    assert_eq!(
        first_line(&[asm::ret().row()], 2, 0),
        "row 0, an instruction, stands first; row 0 must be a module",
        "its opcode says nothing here"
    );
}

#[test]
fn order() {
    let number = Sort::Number;
    let (module, procedure) = (module_row(true), proc_row(true));
    let (field, local, result, ret) =
        (field_row(number, false), local_row(number, false), result_row(number), asm::ret().row());
    let cases: [(&[Row], &str); 6] = [
        (
            &[module, type_row(), field, procedure, field],
            "row 4, a field, stands after row 3, a procedure; a field may follow a type or a field",
        ),
        (
            &[module, procedure, type_row()],
            "row 2, a type, stands after row 1, a procedure; a type may follow a module, a type or a field",
        ),
        (
            &[module, procedure, result, local],
            "row 3, a local, stands after row 2, a result; a local may follow a procedure or a local",
        ),
        (
            &[module, procedure, ret, result],
            "row 3, a result, stands after row 2, an instruction; a result may follow a procedure, a local or a result",
        ),
        (
            &[module, ret],
            "row 1, an instruction, stands after row 0, a module; \
             an instruction may follow a procedure, a local, a result or an instruction",
        ),
        (
            &[module, type_row(), local],
            "row 2, a local, stands after row 1, a type; a local may follow a procedure or a local",
        ),
    ];
    for (rows, expected) in cases {
        assert_eq!(first_line(rows, 2, rows.len() - 1), expected);
    }
    let text = said(&[module, procedure, type_row()], 2, 2);
    assert!(text.ends_with("\n  mend: put the types of a module above its procedures\n"), "{text}");
}

#[test]
fn counts() {
    let number = Sort::Number;
    let line = |head: &[Row], row: Row, count: usize| {
        let rows = [head, &vec![row; count]].concat();
        first_line(&rows, 3, rows.len() - 1)
    };
    let (module, procedure) = (module_row(true), proc_row(true));
    assert_eq!(line(&[], module, 17), "row 16: a 17th module; at most 16");
    assert_eq!(line(&[module], type_row(), 65), "row 65: a 65th type; at most 64");
    let types = [module, type_row(), type_row()];
    assert_eq!(line(&types, field_row(number, false), 9), "row 11: a 9th field of type 1; at most 8");
    assert_eq!(line(&[module], procedure, 129), "row 129: a 129th procedure; at most 128");
    let procedures = [module, procedure, procedure, procedure];
    assert_eq!(line(&procedures, local_row(number, true), 17), "row 20: a 17th local of procedure 2; at most 16");
    assert_eq!(line(&procedures, result_row(number), 5), "row 8: a 5th result of procedure 2; at most 4");
    assert_eq!(line(&procedures, asm::ret().row(), 257), "row 260: a 257th instruction of procedure 2; at most 256");
}

/// The credit module with one byte changed.
fn with_byte(at: usize, byte: usize, value: u8) -> Vec<u8> {
    let mut bytes = write_rows(&credit());
    bytes[at * ROW_BYTES + byte] = value;
    bytes
}

#[test]
fn unused_bytes() {
    let line = |at, byte, value| first(said_of_bytes(&with_byte(at, byte, value), 4, at));
    let rest = "and unused bytes must be 0";
    assert_eq!(line(0, 2, 7), format!("row 0, a module: byte 2 is 7; a module uses no B, {rest}"));
    assert_eq!(line(1, 1, 3), format!("row 1, a type: byte 1 is 3; a type uses no A, {rest}"));
    assert_eq!(line(2, 3, 1), format!("row 2, a field: byte 3 is 1; a field that is a number uses no B, {rest}"));
    assert_eq!(line(2, 15, 1), format!("row 2, a field: byte 15 is 1; a field uses no D, {rest}"));
    assert_eq!(line(3, 4, 1), format!("row 3, a procedure: byte 4 is 1; a procedure uses no C, {rest}"));
    assert_eq!(line(4, 2, 1), format!("row 4, a local: byte 2 is 1; a local of sort 0 uses no B, {rest}"));
    assert_eq!(line(4, 8, 1), format!("row 4, a local: byte 8 is 1; a local uses no D, {rest}"));
    assert_eq!(line(5, 3, 1), format!("row 5 LoadConst 500: byte 3 is 1; LoadConst uses no B, {rest}"));
    assert_eq!(line(6, 12, 3), format!("row 6 Pack 0: byte 12 is 3; Pack uses no D, {rest}"));
    assert_eq!(line(6, 7, 255), format!("row 6 Pack 0: byte 7 is 255; Pack uses no C, {rest}"));
    assert_eq!(line(9, 2, 1), format!("row 9 Ret: byte 2 is 1; Ret uses no B, {rest}"));
}

#[test]
fn unused_bytes_of_results_and_of_what_is_not_allowed() {
    let rest = "and unused bytes must be 0";
    let mut rows = vec![module_row(true), proc_row(true), result_row(Sort::NumberRef), asm::ret().row()];
    rows[2].b = 1;
    assert_eq!(first_line(&rows, 4, 2), format!("row 2, a result: byte 2 is 1; a result of sort 2 uses no B, {rest}"));
    rows[2] = Row { kind: 6, a: 9, b: 5, c: 0x0300, d: 0 };
    assert_eq!(first_line(&rows, 4, 2), format!("row 2, a result: byte 5 is 3; a result uses no C, {rest}"));
    rows[2] = Row { kind: 7, a: 33, b: 5, c: 1, d: 5 };
    assert_eq!(
        first_line(&rows, 4, 2),
        format!("row 2, an instruction: byte 4 is 1; an instruction uses no C, {rest}")
    );
}

#[test]
fn all_dirty_bytes_of_a_row_are_to_be_mended() {
    let mut rows = credit();
    rows[6].d = 0x0300_0000_0004;
    assert_eq!(
        said(&rows, 4, 6),
        "row 6 Pack 0: byte 8 is 4; Pack uses no D, and unused bytes must be 0\n  mend: set bytes 8 and 13 to 0\n"
    );
}

#[test]
fn many_dirty_bytes_are_all_told() {
    let mut rows = credit();
    rows[9].d = 0x0101_0101_0101_0101;
    rows[9].c = 0x0101;
    let text = said(&rows, 4, 9);
    assert!(text.ends_with("\n  mend: set bytes 4, 5, 8, 9, 10, 11, 12, 13, 14 and 15 to 0\n"), "{text}");
}

#[test]
fn values() {
    let line = |at, byte, value| first(said_of_bytes(&with_byte(at, byte, value), 18, at));
    assert_eq!(line(0, 1, 2), "row 0, a module: A is 2; 1 is trusted, 0 is guest");
    assert_eq!(line(2, 1, 2), "row 2, a field: A is 2; 0 is a number, 1 is a record");
    assert_eq!(line(2, 4, 2), "row 2, a field: C is 2; 1 is guarded, 0 is not");
    assert_eq!(line(3, 1, 255), "row 3, a procedure: A is 255; 1 is public, 0 is private");
    assert_eq!(line(4, 1, 6), "row 4, a local: A is 6; sorts are 0 to 5");
    assert_eq!(line(4, 5, 1), "row 4, a local: C is 257; 1 is a parameter, 0 is not");
    assert_eq!(line(7, 1, 21), "row 7, an instruction: A is 21; opcodes are 0 to 20");

    let rows = [module_row(true), proc_row(true), Row { a: 6, ..result_row(Sort::Number) }];
    assert_eq!(first_line(&rows, 18, 2), "row 2, a result: A is 6; sorts are 0 to 5");

    let mut rows = credit();
    rows[7] = asm::arith(4).row();
    assert_eq!(first_line(&rows, 18, 7), "row 7 Op 4: B is 4; 0 is add, 1 subtract, 2 equal, 3 less");
}

#[test]
fn a_late_parameter_and_several_causes() {
    let (parameter, other) = (local_row(Sort::Number, true), local_row(Sort::Number, false));
    let mut rows = vec![module_row(true), proc_row(true), parameter, other, parameter];
    let late = "a parameter below row 3, a local that is none; parameters stand above other locals";
    assert_eq!(first_line(&rows, 18, 4), format!("row 4, a local: {late}"));
    rows[4].a = 7;
    assert_eq!(first_line(&rows, 18, 4), format!("row 4, a local: A is 7; sorts are 0 to 5; also {late}"));
}

#[test]
fn guards() {
    let mut rows = credit();
    rows[0].a = 0;
    assert_eq!(
        said(&rows, 19, 2),
        "row 2, a field: guards a field of module 0, a guest; only a trusted module can guard fields\n  \
         mend: set C to 0: who may write a guest's field is for its own module to see to\n"
    );
    let mut rows = vec![module_row(true), type_row(), module_row(true), type_row(), field_row(Sort::Record(0), true)];
    let record = "row 4, a field: guards a record; only a number can be guarded";
    assert_eq!(first_line(&rows, 19, 4), record);
    rows[2].a = 0;
    assert_eq!(
        said(&rows, 19, 4),
        format!(
            "{record}; also guards a field of module 1, a guest; only a trusted module can guard fields\n  \
             mend: set C to 0: who may write a guest's field is for its own module to see to\n"
        )
    );
}
