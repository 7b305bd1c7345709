//! 5 and 6.

use super::{codes, credit, first_line, procedure, said};
use reference::gen::plan::{asm, field_row, local_row, module_row, proc_row, result_row, type_row, Code};
use reference::program::Sort;
use reference::row::Row;

#[test]
fn ends() {
    let mut rows = credit();
    rows[9] = asm::pop().row();
    assert_eq!(
        said(&rows, 5, 3),
        "row 3, procedure 0: its last instruction, row 9 Pop, is neither Ret nor Branch\n  mend: end it with Ret\n"
    );
    rows[9] = asm::jump_if(0).row();
    assert_eq!(
        first_line(&rows, 5, 3),
        "row 3, procedure 0: its last instruction, row 9 BranchCond 0, is neither Ret nor Branch"
    );
    let empty = "it has no instructions; the last must be Ret or Branch";
    let mut rows = credit();
    rows.push(proc_row(false));
    assert_eq!(first_line(&rows, 5, 10), format!("row 10, procedure 1: {empty}"));
    rows.extend([local_row(Sort::Number, true), module_row(false)]);
    assert_eq!(first_line(&rows, 5, 10), format!("row 10, procedure 1: {empty}"));
}

/// The line for an instruction of a procedure with one local, in row 8. There are two types, with a field and with two.
fn line(code: Code) -> String {
    let rows = procedure(true, &[(Sort::Number, true)], &[], &[code, asm::ret()]);
    first_line(&rows, 6, 8)
}

#[test]
fn instructions() {
    let local = "procedure 0 has 1 local, numbered from 0";
    assert_eq!(line(asm::mv(3)), format!("row 8 MvLoc 3: names local 3; {local}"));
    assert_eq!(line(asm::cp(1)), format!("row 8 CpLoc 1: names local 1; {local}"));
    assert_eq!(line(asm::st(256)), format!("row 8 StLoc 256: names local 256; {local}"));
    assert_eq!(line(asm::borrow(1)), format!("row 8 BorrowLoc 1: names local 1; {local}"));
    let types = "the table has 2 types, numbered from 0";
    assert_eq!(line(asm::field(2, 1)), format!("row 8 BorrowFld 17: names field 1 of type 2; {types}"));
    assert_eq!(
        line(asm::field(1, 2)),
        "row 8 BorrowFld 10: names field 2 of type 1; type 1 has 2 fields, numbered from 0"
    );
    assert_eq!(line(asm::pack(2)), format!("row 8 Pack 2: names type 2; {types}"));
    assert_eq!(line(asm::unpack(2)), format!("row 8 Unpack 2: names type 2; {types}"));
    assert_eq!(line(asm::move_to(9)), format!("row 8 MoveTo 9: names type 9; {types}"));
    assert_eq!(line(asm::move_from(9)), format!("row 8 MoveFrom 9: names type 9; {types}"));
    assert_eq!(line(asm::global(9)), format!("row 8 BorrowGlobal 9: names type 9; {types}"));
    assert_eq!(line(asm::exists(9)), format!("row 8 Exists 9: names type 9; {types}"));
    assert_eq!(line(asm::call(1)), "row 8 Call 1: names procedure 1; the table has 1 procedure, numbered from 0");
    let code = "procedure 0 has 2 instructions, numbered from 0";
    assert_eq!(line(asm::jump(2)), format!("row 8 Branch 2: names instruction 2; {code}"));
    assert_eq!(line(asm::jump_if(30)), format!("row 8 BranchCond 30: names instruction 30; {code}"));
}

#[test]
fn mends_of_instructions() {
    let rows = procedure(true, &[], &[], &[asm::jump(9), asm::ret()]);
    let text = said(&rows, 6, 7);
    assert!(text.ends_with("\n  mend: name the target by its place among the instructions: row 7 is 0\n"), "{text}");
    let rows = procedure(true, &[], &[], &[asm::field(0, 3), asm::ret()]);
    let text = said(&rows, 6, 7);
    assert!(text.ends_with("\n  mend: write 8 times the type plus the field as B\n"), "{text}");
}

#[test]
fn where_there_is_nothing_to_name() {
    let rows = [&[module_row(true), proc_row(true)][..], &codes(&[asm::cp(0), asm::ret()])].concat();
    assert_eq!(first_line(&rows, 6, 2), "row 2 CpLoc 0: names local 0; procedure 0 has no locals");
    let rows = [&[module_row(true), proc_row(true)][..], &codes(&[asm::pack(0), asm::ret()])].concat();
    assert_eq!(first_line(&rows, 6, 2), "row 2 Pack 0: names type 0; the table has no types");
    let rows = [&[module_row(true), type_row(), proc_row(true)][..], &codes(&[asm::field(0, 0), asm::ret()])].concat();
    assert_eq!(said(&rows, 6, 3), "row 3 BorrowFld 0: names field 0 of type 0; type 0 has no fields\n");
}

#[test]
fn declarations() {
    let (number, record) = (field_row(Sort::Number, false), |of| field_row(Sort::Record(of), false));
    let with_types = |field: Row| [module_row(true), type_row(), number, type_row(), field, type_row()];
    assert_eq!(
        first_line(&with_types(record(7)), 6, 4),
        "row 4, a field: names type 7; the table has 3 types, numbered from 0"
    );
    let lower = "the type of a field must be lower than its own";
    assert_eq!(
        first_line(&with_types(record(1)), 6, 4),
        format!("row 4, a field: a record of type 1 in type 1; {lower}")
    );
    assert_eq!(
        first_line(&with_types(record(2)), 6, 4),
        format!("row 4, a field: a record of type 2 in type 1; {lower}")
    );
    let none = "names type 5; the table has 2 types, numbered from 0";
    let rows = procedure(true, &[(Sort::RecordView(5), true)], &[], &[asm::ret()]);
    assert_eq!(first_line(&rows, 6, 7), format!("row 7, a local: {none}"));
    let mut rows = procedure(true, &[], &[], &[asm::ret()]);
    rows.insert(7, result_row(Sort::RecordRef(5)));
    assert_eq!(first_line(&rows, 6, 7), format!("row 7, a result: {none}"));
}
