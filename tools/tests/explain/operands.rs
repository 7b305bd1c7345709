//! 7, 8, 9 and 10.

use super::{codes, credit, first_line, procedure, said};
use reference::gen::plan::asm::*;
use reference::gen::plan::{local_row, module_row, proc_row, Code};
use reference::program::Sort;
use reference::row::Row;

const LOCALS: [(Sort, bool); 6] = [
    (Sort::Number, true),
    (Sort::Record(0), true),
    (Sort::NumberRef, true),
    (Sort::RecordRef(0), true),
    (Sort::NumberView, true),
    (Sort::RecordView(0), true),
];
const NUMBER: Code = mv(0);
const RECORD: Code = mv(1);
const NUMBER_REF: Code = mv(2);
const RECORD_REF: Code = mv(3);
const NUMBER_VIEW: Code = mv(4);

/// What is said of the last of these instructions, in a procedure with a local of each sort and these results. The first is in row 13,
/// or further down by as many rows as there are results.
fn text(code: &[Code], results: &[Sort], number: u32) -> String {
    let at = 12 + results.len() + code.len();
    let rows = procedure(true, &LOCALS, results, &[code, &[ret()]].concat());
    said(&rows, number, at)
}

fn wrong(code: &[Code]) -> String {
    super::first(text(code, &[], 7))
}

#[test]
fn unfit_locals() {
    assert_eq!(wrong(&[cp(1)]), "row 13 CpLoc 1: local 1 is a record of type 0; CpLoc copies a number or a reference");
    let borrows = "BorrowLoc borrows a number or a record";
    assert_eq!(
        wrong(&[borrow(2)]),
        format!("row 13 BorrowLoc 2: local 2 is a writable reference to a number; {borrows}")
    );
    assert_eq!(
        wrong(&[borrow(5)]),
        format!("row 13 BorrowLoc 5: local 5 is a read-only reference to a record of type 0; {borrows}")
    );
    assert!(text(&[cp(1)], &[], 7).ends_with("\n  mend: MvLoc 1 moves it\n"));
}

#[test]
fn wrong_kinds() {
    let cases: [(&[Code], &str); 20] = [
        (&[RECORD, pop()], "row 14 Pop: takes a number or a reference, read-only or not, finds a record of type 0"),
        (&[NUMBER, st(1)], "row 14 StLoc 1: takes a record of type 0 for local 1, finds a number"),
        (&[NUMBER_VIEW, st(2)], "row 14 StLoc 2: takes a writable reference to a number for local 2, finds a read-only reference to a number"),
        (&[NUMBER, read()], "row 14 ReadRef: takes a reference to a number, read-only or not, finds a number"),
        (&[RECORD_REF, read()], "row 14 ReadRef: takes a reference to a number, read-only or not, finds a writable reference to a record of type 0"),
        (
            &[NUMBER, NUMBER_VIEW, write()],
            "row 15 WriteRef: takes a writable reference to a number on top, finds a read-only reference to a number",
        ),
        (&[RECORD, NUMBER_REF, write()], "row 15 WriteRef: takes a number below the reference, finds a record of type 0"),
        (
            &[RECORD_REF, field(1, 0)],
            "row 14 BorrowFld 8: takes a reference to a record of type 1, read-only or not, finds a writable reference to a record of type 0",
        ),
        (&[RECORD, field(0, 0)], "row 14 BorrowFld 0: takes a reference to a record of type 0, read-only or not, finds a record of type 0"),
        (
            &[NUMBER_REF, RECORD, pack(1)],
            "row 15 Pack 1: takes a number for field 0 of type 1, finds a writable reference to a number",
        ),
        (&[NUMBER, NUMBER, pack(1)], "row 15 Pack 1: takes a record of type 0 for field 1 of type 1, finds a number"),
        (&[RECORD, unpack(1)], "row 14 Unpack 1: takes a record of type 1, finds a record of type 0"),
        (&[NUMBER, RECORD, move_to(0)], "row 15 MoveTo 0: takes a number as the address, finds a record of type 0"),
        (&[NUMBER, NUMBER, move_to(0)], "row 15 MoveTo 0: takes a record of type 0 below the address, finds a number"),
        (&[RECORD, move_from(0)], "row 14 MoveFrom 0: takes a number as the address, finds a record of type 0"),
        (&[NUMBER_REF, global(0)], "row 14 BorrowGlobal 0: takes a number as the address, finds a writable reference to a number"),
        (&[NUMBER_REF, exists(0)], "row 14 Exists 0: takes a number as the address, finds a writable reference to a number"),
        (&[NUMBER_REF, jump_if(0)], "row 14 BranchCond 0: takes a number as the condition, finds a writable reference to a number"),
        (&[NUMBER, NUMBER_REF, arith(ADD)], "row 15 Op 0: takes a number as the second operand, finds a writable reference to a number"),
        (&[NUMBER_VIEW, freeze()], "row 14 Freeze: takes a writable reference, finds a read-only reference to a number"),
    ];
    for (code, expected) in cases {
        assert_eq!(wrong(code), expected);
    }
}

#[test]
fn missing_operands() {
    assert_eq!(
        wrong(&[pop()]),
        "row 13 Pop: takes a number or a reference, read-only or not, finds nothing: Pop takes 1 operand, none is there"
    );
    assert_eq!(
        wrong(&[NUMBER, move_to(0)]),
        "row 14 MoveTo 0: takes a record of type 0 below the address, finds nothing: MoveTo takes 2 operands, 1 is there"
    );
    assert_eq!(
        text(&[NUMBER, jump_if(2), arith(LESS)], &[], 7),
        "row 15 Op 3: takes a number as the second operand, finds nothing: Op takes 2 operands, none is there\n  \
         mend: keep in locals what is needed from one block to the next\n  \
         operands before it: none; its block begins at row 15\n"
    );
}

#[test]
fn calls_and_returns() {
    assert_eq!(
        wrong(&[NUMBER, mv(0), mv(2), mv(3), mv(4), mv(5), call(0)]),
        "row 19 Call 0: takes a record of type 0 for parameter 1 of procedure 0, finds a number"
    );
    let results = [Sort::Number, Sort::NumberView];
    assert_eq!(
        text(&[NUMBER, NUMBER_REF, ret()], &results, 7),
        "row 17 Ret: takes a read-only reference to a number for result 1 of procedure 0, finds a writable reference to a number\n  \
         mend: Freeze the reference first\n  \
         operands before it, the last on top: a number (row 15), a writable reference to a number (row 16)\n"
    );
}

#[test]
fn operands_are_followed_through_the_block() {
    // What each instruction pushes is seen by a Freeze of it.
    let cases: [(&[Code], &str); 9] = [
        (&[load(7)], "a number"),
        (&[NUMBER_REF, read()], "a number"),
        (&[NUMBER, NUMBER, arith(SUB)], "a number"),
        (&[NUMBER, exists(1)], "a number"),
        (&[NUMBER, pack(0)], "a record of type 0"),
        (&[NUMBER, move_from(1)], "a record of type 1"),
        (&[NUMBER, move_from(1), unpack(1)], "a record of type 0"),
        (&[mv(5), field(0, 0)], "a read-only reference to a number"),
        (&[RECORD_REF, freeze()], "a read-only reference to a record of type 0"),
    ];
    for (code, expected) in cases {
        let code = [code, &[freeze()]].concat();
        let line = wrong(&code);
        assert!(line.ends_with(&format!(": takes a writable reference, finds {expected}")), "{line}");
    }
}

#[test]
fn the_address_is_missing() {
    let mut rows = credit();
    rows.remove(7);
    assert_eq!(
        said(&rows, 7, 7),
        "row 7 MoveTo 0: takes a number as the address, finds a record of type 0\n  \
         operands before it, the last on top: a record of type 0 (row 6)\n"
    );
}

#[test]
fn too_many_operands() {
    let rows = procedure(true, &[], &[], &[&[load(1); 17][..], &[ret()]].concat());
    assert_eq!(
        said(&rows, 8, 23),
        "row 23 LoadConst 1: 17 operands are there after it; at most 16\n  mend: keep some of them in locals\n"
    );
}

#[test]
fn operands_left_over() {
    let mend = "mend: before the results are pushed, Pop what is left";
    let rows = procedure(true, &[], &[Sort::Number], &[load(1), load(2), ret()]);
    assert_eq!(
        said(&rows, 9, 10),
        format!(
            "row 10 Ret: 1 operand is left under the results\n  {mend}\n  left, the last on top: a number (row 8)\n"
        )
    );
    let rows = procedure(true, &[], &[], &[load(1), load(2), jump(0)]);
    assert_eq!(first_line(&rows, 9, 9), "row 9 Branch 0: 2 operands are left at the end of its block, a jump");
    let rows = procedure(true, &[], &[], &[load(1), load(2), jump_if(0), ret()]);
    assert_eq!(first_line(&rows, 9, 9), "row 9 BranchCond 0: 1 operand is left at the end of its block, a jump");
    let rows = procedure(true, &[], &[], &[load(1), pop(), jump(1), ret()]);
    assert_eq!(
        first_line(&rows, 9, 7),
        "row 7 LoadConst 1: 1 operand is left at the end of its block: row 8 is a target, of row 9"
    );
}

/// The credit module, then a guest with a private procedure 1 and a public procedure 2 that starts in row 15 with its code.
fn two_modules(code: &[Code]) -> Vec<Row> {
    let mut rows = credit();
    rows.extend([module_row(false), proc_row(false), ret().row(), proc_row(true), local_row(Sort::Number, true)]);
    rows.extend(codes(code));
    rows
}

#[test]
fn things_of_other_modules() {
    let cases: [(&[Code], usize, &str); 4] = [
        (&[mv(0), pack(0), mv(0), move_to(0), ret()], 16, "row 16 Pack 0: type 0 belongs to module 0; Pack"),
        (&[mv(0), exists(0), pop(), ret()], 16, "row 16 Exists 0: type 0 belongs to module 0; Exists"),
        (
            &[mv(0), move_from(0), unpack(0), pop(), ret()],
            16,
            "row 16 MoveFrom 0: type 0 belongs to module 0; MoveFrom",
        ),
        (&[mv(0), global(0), pop(), ret()], 16, "row 16 BorrowGlobal 0: type 0 belongs to module 0; BorrowGlobal"),
    ];
    for (code, at, expected) in cases {
        let expected = format!("{expected} is in module 1 and works only in the type's own");
        assert_eq!(first_line(&two_modules(code), 10, at), expected);
    }
    let mut rows = two_modules(&[ret()]);
    rows[4] = call(1).row();
    rows.drain(5..9);
    assert_eq!(first_line(&rows, 10, 4), "row 4 Call 1: procedure 1 is private in module 1; the Call is in module 0");
}

#[test]
fn records_of_other_modules() {
    let foreign = "is in module 1 and works only in the type's own";
    for (code, at, name) in
        [(&[mv(0), unpack(0), pop(), ret()][..], 16, "Unpack"), (&[mv(0), load(7), move_to(0), ret()], 17, "MoveTo")]
    {
        let mut rows = two_modules(code);
        rows[14] = local_row(Sort::Record(0), true);
        let expected = format!("row {at} {name} 0: type 0 belongs to module 0; {name} {foreign}");
        assert_eq!(first_line(&rows, 10, at), expected);
    }
}

#[test]
fn fields_of_other_modules() {
    let mut rows = two_modules(&[mv(0), field(0, 0), pop(), ret()]);
    rows[14] = local_row(Sort::RecordRef(0), true);
    assert_eq!(
        said(&rows, 10, 16),
        "row 16 BorrowFld 0: type 0 belongs to module 0; BorrowFld is in module 1 and works only in the type's own\n  \
         mend: Call a public procedure of module 0 that reads or writes the field\n"
    );
}
