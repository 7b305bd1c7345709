//! 11 to 14, with their walks.

use super::{codes, credit, first, procedure, said, said_of_bytes};
use reference::gen::plan::asm::*;
use reference::gen::plan::{field_row, local_row, module_row, proc_row, result_row, type_row, Code};
use reference::program::Sort;
use reference::row::Row;

const LEAKING: &[u8] = include_bytes!("../../../examples/leaking.bin");
const HELPED: &[u8] = include_bytes!("../../../examples/helped.bin");

#[test]
fn a_reference_is_returned() {
    assert_eq!(
        said_of_bytes(LEAKING, 14, 15),
        "\
row 15 Ret: returns a writable reference to guarded field 0 of type 0, borrowed at row 14
  mend: Freeze the reference before Ret and let result 0 be of sort 4
  a walk that shows it:
    row 13  MvLoc 0
    row 14  BorrowFld 0  marked: borrowed from guarded field 0 of type 0
    row 15  Ret          returned as result 0
"
    );
}

/// The table of helpers with this procedure, by its row, public.
fn helped_with_public(row: usize) -> Vec<u8> {
    let mut table = HELPED.to_vec();
    table[16 * row + 1] = 1;
    table
}

#[test]
fn a_helper_made_public_returns_it() {
    assert_eq!(
        said_of_bytes(&helped_with_public(10), 14, 16),
        "\
row 16 Ret: returns a writable reference to guarded field 0 of type 0, borrowed at row 15
  mend: make procedure 1 private
  a walk that shows it:
    row 13  MvLoc 0
    row 14  BorrowGlobal 0
    row 15  BorrowFld 0     marked: borrowed from guarded field 0 of type 0
    row 16  Ret             returned as result 0
"
    );
}

#[test]
fn a_helper_made_public_is_given_it() {
    assert_eq!(
        said_of_bytes(&helped_with_public(17), 13, 30),
        "\
row 30 Call 2: gives public procedure 2 a writable reference to guarded field 0 of type 0, borrowed at row 15
  mend: make procedure 2 private
  first, a walk of procedure 1:
    row 13  MvLoc 0
    row 14  BorrowGlobal 0
    row 15  BorrowFld 0     marked: borrowed from guarded field 0 of type 0
    row 16  Ret             returned as result 0
  last, a walk of procedure 3, where result 0 of procedure 1 is marked:
    row 27  MvLoc 0
    row 28  Call 1          marked: result 0 of procedure 1
    row 29  MvLoc 1
    row 30  Call 2          given to procedure 2 as parameter 0
"
    );
}

/// A trusted module with a guarded number in type 0: rows 0 to 2.
fn guarded() -> Vec<Row> {
    vec![module_row(true), type_row(), field_row(Sort::Number, true)]
}

fn add(rows: &mut Vec<Row>, public: bool, locals: &[(Sort, bool)], results: &[Sort], code: &[Code]) {
    rows.push(proc_row(public));
    rows.extend(locals.iter().map(|&(sort, parameter)| local_row(sort, parameter)));
    rows.extend(results.iter().map(|&sort| result_row(sort)));
    rows.extend(codes(code));
}

#[test]
fn a_reference_is_given_to_another_module() {
    let mut rows = guarded();
    add(&mut rows, true, &[(Sort::RecordRef(0), true)], &[], &[load(5), mv(0), field(0, 0), call(1), ret()]);
    rows.push(module_row(false));
    add(&mut rows, true, &[(Sort::Number, true), (Sort::NumberRef, true)], &[], &[ret()]);
    assert_eq!(
        said(&rows, 13, 8),
        "\
row 8 Call 1: gives procedure 1 of module 1 a writable reference to guarded field 0 of type 0, borrowed at row 7
  mend: Freeze the reference before the Call and let parameter 1 be of sort 4
  a walk that shows it:
    row 5  LoadConst 5
    row 6  MvLoc 0
    row 7  BorrowFld 0  marked: borrowed from guarded field 0 of type 0
    row 8  Call 1       given to procedure 1 as parameter 1
"
    );
}

#[test]
fn a_reference_goes_through_a_helper_to_another_caller() {
    let mut rows = guarded();
    // Procedure 0, a helper, returns what it is given. Procedure 1 gives it a marked reference on one of two ways.
    add(&mut rows, false, &[(Sort::NumberRef, true)], &[Sort::NumberRef], &[mv(0), ret()]);
    let gives = [load(1), jump_if(3), ret(), mv(0), field(0, 0), call(0), pop(), ret()];
    add(&mut rows, true, &[(Sort::RecordRef(0), true)], &[], &gives);
    let returns = [mv(0), call(0), st(1), cp(1), ret()];
    add(&mut rows, true, &[(Sort::NumberRef, true), (Sort::NumberRef, false)], &[Sort::NumberRef], &returns);
    assert_eq!(
        said(&rows, 14, 26),
        "\
row 26 Ret: returns a writable reference to guarded field 0 of type 0, borrowed at row 14
  mend: Freeze the reference before Ret and let result 0 be of sort 4
  first, a walk of procedure 1:
    row 10  LoadConst 1
    row 11  BranchCond 3  jump to row 13 taken
    row 13  MvLoc 0
    row 14  BorrowFld 0   marked: borrowed from guarded field 0 of type 0
    row 15  Call 0        given to procedure 0 as parameter 0
  then, a walk of procedure 0, whose parameter 0 starts marked:
    row 6   MvLoc 0       local 0, a parameter, starts marked; moved from local 0
    row 7   Ret           returned as result 0
  last, a walk of procedure 2, where result 0 of procedure 0 is marked:
    row 22  MvLoc 0
    row 23  Call 0        marked: result 0 of procedure 0
    row 24  StLoc 1       stored in local 1
    row 25  CpLoc 1       copied from local 1
    row 26  Ret           returned as result 0
"
    );
}

#[test]
fn positions_of_parameters_and_results() {
    let reference = Sort::NumberRef;
    let mut rows = guarded();
    // Procedure 0 turns its parameters round; procedure 1 gives it the marked reference first and returns both.
    add(&mut rows, false, &[(reference, true), (reference, true)], &[reference; 2], &[mv(1), mv(0), ret()]);
    let code = [mv(0), field(0, 0), borrow(1), call(0), ret()];
    add(&mut rows, true, &[(Sort::RecordRef(0), true), (Sort::Number, true)], &[reference; 2], &code);
    assert_eq!(
        said(&rows, 14, 20),
        "\
row 20 Ret: returns a writable reference to guarded field 0 of type 0, borrowed at row 17
  mend: Freeze the reference before Ret and let result 1 be of sort 4
  first, a walk of procedure 1:
    row 16  MvLoc 0
    row 17  BorrowFld 0  marked: borrowed from guarded field 0 of type 0
    row 18  BorrowLoc 1
    row 19  Call 0       given to procedure 0 as parameter 0
  then, a walk of procedure 0, whose parameter 0 starts marked:
    row 8   MvLoc 1      local 0, a parameter, starts marked
    row 9   MvLoc 0      moved from local 0
    row 10  Ret          returned as result 1
  last, a walk of procedure 1, where result 1 of procedure 0 is marked:
    row 16  MvLoc 0
    row 17  BorrowFld 0
    row 18  BorrowLoc 1
    row 19  Call 0       marked: result 1 of procedure 0
    row 20  Ret          returned as result 1
"
    );
}

#[test]
fn a_reference_is_carried_round_a_loop() {
    let mut rows = guarded();
    // What is borrowed at the end of a round is returned in the next one.
    let locals = [(Sort::RecordRef(0), true), (Sort::NumberRef, true), (Sort::Number, true)];
    let code = [cp(2), jump_if(4), cp(1), ret(), cp(0), field(0, 0), st(1), jump(0)];
    add(&mut rows, true, &locals, &[Sort::NumberRef], &code);
    assert_eq!(
        said(&rows, 14, 11),
        "\
row 11 Ret: returns a writable reference to guarded field 0 of type 0, borrowed at row 13
  mend: Freeze the reference before Ret and let result 0 be of sort 4
  a walk that shows it:
    row 8   CpLoc 2
    row 9   BranchCond 4  jump to row 12 taken
    row 12  CpLoc 0
    row 13  BorrowFld 0   marked: borrowed from guarded field 0 of type 0
    row 14  StLoc 1       stored in local 1
    row 15  Branch 0      jump to row 8
    row 8   CpLoc 2
    row 9   BranchCond 4  jump to row 12 not taken
    row 10  CpLoc 1       copied from local 1
    row 11  Ret           returned as result 0
"
    );
}

#[test]
fn a_nearer_field_without_a_guard_is_no_cause() {
    let mut rows = guarded();
    rows.push(field_row(Sort::Number, false));
    // One way borrows field 1, which is not guarded, the other, one row longer, field 0.
    let locals = [(Sort::RecordRef(0), true), (Sort::Number, true), (Sort::NumberRef, false)];
    let near = [cp(1), jump_if(6), cp(0), field(0, 1), st(2), jump(11)];
    let far = [load(1), pop(), cp(0), field(0, 0), st(2), mv(2), ret()];
    add(&mut rows, true, &locals, &[Sort::NumberRef], &[&near[..], &far].concat());
    assert_eq!(
        said(&rows, 14, 21),
        "\
row 21 Ret: returns a writable reference to guarded field 0 of type 0, borrowed at row 18
  mend: Freeze the reference before Ret and let result 0 be of sort 4
  a walk that shows it:
    row 9   CpLoc 1
    row 10  BranchCond 6  jump to row 15 taken
    row 15  LoadConst 1
    row 16  Pop
    row 17  CpLoc 0
    row 18  BorrowFld 0   marked: borrowed from guarded field 0 of type 0
    row 19  StLoc 2       stored in local 2
    row 20  MvLoc 2       moved from local 2
    row 21  Ret           returned as result 0
"
    );
}

#[test]
fn a_nearer_public_procedure_that_leaks_is_no_cause() {
    let mut rows = guarded();
    // One way takes the result of procedure 1, which is public and refused in a lower place, the other borrows the field.
    let locals = [(Sort::RecordRef(0), true), (Sort::Number, true), (Sort::NumberRef, false)];
    let near = [cp(1), jump_if(6), cp(0), call(1), st(2), jump(15)];
    let far = [load(1), pop(), load(1), pop(), load(1), pop(), cp(0), field(0, 0), st(2), mv(2), ret()];
    add(&mut rows, true, &locals, &[Sort::NumberRef], &[&near[..], &far].concat());
    add(&mut rows, true, &locals[..1], &[Sort::NumberRef], &[mv(0), field(0, 0), ret()]);
    let text = said(&rows, 14, 24);
    let lines: Vec<&str> = text.lines().collect();
    assert_eq!(lines[0], "row 24 Ret: returns a writable reference to guarded field 0 of type 0, borrowed at row 21");
    assert_eq!(lines[2], "  a walk that shows it:");
}

#[test]
fn the_walks_have_the_fewest_rows_in_all() {
    let mut rows = guarded();
    add(&mut rows, false, &[(Sort::RecordRef(0), true)], &[Sort::NumberRef], &[mv(0), field(0, 0), ret()]);
    // One way has more rows after the Call, the other even more before it.
    let locals = [(Sort::RecordRef(0), true), (Sort::Number, true), (Sort::NumberRef, false)];
    let short = [cp(1), jump_if(8), cp(0), call(0), st(2), load(1), pop(), jump(17)];
    let long = [load(1), pop(), load(1), pop(), load(1), pop(), cp(0), call(0), st(2), mv(2), ret()];
    add(&mut rows, true, &locals, &[Sort::NumberRef], &[&short[..], &long].concat());
    assert_eq!(
        said(&rows, 14, 32),
        "\
row 32 Ret: returns a writable reference to guarded field 0 of type 0, borrowed at row 7
  mend: Freeze the reference before Ret and let result 0 be of sort 4
  first, a walk of procedure 0:
    row 6   MvLoc 0
    row 7   BorrowFld 0   marked: borrowed from guarded field 0 of type 0
    row 8   Ret           returned as result 0
  last, a walk of procedure 1, where result 0 of procedure 0 is marked:
    row 14  CpLoc 1
    row 15  BranchCond 8  jump to row 22 not taken
    row 16  CpLoc 0
    row 17  Call 0        marked: result 0 of procedure 0
    row 18  StLoc 2       stored in local 2
    row 19  LoadConst 1
    row 20  Pop
    row 21  Branch 17     jump to row 31
    row 31  MvLoc 2       moved from local 2
    row 32  Ret           returned as result 0
"
    );
}

#[test]
fn the_shorter_of_two_ways_is_told() {
    let filler = [load(1), pop()];
    let code = [&[load(1), jump_if(8)][..], &filler, &filler, &[load(1), jump_if(10)], &filler, &[mv(1), pop(), ret()]];
    let rows = procedure(true, &[(Sort::Number, true), (Sort::Number, false)], &[], &code.concat());
    assert_eq!(
        said(&rows, 11, 19),
        "\
row 19 MvLoc 1: local 1 is empty on some walk
  mend: StLoc 1 on every walk before
  a walk that shows it:
    row 9   LoadConst 1   local 1 starts empty
    row 10  BranchCond 8  jump to row 17 taken
    row 17  LoadConst 1
    row 18  Pop
    row 19  MvLoc 1       local 1 is empty
"
    );
}

#[test]
fn a_local_is_moved_twice() {
    let mut rows = credit();
    rows.splice(8..8, codes(&[mv(0), pop()]));
    assert_eq!(
        said(&rows, 11, 8),
        "\
row 8 MvLoc 0: local 0 is empty on some walk
  mend: StLoc 0 on every walk before, or CpLoc 0 instead of MvLoc 0 at row 7
  a walk that shows it:
    row 5  LoadConst 500  local 0, a parameter, starts full
    row 6  Pack 0
    row 7  MvLoc 0        local 0 is emptied
    row 8  MvLoc 0        local 0 is empty
"
    );
}

#[test]
fn a_local_is_empty_in_the_second_round_of_a_loop() {
    let rows = procedure(true, &[(Sort::Number, true)], &[], &[mv(0), pop(), load(1), jump_if(0), ret()]);
    assert_eq!(
        said(&rows, 11, 8),
        "\
row 8 MvLoc 0: local 0 is empty on some walk
  mend: StLoc 0 on every walk before, or CpLoc 0 instead of MvLoc 0 at row 8
  a walk that shows it:
    row 8   MvLoc 0       local 0, a parameter, starts full; local 0 is emptied
    row 9   Pop
    row 10  LoadConst 1
    row 11  BranchCond 0  jump to row 8 taken
    row 8   MvLoc 0       local 0 is empty
"
    );
}

#[test]
fn a_local_is_never_filled() {
    let mend = "mend: StLoc 1 on every walk before";
    for (code, name) in [(cp(1), "CpLoc"), (borrow(1), "BorrowLoc")] {
        let rows = procedure(true, &[(Sort::Number, true), (Sort::Number, false)], &[], &[code, pop(), ret()]);
        let expected = format!(
            "row 9 {name} 1: local 1 is empty on some walk\n  {mend}\n  a walk that shows it:\n    \
             row 9  {name} 1  local 1 starts empty\n"
        );
        assert_eq!(said(&rows, 11, 9), expected);
    }
}

#[test]
fn a_record_is_overwritten() {
    let code = [load(1), pack(0), st(0), load(1), jump_if(0), ret()];
    let rows = procedure(true, &[(Sort::Record(0), false)], &[], &code);
    assert_eq!(
        said(&rows, 12, 10),
        "\
row 10 StLoc 0: local 0 holds a record of type 0 on some walk; a record cannot be overwritten
  mend: on the walks where it is full, before they meet the others, MvLoc 0, and Unpack the record, publish it, give it to a Call or return it
  a walk that shows it:
    row 8   LoadConst 1   local 0 starts empty
    row 9   Pack 0
    row 10  StLoc 0       local 0 is filled
    row 11  LoadConst 1
    row 12  BranchCond 0  jump to row 8 taken
    row 8   LoadConst 1
    row 9   Pack 0
    row 10  StLoc 0       local 0 holds a record
"
    );
}

#[test]
fn a_record_is_left_behind() {
    // The condition jumps over the Unpack to Ret.
    let locals = [(Sort::Record(0), true), (Sort::Number, true)];
    let rows = procedure(true, &locals, &[], &[mv(1), jump_if(5), mv(0), unpack(0), pop(), ret()]);
    assert_eq!(
        said(&rows, 12, 14),
        "\
row 14 Ret: local 0 holds a record of type 0 on some walk; a record cannot be left behind
  mend: on the walks where it is full, before they meet the others, MvLoc 0, and Unpack the record, publish it, give it to a Call or return it
  a walk that shows it:
    row 9   MvLoc 1       local 0, a parameter, starts full
    row 10  BranchCond 5  jump to row 14 taken
    row 14  Ret           local 0 holds a record
"
    );
}

#[test]
fn a_long_walk_is_shortened() {
    // Row 9 empties local 0, row 73 wants it.
    let filler = [load(1), pop()].repeat(15);
    let code = [&[mv(0), pop()][..], &filler, &[load(2), st(1)], &filler, &[mv(0), pop(), ret()]].concat();
    let rows = procedure(true, &[(Sort::Number, true), (Sort::Number, false)], &[], &code);
    let text = said(&rows, 11, 73);
    let lines: Vec<&str> = text.lines().collect();
    assert_eq!(lines[0], "row 73 MvLoc 0: local 0 is empty on some walk");
    assert_eq!(lines[3], "    row 9   MvLoc 0      local 0, a parameter, starts full; local 0 is emptied");
    assert_eq!(lines[14], "    row 20  Pop");
    assert_eq!(lines[15], "    ... 41 rows more");
    assert_eq!(lines[16], "    row 62  Pop");
    assert_eq!(lines[27], "    row 73  MvLoc 0      local 0 is empty");
    assert_eq!(lines.len(), 28);
}

#[test]
fn rows_that_matter_are_kept_in_a_long_walk() {
    let mut rows = guarded();
    let filler = [load(1), pop()].repeat(15);
    let code = [&filler[..], &[mv(0), field(0, 0), st(1)], &filler, &[mv(1), ret()]].concat();
    add(&mut rows, true, &[(Sort::RecordRef(0), true), (Sort::NumberRef, false)], &[Sort::NumberRef], &code);
    let text = said(&rows, 14, 71);
    let lines: Vec<&str> = text.lines().collect();
    assert_eq!(
        first(text.clone()),
        "row 71 Ret: returns a writable reference to guarded field 0 of type 0, borrowed at row 38"
    );
    assert_eq!(lines[15], "    ... 19 rows more");
    assert_eq!(lines[16], "    row 38  BorrowFld 0  marked: borrowed from guarded field 0 of type 0");
    assert_eq!(lines[17], "    row 39  StLoc 1      stored in local 1");
    assert_eq!(lines[18], "    ... 20 rows more");
    assert_eq!(lines[19], "    row 60  LoadConst 1");
}
