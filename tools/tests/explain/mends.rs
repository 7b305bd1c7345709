//! Mends that are told, and that they are mends: the table as it is after one is judged again.

use super::{codes, said, said_of_bytes};
use reference::gen::plan::asm::*;
use reference::gen::plan::{field_row, local_row, module_row, proc_row, result_row, type_row, Code};
use reference::program::Sort;
use reference::row::{kind, read_rows, write_rows, Row};

/// The mend that is told of the table, which is refused so.
fn mend(rows: &[Row], number: u32, at: usize) -> Option<String> {
    let text = said(rows, number, at);
    text.lines().find_map(|line| line.strip_prefix("  mend: ")).map(str::to_string)
}

fn accepted(rows: &[Row]) {
    assert_eq!(reference::judge(&write_rows(rows)), Ok(rows.len()));
}

/// The rows with some in place of `count` rows at `at`.
fn with(rows: &[Row], at: usize, count: usize, new: &[Row]) -> Vec<Row> {
    let mut rows = rows.to_vec();
    rows.splice(at..at + count, new.iter().copied());
    rows
}

fn add(rows: &mut Vec<Row>, public: bool, locals: &[(Sort, bool)], results: &[Sort], code: &[Code]) {
    rows.push(proc_row(public));
    rows.extend(locals.iter().map(|&(sort, parameter)| local_row(sort, parameter)));
    rows.extend(results.iter().map(|&sort| result_row(sort)));
    rows.extend(codes(code));
}

/// A trusted module with type 0, which has no fields: rows 0 and 1. Then a procedure, in row 2.
fn keeps(locals: &[(Sort, bool)], results: &[Sort], code: &[Code]) -> Vec<Row> {
    let mut rows = vec![module_row(true), type_row()];
    add(&mut rows, true, locals, results, code);
    rows
}

/// The same with procedure 0 that takes a record and unpacks it, and a guest with procedure 1, in row 8.
fn guest(locals: &[(Sort, bool)], results: &[Sort], code: &[Code]) -> Vec<Row> {
    let mut rows = keeps(&[(Sort::Record(0), true)], &[], &[mv(0), unpack(0), ret()]);
    rows.push(module_row(false));
    add(&mut rows, true, locals, results, code);
    rows
}

const RECORD: Sort = Sort::Record(0);

#[test]
fn a_record_under_the_results() {
    let rows = keeps(&[(RECORD, false)], &[], &[pack(0), ret()]);
    assert_eq!(mend(&rows, 9, 5).unwrap(), "return the record, publish it or Unpack it");
    accepted(&with(&rows, 4, 0, &[result_row(RECORD)]));
    accepted(&with(&rows, 5, 0, &codes(&[load(7), move_to(0)])));
    accepted(&with(&rows, 5, 0, &codes(&[unpack(0)])));

    let rows = keeps(&[], &[Sort::Number], &[load(1), pack(0), pack(0), load(2), ret()]);
    let expected = "before the results are pushed, return each record, publish it or Unpack it; Pop what else is left";
    assert_eq!(mend(&rows, 9, 8).unwrap(), expected);
    accepted(&with(&rows, 7, 0, &codes(&[unpack(0), load(7), move_to(0), pop()])));
}

#[test]
fn numbers_that_are_left() {
    let rows = keeps(&[], &[], &[load(1), ret()]);
    assert_eq!(mend(&rows, 9, 4).unwrap(), "Pop what is left");
    accepted(&with(&rows, 4, 0, &codes(&[pop()])));

    let rows = keeps(&[], &[Sort::Number], &[load(1), load(2), ret()]);
    assert_eq!(mend(&rows, 9, 6).unwrap(), "before the results are pushed, Pop what is left");
    accepted(&with(&rows, 5, 0, &codes(&[pop()])));

    let rows = keeps(&[(Sort::Number, false)], &[], &[load(1), load(2), jump_if(0), ret()]);
    let expected = "before the condition is pushed, Pop what is left, or StLoc it if it is needed later";
    assert_eq!(mend(&rows, 9, 6).unwrap(), expected);
    accepted(&with(&rows, 5, 0, &codes(&[pop()])));
    accepted(&with(&rows, 5, 0, &codes(&[st(0)])));
}

#[test]
fn a_record_at_an_edge() {
    let rows = keeps(&[(RECORD, false)], &[], &[pack(0), jump(2), ret()]);
    let expected = "StLoc what is left; a record can also be unpacked or published";
    assert_eq!(mend(&rows, 9, 5).unwrap(), expected);
    accepted(&with(&rows, 5, 2, &codes(&[st(0), jump(3), mv(0), unpack(0), ret()])));
    accepted(&with(&rows, 5, 2, &codes(&[unpack(0), jump(3), ret()])));

    let rows = guest(&[(RECORD, true)], &[], &[mv(0), jump(2), ret()]);
    let expected = "StLoc what is left; a record can also be given to a public procedure of its module";
    assert_eq!(mend(&rows, 9, 11).unwrap(), expected);
    accepted(&with(&rows, 11, 2, &codes(&[call(0), jump(3), ret()])));
}

#[test]
fn a_record_on_one_walk_only() {
    let code = [mv(0), jump_if(4), pack(0), st(1), ret()];
    let rows = keeps(&[(Sort::Number, true), (RECORD, false)], &[], &code);
    assert_eq!(
        mend(&rows, 12, 9).unwrap(),
        "on the walks where it is full, before they meet the others, MvLoc 1, and Unpack the record, publish it, \
         give it to a Call or return it"
    );
    let mended = with(&rows, 6, 3, &codes(&[jump_if(6), pack(0), st(1), mv(1), unpack(0)]));
    accepted(&mended);
    // At Ret it would be wrong.
    let wrong = with(&rows, 9, 0, &codes(&[mv(1), unpack(0)]));
    assert_eq!(reference::judge(&write_rows(&wrong)), Err((11, 9)));

    let rows = keeps(&[(RECORD, true)], &[], &[ret()]);
    let expected = "MvLoc 0 before, and Unpack the record, publish it, give it to a Call or return it";
    assert_eq!(mend(&rows, 12, 4).unwrap(), expected);
    accepted(&with(&rows, 4, 0, &codes(&[mv(0), unpack(0)])));
    assert!(said(&rows, 12, 4).ends_with("\n    row 4  Ret  local 0, a parameter, starts full\n"));
}

#[test]
fn a_record_that_is_missing_on_one_walk() {
    let code = [mv(0), jump_if(4), pack(0), st(1), mv(1), unpack(0), ret()];
    let rows = keeps(&[(Sort::Number, true), (RECORD, false)], &[], &code);
    let expected = "on the walks where it is empty, before they meet the others, StLoc 1";
    assert_eq!(mend(&rows, 11, 9).unwrap(), expected);
    let filled = codes(&[jump_if(5), pack(0), st(1), jump(7), pack(0), st(1)]);
    accepted(&with(&rows, 6, 3, &filled));
}

#[test]
fn records_of_another_module() {
    let ways = "return the record, or give it to a public procedure of module 0";
    let rows = guest(&[(RECORD, true)], &[], &[mv(0), pop(), ret()]);
    assert_eq!(mend(&rows, 7, 11).unwrap(), format!("a record cannot be dropped: {ways}"));
    accepted(&with(&rows, 11, 1, &codes(&[call(0)])));
    accepted(&with(&with(&rows, 11, 1, &[]), 10, 0, &[result_row(RECORD)]));

    let rows = guest(&[(RECORD, true)], &[], &[mv(0), ret()]);
    assert_eq!(mend(&rows, 9, 11).unwrap(), ways);
    accepted(&with(&rows, 11, 0, &codes(&[call(0)])));

    let rows = guest(&[(RECORD, true)], &[], &[ret()]);
    assert_eq!(mend(&rows, 12, 10).unwrap(), format!("MvLoc 0 before, and {ways}"));
    accepted(&with(&rows, 10, 0, &codes(&[mv(0), call(0)])));

    let rows = keeps(&[(RECORD, true)], &[], &[mv(0), pop(), ret()]);
    let expected = "a record cannot be dropped: return the record, publish it or Unpack it";
    assert_eq!(mend(&rows, 7, 5).unwrap(), expected);
    accepted(&with(&rows, 5, 1, &codes(&[unpack(0)])));
}

const LOCALS: [(Sort, bool); 3] = [(Sort::Number, true), (Sort::NumberRef, true), (RECORD, true)];

#[test]
fn operands_in_another_order() {
    let order = "its operands are there in the other order: push";
    let written = [mv(2), unpack(0), mv(1), mv(0), write(), ret()];
    let rows = keeps(&LOCALS, &[], &written);
    assert_eq!(mend(&rows, 7, 10).unwrap(), format!("{order} a number and then a writable reference to a number"));
    accepted(&with(&rows, 8, 2, &codes(&[mv(0), mv(1)])));

    let rows = keeps(&LOCALS, &[], &[mv(0), mv(2), move_to(0), ret()]);
    assert_eq!(mend(&rows, 7, 8).unwrap(), format!("{order} a record of type 0 and then a number"));
    accepted(&with(&rows, 6, 2, &codes(&[mv(2), mv(0)])));

    let results = [RECORD, Sort::Number, Sort::NumberRef];
    let rows = keeps(&LOCALS, &results, &[mv(0), mv(1), mv(2), ret()]);
    assert_eq!(
        mend(&rows, 7, 12).unwrap(),
        "its operands are there in another order: push a record of type 0, a number and then a writable reference to a number"
    );
    accepted(&with(&rows, 9, 3, &codes(&[mv(2), mv(0), mv(1)])));

    // One of the two is there: a number read through it would be in the place of the reference.
    let rows = keeps(&LOCALS[..2], &[], &[mv(0), mv(1), call(0), ret()]);
    accepted(&rows);
    let rows = keeps(&[(Sort::NumberRef, true), (Sort::Number, true)], &[], &[mv(0), call(0), ret()]);
    assert_eq!(mend(&rows, 7, 6), None);
}

#[test]
fn read_only_references() {
    let rows = keeps(&LOCALS[..2], &[], &[mv(0), mv(1), freeze(), write(), ret()]);
    assert_eq!(mend(&rows, 7, 8).unwrap(), "leave Freeze at row 7 out");
    accepted(&with(&rows, 7, 1, &[]));
    let rows = keeps(&LOCALS[1..2], &[Sort::NumberRef], &[mv(0), freeze(), ret()]);
    assert_eq!(mend(&rows, 7, 7).unwrap(), "let result 0 be of sort 4");
    accepted(&with(&rows, 4, 1, &[result_row(Sort::NumberView)]));
    let rows = keeps(&[(Sort::NumberView, true)], &[], &[load(1), mv(0), write(), ret()]);
    assert_eq!(mend(&rows, 7, 6), None);
}

/// A trusted module with a guarded number, rows 0 to 2; procedure 0 gives a marked reference to procedure 1, at row 7.
fn gives(code: &[Code]) -> Vec<Row> {
    let mut rows = vec![module_row(true), type_row(), field_row(Sort::Number, true)];
    add(&mut rows, true, &[(Sort::RecordRef(0), true)], &[], &[mv(0), field(0, 0), call(1), ret()]);
    add(&mut rows, true, &[(Sort::NumberRef, true)], &[], code);
    rows
}

/// The same, and a guest that calls procedure 1.
fn with_guest(mut rows: Vec<Row>) -> Vec<Row> {
    rows.push(module_row(false));
    add(&mut rows, true, &[(Sort::Number, true)], &[], &[borrow(0), call(1), ret()]);
    rows
}

const READS: [Code; 4] = [mv(0), read(), pop(), ret()];
const WRITES: [Code; 4] = [load(1), mv(0), write(), ret()];
const FREEZE_GIVEN: &str = "Freeze the reference before the Call and let parameter 0 be of sort 4";

#[test]
fn a_marked_reference_is_given() {
    let private = |rows: &[Row]| with(rows, 9, 1, &[proc_row(false)]);
    let frozen =
        |rows: &[Row]| with(&with(rows, 10, 1, &[local_row(Sort::NumberView, true)]), 7, 0, &codes(&[freeze()]));
    let rows = gives(&READS);
    assert_eq!(mend(&rows, 13, 7).unwrap(), format!("{FREEZE_GIVEN}, or make procedure 1 private"));
    accepted(&private(&rows));
    accepted(&frozen(&rows));

    let rows = gives(&WRITES);
    assert_eq!(mend(&rows, 13, 7).unwrap(), "make procedure 1 private");
    accepted(&private(&rows));
    assert_eq!(reference::judge(&write_rows(&frozen(&rows))), Err((7, 14)));

    let rows = with_guest(gives(&READS));
    assert_eq!(mend(&rows, 13, 7).unwrap(), FREEZE_GIVEN);
    accepted(&with(&frozen(&rows), 20, 0, &codes(&[freeze()])));
    assert_eq!(reference::judge(&write_rows(&private(&rows))), Err((10, 19)));

    let rows = with_guest(gives(&WRITES));
    assert_eq!(mend(&rows, 13, 7).unwrap(), "Call a private procedure of module 0 that does the same");
    let mut mended = with(&rows, 7, 1, &codes(&[call(2)]));
    let copy = [proc_row(false)].iter().chain(&rows[10..15]).copied().collect::<Vec<_>>();
    mended.splice(15..15, copy);
    accepted(&mended);
}

#[test]
fn a_marked_reference_is_given_on() {
    // Procedure 1 gives it to procedure 2, which writes: neither is read-only, and as a helper procedure 1 gives it away.
    let mut rows = gives(&[mv(0), call(2), ret()]);
    add(&mut rows, true, &[(Sort::NumberRef, true)], &[], &WRITES);
    assert_eq!(mend(&rows, 13, 7), None);
    // A procedure of another module that writes.
    let mut rows = gives(&WRITES);
    rows.insert(9, module_row(true));
    assert_eq!(mend(&rows, 13, 7), None);
}

/// A trusted module with a guarded number; procedure 0 returns a marked reference, at row 8. Procedure 1, from row 9, calls it.
fn returns(results: &[Sort], code: &[Code]) -> Vec<Row> {
    let mut rows = vec![module_row(true), type_row(), field_row(Sort::Number, true)];
    add(&mut rows, true, &[(Sort::RecordRef(0), true)], &[Sort::NumberRef], &[mv(0), field(0, 0), ret()]);
    add(&mut rows, true, &[(Sort::RecordRef(0), true)], results, code);
    rows
}

const FREEZE_RETURNED: &str = "Freeze the reference before Ret and let result 0 be of sort 4";

#[test]
fn a_marked_reference_is_returned() {
    let private = |rows: &[Row]| with(rows, 3, 1, &[proc_row(false)]);
    let frozen = |rows: &[Row]| with(&with(rows, 8, 0, &codes(&[freeze()])), 5, 1, &[result_row(Sort::NumberView)]);
    let rows = returns(&[], &[mv(0), call(0), read(), pop(), ret()]);
    assert_eq!(mend(&rows, 14, 8).unwrap(), format!("{FREEZE_RETURNED}, or make procedure 0 private"));
    accepted(&private(&rows));
    accepted(&frozen(&rows));

    let rows = returns(&[], &[load(1), mv(0), call(0), write(), ret()]);
    assert_eq!(mend(&rows, 14, 8).unwrap(), "make procedure 0 private");
    accepted(&private(&rows));

    // As a private procedure it would be called by none, or not by the guest that calls it, or its caller would leak.
    let rows = returns(&[], &[ret()]);
    assert_eq!(mend(&rows, 14, 8).unwrap(), FREEZE_RETURNED);
    accepted(&frozen(&rows));
    let mut rows = returns(&[], &[mv(0), call(0), read(), pop(), ret()]);
    rows.insert(9, module_row(false));
    assert_eq!(mend(&rows, 14, 8).unwrap(), FREEZE_RETURNED);
    accepted(&frozen(&rows));
    let rows = returns(&[Sort::NumberRef], &[mv(0), call(0), ret()]);
    assert_eq!(mend(&rows, 14, 8), None);
}

#[test]
fn types_that_hold_each_other() {
    let record = |of| field_row(Sort::Record(of), false);
    let number = "let the field be a number, the address of a published record";
    let rows = [module_row(true), type_row(), record(0), proc_row(true), ret().row()];
    assert_eq!(mend(&rows, 6, 2).unwrap(), format!("a type cannot hold itself: {number}"));
    accepted(&with(&rows, 2, 1, &[field_row(Sort::Number, false)]));
    let rows = [module_row(true), type_row(), record(1), type_row(), record(0)];
    assert_eq!(mend(&rows, 6, 2).unwrap(), format!("type 1 holds type 0 already: {number}"));
    accepted(&with(&rows, 2, 1, &[field_row(Sort::Number, false)]));

    let order = "types are numbered in the order of their rows";
    let rows = [module_row(true), type_row(), record(1), type_row()];
    assert_eq!(mend(&rows, 6, 2).unwrap(), format!("put type 1 above type 0; {order}"));
    accepted(&[module_row(true), type_row(), type_row(), record(0)]);
    let rows = [module_row(true), type_row(), record(2), type_row(), type_row(), record(1)];
    assert_eq!(mend(&rows, 6, 2).unwrap(), format!("put type 2 and the types that it holds above type 0; {order}"));
    accepted(&[module_row(true), type_row(), type_row(), record(0), type_row(), record(1)]);
    let rows = [module_row(true), type_row(), record(1), module_row(false), type_row()];
    assert_eq!(mend(&rows, 6, 2).unwrap(), format!("put the module of type 1 above that of type 0; {order}"));
    accepted(&[module_row(false), type_row(), module_row(true), type_row(), record(0)]);
    let rows =
        [module_row(true), type_row(), record(2), type_row(), module_row(false), type_row(), type_row(), record(1)];
    assert_eq!(mend(&rows, 6, 2).unwrap(), number);
    accepted(&with(&rows, 2, 1, &[field_row(Sort::Number, false)]));
}

#[test]
fn rows_without_their_owner() {
    let (module, procedure, ret) = (module_row(true), proc_row(true), ret().row());
    let (field, local) = (field_row(Sort::Number, false), local_row(Sort::Number, true));
    assert_eq!(mend(&[field], 2, 0).unwrap(), "put a module row and a type row above it");
    accepted(&[module, type_row(), field]);
    assert_eq!(mend(&[local, ret], 2, 0).unwrap(), "put a module row and a procedure row above it");
    accepted(&[module, procedure, local, ret]);
    assert_eq!(mend(&[procedure, ret], 2, 0).unwrap(), "put a module row above it");
    accepted(&[module, procedure, ret]);
    let below = "put a type row below the module row, and the field below that";
    assert_eq!(mend(&[module, procedure, ret, field], 2, 3).unwrap(), below);
    accepted(&[module, type_row(), field, procedure, ret]);
    assert_eq!(mend(&[module, local, ret], 2, 1).unwrap(), "put a procedure row above it");
    accepted(&[module, procedure, local, ret]);
}

#[test]
fn guards_counts_and_ends() {
    let record = field_row(Sort::Record(0), true);
    let rows = |trusted, fields: &[Row]| {
        let head = [module_row(trusted), type_row()];
        [&head[..], fields, &[module_row(true), type_row(), record]].concat()
    };
    let number = field_row(Sort::Number, false);
    let numbers = rows(true, &[number]);
    assert_eq!(mend(&numbers, 19, 5).unwrap(), "set C to 0 and guard the numbers in type 0");
    accepted(&with(
        &with(&numbers, 5, 1, &[field_row(Sort::Record(0), false)]),
        2,
        1,
        &[field_row(Sort::Number, true)],
    ));
    let unguarded = field_row(Sort::Record(0), false);
    assert_eq!(mend(&rows(false, &[number]), 19, 5).unwrap(), "set C to 0");
    accepted(&with(&rows(false, &[number]), 5, 1, &[unguarded]));
    assert_eq!(mend(&rows(true, &[]), 19, 4).unwrap(), "set C to 0");
    accepted(&with(&rows(true, &[]), 4, 1, &[unguarded]));

    let rows = [&[module_row(true), proc_row(true)][..], &[local_row(Sort::Number, true); 17]].concat();
    assert_eq!(mend(&rows, 3, 18).unwrap(), "take a record in place of some of the parameters");
    let rows = [module_row(true), proc_row(true), result_row(Sort::Number)];
    assert_eq!(mend(&rows, 5, 1).unwrap(), "push its results and end it with Ret");
    accepted(&[&rows[..], &codes(&[load(1), ret()])].concat());
}

#[test]
fn private_procedures_of_other_modules() {
    let mut rows = vec![module_row(true), type_row(), field_row(Sort::Number, true)];
    add(&mut rows, false, &[(Sort::Number, true)], &[Sort::NumberRef], &[mv(0), global(0), field(0, 0), ret()]);
    rows.push(module_row(false));
    add(&mut rows, true, &[], &[], &[load(7), call(0), pop(), ret()]);
    assert_eq!(mend(&rows, 10, 13).unwrap(), "Call a public procedure of module 0 that calls procedure 0");
    rows[2] = field_row(Sort::Number, false);
    assert_eq!(mend(&rows, 10, 13).unwrap(), "make procedure 0 public, or Call a public one of module 0");
    accepted(&with(&rows, 3, 1, &[proc_row(true)]));
}

#[test]
fn lengths_that_are_not_known() {
    let expected = "the table has over 1048576 bytes; at most 32768 bytes, 2048 rows\n";
    assert_eq!(said_of_bytes(&vec![0; 1_048_577], 1, 0), expected);
    let known = "the table has 1048576 bytes, 65536 rows; at most 32768 bytes, 2048 rows\n";
    assert_eq!(said_of_bytes(&vec![0; 1_048_576], 1, 0), known);
}

/// In made tables, a procedure that is to be made private can be: what is refused then is another leak, further down.
#[test]
fn made_tables_with_private_procedures() {
    let mut tried = 0;
    for number in 0..6_000 {
        let table = reference::gen::tables::table(11, number);
        let Err((refused @ (13 | 14), at)) = reference::judge(&table) else {
            continue;
        };
        let text = said_of_bytes(&table, refused, at);
        let Some((_, rest)) = text.split_once("make procedure ") else {
            continue;
        };
        let (procedure, _) = rest.split_once(" private").expect("it is to be private");
        let mut rows = read_rows(&table);
        let mut procedures = rows.iter_mut().filter(|row| row.kind == kind::PROCEDURE);
        procedures.nth(procedure.parse().expect("a number")).expect("there is such a procedure").a = 0;
        match reference::judge(&write_rows(&rows)) {
            Err((13 | 14, below)) => assert!(below > at, "{text}"),
            verdict => assert_eq!(verdict, Ok(rows.len()), "{text}"),
        }
        tried += 1;
    }
    assert!(tried > 20, "{tried}");
}

#[test]
fn mends_of_single_instructions() {
    let number = [(Sort::Number, true)];
    let reference = [(Sort::NumberRef, true)];
    let rows = keeps(&[(RECORD, true)], &[], &[cp(0), unpack(0), ret()]);
    assert_eq!(mend(&rows, 7, 4).unwrap(), "MvLoc 0 moves it");
    accepted(&with(&rows, 4, 1, &codes(&[mv(0)])));

    let rows = keeps(&reference, &[], &[borrow(0), read(), pop(), ret()]);
    assert_eq!(mend(&rows, 7, 4).unwrap(), "CpLoc 0 copies the reference");
    accepted(&with(&rows, 4, 1, &codes(&[cp(0)])));

    let rows = keeps(&reference, &[Sort::Number], &[load(1), mv(0), arith(ADD), ret()]);
    assert_eq!(mend(&rows, 7, 7).unwrap(), "ReadRef gives the number");
    accepted(&with(&rows, 7, 0, &codes(&[read()])));

    let rows = keeps(&reference, &[Sort::NumberView], &[mv(0), ret()]);
    assert_eq!(mend(&rows, 7, 6).unwrap(), "Freeze the reference first");
    accepted(&with(&rows, 6, 0, &codes(&[freeze()])));

    let rows = keeps(&[(Sort::NumberView, true)], &[Sort::NumberView], &[mv(0), freeze(), ret()]);
    assert_eq!(mend(&rows, 7, 6).unwrap(), "it is read-only already: leave Freeze out");
    accepted(&with(&rows, 6, 1, &[]));

    let rows = keeps(&number, &[], &[cp(0), jump_if(2), pop(), ret()]);
    assert_eq!(mend(&rows, 7, 6).unwrap(), "keep in locals what is needed from one block to the next");
    accepted(&with(&rows, 6, 0, &codes(&[mv(0)])));

    let rows = keeps(&number, &[Sort::Number], &[&[load(1); 17][..], &[arith(ADD); 16], &[ret()]].concat());
    assert_eq!(mend(&rows, 8, 21).unwrap(), "keep some of them in locals");
    // One number waits in local 0 until there is room again.
    let waits = [&[load(1), st(0)][..], &[load(1); 16], &[arith(ADD); 15], &[mv(0), arith(ADD), ret()]].concat();
    accepted(&keeps(&number, &[Sort::Number], &waits));
}

#[test]
fn mends_of_locals_and_rows() {
    let number = [(Sort::Number, true), (Sort::Number, false)];
    let rows = keeps(&number, &[], &[mv(0), pop(), mv(0), pop(), ret()]);
    let expected = "StLoc 0 on every walk before, or CpLoc 0 instead of MvLoc 0 at row 5";
    assert_eq!(mend(&rows, 11, 7).unwrap(), expected);
    accepted(&with(&rows, 7, 0, &codes(&[load(1), st(0)])));
    accepted(&with(&rows, 5, 1, &codes(&[cp(0)])));

    let (parameter, other, ret) = (local_row(Sort::Number, true), local_row(Sort::Number, false), ret().row());
    let rows = [module_row(true), proc_row(true), other, parameter, ret];
    let expected = "put the parameters first; locals are numbered in the order of their rows";
    assert_eq!(mend(&rows, 18, 3).unwrap(), expected);
    accepted(&[module_row(true), proc_row(true), parameter, other, ret]);

    let rows = [module_row(true), proc_row(true), result_row(Sort::Number), parameter, mv(0).row(), ret];
    let expected = "put the locals of a procedure directly below its row, then results, then instructions";
    assert_eq!(mend(&rows, 2, 3).unwrap(), expected);
    accepted(&[module_row(true), proc_row(true), parameter, result_row(Sort::Number), mv(0).row(), ret]);
}
