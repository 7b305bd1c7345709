//! Traces written by hand, and those of made runs beside their texts.

#[path = "../../reference/tests/common/mod.rs"]
mod common;

use common::*;
use reference::gen::runs;
use reference::machine::{Machine, Watch};
use reference::row::{write_rows, Row};
use reference::Refusal;
use tools::trace::write_steps;

const SEED: u64 = 11;
const RUNS: u64 = 500;

/// The trace, which is the steps and below them the text, and the text alone.
fn trace(table: &[u8], list: &[u8], rules: Option<&[u8]>) -> (String, Result<Vec<u8>, Refusal>) {
    let mut out = Vec::new();
    let text = write_steps(&mut out, table, list, rules).expect("writing to memory does not fail");
    out.extend(text.iter().flatten());
    (String::from_utf8(out).expect("plain text"), text)
}

fn example(name: &str) -> Vec<u8> {
    let path = format!("{}/../examples/{name}", env!("CARGO_MANIFEST_DIR"));
    std::fs::read(&path).unwrap_or_else(|error| panic!("{path}: {error}"))
}

/// The lines of a trace's call `number`, its first one too.
fn call_part(trace: &str, number: usize) -> Vec<&str> {
    let first = format!("call {number}: ");
    trace.lines().skip_while(|line| !line.starts_with(&first)).take_while(|line| !line.is_empty()).collect()
}

/// The cells of a line with one bar between them.
fn cells(line: &str) -> String {
    let cells: Vec<&str> = line.split("  ").map(str::trim).filter(|cell| !cell.is_empty()).collect();
    cells.join(" | ")
}

/// The lines below those of the call are these, their columns told by bars.
#[track_caller]
fn shows(table: &[Row], list: &[Row], number: usize, expected: &[&str]) {
    let (trace, text) = trace(&write_rows(table), &write_rows(list), None);
    assert!(text.is_ok(), "refused: {text:?}");
    let lines: Vec<String> = call_part(&trace, number)[1..].iter().map(|line| cells(line)).collect();
    assert_eq!(lines, expected);
}

const CREDIT: &str = "\
# step frame   row  instruction       operands, topmost last -> pushed      changes
# & is a reference, &view a read-only one; a stale one leads nowhere any more

call 0: procedure 0 with 7, budget 100
     1     0     5  LoadConst 500     -> 500
     2     0     6  Pack 0            500 -> record 0                       record 0 of type 0 made (500)
     3     0     7  MvLoc 0           record 0 -> 7                         local 0 emptied
     4     0     8  MoveTo 0          record 0, 7                           store 0 7: record 0 published
     5     0     9  Ret                                                     procedure 0 returned
done

call 1: procedure 0 with 7, budget 100
     1     0     5  LoadConst 500     -> 500
     2     0     6  Pack 0            500 -> record 1                       record 1 of type 0 made (500)
     3     0     7  MvLoc 0           record 1 -> 7                         local 0 emptied
     4     0     8  MoveTo 0          record 1, 7
stop 33 (key taken) at row 8; the store is that of the call's beginning
  record 1 gone

call 0 done
call 1 stop 33 row 8
store 0 7 500
";

#[test]
fn all_of_the_credit() {
    let (trace, _) = trace(&example("credit.bin"), &example("credit-calls.bin"), None);
    assert_eq!(trace, CREDIT);
}

#[test]
fn a_till_that_takes_too_much() {
    let (trace, _) = trace(&example("till.bin"), &example("till-calls.bin"), None);
    let lines = call_part(&trace, 1);
    assert_eq!(lines.len(), 26);
    assert_eq!(lines[0], "call 1: procedure 3 with 7, 300, 201, budget 100");
    let taken = [
        "     9     1    18  Op 1              500, 300 -> 200",
        "    10     1    19  MvLoc 0           200 -> 7                              local 0 emptied",
        "    11     1    20  BorrowGlobal 0    200, 7 -> &record 0",
        "    12     1    21  BorrowFld 0       200, &record 0 -> &record 0.field 0",
        "    13     1    22  WriteRef          200, &record 0.field 0                record 0 field 0: 500 -> 200",
        "    14     1    23  Ret                                                     procedure 1 returned",
    ];
    assert_eq!(lines[9..15], taken);
    let undone = [
        "    23     1    18  Op 1              200, 201",
        "stop 39 (difference below 0) at row 18; the store is that of the call's beginning",
        "  record 0 field 0: 200 -> 500",
    ];
    assert_eq!(lines[23..], undone);
    assert_eq!(call_part(&trace, 2).last(), Some(&"done"));
    let text = "call 0 done\ncall 1 stop 39 row 18\ncall 2 done\ncall 3 stop 39 row 18\nstore 0 7 0\n";
    assert!(trace.ends_with(&format!("\n\n{text}")));
}

#[test]
fn a_number_is_read_through_a_read_only_reference() {
    let head = [trusted(), ty(), guarded(), public(), param(N), result(N)];
    let publish = [load(40), pack(0), cp(0), move_to(0)];
    let look = [mv(0), global(0), freeze(), field(0, 0), read(), ret()];
    let table = [&head[..], &publish[..], &look[..]].concat();
    let expected = [
        "1 | 0 | 6 | LoadConst 40 | -> 40",
        "2 | 0 | 7 | Pack 0 | 40 -> record 0 | record 0 of type 0 made (40)",
        "3 | 0 | 8 | CpLoc 0 | record 0 -> 9",
        "4 | 0 | 9 | MoveTo 0 | record 0, 9 | store 0 9: record 0 published",
        "5 | 0 | 10 | MvLoc 0 | -> 9 | local 0 emptied",
        "6 | 0 | 11 | BorrowGlobal 0 | 9 -> &record 0",
        "7 | 0 | 12 | Freeze | &record 0 -> &view record 0",
        "8 | 0 | 13 | BorrowFld 0 | &view record 0 -> &view record 0.field 0",
        "9 | 0 | 14 | ReadRef | &view record 0.field 0 -> 40",
        "10 | 0 | 15 | Ret | 40 | procedure 0 returned with 40",
        "done 40",
    ];
    shows(&table, &calls(&[(0, &[9])]), 0, &expected);
}

#[test]
fn nested_records() {
    let head = [trusted(), ty(), num(), ty(), nested(0), num(), public(), local(rec(1)), result(N)];
    let make = [load(3), pack(0), load(8), pack(1), st(0)];
    let write_inside = [load(5), borrow(0), field(1, 0), field(0, 0), write()];
    let break_up = [mv(0), unpack(1), pop(), unpack(0), ret()];
    let table = [&head[..], &make[..], &write_inside[..], &break_up[..]].concat();
    let expected = [
        "1 | 0 | 9 | LoadConst 3 | -> 3",
        "2 | 0 | 10 | Pack 0 | 3 -> record 0 | record 0 of type 0 made (3)",
        "3 | 0 | 11 | LoadConst 8 | record 0 -> 8",
        "4 | 0 | 12 | Pack 1 | record 0, 8 -> record 1 | record 1 of type 1 made (record 0, 8)",
        "5 | 0 | 13 | StLoc 0 | record 1 | local 0 set to record 1",
        "6 | 0 | 14 | LoadConst 5 | -> 5",
        "7 | 0 | 15 | BorrowLoc 0 | 5 -> &local 0 of frame 0",
        "8 | 0 | 16 | BorrowFld 8 | 5, &local 0 of frame 0 -> &record 0",
        "9 | 0 | 17 | BorrowFld 0 | 5, &record 0 -> &record 0.field 0",
        "10 | 0 | 18 | WriteRef | 5, &record 0.field 0 | record 0 field 0: 3 -> 5",
        "11 | 0 | 19 | MvLoc 0 | -> record 1 | local 0 emptied",
        "12 | 0 | 20 | Unpack 1 | record 1 -> record 0, 8 | record 1 unpacked",
        "13 | 0 | 21 | Pop | record 0, 8",
        "14 | 0 | 22 | Unpack 0 | record 0 -> 5 | record 0 unpacked",
        "15 | 0 | 23 | Ret | 5 | procedure 0 returned with 5",
        "done 5",
    ];
    shows(&table, &calls(&[(0, &[])]), 0, &expected);
}

#[test]
fn frames_entered_and_left_and_a_local_of_the_lower_one() {
    let lower = [public(), local(N), result(N), load(2), st(0), borrow(0), call(1), mv(0), ret()];
    let upper = [private(), param(R), load(6), mv(0), write(), ret()];
    let table = [&[guest()], &lower[..], &upper[..]].concat();
    let expected = [
        "1 | 0 | 4 | LoadConst 2 | -> 2",
        "2 | 0 | 5 | StLoc 0 | 2 | local 0 set to 2",
        "3 | 0 | 6 | BorrowLoc 0 | -> &local 0 of frame 0",
        "4 | 0 | 7 | Call 1 | &local 0 of frame 0 | procedure 1 entered with &local 0 of frame 0",
        "5 | 1 | 12 | LoadConst 6 | -> 6",
        "6 | 1 | 13 | MvLoc 0 | 6 -> &local 0 of frame 0 | local 0 emptied",
        "7 | 1 | 14 | WriteRef | 6, &local 0 of frame 0 | local 0 of frame 0: 2 -> 6",
        "8 | 1 | 15 | Ret | procedure 1 returned",
        "9 | 0 | 8 | MvLoc 0 | -> 6 | local 0 emptied",
        "10 | 0 | 9 | Ret | 6 | procedure 0 returned with 6",
        "done 6",
    ];
    shows(&table, &calls(&[(0, &[])]), 0, &expected);
}

#[test]
fn several_results_and_parameters() {
    let lower = [public(), result(N), result(N), load(4), load(6), call(1), ret()];
    let upper = [private(), param(N), param(N), result(N), result(N), mv(1), mv(0), ret()];
    let table = [&[guest()], &lower[..], &upper[..]].concat();
    let expected = [
        "1 | 0 | 4 | LoadConst 4 | -> 4",
        "2 | 0 | 5 | LoadConst 6 | 4 -> 6",
        "3 | 0 | 6 | Call 1 | 4, 6 | procedure 1 entered with 4, 6",
        "4 | 1 | 13 | MvLoc 1 | -> 6 | local 1 emptied",
        "5 | 1 | 14 | MvLoc 0 | 6 -> 4 | local 0 emptied",
        "6 | 1 | 15 | Ret | 6, 4 | procedure 1 returned with 6, 4",
        "7 | 0 | 7 | Ret | 6, 4 | procedure 0 returned with 6, 4",
        "done 6, 4",
    ];
    shows(&table, &calls(&[(0, &[])]), 0, &expected);
}

#[test]
fn jumps_but_not_to_the_next_row() {
    let table = [guest(), public(), param(N), cp(0), jump_if(3), jump(4), jump(4), ret()];
    let list = calls(&[(0, &[1]), (0, &[0])]);
    let taken = [
        "1 | 0 | 3 | CpLoc 0 | -> 1",
        "2 | 0 | 4 | BranchCond 3 | 1 | jump to row 6",
        "3 | 0 | 6 | Branch 4",
        "4 | 0 | 7 | Ret | procedure 0 returned",
        "done",
    ];
    shows(&table, &list, 0, &taken);
    let passed = [
        "1 | 0 | 3 | CpLoc 0 | -> 0",
        "2 | 0 | 4 | BranchCond 3 | 0",
        "3 | 0 | 5 | Branch 4 | jump to row 7",
        "4 | 0 | 7 | Ret | procedure 0 returned",
        "done",
    ];
    shows(&table, &list, 1, &passed);
}

#[test]
fn what_an_op_pushes_may_be_what_it_took() {
    let table = [guest(), public(), result(N), load(1), load(0), arith(ADD), ret()];
    let expected = [
        "1 | 0 | 3 | LoadConst 1 | -> 1",
        "2 | 0 | 4 | LoadConst 0 | 1 -> 0",
        "3 | 0 | 5 | Op 0 | 1, 0 -> 1",
        "4 | 0 | 6 | Ret | 1 | procedure 0 returned with 1",
        "done 1",
    ];
    shows(&table, &calls(&[(0, &[])]), 0, &expected);
}

/// Procedure 0 reads through a reference to a local that it has emptied, 1 through one to a local of a frame that has
/// returned, 3 through one into a record that it has unpacked.
fn stale_table() -> Vec<Row> {
    let head = [guest(), ty(), num()];
    let emptied = [public(), local(N), load(1), st(0), borrow(0), mv(0), pop(), read(), pop(), ret()];
    let returned = [public(), call(2), read(), pop(), ret()];
    let returning = [private(), local(N), result(R), load(1), st(0), borrow(0), ret()];
    let unpacked = [public(), local(rec(0)), load(1), pack(0), st(0), borrow(0), field(0, 0), freeze()];
    let after = [mv(0), unpack(0), pop(), read(), pop(), ret()];
    [&head[..], &emptied[..], &returned[..], &returning[..], &unpacked[..], &after[..]].concat()
}

#[test]
fn stale_references() {
    let list = calls(&[(0, &[]), (1, &[]), (3, &[])]);
    let emptied = [
        "1 | 0 | 5 | LoadConst 1 | -> 1",
        "2 | 0 | 6 | StLoc 0 | 1 | local 0 set to 1",
        "3 | 0 | 7 | BorrowLoc 0 | -> &local 0 of frame 0",
        "4 | 0 | 8 | MvLoc 0 | &local 0 of frame 0 -> 1 | local 0 emptied",
        "5 | 0 | 9 | Pop | &local 0 of frame 0 (stale), 1",
        "6 | 0 | 10 | ReadRef | &local 0 of frame 0 (stale)",
        "stop 35 (stale reference) at row 10; the store is that of the call's beginning",
    ];
    shows(&stale_table(), &list, 0, &emptied);
    let returned = [
        "1 | 0 | 14 | Call 2 | procedure 2 entered",
        "2 | 1 | 21 | LoadConst 1 | -> 1",
        "3 | 1 | 22 | StLoc 0 | 1 | local 0 set to 1",
        "4 | 1 | 23 | BorrowLoc 0 | -> &local 0 of frame 1",
        "5 | 1 | 24 | Ret | &local 0 of frame 1 | procedure 2 returned with &local 0 of frame 1 (stale)",
        "6 | 0 | 15 | ReadRef | &local 0 of frame 1 (stale)",
        "stop 35 (stale reference) at row 15; the store is that of the call's beginning",
    ];
    shows(&stale_table(), &list, 1, &returned);
    let unpacked = [
        "1 | 0 | 27 | LoadConst 1 | -> 1",
        "2 | 0 | 28 | Pack 0 | 1 -> record 0 | record 0 of type 0 made (1)",
        "3 | 0 | 29 | StLoc 0 | record 0 | local 0 set to record 0",
        "4 | 0 | 30 | BorrowLoc 0 | -> &local 0 of frame 0",
        "5 | 0 | 31 | BorrowFld 0 | &local 0 of frame 0 -> &record 0.field 0",
        "6 | 0 | 32 | Freeze | &record 0.field 0 -> &view record 0.field 0",
        "7 | 0 | 33 | MvLoc 0 | &view record 0.field 0 -> record 0 | local 0 emptied",
        "8 | 0 | 34 | Unpack 0 | &view record 0.field 0, record 0 -> 1 | record 0 unpacked",
        "9 | 0 | 35 | Pop | &view record 0.field 0 (stale), 1",
        "10 | 0 | 36 | ReadRef | &view record 0.field 0 (stale)",
        "stop 35 (stale reference) at row 36; the store is that of the call's beginning",
    ];
    shows(&stale_table(), &list, 2, &unpacked);
}

#[test]
fn records_and_entries_that_a_stop_puts_back() {
    let publish = [public(), param(N), load(1), pack(0), mv(0), move_to(0), ret()];
    let replace = [public(), param(N), mv(0), move_from(0), unpack(0), pack(0), load(2), move_to(0)];
    let stop = [load(0), load(1), arith(SUB), pop(), ret()];
    let table = [&[trusted(), ty(), num()], &publish[..], &replace[..], &stop[..]].concat();
    let expected = [
        "1 | 0 | 12 | MvLoc 0 | -> 7 | local 0 emptied",
        "2 | 0 | 13 | MoveFrom 0 | 7 -> record 0 | store 0 7: record 0 moved out",
        "3 | 0 | 14 | Unpack 0 | record 0 -> 1 | record 0 unpacked",
        "4 | 0 | 15 | Pack 0 | 1 -> record 1 | record 1 of type 0 made (1)",
        "5 | 0 | 16 | LoadConst 2 | record 1 -> 2",
        "6 | 0 | 17 | MoveTo 0 | record 1, 2 | store 0 2: record 1 published",
        "7 | 0 | 18 | LoadConst 0 | -> 0",
        "8 | 0 | 19 | LoadConst 1 | 0 -> 1",
        "9 | 0 | 20 | Op 1 | 0, 1",
        "stop 39 (difference below 0) at row 20; the store is that of the call's beginning",
        "record 1 gone",
        "record 0 of type 0 there again (1)",
        "store 0 2: record 1 gone",
        "store 0 7: record 0 there again",
    ];
    shows(&table, &calls(&[(0, &[7]), (1, &[7])]), 1, &expected);
}

#[test]
fn a_spent_budget_shows_the_instruction_that_was_not_done() {
    let table = [guest(), public(), jump(0)];
    let expected = [
        "1 | 0 | 2 | Branch 0 | jump to row 2",
        "2 | 0 | 2 | Branch 0 | jump to row 2",
        "3 | 0 | 2 | Branch 0",
        "stop 31 (budget spent) at row 2; the store is that of the call's beginning",
    ];
    shows(&table, &[call_of(0, 2)], 0, &expected);
}

#[test]
fn a_refused_run_has_no_trace() {
    let rules = example("guests-rules.bin");
    let (trace, text) = trace(&example("guests.bin"), &example("guests-calls.bin"), Some(&rules));
    assert_eq!((trace.as_str(), text), ("", Err((22, 24))));
}

#[test]
fn a_trace_that_cannot_be_written_is_an_error() {
    let mut short = [0; 600];
    let written = write_steps(&mut &mut short[..], &example("credit.bin"), &example("credit-calls.bin"), None);
    assert!(written.is_err());
}

/// How many instructions came up.
struct Count(usize);

impl Watch for Count {
    fn comes_up(&mut self, _: &Machine) {
        self.0 += 1;
    }
}

fn instructions(case: &runs::Case) -> usize {
    let (program, calls) =
        reference::admit_run(&case.table, &case.list, case.rules.given(), BUFFER).expect("the run is not refused");
    let mut count = Count(0);
    reference::run_calls(&program, &calls, &mut count);
    count.0
}

/// Lines of instructions alone begin with a number.
fn instruction_lines(trace: &str) -> usize {
    trace.lines().filter(|line| line.trim_start().starts_with(|first: char| first.is_ascii_digit())).count()
}

/// The trace is not for a text buffer: it has one that is long enough.
#[test]
fn made_runs() {
    let mut refused = 0;
    for number in 0..RUNS {
        let case = runs::case(SEED, number);
        let expected = reference::run(&case.table, &case.list, case.rules.given(), BUFFER);
        let (trace, text) = trace(&case.table, &case.list, case.rules.given());
        assert_eq!(text, expected, "run {number}");
        match expected {
            Ok(text) => {
                assert!(trace.as_bytes().ends_with(&[b"\n\n", &text[..]].concat()), "run {number}");
                assert_eq!(instruction_lines(&trace), instructions(&case), "run {number}");
            }
            Err(_) => {
                refused += 1;
                assert_eq!(trace, "", "run {number}");
            }
        }
    }
    assert!((50..RUNS - 50).contains(&refused), "{refused} runs are refused");
}
