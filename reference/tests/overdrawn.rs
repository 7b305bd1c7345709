//! Paper 4 in texts written by hand: a difference below 0 stops with 39, a sum too large with 32.

mod common;

use common::*;
use reference::row::Row;

const MOST: u64 = u64::MAX;
const HALF: u64 = 1 << 63;

/// A procedure over two numbers that gives what the Op gives. The Op is row 7.
fn op_alone(module: Row, which: u16) -> Vec<Row> {
    vec![module, public(), param(N), param(N), result(N), mv(0), mv(1), arith(which), ret()]
}

/// The Op of each two numbers ends as told, in a guest and in a trusted module, each pair in a run of its own and all in
/// one list.
#[track_caller]
fn ends(which: u16, of: &[(u64, u64, &str)]) {
    for module in [guest(), trusted()] {
        let table = op_alone(module, which);
        let mut list = Vec::new();
        let mut lines = String::new();
        for (number, &(first, second, end)) in of.iter().enumerate() {
            let alone = calls(&[(0, &[first, second])]);
            prints(&table, &alone, &[&format!("call 0 {end}")]);
            list.extend(alone);
            lines.push_str(&format!("call {number} {end}\n"));
        }
        assert_eq!(text(&table, &list), lines);
    }
}

// Numbers

#[test]
fn differences_below_0() {
    let end = "stop 39 row 7";
    ends(
        SUB,
        &[
            (0, 1, end),
            (0, 2, end),
            (4, 5, end),
            (255, 256, end),
            ((1 << 32) - 1, 1 << 32, end),
            (HALF - 1, HALF, end),
            (MOST - 1, MOST, end),
            (0, HALF, end),
            (1, MOST, end),
            (0, MOST, end),
        ],
    );
}

#[test]
fn differences_of_0_and_above() {
    ends(
        SUB,
        &[
            (0, 0, "done 0"),
            (1, 1, "done 0"),
            (HALF, HALF, "done 0"),
            (MOST, MOST, "done 0"),
            (1, 0, "done 1"),
            (5, 4, "done 1"),
            (1 << 32, (1 << 32) - 1, "done 1"),
            (HALF, HALF - 1, "done 1"),
            (MOST, MOST - 1, "done 1"),
            (MOST, 1, "done 18446744073709551614"),
            (MOST, 0, "done 18446744073709551615"),
        ],
    );
}

#[test]
fn sums() {
    let end = "stop 32 row 7";
    let most = "done 18446744073709551615";
    ends(
        ADD,
        &[
            // 2^64 and more.
            (1, MOST, end),
            (MOST, 1, end),
            (HALF, HALF, end),
            (2, MOST - 1, end),
            (HALF + 1, HALF - 1, end),
            (MOST, MOST, end),
            // 2^64 - 1 and less.
            (0, MOST, most),
            (MOST, 0, most),
            (1, MOST - 1, most),
            (HALF, HALF - 1, most),
            (HALF - 1, HALF - 1, "done 18446744073709551614"),
            (0, 0, "done 0"),
            (0, 1, "done 1"),
        ],
    );
}

#[test]
fn comparisons_do_not_stop() {
    let (no, yes) = ("done 0", "done 1");
    ends(
        EQUAL,
        &[(0, 1, no), (0, MOST, no), (MOST, 1, no), (HALF, HALF, yes), (MOST, MOST, yes), (0, 0, yes), (4, 5, no)],
    );
    ends(
        LESS,
        &[(0, 1, yes), (0, MOST, yes), (MOST, 1, no), (HALF, HALF, no), (MOST, MOST, no), (0, 0, no), (5, 4, no)],
    );
}

#[test]
fn constants() {
    let of = |first: u64, second: u64, which: u16| {
        vec![guest(), public(), result(N), load(first), load(second), arith(which), ret()]
    };
    let list = calls(&[(0, &[])]);
    prints(&of(0, 1, SUB), &list, &["call 0 stop 39 row 5"]);
    prints(&of(0, MOST, SUB), &list, &["call 0 stop 39 row 5"]);
    prints(&of(MOST, MOST, SUB), &list, &["call 0 done 0"]);
    prints(&of(MOST, MOST, ADD), &list, &["call 0 stop 32 row 5"]);
    prints(&of(MOST, 1, ADD), &list, &["call 0 stop 32 row 5"]);
}

#[test]
fn the_second_is_taken_from_the_first() {
    // 0 pushes its arguments in order, 1 the other way round; their Ops are rows 7 and 15.
    let turned = [public(), param(N), param(N), result(N), mv(1), mv(0), arith(SUB), ret()];
    let table = [&op_alone(guest(), SUB)[..], &turned].concat();
    let list = calls(&[(0, &[9, 4]), (1, &[9, 4]), (0, &[4, 9]), (1, &[4, 9]), (0, &[6, 6]), (1, &[6, 6])]);
    let lines = [
        "call 0 done 5",
        "call 1 stop 39 row 15",
        "call 2 stop 39 row 7",
        "call 3 done 5",
        "call 4 done 0",
        "call 5 done 0",
    ];
    prints(&table, &list, &lines);
}

#[test]
fn several_ops_in_a_row() {
    // a - (b - c): rows 9 and 10.
    let head = [guest(), public(), param(N), param(N), param(N), result(N)];
    let table = [&head[..], &[mv(0), mv(1), mv(2), arith(SUB), arith(SUB), ret()]].concat();
    let list = calls(&[(0, &[10, 5, 3]), (0, &[10, 3, 5]), (0, &[1, 5, 3]), (0, &[2, 5, 3])]);
    prints(&table, &list, &["call 0 done 8", "call 1 stop 39 row 9", "call 2 stop 39 row 10", "call 3 done 0"]);
    // a + b - c: the sum is row 8, the difference row 10.
    let table = [&head[..], &[mv(0), mv(1), arith(ADD), mv(2), arith(SUB), ret()]].concat();
    let list = calls(&[(0, &[MOST, 1, 1]), (0, &[1, 1, 3]), (0, &[MOST, 0, MOST]), (0, &[MOST, MOST, MOST])]);
    prints(&table, &list, &["call 0 stop 32 row 8", "call 1 stop 39 row 10", "call 2 done 0", "call 3 stop 32 row 8"]);
}

#[test]
fn a_count_that_passes_0() {
    // 0 cp 0; 1 jump_if 3; 2 ret; 3 cp 0; 4 load 3; 5 sub (row 8); 6 st 0; 7 jump 0
    let code = [cp(0), jump_if(3), ret(), cp(0), load(3), arith(SUB), st(0), jump(0)];
    let table = [&[guest(), public(), param(N)][..], &code].concat();
    prints(
        &table,
        &calls(&[(0, &[9]), (0, &[10]), (0, &[0])]),
        &["call 0 done", "call 1 stop 39 row 8", "call 2 done"],
    );
    // Three rounds of seven, and four more before 1 - 3.
    let list = [call_of(0, 25), argument(10), call_of(0, 26), argument(10)];
    prints(&table, &list, &["call 0 stop 31 row 8", "call 1 stop 39 row 8"]);
}

// Budgets

#[test]
fn stop_31_comes_before_39() {
    // The Op is the third instruction, Ret the fourth.
    let of = |budget: u32, first: u64, second: u64| [call_of(0, budget), argument(first), argument(second)];
    let list = [of(1, 0, 1), of(2, 0, 1), of(3, 0, 1), of(4, 0, 1), of(2, 5, 5), of(3, 5, 5), of(4, 5, 5)].concat();
    let lines = [
        "call 0 stop 31 row 6",
        "call 1 stop 31 row 7",
        "call 2 stop 39 row 7",
        "call 3 stop 39 row 7",
        "call 4 stop 31 row 7",
        "call 5 stop 31 row 8",
        "call 6 done 0",
    ];
    prints(&op_alone(guest(), SUB), &list, &lines);
    // And before 32.
    let list = [of(2, MOST, 1), of(3, MOST, 1)].concat();
    prints(&op_alone(trusted(), ADD), &list, &["call 0 stop 31 row 7", "call 1 stop 32 row 7"]);
}

// Called frames

/// 0 of a guest calls 1 of a trusted module, which calls its private 2 with the same numbers; that one takes the second
/// from the first in row 24.
fn three_frames() -> Vec<Row> {
    let pass = |procedure: Row, next: Row| [procedure, param(N), param(N), result(N), mv(0), mv(1), next, ret()];
    let guests = pass(public(), call(1));
    let owners = pass(public(), call(2));
    let last = pass(private(), arith(SUB));
    [&[guest()][..], &guests, &[trusted()], &owners, &last].concat()
}

#[test]
fn the_row_is_that_of_the_called_frame() {
    let list = calls(&[(0, &[4, 5]), (1, &[0, MOST]), (0, &[5, 5]), (0, &[5, 4]), (1, &[MOST, MOST])]);
    let lines = ["call 0 stop 39 row 24", "call 1 stop 39 row 24", "call 2 done 0", "call 3 done 1", "call 4 done 0"];
    prints(&three_frames(), &list, &lines);
}

#[test]
fn budgets_spent_in_a_called_frame() {
    // Three instructions, three more, two more: the Op is the ninth. Then three times Ret.
    let of = |budget: u32, first: u64| [call_of(0, budget), argument(first), argument(5)];
    let list = [of(8, 4), of(9, 4), of(8, 5), of(9, 5), of(11, 5), of(12, 5)].concat();
    let lines = [
        "call 0 stop 31 row 24",
        "call 1 stop 39 row 24",
        "call 2 stop 31 row 24",
        "call 3 stop 31 row 25",
        "call 4 stop 31 row 8",
        "call 5 done 0",
    ];
    prints(&three_frames(), &list, &lines);
}

#[test]
fn sixteen_frames() {
    // Counts down to 0 and then takes the third argument from the second, in row 10. It calls itself in row 17.
    let head = [guest(), public(), param(N), param(N), param(N), result(N), cp(0), jump_if(6)];
    let take = [mv(1), mv(2), arith(SUB), ret()];
    let down = [mv(0), load(1), arith(SUB), mv(1), mv(2), call(0), ret()];
    let table = [&head[..], &take, &down].concat();
    let list = calls(&[(0, &[15, 0, 1]), (0, &[15, 7, 7]), (0, &[16, 0, 1]), (0, &[1, 0, MOST]), (0, &[0, 8, 9])]);
    let lines = [
        "call 0 stop 39 row 10",
        "call 1 done 0",
        "call 2 stop 36 row 17",
        "call 3 stop 39 row 10",
        "call 4 stop 39 row 10",
    ];
    prints(&table, &list, &lines);
}

#[test]
fn a_called_frame_takes_from_the_callers_local() {
    // 0 takes a number from what a reference names (row 7); 1 has that done twice to its own local.
    let deduct = [public(), param(N), param(R), cp(1), read(), mv(0), arith(SUB), mv(1), write(), ret()];
    let head = [public(), param(N), param(N), result(N)];
    let twice = [cp(1), borrow(0), call(0), mv(1), borrow(0), call(0), mv(0), ret()];
    for module in [guest(), trusted()] {
        let table = [&[module][..], &deduct, &head, &twice].concat();
        let list = calls(&[(1, &[10, 5]), (1, &[10, 6]), (1, &[5, 6]), (1, &[0, 0])]);
        let lines = ["call 0 done 0", "call 1 stop 39 row 7", "call 2 stop 39 row 7", "call 3 done 0"];
        prints(&table, &list, &lines);
        // The first Op is the seventh instruction, the second the seventeenth.
        let of = |budget: u32, first: u64| [call_of(1, budget), argument(first), argument(6)];
        let list = [of(6, 5), of(7, 5), of(16, 10), of(17, 10)].concat();
        let lines = ["call 0 stop 31 row 7", "call 1 stop 39 row 7", "call 2 stop 31 row 7", "call 3 stop 39 row 7"];
        prints(&table, &list, &lines);
    }
}

// The till

const OPEN: u16 = 0;
const TAKE: u16 = 1;
const PAY_IN: u16 = 2;
const TAKE_501: u16 = 3;
const SELL: u16 = 4;

/// Credits of a trusted module (type 0: guarded kilos). 0 open(address) publishes one of 500 kilos; 1 take(address,
/// kilos) subtracts in row 21; 2 pay_in(address, kilos) adds in row 36; 3 take_501(address) subtracts in row 50. A
/// guest's 4 sell(from, to, kilos) pays in before it takes.
fn till() -> Vec<Row> {
    let open = [public(), param(N), load(500), pack(0), mv(0), move_to(0), ret()];
    let change = |which: u16| {
        let head = [public(), param(N), param(N), local(R), mv(0), global(0), field(0, 0), st(2)];
        [&head[..], &[cp(2), read(), mv(1), arith(which), mv(2), write(), ret()]].concat()
    };
    let head = [public(), param(N), local(R), mv(0), global(0), field(0, 0), st(1)];
    let take_501 = [&head[..], &[cp(1), read(), load(501), arith(SUB), mv(1), write(), ret()]].concat();
    let sell = [public(), param(N), param(N), param(N), mv(1), cp(2), call(2), mv(0), mv(2), call(1), ret()];
    let credits = [&[trusted(), ty(), guarded()][..], &open, &change(SUB), &change(ADD), &take_501].concat();
    assert_eq!(credits.len(), 54);
    [&credits[..], &[guest()], &sell].concat()
}

#[test]
fn not_enough_credit() {
    let list = calls(&[(OPEN, &[7]), (TAKE, &[7, 501])]);
    prints(&till(), &list, &["call 0 done", "call 1 stop 39 row 21", "store 0 7 500"]);
    let list = calls(&[(OPEN, &[7]), (TAKE, &[7, 500])]);
    prints(&till(), &list, &["call 0 done", "call 1 done", "store 0 7 0"]);
    let list = calls(&[(OPEN, &[7]), (TAKE_501, &[7])]);
    prints(&till(), &list, &["call 0 done", "call 1 stop 39 row 50", "store 0 7 500"]);
    let list = calls(&[(OPEN, &[7]), (PAY_IN, &[7, 1]), (TAKE_501, &[7]), (TAKE_501, &[7])]);
    prints(&till(), &list, &["call 0 done", "call 1 done", "call 2 done", "call 3 stop 39 row 50", "store 0 7 0"]);
}

#[test]
fn a_day_at_the_till() {
    let list = calls(&[
        (OPEN, &[7]),
        (OPEN, &[7]),
        (TAKE, &[8, 1]),
        (TAKE, &[7, 501]),
        (PAY_IN, &[7, MOST]),
        (TAKE, &[7, 499]),
        (TAKE, &[7, 2]),
        (TAKE, &[7, 1]),
        (TAKE, &[7, 1]),
        (TAKE, &[7, 0]),
        (PAY_IN, &[7, MOST]),
        (PAY_IN, &[7, 1]),
        (TAKE, &[7, MOST]),
        (TAKE, &[7, MOST]),
    ]);
    let lines = [
        "call 0 done",
        "call 1 stop 33 row 8",
        "call 2 stop 34 row 15",
        "call 3 stop 39 row 21",
        "call 4 stop 32 row 36",
        "call 5 done",
        "call 6 stop 39 row 21",
        "call 7 done",
        "call 8 stop 39 row 21",
        "call 9 done",
        "call 10 done",
        "call 11 stop 32 row 36",
        "call 12 done",
        "call 13 stop 39 row 21",
        "store 0 7 0",
    ];
    prints(&till(), &list, &lines);
}

#[test]
fn a_payment_is_undone_if_the_payer_has_not_enough() {
    let open = [(OPEN, &[7][..]), (OPEN, &[8])];
    let with = |more: &[(u16, &[u64])], ends: &[&str], stores: &[&str]| {
        let lines = [&["call 0 done", "call 1 done"][..], ends, stores].concat();
        prints(&till(), &calls(&[&open[..], more].concat()), &lines);
    };
    with(&[(SELL, &[7, 8, 501])], &["call 2 stop 39 row 21"], &["store 0 7 500", "store 0 8 500"]);
    with(&[(SELL, &[7, 8, 500])], &["call 2 done"], &["store 0 7 0", "store 0 8 1000"]);
    // 500 and the highest number are too much for the one paid.
    with(&[(SELL, &[7, 8, MOST])], &["call 2 stop 32 row 36"], &["store 0 7 500", "store 0 8 500"]);
    let both: [(u16, &[u64]); 4] =
        [(SELL, &[7, 8, 501]), (SELL, &[7, 8, 400]), (SELL, &[7, 8, 101]), (SELL, &[8, 7, MOST])];
    let ends = ["call 2 stop 39 row 21", "call 3 done", "call 4 stop 39 row 21", "call 5 stop 32 row 36"];
    with(&both, &ends, &["store 0 7 100", "store 0 8 900"]);
}

#[test]
fn budgets_at_the_till() {
    let open = calls(&[(OPEN, &[7]), (OPEN, &[8])]);
    let with = |call: &[Row], end: &str, stores: [&str; 2]| {
        let lines = ["call 0 done", "call 1 done", end, stores[0], stores[1]];
        prints(&till(), &[&open[..], call].concat(), &lines);
    };
    let untouched = ["store 0 7 500", "store 0 8 500"];
    let take = |budget: u32, kilos: u64| [call_of(TAKE, budget), argument(7), argument(kilos)];
    with(&take(7, 501), "call 2 stop 31 row 21", untouched);
    with(&take(8, 501), "call 2 stop 39 row 21", untouched);
    with(&take(7, 500), "call 2 stop 31 row 21", untouched);
    with(&take(8, 500), "call 2 stop 31 row 22", untouched);
    with(&take(10, 500), "call 2 stop 31 row 24", untouched);
    with(&take(11, 500), "call 2 done", ["store 0 7 0", "store 0 8 500"]);
    // Three instructions, eleven, three, and seven before the Op.
    let sell = |budget: u32| [call_of(SELL, budget), argument(7), argument(8), argument(501)];
    with(&sell(24), "call 2 stop 31 row 21", untouched);
    with(&sell(25), "call 2 stop 39 row 21", untouched);
}

// Restoring

const PUT: u16 = 0;
const BIND: u16 = 1;

/// Slips (type 0: a guarded number and a number) and files (type 1: a slip and a number) of a trusted module.
/// 0 put(address, value) publishes a slip; 1 bind(address) puts the slip there into a file there. Then the rows,
/// beginning at row 25.
fn slips(rows: &[Row]) -> Vec<Row> {
    let types = [trusted(), ty(), guarded(), num(), ty(), nested(0), num()];
    let put = [public(), param(N), param(N), mv(1), load(9), pack(0), mv(0), move_to(0), ret()];
    let bind = [public(), param(N), cp(0), move_from(0), load(5), pack(1), mv(0), move_to(1), ret()];
    let head = [&types[..], &put, &bind].concat();
    assert_eq!(head.len(), 25);
    [&head, rows].concat()
}

#[test]
fn numbers_written_through_references() {
    // 2(address, a, b) writes both numbers of the slip and b into its own local 3, and takes that local from a in row 51.
    let head = [public(), param(N), param(N), param(N), local(N), local(R), result(N)];
    let first = [cp(1), cp(0), global(0), field(0, 0), write()];
    let second = [cp(2), cp(0), global(0), field(0, 1), write()];
    let own = [load(1), st(3), borrow(3), st(4), cp(2), cp(4), write()];
    let take = [cp(1), mv(3), arith(SUB), ret()];
    let table = slips(&[&head[..], &first, &second, &own, &take].concat());
    let before = calls(&[(PUT, &[7, 50]), (2, &[7, 3, 4])]);
    prints(&table, &before, &["call 0 done", "call 1 stop 39 row 51", "store 0 7 50 9"]);
    let after = calls(&[(2, &[7, 4, 4]), (2, &[7, 0, MOST])]);
    let lines = ["call 0 done", "call 1 stop 39 row 51", "call 2 done 0", "call 3 stop 39 row 51", "store 0 7 4 4"];
    prints(&table, &[before, after].concat(), &lines);
}

#[test]
fn a_record_withdrawn_and_broken_up() {
    // 2(address, value) takes the value from the first number of a slip broken up, in row 34, and publishes the rest.
    let head = [public(), param(N), param(N), local(N)];
    let take = [cp(0), move_from(0), unpack(0), st(2), mv(1), arith(SUB)];
    let table = slips(&[&head[..], &take, &[mv(2), pack(0), mv(0), move_to(0), ret()]].concat());
    let list = calls(&[(PUT, &[7, 50]), (2, &[7, 51]), (2, &[7, 50]), (2, &[7, 1]), (2, &[7, 0])]);
    let lines = [
        "call 0 done",
        "call 1 stop 39 row 34",
        "call 2 done",
        "call 3 stop 39 row 34",
        "call 4 done",
        "store 0 7 0 9",
    ];
    prints(&table, &list, &lines);
    prints(&table, &list[..6], &["call 0 done", "call 1 stop 39 row 34", "store 0 7 50 9"]);
}

#[test]
fn a_record_made_and_published() {
    // 2(address, a, b) publishes a slip of both and writes a - b into it; the Op is row 36.
    let head = [public(), param(N), param(N), param(N)];
    let publish = [cp(1), cp(2), pack(0), cp(0), move_to(0)];
    let take = [mv(1), mv(2), arith(SUB), mv(0), global(0), field(0, 1), write(), ret()];
    let table = slips(&[&head[..], &publish, &take].concat());
    prints(&table, &calls(&[(2, &[7, 1, 2])]), &["call 0 stop 39 row 36"]);
    let list = calls(&[
        (2, &[7, 1, 2]),
        (2, &[7, 1, 2]),
        (2, &[7, 2, 2]),
        (2, &[8, 0, MOST]),
        (PUT, &[8, 1]),
        (2, &[8, 1, 2]),
    ]);
    let lines = [
        "call 0 stop 39 row 36",
        "call 1 stop 39 row 36",
        "call 2 done",
        "call 3 stop 39 row 36",
        "call 4 done",
        "call 5 stop 33 row 33",
        "store 0 7 2 0",
        "store 0 8 1 9",
    ];
    prints(&table, &list, &lines);
}

#[test]
fn a_nested_record_moved_and_written() {
    // 2(address, value) takes the file apart, publishes its slip, writes the second number, and takes the value from
    // the first in row 47.
    let head = [public(), param(N), param(N), local(R)];
    let apart = [cp(0), move_from(1), unpack(1), pop(), cp(0), move_to(0)];
    let keep = [cp(0), global(0), field(0, 0), st(2)];
    let second = [load(1), cp(0), global(0), field(0, 1), write()];
    let take = [cp(2), read(), mv(1), arith(SUB), mv(2), write(), ret()];
    let table = slips(&[&head[..], &apart, &keep, &second, &take].concat());
    let list = calls(&[(PUT, &[7, 50]), (BIND, &[7]), (2, &[7, 51])]);
    let lines = ["call 0 done", "call 1 done", "call 2 stop 39 row 47", "store 1 7 (0 50 9) 5"];
    prints(&table, &list, &lines);
    let list = [list, calls(&[(2, &[7, 50])])].concat();
    let lines = ["call 0 done", "call 1 done", "call 2 stop 39 row 47", "call 3 done", "store 0 7 0 1"];
    prints(&table, &list, &lines);
}

#[test]
fn the_callers_work_is_undone_too() {
    // A guest's 2(address, a, b) has a slip put and bound, and publishes a note of its own (type 2). Its 3 then takes b
    // from a in row 50.
    let notes = [guest(), ty(), num()];
    let head = [public(), param(N), param(N), param(N)];
    let work = [cp(0), load(6), call(PUT), cp(0), call(BIND), load(3), pack(2), mv(0), move_to(2)];
    let last = [mv(1), mv(2), call(3), ret()];
    let take = [private(), param(N), param(N), mv(0), mv(1), arith(SUB), pop(), ret()];
    let table = slips(&[&notes[..], &head, &work, &last, &take].concat());
    let list = calls(&[(PUT, &[4, 8]), (2, &[7, 1, 2]), (2, &[7, 2, 2]), (2, &[5, 0, 1])]);
    let lines = [
        "call 0 done",
        "call 1 stop 39 row 50",
        "call 2 done",
        "call 3 stop 39 row 50",
        "store 0 4 8 9",
        "store 1 7 (0 6 9) 5",
        "store 2 7 3",
    ];
    prints(&table, &list, &lines);
}
