//! The order of store lines, in texts written by hand: they rise by type, then by address, both as numbers.

mod common;

use common::*;
use reference::row::Row;

const TOKEN: u16 = 0;
const COIN: u16 = 1;
const SPEND: u16 = 2;
const BAG: u16 = 3;
const OPEN: u16 = 4;
const CARRY: u16 = 5;

const LAST: u64 = u64::MAX;

/// Types of two modules: 0 tokens without fields, 1 coins of one number; 2 seeds of one number, 3 bags of a number, a
/// seed and a number. 0 token(address), 1 coin(address, value), 3 bag(address, value) publish; 2 spend(address) and
/// 4 open(address) withdraw a coin and a bag; 5 carry(from, to) moves a bag. Then the rows, beginning at row 61.
fn shop(rows: &[Row]) -> Vec<Row> {
    let head = [
        guest(),
        ty(),
        ty(),
        num(),
        // 0
        public(),
        param(N),
        pack(0),
        mv(0),
        move_to(0),
        ret(),
        // 1: MoveTo is row 16.
        public(),
        param(N),
        param(N),
        mv(1),
        pack(1),
        mv(0),
        move_to(1),
        ret(),
        // 2
        public(),
        param(N),
        result(N),
        mv(0),
        move_from(1),
        unpack(1),
        ret(),
        trusted(),
        ty(),
        guarded(),
        ty(),
        num(),
        nested(2),
        num(),
        // 3: MoveTo is row 41, Ret row 42.
        public(),
        param(N),
        param(N),
        cp(1),
        cp(1),
        pack(2),
        load(4),
        pack(3),
        mv(0),
        move_to(3),
        ret(),
        // 4: MoveFrom is row 46.
        public(),
        param(N),
        mv(0),
        move_from(3),
        unpack(3),
        pop(),
        unpack(2),
        pop(),
        pop(),
        ret(),
        // 5
        public(),
        param(N),
        param(N),
        mv(0),
        move_from(3),
        mv(1),
        move_to(3),
        ret(),
    ];
    assert_eq!(head.len(), 61);
    [&head, rows].concat()
}

#[test]
fn three_types_and_a_withdrawal() {
    let list = calls(&[
        (BAG, &[10, 1]),
        (TOKEN, &[LAST]),
        (COIN, &[9, 50]),
        (BAG, &[LAST, 2]),
        (COIN, &[10, 60]),
        (TOKEN, &[10]),
        (COIN, &[0, 70]),
        (SPEND, &[9]),
        (BAG, &[9, 3]),
        (TOKEN, &[9]),
        (COIN, &[LAST, 80]),
        (TOKEN, &[0]),
        (COIN, &[9, 90]),
        (OPEN, &[10]),
        (BAG, &[0, 4]),
        (BAG, &[10, 5]),
    ]);
    let lines = [
        "call 0 done",
        "call 1 done",
        "call 2 done",
        "call 3 done",
        "call 4 done",
        "call 5 done",
        "call 6 done",
        "call 7 done 50",
        "call 8 done",
        "call 9 done",
        "call 10 done",
        "call 11 done",
        "call 12 done",
        "call 13 done",
        "call 14 done",
        "call 15 done",
        "store 0 0",
        "store 0 9",
        "store 0 10",
        "store 0 18446744073709551615",
        "store 1 0 70",
        "store 1 9 90",
        "store 1 10 60",
        "store 1 18446744073709551615 80",
        "store 3 0 4 (2 4) 4",
        "store 3 9 3 (2 3) 4",
        "store 3 10 5 (2 5) 4",
        "store 3 18446744073709551615 2 (2 2) 4",
    ];
    prints(&shop(&[]), &list, &lines);
}

#[test]
fn a_moved_record_stands_at_its_new_address() {
    let list = calls(&[
        (BAG, &[9, 1]),
        (BAG, &[10, 2]),
        (BAG, &[11, 3]),
        (CARRY, &[9, 100]),
        (CARRY, &[11, 8]),
        (CARRY, &[10, 10]),
    ]);
    let lines = [
        "call 0 done",
        "call 1 done",
        "call 2 done",
        "call 3 done",
        "call 4 done",
        "call 5 done",
        "store 3 8 3 (2 3) 4",
        "store 3 10 2 (2 2) 4",
        "store 3 100 1 (2 1) 4",
    ];
    prints(&shop(&[]), &list, &lines);
}

#[test]
fn one_entry_is_left_or_none() {
    let mut of = vec![(COIN, &[10, 1][..]), (COIN, &[9, 2]), (BAG, &[0, 3]), (SPEND, &[10]), (OPEN, &[0])];
    let done = ["call 0 done", "call 1 done", "call 2 done", "call 3 done 1", "call 4 done"];
    prints(&shop(&[]), &calls(&of), &[&done[..], &["store 1 9 2"]].concat());
    of.push((SPEND, &[9]));
    prints(&shop(&[]), &calls(&of), &[&done[..], &["call 5 done 2"]].concat());
}

#[test]
fn stopped_calls_leave_no_trace_in_the_order() {
    // 6: opens the bag, publishes another in its place and a token, then takes 1 from 0 in row 73.
    let spill = [
        guest(),
        public(),
        param(N),
        cp(0),
        call(OPEN),
        cp(0),
        load(8),
        call(BAG),
        load(5),
        call(TOKEN),
        load(0),
        load(1),
        arith(SUB),
        pop(),
        ret(),
    ];
    let before = calls(&[(BAG, &[10, 1]), (BAG, &[2, 2]), (COIN, &[7, 3]), (6, &[2]), (6, &[9])]);
    // Seven instructions publish a bag; Ret is the eighth.
    let after = [call_of(BAG, 7), argument(1), argument(6)];
    let lines = [
        "call 0 done",
        "call 1 done",
        "call 2 done",
        "call 3 stop 39 row 73",
        "call 4 stop 34 row 46",
        "call 5 stop 31 row 42",
        "store 1 7 3",
        "store 3 2 2 (2 2) 4",
        "store 3 10 1 (2 1) 4",
    ];
    prints(&shop(&spill), &[&before[..], &after].concat(), &lines);
}

#[test]
fn types_rise_as_numbers_through_all_modules() {
    // Types 0 and 1 in module 0, 2 to 9 in module 1, 10 and 11 in module 2; each module's procedures publish its types.
    let put = |of: u16| vec![public(), param(N), pack(of), mv(0), move_to(of), ret()];
    let module = |types: std::ops::Range<u16>| {
        let mut rows = vec![guest()];
        rows.extend(types.clone().map(|_| ty()));
        rows.extend(types.flat_map(put));
        rows
    };
    let table = [module(0..2), module(2..10), module(10..12)].concat();
    // A procedure has its type's number.
    let list = calls(&[(10, &[5]), (2, &[5]), (9, &[7]), (1, &[9]), (11, &[0]), (0, &[10]), (10, &[4])]);
    let lines = [
        "call 0 done",
        "call 1 done",
        "call 2 done",
        "call 3 done",
        "call 4 done",
        "call 5 done",
        "call 6 done",
        "store 0 10",
        "store 1 9",
        "store 2 5",
        "store 9 7",
        "store 10 4",
        "store 10 5",
        "store 11 0",
    ];
    prints(&table, &list, &lines);
}

/// However they were published.
#[test]
fn addresses_rise_as_numbers() {
    let rising = [
        "0",
        "1",
        "2",
        "9",
        "10",
        "11",
        "99",
        "100",
        "255",
        "256",
        "65535",
        "65536",
        "4294967295",
        "4294967296",
        "4294967297",
        "72057594037927936",
        "9223372036854775807",
        "9223372036854775808",
        "18446744073709551614",
        "18446744073709551615",
    ];
    let count = rising.len();
    // Steps prime to 20 come to each address once: 1 rising, 19 falling.
    for step in [1, 3, 7, 9, 11, 13, 17, 19] {
        let addresses: Vec<u64> =
            (0..count).map(|at| rising[(at * step + step - 1) % count].parse().expect("a number")).collect();
        let list: Vec<Row> = addresses.iter().flat_map(|&address| calls(&[(COIN, &[address, 6])])).collect();
        let call_lines = (0..count).map(|number| format!("call {number} done\n"));
        let store_lines = rising.iter().map(|address| format!("store 1 {address} 6\n"));
        assert_eq!(text(&shop(&[]), &list), call_lines.chain(store_lines).collect::<String>(), "step {step}");
    }
}

#[test]
fn a_full_store_and_one_entry_more() {
    // Keys 0 to 31 are coins, 32 to 63 bags, under every seventh address; published in steps of 27.
    let mut list = Vec::new();
    for at in 0..64 {
        let key = at * 27 % 64;
        let of = if key < 32 { COIN } else { BAG };
        list.extend(calls(&[(of, &[key % 32 * 7, key])]));
    }
    list.extend(calls(&[(COIN, &[1, 1]), (BAG, &[0, 1])]));
    let mut expected: String = (0..64).map(|number| format!("call {number} done\n")).collect();
    expected.push_str("call 64 stop 38 row 16\ncall 65 stop 33 row 41\n");
    for key in 0..32 {
        expected.push_str(&format!("store 1 {} {key}\n", 7 * key));
    }
    for key in 32..64 {
        expected.push_str(&format!("store 3 {} {key} (2 {key}) 4\n", 7 * (key - 32)));
    }
    assert_eq!(text(&shop(&[]), &list), expected);
}
