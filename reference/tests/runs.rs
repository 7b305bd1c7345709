//! Lists and runs written by hand: refusals 15 to 17, every stop, restoring, texts.

mod common;

use common::*;
use reference::row::{write_rows, Row};

type Refused = (u32, usize);

fn run(table: &[Row], list: &[Row], buffer: usize) -> Result<Vec<u8>, Refused> {
    reference::run(&write_rows(table), &write_rows(list), None, buffer)
}

#[track_caller]
fn refused_list(table: &[Row], list: &[Row], number: u32, row: usize) {
    assert_eq!(run(table, list, BUFFER), Err((number, row)));
}

/// A guest with one public procedure; its rows begin at row 2.
fn procedure(rows: &[Row]) -> Vec<Row> {
    [&[guest(), public()], rows].concat()
}

/// Procedure 0 takes two numbers, 1 is private, 2 takes a reference, 3 gives a reference, 4 takes nothing.
fn some_procedures() -> Vec<Row> {
    vec![
        guest(),
        public(),
        param(N),
        param(N),
        ret(),
        private(),
        ret(),
        public(),
        param(R),
        ret(),
        public(),
        local(N),
        result(R),
        load(1),
        st(0),
        borrow(0),
        ret(),
        public(),
        ret(),
    ]
}

// 15, 16, 17

#[test]
fn good_lists() {
    let table = some_procedures();
    assert_eq!(run(&table, &[], BUFFER), Ok(Vec::new()));
    prints(&table, &[call_of(0, 1), argument(5), argument(6)], &["call 0 done"]);
    prints(&table, &[call_of(4, 65_535), call_of(4, 1)], &["call 0 done", "call 1 done"]);
    let longest = [call_of(4, 1); 256];
    assert_eq!(text(&table, &longest).lines().count(), 256);
}

#[test]
fn list_lengths() {
    let table = write_rows(&some_procedures());
    let list = [call_of(4, 1).to_bytes(); 257].concat();
    assert_eq!(reference::run(&table, &list, None, BUFFER), Err((15, 0)));
    assert_eq!(reference::run(&table, &list[..4_095], None, BUFFER), Err((15, 0)));
    assert_eq!(reference::run(&table, &list[..1], None, BUFFER), Err((15, 0)));
    // A bad row of a list that is too long is not looked at.
    let zeros = vec![0; 4_112];
    assert_eq!(reference::run(&table, &zeros, None, BUFFER), Err((15, 0)));
}

#[test]
fn list_rows() {
    let table = some_procedures();
    let good = call_of(4, 1);
    for kind in (0..=255).filter(|kind| ![1, 2].contains(kind)) {
        refused_list(&table, &[good, Row { kind, ..Row::default() }], 15, 1);
    }
    refused_list(&table, &[argument(1)], 15, 0);
    refused_list(&table, &[argument(1), good], 15, 0);
    refused_list(&table, &[good, Row { a: 1, ..good }], 15, 1);
    refused_list(&table, &[good, Row { d: 1 << 63, ..good }], 15, 1);
    for bad in [Row { a: 1, ..argument(5) }, Row { b: 256, ..argument(5) }, Row { c: 1 << 31, ..argument(5) }] {
        // It is counted as an argument, so the call itself is good.
        refused_list(&table, &[good, call_of(0, 1), argument(5), bad], 15, 3);
        // And here the call has one too many.
        refused_list(&table, &[good, call_of(0, 1), argument(5), argument(6), bad], 16, 1);
    }
}

#[test]
fn calls_of_nothing_good() {
    let table = some_procedures();
    refused_list(&table, &[call_of(5, 1)], 16, 0);
    refused_list(&table, &[call_of(256, 1)], 16, 0);
    refused_list(&table, &[call_of(4, 1), call_of(1, 1)], 16, 1);
    refused_list(&table, &[call_of(2, 1), argument(0)], 16, 0);
    refused_list(&table, &[call_of(3, 1)], 16, 0);
    refused_list(&table, &[call_of(0, 1), argument(0)], 16, 0);
    refused_list(&table, &[call_of(0, 1), argument(0), argument(0), argument(0)], 16, 0);
    refused_list(&table, &[call_of(0, 1), argument(0), call_of(4, 1), argument(0)], 16, 0);
    for budget in [0, 65_536, 65_537, u32::MAX] {
        refused_list(&table, &[call_of(4, 1), call_of(4, budget)], 16, 1);
    }
    // A read-only parameter or result is no number either.
    let takes = [public(), param(V), ret()];
    let gives = [public(), local(N), result(V), load(1), st(0), borrow(0), freeze(), ret()];
    let table = [&table[..], &takes, &gives].concat();
    refused_list(&table, &[call_of(4, 1), call_of(5, 1), argument(0)], 16, 1);
    refused_list(&table, &[call_of(4, 1), call_of(6, 9)], 16, 1);
}

#[test]
fn the_lowest_row_of_a_list() {
    let table = some_procedures();
    // On one row 15 comes before 16.
    refused_list(&table, &[Row { a: 1, ..call_of(9, 0) }], 15, 0);
    refused_list(&table, &[call_of(4, 1), call_of(9, 1), Row::default()], 16, 1);
    // A row of a bad kind ends the arguments: one is missing.
    refused_list(&table, &[call_of(0, 1), argument(1), Row { kind: 3, ..argument(2) }], 16, 0);
    refused_list(&table, &[call_of(0, 1), argument(1), argument(2), Row { kind: 3, ..Row::default() }], 15, 3);
}

#[test]
fn tables_then_lists_then_buffers() {
    let good = [call_of(4, 1)];
    let bad = [call_of(9, 1)];
    assert_eq!(run(&some_procedures(), &good, 65_535), Err((17, 0)));
    assert_eq!(run(&some_procedures(), &[], 0), Err((17, 0)));
    assert_eq!(run(&some_procedures(), &bad, 0), Err((16, 0)));
    assert_eq!(run(&procedure(&[pop(), ret()]), &bad, 0), Err((7, 2)));
    assert_eq!(run(&[], &bad, 0), Err((1, 0)));
    assert!(run(&some_procedures(), &good, 1 << 20).is_ok());
}

// Texts

#[test]
fn results_are_printed() {
    let code = [param(N), result(N), result(N), result(N), load(1), load(u64::MAX), mv(0), ret()];
    let list = calls(&[(0, &[7]), (0, &[0])]);
    prints(&procedure(&code), &list, &["call 0 done 1 18446744073709551615 7", "call 1 done 1 18446744073709551615 0"]);
}

#[test]
fn operations() {
    for (which, first, second, answer) in [
        (ADD, 5, 3, 8),
        (ADD, u64::MAX, 0, u64::MAX),
        (SUB, 5, 3, 2),
        (SUB, 3, 3, 0),
        (EQUAL, 3, 3, 1),
        (EQUAL, 3, 4, 0),
        (LESS, 3, 4, 1),
        (LESS, 4, 3, 0),
        (LESS, 3, 3, 0),
    ] {
        let table = procedure(&[param(N), param(N), result(N), mv(0), mv(1), arith(which), ret()]);
        prints(&table, &calls(&[(0, &[first, second])]), &[&format!("call 0 done {answer}")]);
    }
}

#[test]
fn branches() {
    // 0 mv 0; 1 jump_if 4; 2 load 10; 3 ret; 4 load 20; 5 ret
    let table = procedure(&[param(N), result(N), mv(0), jump_if(4), load(10), ret(), load(20), ret()]);
    let list = calls(&[(0, &[0]), (0, &[1]), (0, &[u64::MAX])]);
    prints(&table, &list, &["call 0 done 10", "call 1 done 20", "call 2 done 20"]);
}

#[test]
fn nested_records_and_records_without_fields() {
    let table = [
        guest(),
        ty(),
        ty(),
        num(),
        nested(0),
        num(),
        ty(),
        nested(0),
        nested(1),
        public(),
        pack(0),
        load(1),
        pack(0),
        load(2),
        pack(1),
        pack(2),
        load(9),
        move_to(2),
        pack(0),
        load(8),
        move_to(0),
        ret(),
    ];
    prints(&table, &calls(&[(0, &[])]), &["call 0 done", "store 0 8", "store 2 9 (0) (1 1 (0) 2)"]);
}

// Stops

#[test]
fn stop_31() {
    // 0 cp 0; 1 jump_if 3; 2 ret; 3 cp 0; 4 load 1; 5 sub; 6 st 0; 7 jump 0
    let table = procedure(&[param(N), cp(0), jump_if(3), ret(), cp(0), load(1), arith(SUB), st(0), jump(0)]);
    // Two rounds of seven instructions, then three more: 17.
    let list = [
        call_of(0, 17),
        argument(2),
        call_of(0, 16),
        argument(2),
        call_of(0, 8),
        argument(2),
        call_of(0, 1),
        argument(2),
    ];
    prints(&table, &list, &["call 0 done", "call 1 stop 31 row 5", "call 2 stop 31 row 4", "call 3 stop 31 row 4"]);
    prints(&procedure(&[jump(0)]), &[call_of(0, 65_535)], &["call 0 stop 31 row 2"]);
}

#[test]
fn stop_31_in_a_called_frame_and_before_others() {
    // Procedure 0: call 1 (row 2), ret. Procedure 1: 0 - 1 (rows 5 to 7), pop, ret.
    let table = [guest(), public(), call(1), ret(), private(), load(0), load(1), arith(SUB), pop(), ret()];
    let list = [call_of(0, 1), call_of(0, 2), call_of(0, 3), call_of(0, 4)];
    let lines = ["call 0 stop 31 row 5", "call 1 stop 31 row 6", "call 2 stop 31 row 7", "call 3 stop 39 row 7"];
    prints(&table, &list, &lines);
}

#[test]
fn budgets_count_the_instructions_of_all_frames() {
    // call, ret of the called, ret: three.
    let table = [guest(), public(), call(1), ret(), private(), ret()];
    prints(&table, &[call_of(0, 3)], &["call 0 done"]);
    prints(&table, &[call_of(0, 2)], &["call 0 stop 31 row 3"]);
}

#[test]
fn stop_32() {
    let add = procedure(&[param(N), param(N), result(N), mv(0), mv(1), arith(ADD), ret()]);
    let list = calls(&[(0, &[u64::MAX, 1]), (0, &[1, u64::MAX]), (0, &[1 << 63, 1 << 63]), (0, &[u64::MAX, 0])]);
    prints(
        &add,
        &list,
        &["call 0 stop 32 row 7", "call 1 stop 32 row 7", "call 2 stop 32 row 7", "call 3 done 18446744073709551615"],
    );
}

#[test]
fn stop_39() {
    let subtract = procedure(&[param(N), param(N), result(N), mv(0), mv(1), arith(SUB), ret()]);
    let list = calls(&[(0, &[0, 1]), (0, &[4, 5]), (0, &[5, 4])]);
    prints(&subtract, &list, &["call 0 stop 39 row 7", "call 1 stop 39 row 7", "call 2 done 1"]);
}

/// A trusted module of coins (type 0: a guarded number and a number) and boxes (type 1: a coin and a number).
/// 0 mint(address, value); 1 get(address); 2 burn(address) gives both numbers; 3 box_up(address). Then the rows,
/// beginning at row 41.
fn coins(rows: &[Row]) -> Vec<Row> {
    let head = [
        trusted(),
        ty(),
        guarded(),
        num(),
        ty(),
        nested(0),
        num(),
        // 0
        public(),
        param(N),
        param(N),
        mv(1),
        load(9),
        pack(0),
        mv(0),
        move_to(0),
        ret(),
        // 1
        public(),
        param(N),
        result(N),
        mv(0),
        global(0),
        field(0, 0),
        read(),
        ret(),
        // 2
        public(),
        param(N),
        result(N),
        result(N),
        mv(0),
        move_from(0),
        unpack(0),
        ret(),
        // 3
        public(),
        param(N),
        cp(0),
        move_from(0),
        load(5),
        pack(1),
        mv(0),
        move_to(1),
        ret(),
    ];
    assert_eq!(head.len(), 41);
    [&head, rows].concat()
}

#[test]
fn stops_33_and_34() {
    let list = calls(&[
        (1, &[7]),
        (0, &[7, 50]),
        (0, &[7, 60]),
        (1, &[7]),
        (2, &[8]),
        (2, &[7]),
        (2, &[7]),
        (0, &[7, 70]),
        (3, &[7]),
        (3, &[7]),
        (0, &[7, 80]),
        (3, &[7]),
    ]);
    let lines = [
        "call 0 stop 34 row 20",
        "call 1 done",
        "call 2 stop 33 row 14",
        "call 3 done 50",
        "call 4 stop 34 row 29",
        "call 5 done 50 9",
        "call 6 stop 34 row 29",
        "call 7 done",
        "call 8 done",
        "call 9 stop 34 row 35",
        "call 10 done",
        "call 11 stop 33 row 39",
        "store 0 7 80 9",
        "store 1 7 (0 70 9) 5",
    ];
    prints(&coins(&[]), &list, &lines);
}

#[test]
fn exists_tells_keys_apart() {
    let has = |of: u16| [public(), param(N), result(N), mv(0), exists(of), ret()];
    let table = coins(&[has(0), has(1)].concat());
    let list = calls(&[(4, &[7]), (0, &[7, 1]), (4, &[7]), (5, &[7]), (4, &[8])]);
    prints(
        &table,
        &list,
        &["call 0 done 0", "call 1 done", "call 2 done 1", "call 3 done 0", "call 4 done 0", "store 0 7 1 9"],
    );
}

/// A procedure 4 of coins over an address, giving a number: local 1 a coin, 2 a reference to a number, 3 a
/// reference to a coin. Its instructions begin at row 47.
fn with_coin(code: &[Row]) -> Vec<Row> {
    let head = [public(), param(N), local(rec(0)), local(R), local(rec_ref(0)), result(N)];
    coins(&[&head, code].concat())
}

#[test]
fn stop_35_record_unpacked() {
    let table = with_coin(&[
        load(1),
        load(2),
        pack(0),
        st(1),
        borrow(1),
        field(0, 1),
        st(2),
        mv(1),
        unpack(0),
        pop(),
        pop(),
        cp(2),
        read(),
        ret(),
    ]);
    // read is instruction 12.
    prints(&table, &calls(&[(4, &[7])]), &["call 0 stop 35 row 59"]);
}

#[test]
fn stop_35_room_used_again() {
    let make = [load(1), load(2), pack(0), st(1)];
    let code = [
        &make[..],
        &[borrow(1), field(0, 1), st(2), mv(1), unpack(0), pop(), pop()],
        &make,
        &[cp(2), read(), mv(1), unpack(0), pop(), pop(), ret()],
    ]
    .concat();
    // read is instruction 16.
    prints(&with_coin(&code), &calls(&[(4, &[7])]), &["call 0 stop 35 row 63"]);
    // Writing is no better.
    let code = [
        &make[..],
        &[borrow(1), field(0, 1), st(2), mv(1), unpack(0), pop(), pop()],
        &make,
        &[load(6), cp(2), write(), mv(1), unpack(0), pop(), ret()],
    ]
    .concat();
    prints(&with_coin(&code), &calls(&[(4, &[7])]), &["call 0 stop 35 row 64"]);
}

#[test]
fn stop_35_published_record_replaced() {
    let code = [
        cp(0),
        global(0),
        st(3),
        cp(0),
        move_from(0),
        unpack(0),
        pop(),
        pop(),
        load(1),
        load(2),
        pack(0),
        cp(0),
        move_to(0),
        cp(3),
        field(0, 1),
        read(),
        ret(),
    ];
    // field is instruction 14, row 61; the coin of call 0 is there afterwards.
    let list = calls(&[(0, &[7, 50]), (4, &[7])]);
    prints(&with_coin(&code), &list, &["call 0 done", "call 1 stop 35 row 61", "store 0 7 50 9"]);
}

#[test]
fn references_follow_their_record() {
    // The coin goes from the store into a box, into the store, out of the box and back.
    let code = [
        cp(0),
        global(0),
        field(0, 0),
        st(2),
        cp(0),
        call(3),
        load(41),
        cp(2),
        write(),
        cp(0),
        move_from(1),
        unpack(1),
        pop(),
        cp(0),
        move_to(0),
        cp(2),
        read(),
        ret(),
    ];
    // The marked reference stays in this frame: box_up takes an address.
    let list = calls(&[(0, &[7, 50]), (4, &[7])]);
    prints(&with_coin(&code), &list, &["call 0 done", "call 1 done 41", "store 0 7 41 9"]);
}

#[test]
fn stop_35_frame_returned() {
    // Procedure 0 gives a reference to its own local; 1 reads it (row 10).
    let lend = [guest(), public(), param(N), result(R), borrow(0), ret()];
    let reading = [public(), result(N), load(5), call(0), read(), ret()];
    prints(&[&lend[..], &reading].concat(), &calls(&[(1, &[])]), &["call 0 stop 35 row 10"]);
    // A frame of procedure 1 stands where the old one did, with a full local 0; it reads in row 11.
    let peek = [public(), param(N), param(R), result(N), mv(1), read(), ret()];
    let main = [public(), result(N), load(77), load(5), call(0), call(1), ret()];
    let table = [&lend[..], &peek, &main].concat();
    prints(&table, &calls(&[(2, &[])]), &["call 0 stop 35 row 11"]);
}

#[test]
fn stop_35_local_empty() {
    let table = procedure(&[param(N), local(R), result(N), borrow(0), st(1), mv(0), pop(), cp(1), read(), ret()]);
    prints(&table, &calls(&[(0, &[3])]), &["call 0 stop 35 row 10"]);
}

#[test]
fn a_local_filled_again_works_again() {
    let table = procedure(&[
        param(N),
        local(R),
        result(N),
        result(N),
        borrow(0),
        st(1),
        mv(0),
        load(5),
        st(0),
        cp(1),
        read(),
        ret(),
    ]);
    prints(&table, &calls(&[(0, &[3])]), &["call 0 done 3 5"]);
}

#[test]
fn a_reference_to_a_record_local_names_what_it_holds() {
    let code = [
        load(1),
        load(2),
        pack(0),
        st(1),
        borrow(1),
        st(3),
        mv(1),
        cp(0),
        move_to(0),
        load(3),
        load(4),
        pack(0),
        st(1),
        cp(3),
        field(0, 1),
        read(),
        mv(1),
        unpack(0),
        pop(),
        pop(),
        ret(),
    ];
    prints(&with_coin(&code), &calls(&[(4, &[7])]), &["call 0 done 4", "store 0 7 1 2"]);
    // With the local still empty: field is instruction 10, row 57.
    let code = [
        load(1),
        load(2),
        pack(0),
        st(1),
        borrow(1),
        st(3),
        mv(1),
        cp(0),
        move_to(0),
        cp(3),
        field(0, 1),
        read(),
        ret(),
    ];
    prints(&with_coin(&code), &calls(&[(4, &[7])]), &["call 0 stop 35 row 57"]);
}

#[test]
fn stale_references_may_be_handled() {
    let lend = [guest(), public(), param(N), result(R), borrow(0), ret()];
    let pass = [public(), param(R), result(R), mv(0), ret()];
    let main = [public(), local(R), load(5), call(0), call(1), st(0), cp(0), pop(), mv(0), pop(), ret()];
    prints(&[&lend[..], &pass, &main].concat(), &calls(&[(2, &[])]), &["call 0 done"]);
}

#[test]
fn writes_into_the_callers_local() {
    let poke = [guest(), public(), param(R), load(12), mv(0), write(), ret()];
    let main = [public(), param(N), result(N), borrow(0), call(0), mv(0), ret()];
    prints(&[&poke[..], &main].concat(), &calls(&[(1, &[3])]), &["call 0 done 12"]);
}

// Read-only references

/// Coins with 4 show(read-only reference to a coin), which gives one to its first number, and 5 ask(address), which
/// has it read by a guest in two ways: 6 is given a reference to the number, 7 one to the coin.
fn shown_coins() -> Vec<Row> {
    let show = [public(), param(rec_view(0)), result(V), mv(0), field(0, 0), ret()];
    // Instructions begin at row 51.
    let head = [public(), param(N), result(N), result(N)];
    let ask = [cp(0), global(0), freeze(), field(0, 0), call(6), mv(0), global(0), freeze(), call(7), ret()];
    let by_number = [guest(), public(), param(V), result(N), mv(0), read(), ret()];
    let by_coin = [public(), param(rec_view(0)), result(N), mv(0), call(4), read(), ret()];
    coins(&[&show[..], &head, &ask, &by_number, &by_coin].concat())
}

#[test]
fn a_guest_reads_through_what_it_is_given() {
    let list = calls(&[(0, &[7, 50]), (5, &[7])]);
    prints(&shown_coins(), &list, &["call 0 done", "call 1 done 50 50", "store 0 7 50 9"]);
}

#[test]
fn stop_31_before_freeze() {
    // Freeze is instruction 2, row 53, and instruction 7, row 58. The guest's 6 does three instructions.
    let mint = calls(&[(0, &[7, 50])]);
    for (budget, row) in [(2, 53), (3, 54), (10, 58), (11, 59)] {
        let list = [&mint[..], &[call_of(5, budget), argument(7)]].concat();
        let stop = format!("call 1 stop 31 row {row}");
        prints(&shown_coins(), &list, &["call 0 done", &stop, "store 0 7 50 9"]);
    }
}

#[test]
fn a_frozen_reference_shows_what_is_written() {
    let head = [public(), param(N), local(R), local(V), result(N)];
    let both = [mv(0), global(0), field(0, 0), st(1), cp(1), freeze(), st(2)];
    let code = [load(41), cp(1), write(), cp(2), read(), ret()];
    let list = calls(&[(0, &[7, 50]), (4, &[7])]);
    prints(&coins(&[&head[..], &both, &code].concat()), &list, &["call 0 done", "call 1 done 41", "store 0 7 41 9"]);
}

/// As `with_coin`, but local 2 is a read-only reference to a number, 3 one to a coin.
fn with_frozen(code: &[Row]) -> Vec<Row> {
    let head = [public(), param(N), local(rec(0)), local(V), local(rec_view(0)), result(N)];
    coins(&[&head, code].concat())
}

#[test]
fn stop_35_frozen_and_unpacked() {
    let make = [load(1), load(2), pack(0), st(1)];
    let break_up = [mv(1), unpack(0), pop(), pop()];
    let code = [&make[..], &[borrow(1), field(0, 1), freeze(), st(2)], &break_up, &[cp(2), read(), ret()]].concat();
    // read is instruction 13.
    prints(&with_frozen(&code), &calls(&[(4, &[7])]), &["call 0 stop 35 row 60"]);
    // Another coin in its room, and the reference borrowed through a frozen one.
    let keep = [borrow(1), freeze(), field(0, 1), st(2)];
    let code = [&make[..], &keep, &break_up, &make, &[cp(2), read()], &break_up, &[ret()]].concat();
    // read is instruction 17.
    prints(&with_frozen(&code), &calls(&[(4, &[7])]), &["call 0 stop 35 row 64"]);
    // A published coin: field is instruction 10.
    let code = [
        cp(0),
        global(0),
        freeze(),
        st(3),
        cp(0),
        move_from(0),
        unpack(0),
        pop(),
        pop(),
        cp(3),
        field(0, 1),
        read(),
        ret(),
    ];
    let list = calls(&[(0, &[7, 50]), (4, &[7])]);
    prints(&with_frozen(&code), &list, &["call 0 done", "call 1 stop 35 row 57", "store 0 7 50 9"]);
}

#[test]
fn stop_35_frozen_and_frame_returned() {
    let lend = [guest(), public(), param(N), result(V), borrow(0), freeze(), ret()];
    let reading = [public(), result(N), load(5), call(0), read(), ret()];
    prints(&[&lend[..], &reading].concat(), &calls(&[(1, &[])]), &["call 0 stop 35 row 11"]);
    // A new frame stands where the old one did, with a full local 0; it reads in row 12.
    let peek = [public(), param(N), param(V), result(N), mv(1), read(), ret()];
    let main = [public(), result(N), load(77), load(5), call(0), call(1), ret()];
    prints(&[&lend[..], &peek, &main].concat(), &calls(&[(2, &[])]), &["call 0 stop 35 row 12"]);
}

#[test]
fn stop_35_frozen_and_local_empty() {
    let head = [param(N), local(V), result(N)];
    let keep = [borrow(0), freeze(), st(1), mv(0), pop()];
    let table = procedure(&[&head[..], &keep, &[cp(1), read(), ret()]].concat());
    prints(&table, &calls(&[(0, &[3])]), &["call 0 stop 35 row 11"]);
    // Filled again it works again.
    let table = procedure(&[&head[..], &keep, &[load(6), st(0), cp(1), read(), ret()]].concat());
    prints(&table, &calls(&[(0, &[3])]), &["call 0 done 6"]);
    // A record's local: field is instruction 11, row 58. With another coin in it the reference leads there.
    let make = [load(1), load(2), pack(0), st(1)];
    let keep = [borrow(1), freeze(), st(3), mv(1), cp(0), move_to(0)];
    let look = [cp(3), field(0, 1), read()];
    let table = with_frozen(&[&make[..], &keep, &look, &[ret()]].concat());
    prints(&table, &calls(&[(4, &[7])]), &["call 0 stop 35 row 58"]);
    let other = [load(3), load(4), pack(0), st(1)];
    let end = [mv(1), unpack(0), pop(), pop(), ret()];
    let table = with_frozen(&[&make[..], &keep, &other, &look, &end].concat());
    prints(&table, &calls(&[(4, &[7])]), &["call 0 done 4", "store 0 7 1 2"]);
}

#[test]
fn freeze_does_not_stop() {
    // The local is empty when its reference is frozen in row 10; reading stops in row 11.
    let table =
        procedure(&[param(N), local(R), result(N), borrow(0), st(1), mv(0), pop(), cp(1), freeze(), read(), ret()]);
    prints(&table, &calls(&[(0, &[3])]), &["call 0 stop 35 row 11"]);
    // The coin is broken up when its reference is frozen; field is instruction 12, row 59.
    let code = [
        load(1),
        load(2),
        pack(0),
        st(1),
        borrow(1),
        st(3),
        mv(1),
        unpack(0),
        pop(),
        pop(),
        cp(3),
        freeze(),
        field(0, 1),
        read(),
        ret(),
    ];
    prints(&with_coin(&code), &calls(&[(4, &[7])]), &["call 0 stop 35 row 59"]);
}

#[test]
fn stale_frozen_references_may_be_handled() {
    let lend = [guest(), public(), param(N), result(R), borrow(0), ret()];
    let pass = [public(), param(V), result(V), mv(0), ret()];
    let main = [public(), local(V), load(5), call(0), freeze(), call(1), st(0), cp(0), pop(), mv(0), pop(), ret()];
    prints(&[&lend[..], &pass, &main].concat(), &calls(&[(2, &[])]), &["call 0 done"]);
}

#[test]
fn stop_36() {
    // 0 cp 0; 1 jump_if 3; 2 ret; 3 mv 0; 4 load 1; 5 sub; 6 call 0; 7 ret: n + 1 frames.
    let table = procedure(&[param(N), cp(0), jump_if(3), ret(), mv(0), load(1), arith(SUB), call(0), ret()]);
    let list = calls(&[(0, &[15]), (0, &[16]), (0, &[15])]);
    prints(&table, &list, &["call 0 done", "call 1 stop 36 row 9", "call 2 done"]);
}

/// A guest with type 0 of no fields and type 1 of two records of type 0, and procedures over (count, address):
/// 0 publishes `count` records of type 0 from `address` on, 1 the same of type 1.
fn fillers() -> Vec<Row> {
    let loop_with = |make: &[Row], of: u16| {
        [
            &[public(), param(N), param(N), cp(0), jump_if(3), ret()][..],
            make,
            &[cp(1), move_to(of), cp(1), load(1), arith(ADD), st(1), cp(0), load(1), arith(SUB), st(0), jump(0)],
        ]
        .concat()
    };
    let head = [guest(), ty(), ty(), nested(0), nested(0)];
    let one = loop_with(&[pack(0)], 0);
    let three = loop_with(&[pack(0), pack(0), pack(1)], 1);
    [&head[..], &one, &three].concat()
}

#[test]
fn stop_37() {
    // 42 records of type 1 are 126; two more of type 0 make 128.
    let list = calls(&[(1, &[42, 0]), (0, &[2, 0]), (0, &[1, 100])]);
    let text = text(&fillers(), &list);
    let lines: Vec<&str> = text.lines().collect();
    // Procedure 0 packs in row 11.
    assert_eq!(lines[..3], ["call 0 done", "call 1 done", "call 2 stop 37 row 11"]);
    assert_eq!(lines.len(), 3 + 44);
    // The 43rd needs three more: 127, 128 and the 129th, which is the third Pack (rows 29, 30, 31).
    let list = calls(&[(1, &[43, 0])]);
    prints(&fillers(), &list, &["call 0 stop 37 row 31"]);
}

#[test]
fn records_broken_up_do_not_count() {
    // 0 cp 0; 1 jump_if 3; 2 ret; 3 pack; 4 unpack; 5 cp 0; 6 load 1; 7 sub; 8 st 0; 9 jump 0
    let code = [cp(0), jump_if(3), ret(), pack(0), unpack(0), cp(0), load(1), arith(SUB), st(0), jump(0)];
    let table = [&[guest(), ty(), public(), param(N)][..], &code].concat();
    prints(&table, &calls(&[(0, &[1_000]), (0, &[1_000])]), &["call 0 done", "call 1 done"]);
}

#[test]
fn stops_38_and_33_before_it() {
    let list = calls(&[(0, &[64, 0]), (0, &[1, 64]), (0, &[1, 63]), (1, &[1, 0])]);
    let text = text(&fillers(), &list);
    let lines: Vec<&str> = text.lines().collect();
    // Procedure 0 publishes in row 13, procedure 1 in row 33.
    let ends = ["call 0 done", "call 1 stop 38 row 13", "call 2 stop 33 row 13", "call 3 stop 38 row 33"];
    assert_eq!(lines[..4], ends);
    assert_eq!(lines.len(), 4 + 64);
    prints(&fillers(), &calls(&[(0, &[65, 0])]), &["call 0 stop 38 row 13"]);
}

// Restoring

#[test]
fn numbers_written_before_a_stop_are_restored() {
    // Writes both numbers of the coin, then takes 1 from 0.
    let code = [
        load(70),
        cp(0),
        global(0),
        field(0, 0),
        write(),
        load(71),
        cp(0),
        global(0),
        field(0, 1),
        write(),
        load(0),
        load(1),
        arith(SUB),
        ret(),
    ];
    // sub is instruction 12.
    let list = calls(&[(0, &[7, 50]), (4, &[7]), (1, &[7])]);
    let lines = ["call 0 done", "call 1 stop 39 row 59", "call 2 done 50", "store 0 7 50 9"];
    prints(&with_coin(&code), &list, &lines);
}

#[test]
fn nested_numbers_and_moves_are_restored() {
    // Writes into the boxed coin, takes the box apart, publishes the coin, then meets a missing key.
    let code = [
        load(70),
        cp(0),
        global(1),
        field(1, 0),
        field(0, 0),
        write(),
        cp(0),
        move_from(1),
        unpack(1),
        pop(),
        cp(0),
        move_to(0),
        load(99),
        global(0),
        pop(),
        load(1),
        ret(),
    ];
    // The missing key is met in instruction 13.
    let list = calls(&[(0, &[7, 50]), (3, &[7]), (4, &[7]), (0, &[8, 1])]);
    let lines =
        ["call 0 done", "call 1 done", "call 2 stop 34 row 60", "call 3 done", "store 0 8 1 9", "store 1 7 (0 50 9) 5"];
    prints(&with_coin(&code), &list, &lines);
}

#[test]
fn records_of_a_stopped_call_live_no_longer() {
    // A round is 14 instructions, so each stopped call makes 35 records: too many in the end if they were to stay.
    let table = fillers();
    let mut list = Vec::new();
    for _ in 0..5 {
        list.extend([call_of(0, 500), argument(60), argument(0)]);
    }
    list.extend(calls(&[(1, &[42, 0]), (0, &[2, 0])]));
    let text = text(&table, &list);
    let lines: Vec<&str> = text.lines().collect();
    assert!(lines[..5].iter().enumerate().all(|(number, line)| line.starts_with(&format!("call {number} stop 31"))));
    assert_eq!(lines[5..7], ["call 5 done", "call 6 done"]);
    assert_eq!(lines.len(), 7 + 44);
}

#[test]
fn a_stop_in_a_called_frame_undoes_the_callers_work_too() {
    // Mints at the address, then mints again there through procedure 0.
    let code = [cp(0), load(1), call(0), cp(0), load(2), call(0), load(3), ret()];
    // Procedure 0 publishes in row 14.
    prints(
        &with_coin(&code),
        &calls(&[(4, &[7]), (0, &[7, 4])]),
        &["call 0 stop 33 row 14", "call 1 done", "store 0 7 4 9"],
    );
}
