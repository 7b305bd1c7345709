//! Tables written by hand for each refusal. The numbers and rows are read off documents 01 and 02.

mod common;

use common::*;
use reference::row::{write_rows, Row};

fn with(rows: &[Row], more: &[Row]) -> Vec<Row> {
    [rows, more].concat()
}

/// A module with one public procedure of these locals, results and instructions. They begin at row 2.
fn procedure(rows: &[Row]) -> Vec<Row> {
    with(&[guest(), public()], rows)
}

/// A trusted module with type 0 (a guarded and a plain number) and a public procedure 0 that takes a reference to
/// a number; then the rows, beginning at row 7.
fn bank(rows: &[Row]) -> Vec<Row> {
    with(&[trusted(), ty(), guarded(), num(), public(), param(R), ret()], rows)
}

// 1

#[test]
fn lengths() {
    let good = write_rows(&procedure(&[ret()]));
    assert_eq!(reference::judge(&good), Ok(3));
    for short in 0..good.len() {
        let verdict = reference::judge(&good[..short]);
        if short % 16 != 0 || short == 0 {
            assert_eq!(verdict, Err((1, 0)), "{short} bytes");
        }
    }
    assert_eq!(reference::judge(&[1; 32_784]), Err((1, 0)));
    assert_eq!(reference::judge(&[255; 32_769]), Err((1, 0)));
    // Row 0 of 32,768 such bytes is of an unknown kind.
    assert_eq!(reference::judge(&[255; 32_768]), Err((2, 0)));
}

// 2

#[test]
fn kinds_after_kinds() {
    // For each kind of row, the kinds that may stand directly below it.
    let below: [(u8, &[u8]); 7] = [
        (1, &[1, 2, 4]),
        (2, &[1, 2, 3, 4]),
        (3, &[1, 2, 3, 4]),
        (4, &[1, 4, 5, 6, 7]),
        (5, &[1, 4, 5, 6, 7]),
        (6, &[1, 4, 6, 7]),
        (7, &[1, 4, 7]),
    ];
    for (above, allowed) in below {
        let rows = match above {
            1 => vec![guest()],
            2 => vec![guest(), ty()],
            3 => vec![guest(), ty(), num()],
            4 => vec![guest(), public()],
            5 => vec![guest(), public(), local(N)],
            6 => vec![guest(), public(), result(N)],
            _ => vec![guest(), public(), ret()],
        };
        for kind in 0..=255 {
            let verdict = judge(&with(&rows, &[Row { kind, ..Row::default() }]));
            let refusal = Err((2, rows.len()));
            assert_eq!(verdict == refusal, !allowed.contains(&kind), "{kind} below {above}");
        }
    }
}

#[test]
fn row_0_is_a_module() {
    for kind in (0..=255).filter(|&kind| kind != 1) {
        refused(&[Row { kind, ..Row::default() }, guest()], 2, 0);
    }
    accepted(&[guest()]);
    accepted(&[trusted(), ty()]);
}

// 3

#[test]
fn sixteen_modules() {
    accepted(&[guest(); 16]);
    refused(&[guest(); 17], 3, 16);
}

#[test]
fn sixty_four_types() {
    let mut rows = vec![guest()];
    rows.extend([ty(); 40]);
    rows.push(guest());
    rows.extend([ty(); 24]);
    accepted(&rows);
    // Row 0, 40 types, a module, 24 types: the 65th type is row 66.
    refused(&with(&rows, &[ty()]), 3, 66);
}

#[test]
fn eight_fields() {
    let mut rows = vec![guest(), ty(), num(), ty()];
    rows.extend([num(); 8]);
    accepted(&rows);
    refused(&with(&rows, &[num()]), 3, 12);
}

#[test]
fn one_hundred_and_twenty_eight_procedures() {
    let mut rows = vec![guest()];
    for _ in 0..128 {
        rows.extend([private(), ret()]);
    }
    accepted(&rows);
    refused(&with(&rows, &[private(), ret()]), 3, 257);
}

#[test]
fn sixteen_locals() {
    let mut rows = vec![param(N); 9];
    rows.extend([local(N); 7]);
    accepted(&procedure(&with(&rows, &[ret()])));
    // Locals begin at row 2, so the 17th is row 18.
    refused(&procedure(&with(&rows, &[local(N), ret()])), 3, 18);
}

#[test]
fn four_results() {
    let results = [result(N); 4];
    let code = [load(1), load(2), load(3), load(4), ret()];
    accepted(&procedure(&with(&results, &code)));
    refused(&procedure(&with(&with(&results, &[result(N)]), &code)), 3, 6);
}

#[test]
fn two_hundred_and_fifty_six_instructions() {
    let mut code = vec![jump(0); 255];
    code.push(ret());
    accepted(&procedure(&code));
    refused(&procedure(&with(&code, &[ret()])), 3, 258);
}

#[test]
fn a_limit_before_a_value() {
    let mut rows = vec![guest(); 17];
    rows[16].a = 9;
    refused(&rows, 3, 16);
    rows[15].a = 9;
    refused(&rows, 18, 15);
}

// 4

#[test]
fn unused_bytes() {
    // A row, and which of its bytes after the kind and A are used.
    let module = [trusted(), ty(), num(), ty()];
    let in_types: [(Row, &[usize]); 4] =
        [(guest(), &[]), (ty(), &[]), (num(), &[4, 5, 6, 7]), (nested(0), &[2, 3, 4, 5, 6, 7])];
    for (row, used) in in_types {
        check_bytes(&module, row, &[], used);
    }
    check_bytes(&module, public(), &[ret()], &[]);
    let locals: [(Row, &[usize]); 6] = [
        (local(N), &[4, 5, 6, 7]),
        (local(R), &[4, 5, 6, 7]),
        (local(V), &[4, 5, 6, 7]),
        (local(rec(0)), &[2, 3, 4, 5, 6, 7]),
        (local(rec_ref(0)), &[2, 3, 4, 5, 6, 7]),
        (local(rec_view(0)), &[2, 3, 4, 5, 6, 7]),
    ];
    for (row, used) in locals {
        check_bytes(&with(&module, &[public()]), row, &[ret()], used);
    }
    let results: [(Row, &[usize]); 6] = [
        (result(N), &[]),
        (result(R), &[]),
        (result(V), &[]),
        (result(rec(0)), &[2, 3]),
        (result(rec_ref(0)), &[2, 3]),
        (result(rec_view(0)), &[2, 3]),
    ];
    for (row, used) in results {
        check_bytes(&with(&module, &[public()]), row, &[jump(0)], used);
    }
    for op in 0..=20 {
        let used: &[usize] = match op {
            1 => &[8, 9, 10, 11, 12, 13, 14, 15],
            0 | 6 | 7 | 16 | 20 => &[],
            _ => &[2, 3],
        };
        check_bytes(&with(&module, &[public()]), instr(op, 0), &[ret()], used);
    }
}

/// Each byte from 2 on, set to 1 and to 128 in turn, gives 4 exactly if it is not used.
fn check_bytes(before: &[Row], row: Row, after: &[Row], used: &[usize]) {
    for place in 2..16 {
        for value in [1, 128] {
            let rows = with(&with(before, &[with_byte(row, place, value)]), after);
            let dirty = judge(&rows) == Err((4, before.len()));
            assert_eq!(dirty, !used.contains(&place), "{row:?} byte {place}");
        }
    }
}

fn with_byte(row: Row, place: usize, value: u8) -> Row {
    let mut bytes = row.to_bytes();
    bytes[place] = value;
    Row::from_bytes(&bytes)
}

#[test]
fn a_of_types_is_unused() {
    for a in 1..=255 {
        refused(&[guest(), Row { a, ..ty() }], 4, 1);
    }
}

#[test]
fn unused_bytes_beside_an_a_that_is_not_allowed() {
    // A row with the last allowed A, the rows above it, and which bytes after A some allowed A uses.
    let module = [trusted(), ty()];
    let procedure = [trusted(), public()];
    let cases: [(&[Row], Row, &[usize]); 6] = [
        (&[], trusted(), &[]),
        (&module, nested(0), &[2, 3, 4, 5, 6, 7]),
        (&module, public(), &[]),
        (&procedure, local(rec_view(0)), &[2, 3, 4, 5, 6, 7]),
        (&procedure, result(rec_view(0)), &[2, 3]),
        (&procedure, instr(20, 0), &[2, 3, 8, 9, 10, 11, 12, 13, 14, 15]),
    ];
    for (above, row, used) in cases {
        for a in [row.a + 1, 100, 255] {
            let row = Row { a, ..row };
            refused(&with(above, &[row]), 18, above.len());
            for place in 2..16 {
                let number = if used.contains(&place) { 18 } else { 4 };
                for value in [1, 2, 128] {
                    refused(&with(above, &[with_byte(row, place, value)]), number, above.len());
                }
            }
        }
    }
}

// 18

/// Whether a row is refused with 18, for every A.
fn check_a(most: u8, rows: impl Fn(u8) -> Vec<Row>, at: usize) {
    for a in 0..=255 {
        assert_eq!(judge(&rows(a)) == Err((18, at)), a > most, "{a} at row {at}");
    }
}

#[test]
fn a_of_modules() {
    check_a(1, |a| vec![Row { a, ..guest() }], 0);
}

#[test]
fn a_of_fields() {
    check_a(1, |a| vec![guest(), ty(), Row { a, ..num() }], 2);
}

#[test]
fn a_of_procedures() {
    check_a(1, |a| vec![guest(), Row { a, ..public() }, ret()], 1);
}

#[test]
fn sorts_of_locals() {
    check_a(5, |a| procedure(&[Row { a, ..local(N) }, ret()]), 2);
}

#[test]
fn sorts_of_results() {
    check_a(5, |a| procedure(&[Row { a, ..result(N) }, ret()]), 2);
}

#[test]
fn opcodes() {
    check_a(20, |a| procedure(&[instr(a, 0), ret()]), 2);
}

const OVER_ONE: [u32; 7] = [2, 3, 256, 257, 65_536, 0x0100_0000, u32::MAX];

#[test]
fn c_of_fields() {
    for c in OVER_ONE {
        refused(&[trusted(), ty(), Row { c, ..num() }], 18, 2);
        refused(&[guest(), ty(), Row { c, ..num() }], 18, 2);
        refused(&[trusted(), ty(), ty(), Row { c, ..nested(0) }], 18, 3);
    }
}

#[test]
fn c_of_locals() {
    for c in OVER_ONE {
        for row in [local(N), local(R), local(V), local(rec(0))] {
            refused(&procedure(&[Row { c, ..row }, ret()]), 18, 2);
        }
        refused(&procedure(&[local(N), Row { c, ..local(N) }, ret()]), 18, 3);
    }
}

#[test]
fn parameters_first() {
    accepted(&procedure(&[param(N), param(R), local(N), local(R), ret()]));
    refused(&procedure(&[param(N), local(R), param(N), ret()]), 18, 4);
    refused(&procedure(&[local(N), local(R), local(N), param(N), ret()]), 18, 5);
    // Each procedure by itself.
    accepted(&procedure(&[local(N), ret(), public(), param(N), ret()]));
}

#[test]
fn ops() {
    for which in 0..4 {
        accepted(&procedure(&[load(1), load(2), arith(which), pop(), ret()]));
    }
    for which in [4, 5, 255, 256, 65_535] {
        refused(&procedure(&[load(1), load(2), arith(which), pop(), ret()]), 18, 4);
    }
}

// 19

#[test]
fn guards_of_guests() {
    accepted(&[trusted(), ty(), guarded()]);
    refused(&[guest(), ty(), guarded()], 19, 2);
    refused(&[trusted(), guest(), ty(), guarded()], 19, 3);
    refused(&[guest(), ty(), num(), guarded()], 19, 3);
    accepted(&[guest(), trusted(), ty(), guarded()]);
}

#[test]
fn guarded_records() {
    let guarded_record = Row { c: 1, ..nested(0) };
    refused(&[trusted(), ty(), ty(), guarded_record], 19, 3);
    refused(&[guest(), ty(), ty(), guarded_record], 19, 3);
    // Type 1 is no lower number; that is for the names pass.
    refused(&[trusted(), ty(), ty(), Row { b: 1, ..guarded_record }], 19, 3);
}

// The order of 2, 3, 4, 18 and 19.

#[test]
fn an_unused_byte_before_a_value() {
    let unshaped = [
        Row { b: 1, ..local(N) },
        Row { d: 1, ..local(R) },
        Row { d: 1, ..local(rec(0)) },
        Row { b: 1, d: 1, ..local(V) },
    ];
    for row in unshaped {
        // C over 1, and a parameter after another local.
        refused(&procedure(&[Row { c: 2, ..row }, ret()]), 4, 2);
        refused(&procedure(&[local(N), Row { c: 1, ..row }, ret()]), 4, 3);
        refused(&procedure(&[Row { a: 6, d: 1, ..row }, ret()]), 4, 2);
    }
    refused(&[Row { a: 2, b: 1, ..guest() }], 4, 0);
    refused(&[trusted(), ty(), Row { a: 2, d: 1, ..num() }], 4, 2);
    refused(&[trusted(), ty(), Row { b: 1, c: 2, ..num() }], 4, 2);
    refused(&[trusted(), ty(), Row { c: 256, d: 1, ..num() }], 4, 2);
    refused(&[guest(), Row { a: 2, c: 1, ..public() }], 4, 1);
    refused(&procedure(&[Row { a: 6, c: 1, ..result(N) }, ret()]), 4, 2);
    refused(&procedure(&[Row { c: 1, ..instr(21, 0) }, ret()]), 4, 2);
    refused(&procedure(&[Row { c: 1, ..arith(4) }, ret()]), 4, 2);
    refused(&procedure(&[Row { d: 1, ..arith(4) }, ret()]), 4, 2);
}

#[test]
fn an_unused_byte_before_a_guard() {
    refused(&[guest(), ty(), Row { b: 1, ..guarded() }], 4, 2);
    refused(&[guest(), ty(), Row { d: 1, ..guarded() }], 4, 2);
    refused(&[trusted(), ty(), ty(), Row { c: 1, d: 1, ..nested(0) }], 4, 3);
    refused(&[trusted(), ty(), Row { b: 1, ..guarded() }], 4, 2);
}

#[test]
fn a_value_before_a_guard() {
    for module in [guest(), trusted()] {
        refused(&[module, ty(), Row { a: 2, ..guarded() }], 18, 2);
        refused(&[module, ty(), Row { a: 2, b: 9, ..guarded() }], 18, 2);
        refused(&[module, ty(), Row { a: 2, d: 1, ..guarded() }], 4, 2);
        for c in OVER_ONE {
            refused(&[module, ty(), Row { c, ..num() }], 18, 2);
            refused(&[module, ty(), ty(), Row { c, ..nested(0) }], 18, 3);
        }
    }
}

#[test]
fn a_kind_before_all_of_the_row() {
    let wrong = [Row { d: 1, ..num() }, Row { a: 2, ..num() }, Row { c: 2, ..num() }, guarded()];
    for row in wrong {
        // A field below a procedure, and a row of no kind.
        refused(&[guest(), public(), row], 2, 2);
        refused(&[guest(), ty(), Row { kind: 8, ..row }], 2, 2);
    }
}

#[test]
fn a_limit_before_all_of_the_row() {
    let mut fields = vec![guest(), ty()];
    fields.extend([num(); 8]);
    for row in [Row { d: 1, ..num() }, Row { a: 2, ..num() }, Row { c: 2, ..num() }, guarded()] {
        refused(&with(&fields, &[row]), 3, 10);
    }
    let locals = [local(N); 16];
    for row in [param(N), Row { d: 1, ..local(N) }, Row { a: 6, ..local(N) }, Row { c: 2, ..local(N) }] {
        refused(&procedure(&with(&locals, &[row, ret()])), 3, 18);
    }
}

#[test]
fn the_lowest_row_of_the_rows_pass() {
    let unknown = Row { kind: 9, ..Row::default() };
    let dirty = Row { d: 1, ..public() };
    let value = Row { a: 2, ..public() };
    // Row 2 has 19; below it 2, 4, 18 and, from the 17th module on, 3.
    let guard = [guest(), ty(), guarded()];
    for below in [unknown, dirty, value] {
        refused(&with(&guard, &[below]), 19, 2);
    }
    refused(&with(&guard, &[guest(); 16]), 19, 2);
    // Row 1 has 18, then 4.
    for below in [unknown, dirty, value, guest()] {
        refused(&with(&[guest(), value, below], &guard), 18, 1);
        refused(&with(&[guest(), dirty, below], &guard), 4, 1);
    }
    refused(&with(&[guest(), value], &[guest(); 16]), 18, 1);
    // Row 1 has 2, or row 16 has 3.
    refused(&with(&[guest(), unknown, value], &guard), 2, 1);
    refused(&with(&with(&[guest(); 17], &[value]), &guard), 3, 16);
}

#[test]
fn the_rows_pass_before_later_ones() {
    // Procedure 0 has no instructions; procedure 1 names a type and a local that are not there.
    let later = [guest(), public(), public(), param(rec(7)), cp(9), pop(), ret()];
    refused(&later, 5, 1);
    refused(&with(&later, &[guest(), ty(), guarded()]), 19, 9);
    refused(&with(&later, &[public(), instr(21, 0)]), 18, 8);
    refused(&with(&later, &[public(), local(N), param(N)]), 18, 9);
    refused(&with(&later, &[public(), Row { c: 1, ..ret() }]), 4, 8);
}

// 5

#[test]
fn ends() {
    accepted(&procedure(&[ret()]));
    accepted(&procedure(&[jump(0)]));
    refused(&procedure(&[]), 5, 1);
    refused(&procedure(&[local(N), result(N)]), 5, 1);
    refused(&procedure(&[ret(), public(), param(N), guest()]), 5, 3);
    for op in (0..=20).filter(|&op| op != 16 && op != 17) {
        refused(&procedure(&[ret(), instr(op, 0)]), 5, 1);
    }
    // The field of row 4 names no lower type, but the procedure above stands first.
    refused(&[guest(), public(), guest(), ty(), nested(0)], 5, 1);
    refused(&[guest(), ty(), nested(0), public()], 6, 2);
}

// 6

#[test]
fn field_types() {
    accepted(&[guest(), ty(), ty(), nested(0)]);
    accepted(&[guest(), ty(), guest(), ty(), nested(0)]);
    refused(&[guest(), ty(), nested(0)], 6, 2);
    refused(&[guest(), ty(), ty(), nested(1), ty()], 6, 3);
    refused(&[guest(), ty(), ty(), nested(2), ty()], 6, 3);
    refused(&[guest(), ty(), ty(), Row { b: 256, ..nested(0) }], 6, 3);
}

#[test]
fn local_and_result_types() {
    // A type that stands below, in another module, exists.
    let later = [guest(), ty()];
    let sorts = [rec(0), rec_ref(0), rec_view(0)];
    for row in sorts.map(local).into_iter().chain(sorts.map(result)) {
        accepted(&with(&procedure(&[row, jump(0)]), &later));
        let next = Row { b: 1, ..row };
        refused(&with(&procedure(&[next, jump(0)]), &later), 6, 2);
        refused(&with(&procedure(&[Row { b: 65_535, ..row }, jump(0)]), &later), 6, 2);
    }
}

#[test]
fn named_locals() {
    for op in 2..=5 {
        refused(&procedure(&[local(N), local(N), instr(op, 2), ret()]), 6, 4);
        refused(&procedure(&[instr(op, 0), ret()]), 6, 2);
        refused(&procedure(&[local(N), instr(op, 256), ret()]), 6, 3);
    }
}

#[test]
fn named_types_and_fields() {
    let types = [guest(), ty(), num(), num(), ty(), public()];
    for op in 9..=14 {
        refused(&with(&types, &[instr(op, 2), ret()]), 6, 6);
        refused(&with(&types, &[instr(op, 257), ret()]), 6, 6);
        assert_ne!(judge(&with(&types, &[instr(op, 1), ret()])), Err((6, 6)));
    }
    // Type 0 has fields 0 and 1, type 1 has none; 16 would be a field of type 2.
    for b in [2, 7, 8, 9, 16, 65_535] {
        refused(&with(&types, &[instr(8, b), ret()]), 6, 6);
    }
    refused(&with(&types, &[instr(8, 1), ret()]), 7, 6);
}

#[test]
fn named_procedures_and_targets() {
    refused(&procedure(&[call(1), ret()]), 6, 2);
    accepted(&procedure(&[call(1), ret(), public(), ret()]));
    refused(&procedure(&[call(256), ret()]), 6, 2);
    for code in [jump(2), jump(65_535)] {
        refused(&procedure(&[code, ret()]), 6, 2);
    }
    refused(&procedure(&[load(0), jump_if(3), ret()]), 6, 3);
    accepted(&procedure(&[load(0), jump_if(2), ret()]));
    // A procedure has its own instructions only.
    refused(&procedure(&[jump(1), public(), ret(), ret()]), 6, 2);
}

// 7

#[test]
fn missing_operands() {
    for code in
        [pop(), read(), write(), freeze(), exists(0), move_from(0), global(0), move_to(0), unpack(0), pack(0), arith(0)]
    {
        refused(&[guest(), ty(), num(), public(), code, ret()], 7, 4);
    }
    refused(&procedure(&[jump_if(0), ret()]), 7, 2);
    refused(&procedure(&[load(1), arith(0), pop(), ret()]), 7, 3);
    refused(&procedure(&[result(N), ret()]), 7, 3);
    refused(&procedure(&[local(N), st(0), ret()]), 7, 3);
    refused(&procedure(&[call(1), ret(), private(), param(N), ret()]), 7, 2);
    // Operands do not outlive their block: instruction 2 is a target.
    refused(&procedure(&[load(0), jump_if(2), pop(), ret()]), 7, 4);
}

#[test]
fn wrong_operands() {
    // Procedure 0: local 0 a number, 1 a reference to a number, 2 a record, 3 a reference to a record of type 0;
    // local 4 a reference to a record of type 1. Instructions begin at row 11.
    let head = [
        guest(),
        ty(),
        num(),
        ty(),
        nested(0),
        public(),
        param(N),
        param(R),
        param(rec(0)),
        param(rec_ref(0)),
        param(rec_ref(1)),
    ];
    let fault = |code: &[Row]| {
        let rows = with(&with(&head, code), &[ret()]);
        refused(&rows, 7, head.len() + code.len() - 1);
    };
    fault(&[mv(2), pop()]);
    fault(&[cp(2)]);
    fault(&[borrow(1)]);
    fault(&[borrow(3)]);
    fault(&[load(1), st(1)]);
    fault(&[cp(1), st(0)]);
    fault(&[cp(4), st(3)]);
    fault(&[cp(3), read()]);
    fault(&[cp(0), read()]);
    fault(&[cp(1), cp(0), write()]);
    fault(&[cp(1), cp(1), write()]);
    fault(&[cp(4), field(0, 0)]);
    fault(&[cp(1), field(0, 0)]);
    fault(&[mv(2), field(0, 0)]);
    fault(&[cp(1), pack(0)]);
    fault(&[cp(0), pack(1)]);
    fault(&[mv(2), unpack(1)]);
    fault(&[cp(3), unpack(0)]);
    fault(&[load(1), mv(2), move_to(0)]);
    fault(&[mv(2), load(1), move_to(1)]);
    fault(&[cp(1), exists(0)]);
    fault(&[cp(1), jump_if(0)]);
    fault(&[cp(0), cp(1), arith(ADD)]);
    fault(&[cp(0), cp(1), mv(2), cp(4), cp(3), call(0)]);
    fault(&[cp(1), cp(0), mv(2), cp(3), cp(4), call(0)]);
}

#[test]
fn right_operands() {
    let head = [
        guest(),
        ty(),
        num(),
        num(),
        ty(),
        num(),
        nested(0),
        public(),
        param(N),
        param(R),
        param(rec(1)),
        param(rec_ref(1)),
        local(rec(0)),
        result(R),
        result(rec(1)),
    ];
    let code = [
        cp(0),
        cp(1),
        write(),
        cp(3),
        field(1, 1),
        field(0, 1),
        read(),
        pop(),
        mv(2),
        unpack(1),
        st(4),
        mv(4),
        pack(1),
        load(3),
        move_to(1),
        borrow(0),
        load(3),
        move_from(1),
        ret(),
    ];
    accepted(&with(&head, &code));
    // Results the wrong way round: the topmost is a reference, not a record.
    let mut rows = with(&head, &code);
    rows.swap(13, 14);
    refused(&rows, 7, rows.len() - 1);
}

#[test]
fn rows_that_no_walk_reaches_are_typed() {
    refused(&procedure(&[ret(), pop(), ret()]), 7, 3);
    accepted(&procedure(&[ret(), load(1), pop(), ret()]));
    // The jump of row 5 makes a block edge before row 4.
    refused(&procedure(&[load(1), pop(), ret(), jump(1)]), 9, 2);
}

/// A guest with type 0 (a number) and type 1 (a record of type 0 and a number) and a procedure that has a local of
/// each sort: 0 a number, 1 a writable and 2 a read-only reference to a number, 3 a record, 4 a writable and 5 a
/// read-only reference to a record, all of type 0; 6 a writable and 7 a read-only reference to a record of type 1.
/// The rows begin at row 15.
fn all_sorts(rows: &[Row]) -> Vec<Row> {
    let types = [guest(), ty(), num(), ty(), nested(0), num(), public()];
    let sorts = [N, R, V, rec(0), rec_ref(0), rec_view(0), rec_ref(1), rec_view(1)];
    with(&with(&types, &sorts.map(param)), rows)
}

#[test]
fn read_only_operands() {
    let code = [
        // Freeze of both sorts, into locals, and what comes of them.
        cp(1),
        freeze(),
        st(2),
        cp(4),
        freeze(),
        st(5),
        borrow(0),
        freeze(),
        read(),
        st(0),
        cp(2),
        read(),
        st(0),
        borrow(3),
        freeze(),
        field(0, 0),
        st(2),
        // BorrowFld through read-only references gives read-only ones.
        cp(7),
        field(1, 0),
        st(5),
        cp(7),
        field(1, 0),
        field(0, 0),
        st(2),
        cp(7),
        field(1, 1),
        read(),
        pop(),
        // And through writable ones writable ones.
        cp(6),
        field(1, 0),
        st(4),
        cp(6),
        field(1, 1),
        st(1),
        // Moving, copying and popping.
        mv(2),
        st(2),
        cp(5),
        pop(),
        mv(5),
        pop(),
        jump(0),
    ];
    accepted(&all_sorts(&code));
    // A local emptied is empty, whatever its sort.
    refused(&all_sorts(&[mv(5), pop(), cp(5), pop(), jump(4)]), 11, 17);
    refused(&all_sorts(&[mv(2), pop(), jump(0)]), 11, 15);
}

#[test]
fn wrong_read_only_operands() {
    let fault = |code: &[Row]| {
        let rows = all_sorts(&with(code, &[ret()]));
        refused(&rows, 7, 15 + code.len() - 1);
    };
    // WriteRef.
    fault(&[load(1), cp(2), write()]);
    fault(&[load(1), cp(1), freeze(), write()]);
    fault(&[load(1), borrow(0), freeze(), write()]);
    fault(&[load(1), cp(5), field(0, 0), write()]);
    fault(&[load(1), cp(4), freeze(), field(0, 0), write()]);
    fault(&[load(1), cp(7), field(1, 0), field(0, 0), write()]);
    fault(&[cp(2), cp(1), write()]);
    // Freeze.
    fault(&[freeze()]);
    fault(&[cp(0), freeze()]);
    fault(&[cp(2), freeze()]);
    fault(&[mv(3), freeze()]);
    fault(&[cp(5), freeze()]);
    fault(&[cp(1), freeze(), freeze()]);
    fault(&[cp(4), freeze(), freeze()]);
    // BorrowLoc.
    for local in [1, 2, 4, 5, 6, 7] {
        fault(&[borrow(local)]);
    }
    // StLoc: sorts and types do not stand in for each other.
    for (given, asked) in [(2, 1), (1, 2), (5, 4), (4, 5), (7, 5), (5, 7), (7, 6), (2, 5), (5, 2), (2, 0), (0, 2)] {
        fault(&[cp(given), st(asked)]);
    }
    fault(&[cp(1), freeze(), st(1)]);
    fault(&[cp(4), freeze(), st(4)]);
    fault(&[cp(7), field(1, 0), st(4)]);
    fault(&[cp(6), field(1, 0), st(5)]);
    fault(&[mv(3), st(5)]);
    // Others that take something else.
    fault(&[cp(5), read()]);
    fault(&[cp(2), field(0, 0)]);
    fault(&[cp(7), field(0, 0)]);
    fault(&[cp(5), field(1, 0)]);
    fault(&[cp(2), pack(0)]);
    fault(&[cp(5), unpack(0)]);
    fault(&[cp(5), load(1), move_to(0)]);
    fault(&[cp(2), exists(0)]);
    fault(&[cp(2), jump_if(0)]);
    fault(&[load(1), cp(2), arith(ADD)]);
}

#[test]
fn read_only_parameters_and_results() {
    for (asked, fits, unfit) in [(R, 1, 2), (V, 2, 1), (rec_ref(0), 4, 5), (rec_view(0), 5, 4), (rec_view(0), 5, 7)] {
        let callee = [private(), param(asked), ret()];
        accepted(&all_sorts(&with(&[cp(fits), call(1), jump(0)], &callee)));
        refused(&all_sorts(&with(&[cp(unfit), call(1), jump(0)], &callee)), 7, 16);
        let gives = |local: u16| all_sorts(&[result(asked), cp(local), mv(3), unpack(0), pop(), ret()]);
        accepted(&gives(fits));
        // Ret is row 20.
        refused(&gives(unfit), 7, 20);
    }
}

// 8

#[test]
fn seventeen_operands() {
    let mut code = vec![load(1); 16];
    accepted(&procedure(&with(&with(&code, &[pop(); 16]), &[ret()])));
    code.push(load(1));
    refused(&procedure(&with(&with(&code, &[pop(); 17]), &[ret()])), 8, 18);
}

#[test]
fn seventeen_operands_by_unpack() {
    let mut head = vec![guest(), ty()];
    head.extend([num(); 8]);
    head.push(public());
    // Row 11 on: k numbers, a withdrawn record, its eight fields.
    for (before, good) in [(8, true), (9, false)] {
        let mut rows = head.clone();
        rows.extend(vec![load(1); before]);
        rows.extend([load(0), move_from(0), unpack(0)]);
        rows.extend(vec![pop(); before + 8]);
        rows.push(ret());
        if good {
            accepted(&rows);
        } else {
            refused(&rows, 8, 11 + 9 + 2);
        }
    }
}

#[test]
fn seventeen_operands_by_call() {
    let callee = [public(), result(N), result(N), load(1), load(2), ret()];
    for (before, good) in [(14, true), (15, false)] {
        let mut rows = with(&[guest()], &callee);
        rows.push(public());
        rows.extend(vec![load(1); before]);
        rows.push(call(0));
        rows.extend(vec![pop(); before + 2]);
        rows.push(ret());
        if good {
            accepted(&rows);
        } else {
            refused(&rows, 8, 8 + 15);
        }
    }
}

#[test]
fn eight_before_nine_and_ten() {
    // Seventeen operands after the last row of a block: instruction 17 is a target.
    let mut code = vec![load(1); 17];
    code.push(jump(17));
    refused(&procedure(&code), 8, 18);
    // Two results of a private procedure of another module.
    let mut rows = vec![guest(), private(), result(N), result(N), load(1), load(2), ret(), guest(), public()];
    rows.extend([load(1); 15]);
    rows.extend([call(0), ret()]);
    refused(&rows, 8, 24);
}

// 9

#[test]
fn operands_left() {
    refused(&procedure(&[load(1), ret()]), 9, 3);
    refused(&procedure(&[load(1), jump(0)]), 9, 3);
    refused(&procedure(&[load(1), load(0), jump_if(0), ret()]), 9, 4);
    refused(&procedure(&[load(1), pop(), jump(1)]), 9, 2);
    refused(&procedure(&[result(N), load(1), load(2), ret()]), 9, 5);
    // What lies under the results is no matter of sorts.
    refused(&procedure(&[local(N), result(N), borrow(0), load(2), ret()]), 9, 6);
    // A record left is one too.
    refused(&[guest(), ty(), public(), pack(0), ret()], 9, 4);
}

#[test]
fn nine_before_ten() {
    // Instruction 2 is a target, so its row 6 starts a block and row 5 ends one.
    refused(&[guest(), ty(), guest(), public(), load(1), exists(0), jump(2), ret()], 9, 5);
    refused(&[guest(), ty(), guest(), public(), load(1), exists(0), pop(), ret()], 10, 5);
}

// 10

#[test]
fn types_of_other_modules() {
    let head = [guest(), ty(), num(), guest(), public(), param(rec(0)), param(rec_ref(0))];
    refused(&with(&head, &[cp(1), field(0, 0), pop(), jump(0)]), 10, 8);
    refused(&with(&head, &[load(1), pack(0), load(2), move_to(0), jump(0)]), 10, 8);
    refused(&with(&head, &[mv(0), unpack(0), pop(), jump(0)]), 10, 8);
    refused(&with(&head, &[mv(0), load(2), move_to(0), jump(0)]), 10, 9);
    refused(&with(&head, &[load(1), move_from(0), st(0), jump(0)]), 10, 8);
    refused(&with(&head, &[load(1), global(0), pop(), jump(0)]), 10, 8);
    refused(&with(&head, &[load(1), exists(0), pop(), jump(0)]), 10, 8);
    // Holding records and references of another module is allowed, fields of its types too.
    accepted(&with(&head, &[cp(1), pop(), mv(0), st(0), jump(0)]));
    accepted(&[guest(), ty(), guest(), ty(), nested(0)]);
    // Sorts come first on a row.
    refused(&with(&head, &[pack(0), jump(0)]), 7, 7);
}

#[test]
fn types_of_other_modules_through_read_only_references() {
    let head = [guest(), ty(), num(), guest(), public(), param(rec_ref(0)), param(rec_view(0))];
    refused(&with(&head, &[cp(1), field(0, 0), pop(), ret()]), 10, 8);
    refused(&with(&head, &[cp(0), freeze(), field(0, 0), pop(), ret()]), 10, 9);
    // Freeze is for any module, and what it gives may be held and handed on.
    let owner = [trusted(), ty(), guarded(), public(), param(rec_view(0)), result(V), mv(0), field(0, 0), ret()];
    let other = [guest(), public(), param(rec_ref(0)), result(N), mv(0), freeze(), call(0), read(), ret()];
    accepted(&with(&owner, &other));
}

#[test]
fn private_procedures() {
    accepted(&[guest(), private(), ret(), public(), call(0), ret()]);
    refused(&[guest(), private(), ret(), guest(), public(), call(0), ret()], 10, 5);
    accepted(&[guest(), public(), ret(), guest(), public(), call(0), ret()]);
    refused(&[guest(), public(), call(1), ret(), trusted(), private(), ret()], 10, 2);
}

// 11

#[test]
fn empty_locals() {
    for code in [[mv(0), pop()], [cp(0), pop()], [borrow(0), pop()]] {
        refused(&procedure(&with(&with(&[local(N)], &code), &[ret()])), 11, 3);
        accepted(&procedure(&with(&with(&[param(N)], &code), &[ret()])));
    }
    accepted(&procedure(&[local(N), load(1), st(0), mv(0), pop(), ret()]));
    refused(&procedure(&[param(N), mv(0), pop(), cp(0), pop(), ret()]), 11, 5);
    accepted(&procedure(&[param(N), cp(0), pop(), cp(0), pop(), ret()]));
    // BorrowLoc keeps the local.
    accepted(&procedure(&[param(N), borrow(0), pop(), mv(0), pop(), ret()]));
}

#[test]
fn some_walk_leaves_it_empty() {
    // 0 load 1; 1 jump_if 4; 2 load 1; 3 st 0; 4 cp 0; 5 pop; 6 ret
    refused(&procedure(&[local(N), load(1), jump_if(4), load(1), st(0), cp(0), pop(), ret()]), 11, 7);
    // Filled on both ways.
    accepted(&procedure(&[
        local(N),
        load(1),
        jump_if(5),
        load(1),
        st(0),
        jump(7),
        load(2),
        st(0),
        cp(0),
        pop(),
        ret(),
    ]));
    // Emptied the second time round: 0 mv 0; 1 pop; 2 load 1; 3 jump_if 0; 4 ret.
    refused(&procedure(&[param(N), mv(0), pop(), load(1), jump_if(0), ret()]), 11, 3);
    // And filled again before it comes round.
    accepted(&procedure(&[param(N), mv(0), pop(), load(3), st(0), load(1), jump_if(0), ret()]));
}

#[test]
fn rows_that_no_walk_reaches_do_not_empty_locals() {
    accepted(&procedure(&[local(N), ret(), cp(0), pop(), ret()]));
    // 0 jump 3; 1 mv 0; 2 pop; 3 mv 0; 4 pop; 5 ret
    accepted(&procedure(&[param(N), jump(3), mv(0), pop(), mv(0), pop(), ret()]));
    // Both ways of a branch are walks, whatever the number: 0 load 0; 1 jump_if 3; 2 ret; 3 cp 0; ...
    refused(&procedure(&[local(N), load(0), jump_if(3), ret(), cp(0), pop(), ret()]), 11, 6);
}

// 12

/// A guest with type 0 of one number and a procedure; rows begin at row 4.
fn notes(rows: &[Row]) -> Vec<Row> {
    with(&[guest(), ty(), num(), public()], rows)
}

#[test]
fn records_left_at_ret() {
    refused(&notes(&[param(rec(0)), ret()]), 12, 5);
    accepted(&notes(&[param(rec(0)), mv(0), unpack(0), pop(), ret()]));
    accepted(&notes(&[param(rec(0)), jump(0)]));
    accepted(&notes(&[local(rec(0)), ret()]));
    refused(&notes(&[local(rec(0)), load(1), pack(0), st(0), ret()]), 12, 8);
    // Numbers and references may be left.
    accepted(&notes(&[param(N), param(R), param(rec_ref(0)), ret()]));
    // Left on one of two walks: 0 cp 0; 1 jump_if 5; 2 mv 1; 3 unpack; 4 pop; 5 ret.
    let rows = [param(N), param(rec(0)), cp(0), jump_if(5), mv(1), unpack(0), pop(), ret()];
    refused(&notes(&rows), 12, 11);
}

#[test]
fn records_overwritten() {
    let make = [load(1), pack(0), st(0)];
    let twice = with(&with(&[local(rec(0))], &make), &make);
    // Rows 5, 6, 7 and 8, 9, 10; row 11 jumps to itself.
    refused(&notes(&with(&twice, &[jump(6)])), 12, 10);
    // Round a loop: the second time it is full. 0 load; 1 pack; 2 st; 3 jump 0.
    refused(&notes(&with(&with(&[local(rec(0))], &make), &[jump(0)])), 12, 7);
    // Taken out in between.
    let out = [mv(0), unpack(0), pop()];
    let rows = with(&with(&[local(rec(0))], &make), &with(&out, &with(&make, &[jump(6)])));
    // Rows 8 to 10 take it out, rows 11 to 13 fill it again, row 14 jumps back to row 11.
    refused(&notes(&rows), 12, 13);
    let rows = with(&with(&[local(rec(0))], &make), &with(&out, &[jump(0)]));
    accepted(&notes(&rows));
    // Numbers are overwritten freely.
    accepted(&notes(&[param(N), load(1), st(0), ret()]));
}

#[test]
fn the_lowest_row_of_11_and_12() {
    // Row 8 leaves a record on the walk that does not jump; row 12 finds the local empty.
    let out = [mv(1), unpack(0), pop()];
    let rows = [&[param(N), param(rec(0)), cp(0), jump_if(3), ret()][..], &out, &out, &[ret()]].concat();
    refused(&notes(&rows), 12, 8);
    // Row 8 finds it empty; row 10 leaves the record that row 9 puts there all the same.
    let rows = [param(rec(0)), mv(0), unpack(0), pop(), mv(0), st(0), ret()];
    refused(&notes(&rows), 11, 8);
}

// 13 and 14

#[test]
fn marked_references_in_calls() {
    let take = |codes: &[Row]| bank(&with(&with(&[public(), param(rec_ref(0)), local(R), local(R)], codes), &[ret()]));
    // Instructions begin at row 11.
    refused(&take(&[cp(0), field(0, 0), call(0)]), 13, 13);
    accepted(&take(&[cp(0), field(0, 1), call(0)]));
    refused(&take(&[cp(0), field(0, 0), st(1), cp(1), call(0)]), 13, 15);
    refused(&take(&[cp(0), field(0, 0), st(1), mv(1), st(2), mv(2), call(0)]), 13, 17);
    accepted(&take(&[cp(0), field(0, 0), st(1), cp(0), field(0, 1), st(1), cp(1), call(0)]));
    // The mark is gone from a local that was emptied, and stays in one that was copied.
    refused(&take(&[cp(0), field(0, 0), st(1), cp(1), st(2), cp(0), field(0, 1), st(2), cp(1), call(0)]), 13, 20);
    // Under the operands that the call takes.
    accepted(&take(&[cp(0), field(0, 0), cp(0), field(0, 1), call(0), pop()]));
    refused(&take(&[cp(0), field(0, 1), cp(0), field(0, 0), call(0), pop()]), 13, 15);
    // A whole record's reference is not marked, nor is the number read.
    accepted(&take(&[cp(0), field(0, 0), read(), pop()]));
}

#[test]
fn marks_are_gone_behind_calls_and_for_parameters() {
    let pass = [private(), param(R), result(R), mv(0), ret()];
    let rows = bank(&with(&pass, &[public(), param(rec_ref(0)), result(R), mv(0), field(0, 1), call(1), ret()]));
    accepted(&rows);
}

#[test]
fn marked_references_returned() {
    let give =
        |codes: &[Row]| bank(&with(&[public(), param(rec_ref(0)), param(N), local(R), result(N), result(R)], codes));
    // Instructions begin at row 13.
    refused(&give(&[load(1), mv(0), field(0, 0), ret()]), 14, 16);
    accepted(&give(&[load(1), mv(0), field(0, 1), ret()]));
    refused(&give(&[mv(0), field(0, 0), st(2), load(1), mv(2), ret()]), 14, 18);
}

#[test]
fn read_only_references_are_not_marked() {
    // Procedure 1 gives a read-only reference back, 2 takes one to a record, 4 is a guest's and reads one.
    let head = [public(), param(V), result(V), mv(0), ret(), public(), param(rec_view(0)), ret()];
    let show = |codes: &[Row]| {
        let head = bank(&with(&head, &[public(), param(rec_ref(0)), local(R), local(V), local(rec_view(0))]));
        let guest = [guest(), public(), param(V), mv(0), read(), pop(), ret()];
        with(&with(&head, &with(codes, &[ret()])), &guest)
    };
    // Instructions begin at row 20.
    accepted(&show(&[cp(0), field(0, 0), freeze(), call(4)]));
    accepted(&show(&[cp(0), freeze(), field(0, 0), call(4)]));
    accepted(&show(&[cp(0), field(0, 0), st(1), cp(1), freeze(), st(2), cp(2), call(1), st(2), cp(2), call(4)]));
    accepted(&show(&[cp(0), freeze(), st(3), cp(3), call(2), cp(3), field(0, 0), call(1), pop()]));
    // The writable one beside it stays marked, and is under the operands that the call takes.
    accepted(&show(&[cp(0), field(0, 0), cp(0), field(0, 0), freeze(), call(4), pop()]));
    refused(&show(&[cp(0), field(0, 0), st(1), cp(1), freeze(), st(2), cp(1), call(0)]), 13, 27);
    refused(&show(&[cp(0), freeze(), field(0, 0), call(4), cp(0), field(0, 0), call(0)]), 13, 26);
    accepted(&show(&[cp(0), freeze(), field(0, 0), call(4), cp(0), field(0, 1), call(0)]));
}

#[test]
fn read_only_references_are_returned() {
    let give = |codes: &[Row]| {
        bank(&with(&[public(), param(rec_ref(0)), param(rec_view(0)), local(R), result(V), result(rec_view(0))], codes))
    };
    // Instructions begin at row 13.
    accepted(&give(&[cp(0), field(0, 0), freeze(), cp(0), freeze(), ret()]));
    accepted(&give(&[cp(1), field(0, 0), cp(1), ret()]));
    accepted(&give(&[cp(0), field(0, 0), st(2), cp(2), freeze(), mv(1), ret()]));
    refused(&give(&[cp(0), field(0, 0), cp(0), freeze(), ret()]), 7, 17);
    refused(&give(&[cp(1), field(0, 0), cp(0), ret()]), 7, 16);
    // A writable one beside it.
    let pair =
        |codes: &[Row]| bank(&with(&[public(), param(rec_ref(0)), result(R), result(V)], &with(codes, &[ret()])));
    // Instructions begin at row 11.
    refused(&pair(&[cp(0), field(0, 0), cp(0), field(0, 0), freeze()]), 14, 16);
    accepted(&pair(&[cp(0), field(0, 1), cp(0), field(0, 0), freeze()]));
}

#[test]
fn freeze_takes_the_mark_on_every_walk() {
    // 0 borrow 1; 1 st 2; 2 cp 1; 3 jump_if 7; 4 cp 0; 5 field 0; 6 st 2; 7 cp 2; 8 freeze; 9 ret
    let head = [public(), param(rec_ref(0)), param(N), local(R)];
    let code = [borrow(1), st(2), cp(1), jump_if(7), cp(0), field(0, 0), st(2), cp(2), freeze(), ret()];
    accepted(&bank(&with(&with(&head, &[result(V)]), &code)));
    // The same without Freeze: Ret is row 20.
    let code = with(&code[..8], &[ret()]);
    refused(&bank(&with(&with(&head, &[result(R)]), &code)), 14, 20);
}

#[test]
fn some_walk_brings_the_mark() {
    // 0 borrow 1; 1 st 2; 2 cp 1; 3 jump_if 7; 4 cp 0; 5 field; 6 st 2; 7 load 1; 8 cp 2; 9 ret
    let rows = |number: u16| {
        bank(&[
            public(),
            param(rec_ref(0)),
            param(N),
            local(R),
            result(N),
            result(R),
            borrow(1),
            st(2),
            cp(1),
            jump_if(7),
            cp(0),
            field(0, number),
            st(2),
            load(1),
            cp(2),
            ret(),
        ])
    };
    refused(&rows(0), 14, 22);
    accepted(&rows(1));
    // The marked walk first, the unmarked one last: 0 cp 1; 1 jump_if 6; 2 cp 0; 3 field 0; 4 st 2; 5 jump 8;
    // 6 borrow 1; 7 st 2; 8 load 1; 9 cp 2; 10 ret
    let rows = bank(&[
        public(),
        param(rec_ref(0)),
        param(N),
        local(R),
        result(N),
        result(R),
        cp(1),
        jump_if(6),
        cp(0),
        field(0, 0),
        st(2),
        jump(8),
        borrow(1),
        st(2),
        load(1),
        cp(2),
        ret(),
    ]);
    refused(&rows, 14, 23);
}

#[test]
fn a_mark_that_comes_round() {
    // 0 borrow 1; 1 st 2; 2 cp 2; 3 call 0; 4 cp 0; 5 field 0; 6 st 2; 7 cp 1; 8 jump_if 2; 9 ret
    let rows = bank(&[
        public(),
        param(rec_ref(0)),
        param(N),
        local(R),
        borrow(1),
        st(2),
        cp(2),
        call(0),
        cp(0),
        field(0, 0),
        st(2),
        cp(1),
        jump_if(2),
        ret(),
    ]);
    // Instruction 0 is row 11.
    refused(&rows, 13, 14);
}

#[test]
fn leaks_of_rows_that_no_walk_reaches() {
    accepted(&bank(&[public(), param(rec_ref(0)), ret(), cp(0), field(0, 0), call(0), ret()]));
}

#[test]
fn marks_do_not_last_where_no_walk_brings_them() {
    // Marked before the loop, overwritten in it before the call.
    // 0 cp 0; 1 field 0; 2 st 2; 3 borrow 1; 4 st 2; 5 cp 2; 6 call 0; 7 cp 1; 8 jump_if 3; 9 ret
    accepted(&bank(&[
        public(),
        param(rec_ref(0)),
        param(N),
        local(R),
        cp(0),
        field(0, 0),
        st(2),
        borrow(1),
        st(2),
        cp(2),
        call(0),
        cp(1),
        jump_if(3),
        ret(),
    ]));
}

// The order of passes.

#[test]
fn passes_in_their_order() {
    // One faulty procedure for each pass, the last pass's highest up; each is mended in turn.
    let leak = [public(), param(rec_ref(0)), mv(0), field(0, 0), call(0), ret()];
    let empty = [public(), local(N), cp(0), pop(), ret()];
    let untyped = [public(), pop(), ret()];
    let unnamed = [public(), jump(9)];
    let unshaped = [
        (18, 1, vec![public(), instr(21, 0), ret()]),
        (19, 2, vec![guest(), ty(), guarded()]),
        (4, 1, vec![public(), Row { c: 1, ..ret() }]),
    ];
    let mut rows = bank(&[]);
    let at = rows.len();
    rows.extend(leak);
    refused(&rows, 13, at + 4);
    let at = rows.len();
    rows.extend(empty);
    refused(&rows, 11, at + 2);
    let at = rows.len();
    rows.extend(untyped);
    refused(&rows, 7, at + 1);
    let at = rows.len();
    rows.extend(unnamed);
    refused(&rows, 6, at + 1);
    let at = rows.len();
    for (number, below, unshaped) in &unshaped {
        refused(&with(&rows, unshaped), *number, at + below);
    }
    rows.extend(unshaped.into_iter().flat_map(|(_, _, rows)| rows));
    refused(&rows, 18, at + 1);
    let mut bytes = write_rows(&rows);
    bytes.push(0);
    assert_eq!(reference::judge(&bytes), Err((1, 0)));
}

#[test]
fn the_lowest_row_of_a_pass() {
    refused(&procedure(&[load(1), ret(), public(), pop(), ret()]), 9, 3);
    refused(&procedure(&[pop(), ret(), public(), load(1), ret()]), 7, 2);
    refused(&[guest(), ty(), nested(0), Row { kind: 9, ..Row::default() }], 2, 3);
    refused(&[guest(), Row { a: 1, ..ty() }, Row { kind: 9, ..Row::default() }], 4, 1);
}
