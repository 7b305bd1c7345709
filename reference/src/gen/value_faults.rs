//! Faults in the bytes of one row: unused bytes that are not 0 (4), values that are not allowed (18) and misplaced
//! guards (19), alone and together.

use super::plan::{asm::*, field_row, local_row, module_row, proc_row, result_row, type_row};
use super::rng::Rng;
use super::row_faults::some_row;
use crate::program::Sort;
use crate::row::{kind, last_a, limit, op, uses, Row};

#[derive(Clone, Copy, Debug, PartialEq, Eq)]
pub enum Cause {
    /// A is too large in a row of this kind.
    A(u8),
    /// C over 1 in a field.
    FieldC,
    /// C over 1 in a local.
    LocalC,
    /// A parameter after another local.
    LateParam,
    /// Op over 3.
    Op,
    /// A guarded field that is a record.
    GuardedRecord,
    /// A guarded field of a guest.
    GuardedByGuest,
}

/// Each cause with its refusal.
pub const CAUSES: [(u32, Cause); 12] = [
    (18, Cause::A(kind::MODULE)),
    (18, Cause::A(kind::FIELD)),
    (18, Cause::A(kind::PROCEDURE)),
    (18, Cause::A(kind::LOCAL)),
    (18, Cause::A(kind::RESULT)),
    (18, Cause::A(kind::INSTRUCTION)),
    (18, Cause::FieldC),
    (18, Cause::LocalC),
    (18, Cause::LateParam),
    (18, Cause::Op),
    (19, Cause::GuardedRecord),
    (19, Cause::GuardedByGuest),
];

/// Puts in what gives a table without other faults the refusal `number`: 4, 18 or 19. Every other fault of 4 stands
/// beside one of 18 or 19 on its row.
pub fn put_in_rows(rows: &mut Vec<Row>, rng: &mut Rng, number: u32) {
    if number == 4 && rng.chance(50) {
        let at = some_row(rows, rng);
        return dirty(&mut rows[at], rng);
    }
    let causes: Vec<Cause> =
        CAUSES.iter().filter(|(refusal, _)| number == 4 || number == *refusal).map(|&(_, cause)| cause).collect();
    let cause = rng.pick(&causes);
    let at = put_in(rows, rng, cause);
    if number != 19 && rng.chance(45) {
        worsen(&mut rows[at], rng);
    }
    if number == 4 {
        dirty(&mut rows[at], rng);
    }
}

/// Puts the cause in and tells its row.
pub fn put_in(rows: &mut Vec<Row>, rng: &mut Rng, cause: Cause) -> usize {
    if cause == Cause::LateParam {
        return late_param(rows, rng);
    }
    let at = site(rows, rng, |row, guest| match cause {
        Cause::A(kind) => row.kind == kind,
        Cause::FieldC => row.kind == kind::FIELD,
        Cause::LocalC => row.kind == kind::LOCAL,
        Cause::Op => row.kind == kind::INSTRUCTION && row.a == op::OP,
        Cause::GuardedRecord => row.kind == kind::FIELD && row.a == 1,
        _ => row.kind == kind::FIELD && guest,
    });
    let row = &mut rows[at];
    match cause {
        Cause::A(_) => row.a = too_large(rng, row.kind),
        Cause::FieldC | Cause::LocalC => row.c = over_one(rng),
        Cause::Op => row.b = rng.pick(&[op::LAST_OP + 1, op::LAST_OP + 1, 5, 8, 255, 256, 257, 65_535]),
        _ => row.c = 1,
    }
    at
}

/// One of the rows that fit, told whether a guest has them. If there is none, a good module that has one is added.
fn site(rows: &mut Vec<Row>, rng: &mut Rng, fits: impl Fn(&Row, bool) -> bool) -> usize {
    let find = |rows: &[Row]| -> Vec<usize> {
        let mut guest = false;
        let mut found = Vec::new();
        for (at, row) in rows.iter().enumerate() {
            if row.kind == kind::MODULE {
                guest = row.a == 0;
            }
            if fits(row, guest) {
                found.push(at);
            }
        }
        found
    };
    let mut found = find(rows);
    if found.is_empty() {
        rows.extend(sample());
        found = find(rows);
    }
    rng.pick(&found)
}

/// A good guest with a row of every kind, a record field, a local that is no parameter and an Op.
fn sample() -> Vec<Row> {
    let (number, record) = (Sort::Number, Sort::Record(0));
    let mut rows = vec![module_row(false), type_row(), field_row(number, false), type_row(), field_row(record, false)];
    rows.extend([proc_row(true), local_row(number, true), local_row(number, false), result_row(number)]);
    rows.extend([load(1), load(2), arith(ADD), ret()].map(|code| code.row()));
    rows
}

fn late_param(rows: &mut Vec<Row>, rng: &mut Rng) -> usize {
    let other = site(rows, rng, |row, _| row.kind == kind::LOCAL && row.c == 0);
    let is_local = |row: &&Row| row.kind == kind::LOCAL;
    let above = rows[..other].iter().rev().take_while(is_local).count();
    let below = rows[other + 1..].iter().take_while(is_local).count();
    let full = above + 1 + below >= limit::LOCALS;
    if below > 0 && (full || rng.chance(50)) {
        let at = other + rng.within(1, below);
        rows[at].c = 1;
        at
    } else {
        let at = other + rng.within(1, below + 1);
        rows.insert(at, Row { c: 1, ..rows[other] });
        at
    }
}

/// Most often the next A after the last allowed one.
pub fn too_large(rng: &mut Rng, kind: u8) -> u8 {
    let next = last_a(kind) + 1;
    if rng.chance(60) {
        next
    } else {
        rng.within(next.into(), 255) as u8
    }
}

fn over_one(rng: &mut Rng) -> u32 {
    rng.pick(&[2, 2, 3, 256, 257, 1 << 16, 1 << 24, 0x0100_0001, u32::MAX])
}

/// Puts more into the used bytes of a row with a wrong value or a misplaced guard. A field or local then has a wrong A,
/// and the row gets 18 as long as its unused bytes are 0.
pub fn worsen(row: &mut Row, rng: &mut Rng) {
    let wrong_a = row.a > last_a(row.kind);
    if uses(row.kind, row.a).c {
        if wrong_a {
            row.c = if rng.chance(60) { 1 } else { over_one(rng) };
        } else {
            row.a = too_large(rng, row.kind);
        }
    }
    if row.a > last_a(row.kind) {
        let used = uses(row.kind, row.a);
        if used.b && rng.chance(60) {
            row.b = rng.draw() as u16;
        }
        if used.d && rng.chance(60) {
            row.d = rng.draw();
        }
    }
}

/// Puts something into one of the unused bytes, or rubbish into all of them.
pub fn dirty(row: &mut Row, rng: &mut Rng) {
    let used = uses(row.kind, row.a);
    let parts = [(used.a, 1, 1), (used.b, 2, 3), (used.c, 4, 7), (used.d, 8, 15)];
    let unused: Vec<(usize, usize)> =
        parts.iter().filter(|(used, ..)| !used).map(|&(_, first, last)| (first, last)).collect();
    let mut bytes = row.to_bytes();
    if rng.chance(25) {
        for &(first, last) in &unused {
            bytes[first..=last].fill_with(|| rng.draw() as u8);
        }
    }
    let (first, last) = rng.pick(&unused);
    bytes[rng.within(first, last)] = if rng.chance(40) { 1 } else { rng.within(1, 255) as u8 };
    *row = Row::from_bytes(&bytes);
}

/// Puts any of these faults into a row that has another one before them.
pub fn spoil(row: &mut Row, rng: &mut Rng) {
    match rng.below(3) {
        0 => row.a = too_large(rng, row.kind),
        1 => row.c = rng.pick(&[1, 1, 2, 256]),
        _ => dirty(row, rng),
    }
    if rng.chance(30) {
        dirty(row, rng);
    }
}
