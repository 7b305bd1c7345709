//! Small blind changes to the rows of a table.

use super::plan::Code;
use super::rng::Rng;
use crate::row::{kind, op, sort, Row};

/// One change somewhere in the table.
pub fn mutate(rows: &mut Vec<Row>, rng: &mut Rng) {
    if rows.is_empty() {
        return;
    }
    let at = rng.below(rows.len());
    match rng.below(10) {
        0 => change_byte(&mut rows[at], rng),
        1 | 2 => {
            rows.remove(at);
        }
        3 => rows.insert(at, rows[at]),
        4 => {
            let other = rng.below(rows.len());
            rows.swap(at, other);
        }
        5 => {
            if at + 1 < rows.len() {
                rows.swap(at, at + 1);
            }
        }
        6 => with_instruction(rows, rng, |row, rng| row.a = rng.below(usize::from(op::LAST) + 1) as u8),
        7 => with_instruction(rows, rng, |row, rng| row.b = rng.below(8) as u16),
        8 => with_instruction(rows, rng, |row, rng| {
            let step = 1 + rng.below(3) as u16;
            row.b = if rng.chance(50) { row.b.wrapping_add(step) } else { row.b.wrapping_sub(step) };
        }),
        _ => change_sort(rows, rng),
    }
}

fn change_byte(row: &mut Row, rng: &mut Rng) {
    let mut bytes = row.to_bytes();
    let place = rng.below(bytes.len());
    bytes[place] = if rng.chance(60) { rng.below(4) as u8 } else { rng.draw() as u8 };
    *row = Row::from_bytes(&bytes);
}

/// Changes an instruction that uses its B, if there is one not far from a random row.
fn with_instruction(rows: &mut [Row], rng: &mut Rng, change: impl Fn(&mut Row, &mut Rng)) {
    let from = rng.below(rows.len());
    let uses_b = |row: &Row| row.kind == kind::INSTRUCTION && op::uses_b(row.a);
    if let Some(row) = rows[from..].iter_mut().find(|row| uses_b(row)) {
        change(row, rng);
    }
}

/// Changes the sort or type of a local, result or field.
fn change_sort(rows: &mut [Row], rng: &mut Rng) {
    let from = rng.below(rows.len());
    let has_sort = |row: &Row| matches!(row.kind, kind::FIELD | kind::LOCAL | kind::RESULT);
    if let Some(row) = rows[from..].iter_mut().find(|row| has_sort(row)) {
        if rng.chance(50) {
            row.a = rng.below(usize::from(sort::LAST) + 1) as u8;
            row.b = if sort::uses_b(row.a) { rng.below(3) as u16 } else { 0 };
        } else {
            row.b = if sort::uses_b(row.a) { row.b.wrapping_add(1) } else { 0 };
        }
    }
}

/// Instruction rows of a table.
pub fn instruction_rows(rows: &[Row]) -> Vec<usize> {
    (0..rows.len()).filter(|&at| rows[at].kind == kind::INSTRUCTION).collect()
}

/// Puts an instruction in before some instruction row, without mending jumps.
pub fn put_in(rows: &mut Vec<Row>, rng: &mut Rng, code: Code) {
    let places = instruction_rows(rows);
    if !places.is_empty() {
        rows.insert(rng.pick(&places), code.row());
    }
}
