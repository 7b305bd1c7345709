//! Faults put into the rows of a table: those of the passes "length", "rows" and "names" (1 to 6, 18, 19).

use super::mutate::put_in;
use super::plan::{asm::*, field_row, local_row, module_row, proc_row, result_row, type_row};
use super::rng::Rng;
use super::value_faults;
use crate::program::Sort;
use crate::row::{kind, limit, sort, Row};

pub fn put_in_rows(rows: &mut Vec<Row>, rng: &mut Rng, number: u32) {
    match number {
        2 => wrong_kind(rows, rng),
        3 => one_too_many(rows, rng),
        4 | 18 | 19 => value_faults::put_in_rows(rows, rng, number),
        5 => no_end(rows, rng),
        6 => no_name(rows, rng),
        _ => {}
    }
}

/// A row of a random kind among those that the table has, so that seldom kinds come as often as any.
pub fn some_row(rows: &[Row], rng: &mut Rng) -> usize {
    let kinds: Vec<u8> =
        (kind::MODULE..=kind::INSTRUCTION).filter(|kind| rows.iter().any(|row| row.kind == *kind)).collect();
    if kinds.is_empty() {
        return rng.below(rows.len());
    }
    let wanted = rng.pick(&kinds);
    let found: Vec<usize> = (0..rows.len()).filter(|&at| rows[at].kind == wanted).collect();
    rng.pick(&found)
}

// 1

pub fn bad_length(bytes: &mut Vec<u8>, rng: &mut Rng) {
    match rng.below(8) {
        0 => bytes.clear(),
        1 => bytes.truncate(bytes.len() - rng.within(1, 15)),
        2 => bytes.extend((0..rng.within(1, 15)).map(|byte| byte as u8)),
        3 => bytes.truncate(rng.within(1, 15)),
        4 => bytes.resize(bytes.len() + rng.within(1, 15), 0),
        _ => {
            bytes.remove(rng.below(bytes.len()));
        }
    }
}

// 2

fn wrong_kind(rows: &mut Vec<Row>, rng: &mut Rng) {
    let at = rng.below(rows.len());
    match rng.below(10) {
        0 | 1 => rows[at].kind = if rng.chance(30) { 0 } else { rng.within(8, 255) as u8 },
        2 => {
            rows.remove(0);
        }
        3 => rows[0].kind = rng.within(2, 7) as u8,
        4 => {
            let other = some_row(rows, rng);
            rows.swap(at, other);
        }
        _ => {
            // A row of any kind below a row of any kind, now and then with another fault of the rows pass.
            let sample = [
                type_row(),
                field_row(Sort::Number, false),
                local_row(Sort::Number, false),
                result_row(Sort::Number),
                pop().row(),
            ];
            let mut row = rng.pick(&sample);
            if rng.chance(30) {
                value_faults::spoil(&mut row, rng);
            }
            rows.insert(some_row(rows, rng) + 1, row);
        }
    }
}

// 3

/// Puts rows of one kind in until there is one more than allowed. That one now and then has another fault of the rows
/// pass.
fn one_too_many(rows: &mut Vec<Row>, rng: &mut Rng) {
    let kinds = [kind::MODULE, kind::FIELD, kind::LOCAL, kind::RESULT, kind::LOCAL, kind::RESULT, kind::TYPE];
    let wanted = rng.pick(&kinds);
    let owner = match wanted {
        kind::MODULE | kind::TYPE => kind::MODULE,
        kind::FIELD => kind::TYPE,
        _ => kind::PROCEDURE,
    };
    let owners: Vec<usize> = (0..rows.len()).filter(|&at| rows[at].kind == owner).collect();
    if owners.is_empty() {
        return;
    }
    let after = rng.pick(&owners) + 1;
    let (row, most) = match wanted {
        kind::MODULE => (module_row(rng.chance(50)), limit::MODULES),
        kind::TYPE => (type_row(), limit::TYPES),
        kind::FIELD => (field_row(Sort::Number, false), limit::FIELDS),
        kind::LOCAL => (local_row(Sort::Number, false), limit::LOCALS),
        _ => (result_row(Sort::Number), limit::RESULTS),
    };
    let behind = |row: &Row| (wanted == kind::RESULT && row.kind == kind::LOCAL) || row.kind == wanted;
    let have = match wanted {
        kind::MODULE | kind::TYPE => rows.iter().filter(|row| row.kind == wanted).count(),
        _ => rows[after..].iter().take_while(|row| behind(row)).filter(|row| row.kind == wanted).count(),
    };
    let at = match wanted {
        kind::MODULE => rows.len(),
        kind::TYPE => after,
        _ => after + rows[after..].iter().take_while(|row| behind(row)).count(),
    };
    let missing = (most + 1).saturating_sub(have);
    rows.splice(at..at, std::iter::repeat_n(row, missing));
    // The last type put in is not the last of the table.
    if missing > 0 && wanted != kind::TYPE && rng.chance(30) {
        value_faults::spoil(&mut rows[at + missing - 1], rng);
    }
}

// 5

fn no_end(rows: &mut Vec<Row>, rng: &mut Rng) {
    let ends: Vec<usize> = (0..rows.len())
        .filter(|&at| rows[at].kind == kind::INSTRUCTION)
        .filter(|&at| rows.get(at + 1).is_none_or(|below| below.kind != kind::INSTRUCTION))
        .collect();
    if ends.is_empty() {
        return;
    }
    let at = rng.pick(&ends);
    match rng.below(5) {
        0 => {
            rows.remove(at);
        }
        1 => rows.insert(at + 1, load(1).row()),
        2 => rows[at] = rng.pick(&[pop(), read(), jump_if(0), load(7), call(0)]).row(),
        3 => {
            let above = rows[..at].iter().rposition(|row| row.kind != kind::INSTRUCTION);
            rows.drain(above.map_or(0, |row| row + 1)..=at);
        }
        _ => rows.insert(at + 1, proc_row(rng.chance(50))),
    }
}

// 6

/// What a row names: a lower type, a type, a local, a field, a type's records, a procedure or a target.
fn naming(row: &Row) -> Option<usize> {
    match (row.kind, row.a) {
        (kind::FIELD, 1) => Some(0),
        (kind::LOCAL | kind::RESULT, a) if sort::uses_b(a) => Some(1),
        (kind::INSTRUCTION, 2..=5) => Some(2),
        (kind::INSTRUCTION, 8) => Some(3),
        (kind::INSTRUCTION, 9..=14) => Some(4),
        (kind::INSTRUCTION, 15) => Some(5),
        (kind::INSTRUCTION, 17 | 18) => Some(6),
        _ => None,
    }
}

fn no_name(rows: &mut [Row], rng: &mut Rng) {
    let types = rows.iter().filter(|row| row.kind == kind::TYPE).count() as u16;
    let procs = rows.iter().filter(|row| row.kind == kind::PROCEDURE).count() as u16;
    // Each way of naming as often as any other.
    let ways: Vec<usize> = (0..7).filter(|&way| rows.iter().any(|row| naming(row) == Some(way))).collect();
    if ways.is_empty() {
        return;
    }
    let way = rng.pick(&ways);
    let found: Vec<usize> = (0..rows.len()).filter(|&at| naming(&rows[at]) == Some(way)).collect();
    let at = rng.pick(&found);
    let own_type = rows[..at].iter().filter(|row| row.kind == kind::TYPE).count() as u16;
    let (locals, code) = procedure_counts(rows, at);
    let row = &mut rows[at];
    let past = match way {
        0 => own_type.saturating_sub(rng.below(2) as u16),
        1 | 4 => types,
        2 => locals,
        3 => rng.pick(&[types * 8, types * 8 + 7, row.b | 7, (row.b | 7).saturating_sub(1)]),
        5 => procs,
        _ => code,
    };
    row.b = match rng.below(4) {
        0 => past.saturating_add(rng.below(5) as u16),
        1 => rng.pick(&[65_535, 256, 32_768, past | 256]),
        _ => past,
    };
}

/// Number of locals and of instructions of the procedure that the row stands in.
fn procedure_counts(rows: &[Row], at: usize) -> (u16, u16) {
    let begin = rows[..=at].iter().rposition(|row| row.kind == kind::PROCEDURE).map_or(at, |row| row + 1);
    let inside = || rows[begin..].iter().take_while(|row| !matches!(row.kind, kind::MODULE | kind::PROCEDURE));
    let count = |wanted: u8| inside().filter(|row| row.kind == wanted).count() as u16;
    (count(kind::LOCAL), count(kind::INSTRUCTION))
}

/// A blind instruction somewhere, for mutated tables.
pub fn stray_instruction(rows: &mut Vec<Row>, rng: &mut Rng) {
    let code = rng.pick(&[pop(), load(1), ret(), jump(0), read(), freeze()]);
    put_in(rows, rng, code);
}
