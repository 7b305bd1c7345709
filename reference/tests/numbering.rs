//! Paper 2 gives new numbers and alters nothing else. The rows pass is written here a second time, byte by byte from
//! documents 01 and 02, and tells of each faulty row its number before and after paper 2. The later passes are the same
//! in both, so a table is accepted in both or in neither exactly if both rows passes accept it or both refuse it.

mod common;

use common::*;
use reference::gen::rng::Rng;
use reference::gen::{faults, structured, tables};
use reference::row::write_rows;
use std::collections::BTreeMap;
use std::ops::Range;

/// A faulty row and its number before and after paper 2.
#[derive(Clone, Copy, Debug, PartialEq, Eq)]
struct Fault {
    row: usize,
    before: u32,
    after: u32,
}

const MOST: [usize; 8] = [0, 16, 64, 8, 128, 16, 4, 256];

/// Kinds that may stand above each kind; 0 is the table's edge.
const ABOVE: [&[u8]; 8] =
    [&[], &[0, 1, 2, 3, 4, 5, 6, 7], &[1, 2, 3], &[2, 3], &[1, 2, 3, 4, 5, 6, 7], &[4, 5], &[4, 5, 6], &[4, 5, 6, 7]];

/// The faulty rows in the order of the table. Below the first one they show only what else the table holds.
fn faulty_rows(table: &[u8]) -> Vec<Fault> {
    let mut faults = Vec::new();
    let mut counts = [0; 8];
    let mut above = 0;
    let (mut trusted, mut params_over) = (false, false);
    for (place, row) in table.chunks(16).enumerate() {
        let kind = usize::from(row[0]);
        let number = if kind > 7 || !ABOVE[kind].contains(&above) {
            Some((2, 2))
        } else {
            match kind {
                1 => trusted = row[1] == 1,
                2 => counts[3] = 0,
                4 => {
                    counts[5..].fill(0);
                    params_over = false;
                }
                _ => {}
            }
            counts[kind] += 1;
            let number = if counts[kind] > MOST[kind] {
                Some((3, 3))
            } else {
                (!is_good(row, trusted, params_over)).then(|| (4, number_after(row)))
            };
            params_over |= kind == 5 && row[4] == 0;
            number
        };
        faults.extend(number.map(|(before, after)| Fault { row: place, before, after }));
        above = row[0];
    }
    faults
}

fn zero(row: &[u8], bytes: Range<usize>) -> bool {
    row[bytes].iter().all(|&byte| byte == 0)
}

/// Whether a row has no fault of its own.
fn is_good(row: &[u8], trusted: bool, params_over: bool) -> bool {
    let one = row[4] == 1 && zero(row, 5..8);
    let param = zero(row, 4..8) || (one && !params_over);
    match (row[0], row[1]) {
        (1 | 4, 0 | 1) | (2, 0) => zero(row, 2..16),
        (3, 0) => zero(row, 2..4) && (zero(row, 4..8) || (one && trusted)) && zero(row, 8..16),
        (3, 1) => zero(row, 4..16),
        (5, 0 | 2 | 4) => zero(row, 2..4) && param && zero(row, 8..16),
        (5, 1 | 3 | 5) => param && zero(row, 8..16),
        (6, 0 | 2 | 4) => zero(row, 2..16),
        (6, 1 | 3 | 5) => zero(row, 4..16),
        (7, 0 | 6 | 7 | 16 | 20) => zero(row, 2..16),
        (7, 1) => zero(row, 2..8),
        (7, 2..=5 | 8..=15 | 17 | 18) => zero(row, 4..16),
        (7, 19) => row[2] < 4 && zero(row, 3..16),
        _ => false,
    }
}

/// The number of a row that is not good.
fn number_after(row: &[u8]) -> u32 {
    let unused_zero = match (row[0], row[1]) {
        (1 | 4, _) => zero(row, 2..16),
        (2, _) => zero(row, 1..16),
        (3, 0) | (5, 0 | 2 | 4) => zero(row, 2..4) && zero(row, 8..16),
        (3 | 5, _) => zero(row, 8..16),
        (6, 0 | 2 | 4) | (7, 0 | 6 | 7 | 16 | 20) => zero(row, 2..16),
        (6, _) | (7, 2..=19) => zero(row, 4..16),
        (7, 1) => zero(row, 2..8),
        _ => zero(row, 4..8),
    };
    let guarded = row[0] == 3 && row[1] < 2 && row[4] == 1 && zero(row, 5..8);
    match (unused_zero, guarded) {
        (false, _) => 4,
        (true, false) => 18,
        (true, true) => 19,
    }
}

/// Judges the table by the numbers of before and after; tells its number now, or 0.
fn compare(table: &[u8]) -> u32 {
    let verdict = reference::judge(table);
    if table.is_empty() || !table.len().is_multiple_of(16) || table.len() > 32_768 {
        assert_eq!(verdict, Err((1, 0)));
        return 1;
    }
    let read_as_before = match verdict {
        Err((18 | 19, row)) => Err((4, row)),
        other => other,
    };
    match faulty_rows(table).first() {
        Some(fault) => {
            assert_eq!(read_as_before, Err((fault.before, fault.row)));
            assert_eq!(verdict, Err((fault.after, fault.row)));
        }
        None => assert!(!matches!(verdict, Err((1..=4 | 18 | 19, _))), "{verdict:?} of {table:?}"),
    }
    verdict.err().map_or(0, |refusal| refusal.0)
}

#[derive(Default)]
struct Counts(BTreeMap<u32, usize>);

impl Counts {
    fn compare(&mut self, table: &[u8]) {
        *self.0.entry(compare(table)).or_default() += 1;
    }

    #[track_caller]
    fn at_least(&self, least: usize, numbers: &[u32]) {
        for number in numbers {
            assert!(self.0.get(number).is_some_and(|&count| count >= least), "{number}: {:?}", self.0);
        }
    }
}

#[test]
fn made_tables() {
    let mut counts = Counts::default();
    for number in 0..8_000 {
        counts.compare(&tables::table(31, number));
    }
    counts.at_least(100, &[0, 1, 2, 3, 4, 5, 6, 7, 8, 9, 10, 11, 12, 13, 14, 18, 19]);
}

#[test]
fn made_tables_of_the_rows_pass() {
    let mut counts = Counts::default();
    for item in 0..1_000 {
        for number in [2, 3, 4, 18, 19] {
            counts.compare(&faults::table(&mut Rng::stream(32, number.into(), item), number));
        }
    }
    counts.at_least(500, &[2, 3, 4, 18, 19]);
}

fn small_table(item: u64) -> Vec<u8> {
    structured::plan(&mut Rng::stream(33, 0, item), structured::SMALL).bytes()
}

/// A good table that has every kind of row, sort and opcode.
fn full_table() -> Vec<u8> {
    let types = [trusted(), ty(), guarded(), num(), ty(), nested(0), public(), param(N), param(rec_view(1))];
    let locals = [local(rec(1)), local(R), local(rec_ref(1)), local(V), result(N), result(rec(1))];
    // No walk goes on below the jump: what follows is only typed.
    let numbers =
        [jump(0), load(1), load(2), arith(LESS), pop(), borrow(0), read(), st(0), load(3), borrow(0), write()];
    let views = [cp(3), freeze(), pop(), mv(5), pop(), cp(1), field(1, 0), field(0, 1), pop()];
    let records =
        [load(4), load(5), pack(0), pack(1), unpack(1), load(6), move_to(0), load(7), move_from(0), unpack(0)];
    let store = [pop(), pop(), load(8), global(1), pop(), load(9), exists(1), jump_if(0), call(1), jump(0)];
    let guest = [private(), ret(), guest(), ty(), nested(1), num(), public(), local(N), local(R), ret()];
    write_rows(&[&types[..], &locals, &numbers, &views, &records, &store, &guest].concat())
}

#[test]
fn tables_with_one_byte_changed() {
    let mut counts = Counts::default();
    assert_eq!(reference::judge(&full_table()), Ok(full_table().len() / 16));
    for table in (0..12).map(small_table).chain([full_table()]) {
        for place in 0..table.len() {
            for value in [0, 1, 2, 3, 4, 5, 6, 8, 19, 20, 21, 128, 255] {
                let mut changed = table.clone();
                changed[place] = value;
                counts.compare(&changed);
            }
        }
    }
    counts.at_least(20, &[0, 2, 4, 18, 19]);
}

#[test]
fn tables_with_bytes_of_one_row_changed() {
    let mut counts = Counts::default();
    let mut rng = Rng::new(34);
    let table = full_table();
    for _ in 0..50_000 {
        // Each kind as often as any other.
        let kind = rng.within(1, 7) as u8;
        let rows: Vec<usize> = (0..table.len()).step_by(16).filter(|&row| table[row] == kind).collect();
        let row = rng.pick(&rows);
        let mut changed = table.clone();
        for _ in 0..rng.within(2, 3) {
            let value = if rng.chance(80) { rng.below(7) as u8 } else { rng.draw() as u8 };
            changed[row + rng.pick(&[1, 1, 1, 2, 3, 4, 4, 4, 5, 8])] = value;
        }
        counts.compare(&changed);
    }
    counts.at_least(100, &[0, 4, 18, 19]);
}

/// Pairs of a faulty row and another one below it.
#[test]
fn each_pair_of_rows_comes() {
    let mut pairs: BTreeMap<(u32, u32), usize> = BTreeMap::new();
    for item in 0..4_000 {
        let table = faults::table_of_many(&mut Rng::stream(35, 0, item));
        if table.len().is_multiple_of(16) {
            let faults = faulty_rows(&table);
            for below in faults.iter().skip(1) {
                *pairs.entry((faults[0].after, below.after)).or_default() += 1;
            }
        }
    }
    for first in [2, 3, 4, 18, 19] {
        for below in [2, 3, 4, 18, 19] {
            assert!(pairs.get(&(first, below)).is_some_and(|&count| count >= 5), "{first}, {below}: {pairs:?}");
        }
    }
}
