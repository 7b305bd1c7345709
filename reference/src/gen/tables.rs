//! The made tables: table `number` of a seed, and its rule file.

use super::rng::Rng;
use super::rules::{self, RuleFile};
use super::structured::{self, some_size};
use super::wild::{self, Flavour};
use super::{callers, faults, helpers, limits, mutate, row_faults, view_faults};
use crate::row::{kind, write_rows, Row};

/// Every so many tables one of the tables at the limits.
const LIMIT_EVERY: u64 = 25;

/// Of 100 tables so many are made for rule files. A stream of its own says which ones.
const CALLERS: usize = 16;

/// Refusals with their weights: those that mutations seldom bring are aimed at more often.
const TARGETS: [(usize, u32); 16] = [
    (1, 1),
    (1, 2),
    (1, 3),
    (3, 4),
    (3, 18),
    (2, 19),
    (1, 5),
    (2, 6),
    (2, 7),
    (3, 8),
    (1, 9),
    (3, 10),
    (3, 11),
    (3, 12),
    (4, 13),
    (3, 14),
];

#[derive(Clone, Debug)]
pub struct TableCase {
    pub table: Vec<u8>,
    pub rules: RuleFile,
}

pub fn case(seed: u64, number: u64) -> TableCase {
    let table = table(seed, number);
    let rules = rules::for_table(seed, number, &table);
    TableCase { table, rules }
}

pub fn table(seed: u64, number: u64) -> Vec<u8> {
    if number % LIMIT_EVERY == LIMIT_EVERY - 1 {
        return limits::table((number / LIMIT_EVERY) as usize % limits::TABLES);
    }
    let mut rng = Rng::stream(seed, 5, number);
    if rng.chance(CALLERS) {
        return callers::plan(&mut rng).bytes();
    }
    let mut rng = Rng::stream(seed, 1, number);
    match rng.below(123) {
        0..=16 => accepted(&mut rng),
        17..=31 => mutated(&mut rng),
        32..=81 => {
            let number = rng.weighted(&TARGETS).expect("there are weights");
            faults::table(&mut rng, number)
        }
        82..=90 => {
            let (_, family) = rng.pick(&view_faults::FAMILIES);
            faults::table_with_views(&mut rng, family)
        }
        91..=97 => faults::table_of_many(&mut rng),
        98 | 99 => noise(&mut rng),
        100..=119 => {
            let (_, family) = rng.pick(&helpers::FAMILIES);
            let mended = rng.chance(50);
            faults::table_with_helpers(&mut rng, family, mended)
        }
        _ => wild::plan(&mut rng, Flavour::Helpers).bytes(),
    }
}

/// A table that the judge accepts.
pub fn accepted(rng: &mut Rng) -> Vec<u8> {
    let size = some_size(rng);
    structured::plan(rng, size).bytes()
}

/// A well-typed table that the judge may refuse for its locals or leaks.
pub fn tangled(rng: &mut Rng) -> Vec<u8> {
    let flavours = [Flavour::Locals, Flavour::Records, Flavour::Leaks, Flavour::Broad, Flavour::Helpers];
    let flavour = rng.pick(&flavours);
    wild::plan(rng, flavour).bytes()
}

/// A good table with one to three small changes.
fn mutated(rng: &mut Rng) -> Vec<u8> {
    let mut rows = if rng.chance(75) {
        let size = some_size(rng);
        structured::plan(rng, size).rows()
    } else {
        let flavour = rng.pick(&[Flavour::Leaks, Flavour::Leaks, Flavour::Helpers]);
        wild::plan(rng, flavour).rows()
    };
    for _ in 0..rng.within(1, 3) {
        if rng.chance(15) {
            row_faults::stray_instruction(&mut rows, rng);
        } else {
            mutate::mutate(&mut rows, rng);
        }
    }
    write_rows(&rows)
}

/// Random bytes, and random rows of good kinds.
fn noise(rng: &mut Rng) -> Vec<u8> {
    let count = rng.below(12);
    match rng.below(3) {
        0 => (0..rng.below(200)).map(|_| rng.draw() as u8).collect(),
        1 => (0..count * 16).map(|_| if rng.chance(70) { 0 } else { rng.draw() as u8 }).collect(),
        _ => {
            let mut rows: Vec<Row> = (0..=count)
                .map(|_| Row { kind: rng.within(1, 7) as u8, a: rng.below(3) as u8, ..Row::default() })
                .collect();
            rows[0].kind = kind::MODULE;
            write_rows(&rows)
        }
    }
}
