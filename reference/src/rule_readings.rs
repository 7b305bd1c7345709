//! Paper 7 in the words of the paper, for each pair the list of rows that cover it; and wrong readings of it.

use crate::program::Program;
use crate::row::{limit, ROW_BYTES};
use crate::rules::{call_rows, read_rules, CallRow, Rule};
use crate::walks::reached_rows;
use crate::Refusal;

/// An ordered pair of modules, the calling one first.
pub type Pair = (u8, u8);

/// The ordered pairs of modules present, rising.
pub fn present_pairs(program: &Program) -> Vec<Pair> {
    pairs_up_to(program.trusted.len())
}

pub fn pairs_up_to(modules: usize) -> Vec<Pair> {
    let modules = modules as u8;
    (0..modules).flat_map(|caller| (0..modules).map(move |called| (caller, called))).collect()
}

fn all_calls(program: &Program) -> Vec<CallRow> {
    call_rows(program).collect()
}

pub fn is_used(program: &Program, pair: Pair) -> bool {
    call_rows(program).any(|call| call.pair() == pair)
}

pub fn covering(rules: &[Rule], (caller, called): Pair) -> Vec<Rule> {
    rules.iter().copied().filter(|rule| rule.covers(caller, called)).collect()
}

/// The paper read in one way.
#[derive(Clone, Copy)]
pub struct Reading {
    pub name: &'static str,
    /// The rows of a file.
    rules: fn(&[u8]) -> Result<Vec<Rule>, Refusal>,
    /// The pairs that are asked, in their order.
    pairs: fn(&Program) -> Vec<Pair>,
    /// What the rows that cover a pair say of it; nothing if 21 is due.
    says: fn(&[Rule]) -> Option<bool>,
    /// How 21 tells a pair.
    tells: fn(Pair) -> usize,
    /// The Calls that are asked, in their order.
    calls: fn(&Program) -> Vec<CallRow>,
    /// Whether 22 comes before 21.
    calls_first: bool,
}

/// The paper's own.
pub const RIGHT: Reading = Reading {
    name: "as it is",
    rules: read_rules,
    pairs: present_pairs,
    says: |covering| match covering {
        [one] => Some(one.allows),
        _ => None,
    },
    tells: |(caller, called)| 16 * usize::from(caller) + usize::from(called),
    calls: all_calls,
    calls_first: false,
};

impl Reading {
    /// The refusal of a table that all other passes accept, if there is one.
    pub fn refusal(&self, program: &Program, file: &[u8]) -> Option<Refusal> {
        let rules = match (self.rules)(file) {
            Ok(rules) => rules,
            Err(refusal) => return Some(refusal),
        };
        let says = |pair: Pair| (self.says)(&covering(&rules, pair));
        let unfit = (self.pairs)(program).into_iter().find(|&pair| says(pair).is_none());
        let forbidden = (self.calls)(program).into_iter().find(|call| says(call.pair()) == Some(false));
        let unfit = unfit.map(|pair| (21, (self.tells)(pair)));
        let forbidden = forbidden.map(|call| (22, call.row));
        if self.calls_first {
            forbidden.or(unfit)
        } else {
            unfit.or(forbidden)
        }
    }
}

/// Reads a file whose whole rows are changed beforehand.
fn read_changed(file: &[u8], change: fn(&mut [u8])) -> Result<Vec<Rule>, Refusal> {
    let mut file = file.to_vec();
    file.chunks_exact_mut(ROW_BYTES).for_each(change);
    read_rules(&file)
}

pub const WRONG_READINGS: [Reading; 27] = [
    Reading {
        name: "with a file of no bytes taken for none",
        rules: |file| match file {
            [] => Ok(vec![Rule { allows: true, callers: (0, 15), called: (0, 15) }]),
            _ => read_rules(file),
        },
        ..RIGHT
    },
    Reading {
        name: "with a last row that is not whole left out",
        rules: |file| read_rules(&file[..file.len() - file.len() % ROW_BYTES]),
        ..RIGHT
    },
    Reading {
        name: "with all after row 255 left out",
        rules: |file| read_rules(&file[..file.len().min(limit::RULES * ROW_BYTES)]),
        ..RIGHT
    },
    Reading { name: "with byte 0 not looked at", rules: |file| read_changed(file, |row| row[0] = 1), ..RIGHT },
    Reading {
        name: "with every byte 1 but 0 taken for 1",
        rules: |file| read_changed(file, |row| row[1] = row[1].min(1)),
        ..RIGHT
    },
    Reading {
        name: "with bytes 2 and 3 not looked at",
        rules: |file| read_changed(file, |row| row[2..4].fill(0)),
        ..RIGHT
    },
    Reading {
        name: "with bytes 8 to 15 not looked at",
        rules: |file| read_changed(file, |row| row[8..].fill(0)),
        ..RIGHT
    },
    Reading {
        name: "with numbers over 15 taken for 15",
        rules: |file| read_changed(file, |row| row[4..8].iter_mut().for_each(|number| *number = (*number).min(15))),
        ..RIGHT
    },
    Reading {
        name: "with 16 let through",
        rules: |file| {
            read_changed(file, |row| {
                row[4..8].iter_mut().filter(|number| **number == 16).for_each(|number| *number = 15)
            })
        },
        ..RIGHT
    },
    Reading {
        name: "with first callers above the last let through",
        rules: |file| read_changed(file, |row| row[4..6].sort_unstable()),
        ..RIGHT
    },
    Reading {
        name: "with first called above the last let through",
        rules: |file| read_changed(file, |row| row[6..8].sort_unstable()),
        ..RIGHT
    },
    Reading {
        name: "with the highest bad row told",
        rules: |file| {
            let bad = |row: &usize| read_rules(&file[ROW_BYTES * row..][..ROW_BYTES]).is_err();
            read_rules(file).map_err(|lowest| (20, (0..file.len() / ROW_BYTES).rev().find(bad).unwrap_or(lowest.1)))
        },
        ..RIGHT
    },
    Reading {
        name: "with pairs that no Call uses not asked",
        pairs: |program| present_pairs(program).into_iter().filter(|&pair| is_used(program, pair)).collect(),
        ..RIGHT
    },
    Reading { name: "with all 256 pairs asked", pairs: |_| pairs_up_to(limit::MODULES), ..RIGHT },
    Reading {
        name: "with a module and itself not asked for 21",
        pairs: |program| present_pairs(program).into_iter().filter(|(caller, called)| caller != called).collect(),
        ..RIGHT
    },
    Reading {
        name: "with modules without procedures not asked",
        pairs: |program| {
            let has_procedures = |module: u8| program.procedures.iter().any(|one| one.module == module);
            let asked = |pair: &Pair| has_procedures(pair.0) && has_procedures(pair.1);
            present_pairs(program).into_iter().filter(asked).collect()
        },
        ..RIGHT
    },
    Reading {
        name: "with the lowest called module first",
        pairs: |program| present_pairs(program).into_iter().map(|(one, other)| (other, one)).collect(),
        ..RIGHT
    },
    Reading {
        name: "with 16 times called plus caller told",
        tells: |(caller, called)| 16 * usize::from(called) + usize::from(caller),
        ..RIGHT
    },
    Reading {
        name: "with rows that agree taken for one",
        says: |covering| match covering {
            [one, others @ ..] if others.iter().all(|other| other.allows == one.allows) => Some(one.allows),
            _ => None,
        },
        ..RIGHT
    },
    Reading {
        name: "with the first of several rows taken",
        says: |covering| covering.first().map(|one| one.allows),
        ..RIGHT
    },
    Reading {
        name: "with the last of several rows taken",
        says: |covering| covering.last().map(|one| one.allows),
        ..RIGHT
    },
    Reading {
        name: "with a pair under none forbidden",
        says: |covering| match covering {
            [] => Some(false),
            _ => (RIGHT.says)(covering),
        },
        ..RIGHT
    },
    Reading {
        name: "with Calls that no walk reaches not asked",
        calls: |program| {
            let reached = reached_rows(program);
            call_rows(program).filter(|call| reached[call.row]).collect()
        },
        ..RIGHT
    },
    Reading {
        name: "with Calls within one module not asked",
        calls: |program| call_rows(program).filter(|call| call.caller != call.called).collect(),
        ..RIGHT
    },
    Reading {
        name: "with caller and called exchanged",
        calls: |program| {
            let turned = |call: CallRow| CallRow { caller: call.called, called: call.caller, ..call };
            call_rows(program).map(turned).collect()
        },
        ..RIGHT
    },
    Reading {
        name: "with the highest forbidden Call told",
        calls: |program| all_calls(program).into_iter().rev().collect(),
        ..RIGHT
    },
    Reading { name: "with 22 before 21", calls_first: true, ..RIGHT },
];

/// A wrong reading of the number that says whether there is a file, and whether there is one by it.
type WrongNumber = (&'static str, fn(u64) -> bool);

pub const WRONG_NUMBERS: [WrongNumber; 4] = [
    ("with only the number 1 for a file", |has| has == 1),
    ("with the number cut to 8 bits", |has| has as u8 != 0),
    ("with the number cut to 32 bits", |has| has as u32 != 0),
    ("with the bytes looked at where the number is 0", |_| true),
];
