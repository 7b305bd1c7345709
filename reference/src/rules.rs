//! The pass "rules": which module may call which. 20 (a malformed rule file), 21 (a pair of modules under no row of it
//! or under several) and 22 (a Call whose pair is forbidden). It comes after all other passes over the table, and only
//! if there is a rule file.

use crate::program::{Instr, Program};
use crate::row::{limit, read_rows, Row, ROW_BYTES};
use crate::Refusal;

/// Byte 0 of a rule row.
pub const RULE: u8 = 1;

/// The file that a host gives as bytes and a number: with 0 there is none, whatever the bytes are.
pub fn given(bytes: &[u8], has_rules: u64) -> Option<&[u8]> {
    (has_rules != 0).then_some(bytes)
}

/// A good rule row. The numbers of modules are at most 15 and none is above the one behind it in its pair.
#[derive(Clone, Copy, Debug, PartialEq, Eq)]
pub struct Rule {
    pub allows: bool,
    /// First and last calling module.
    pub callers: (u8, u8),
    /// First and last called module.
    pub called: (u8, u8),
}

impl Rule {
    /// Nothing if some byte of the row is not as it must be.
    pub fn new(row: &Row) -> Option<Rule> {
        let [first_caller, last_caller, first_called, last_called] = row.c.to_le_bytes();
        let (callers, called) = ((first_caller, last_caller), (first_called, last_called));
        let good = row.kind == RULE && row.a <= 1 && row.b == 0 && row.d == 0 && rises(callers) && rises(called);
        good.then_some(Rule { allows: row.a == 1, callers, called })
    }

    pub fn covers(&self, caller: u8, called: u8) -> bool {
        (self.callers.0..=self.callers.1).contains(&caller) && (self.called.0..=self.called.1).contains(&called)
    }
}

fn rises((first, last): (u8, u8)) -> bool {
    first <= last && usize::from(last) < limit::MODULES
}

/// The rows of a file, or 20: with row 0 for its length, else with the lowest bad row.
pub fn read_rules(file: &[u8]) -> Result<Vec<Rule>, Refusal> {
    if file.is_empty() || file.len() > limit::RULES * ROW_BYTES || !file.len().is_multiple_of(ROW_BYTES) {
        return Err((20, 0));
    }
    let rows = read_rows(file).into_iter().enumerate();
    rows.map(|(place, row)| Rule::new(&row).ok_or((20, place))).collect()
}

/// The rows that a pair of modules stands under.
#[derive(Clone, Copy, Debug, PartialEq, Eq)]
enum Under {
    None,
    /// One, which allows the pair or forbids it.
    One(bool),
    Several,
}

/// For each ordered pair of the modules present, the calling one first, the rows that it stands under.
#[derive(Clone, Debug)]
pub struct Pairs {
    modules: usize,
    under: [[Under; limit::MODULES]; limit::MODULES],
}

impl Pairs {
    pub fn new(modules: usize, rules: &[Rule]) -> Pairs {
        let mut pairs = Pairs { modules, under: [[Under::None; limit::MODULES]; limit::MODULES] };
        for rule in rules {
            pairs.put_under(rule);
        }
        pairs
    }

    /// A row may reach past the modules present.
    fn put_under(&mut self, rule: &Rule) {
        let present = |(first, last): (u8, u8)| usize::from(first)..self.modules.min(usize::from(last) + 1);
        let (callers, called) = (present(rule.callers), present(rule.called));
        for caller in callers {
            for under in self.under[caller].iter_mut().take(called.end).skip(called.start) {
                *under = match *under {
                    Under::None => Under::One(rule.allows),
                    _ => Under::Several,
                };
            }
        }
    }

    /// Each pair must stand under one row; 21 tells the lowest that does not, as 16 times caller plus called.
    pub fn check(&self) -> Result<(), Refusal> {
        for caller in 0..self.modules {
            for called in 0..self.modules {
                if !matches!(self.under[caller][called], Under::One(_)) {
                    return Err((21, limit::MODULES * caller + called));
                }
            }
        }
        Ok(())
    }

    /// Whether one row covers the pair and allows it.
    pub fn permit(&self, caller: u8, called: u8) -> bool {
        self.under[usize::from(caller)][usize::from(called)] == Under::One(true)
    }
}

/// A Call of a table: where it stands and between which modules.
#[derive(Clone, Copy, Debug, PartialEq, Eq)]
pub struct CallRow {
    pub row: usize,
    pub caller: u8,
    pub called: u8,
}

impl CallRow {
    pub fn pair(&self) -> (u8, u8) {
        (self.caller, self.called)
    }
}

/// The Calls of a table by rising rows, also those that no walk reaches.
pub fn call_rows(program: &Program) -> impl Iterator<Item = CallRow> + '_ {
    program.procedures.iter().flat_map(|inside| {
        program.code(inside).iter().enumerate().filter_map(|(place, &instr)| match instr {
            Instr::Call(callee) => Some(CallRow {
                row: inside.code_row + place,
                caller: inside.module,
                called: program.procedure(callee).module,
            }),
            _ => None,
        })
    })
}

/// Judges the rule file against a table that all other passes accept, and hands back what it says of the pairs.
pub fn check_rules(program: &Program, file: &[u8]) -> Result<Pairs, Refusal> {
    let rules = read_rules(file)?;
    let pairs = Pairs::new(program.trusted.len(), &rules);
    pairs.check()?;
    match call_rows(program).find(|call| !pairs.permit(call.caller, call.called)) {
        Some(forbidden) => Err((22, forbidden.row)),
        None => Ok(pairs),
    }
}
