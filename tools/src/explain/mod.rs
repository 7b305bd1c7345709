//! A refusal in words: the row, what is wrong with it and how that is usually mended; for 11 to 14 also a walk that shows it.
//!
//! The words are checked against the verdict: where the second implementation judges otherwise, nothing is explained. Every walk is
//! found by `search` and followed once more by `replay`, which has the rules apart from it, before it is told.

mod declared;
mod drawing;
mod effects;
mod leaks;
mod list;
mod names;
mod operands;
mod padding;
mod phrases;
mod replay;
mod rows;
mod rules;
mod search;
#[cfg(test)]
mod tampered;
mod walks;

use reference::row::{limit, read_rows};
use reference::Refusal;

/// What was judged: a table, or with a list a run; under a rule file if there is one.
pub struct Given<'a> {
    pub table: &'a [u8],
    pub list: Option<&'a [u8]>,
    pub rules: Option<&'a [u8]>,
}

/// What is said of a refusal.
struct Words {
    /// The row and what is wrong with it.
    fault: String,
    mend: Option<String>,
    /// What shows it: operands or walks, a line each.
    shown: Vec<String>,
}

impl Words {
    fn new(fault: String, mend: Option<String>) -> Words {
        Words { fault, mend, shown: Vec::new() }
    }

    fn text(&self) -> String {
        let mend = self.mend.iter().map(|mend| format!("  mend: {mend}\n"));
        let shown = self.shown.iter().map(|line| format!("  {line}\n"));
        std::iter::once(format!("{}\n", self.fault)).chain(mend).chain(shown).collect()
    }
}

/// The refusal `number` with `value` in words, in lines that end in a newline; or a sentence that says why there are none.
pub fn refusal(given: &Given, number: u32, value: usize) -> Result<String, String> {
    confirm(given, (number, value))?;
    let words = match number {
        11..=14 => walks::words(given.table, (number, value)).map(Some),
        15..=17 => Ok(run_words(given, (number, value))),
        20..=22 => Ok(rule_words(given, (number, value))),
        _ => Ok(table_words(given.table, (number, value))),
    };
    match words? {
        Some(words) => Ok(words.text()),
        None => Err(format!("no cause of refused {number} row {value} was found: please report this table")),
    }
}

/// An error if the second implementation judges otherwise. No text buffer is given here: it is taken to be large enough, and to be too
/// short where 17 is told, which is then right if nothing else is refused.
fn confirm(given: &Given, told: Refusal) -> Result<(), String> {
    let text_len = if told.0 == 17 { 0 } else { limit::TEXT_BYTES };
    let judged = match given.list {
        Some(list) => reference::admit_run(given.table, list, given.rules, text_len).map(|(program, _)| program.rows),
        None => reference::judge_under(given.table, given.rules),
    };
    let verdict = match judged {
        Err(refusal) if refusal == told => return Ok(()),
        Err((number, value)) => format!("refused {number} row {value}"),
        Ok(rows) => format!("accepted {rows}"),
    };
    Err(format!("the second implementation says {verdict}: please report this table"))
}

fn table_words(table: &[u8], (number, at): Refusal) -> Option<Words> {
    let rows = read_rows(table);
    match number {
        1 => rows::length(table),
        2 => rows::order(&rows, at),
        3 => rows::count(&rows, at),
        4 => rows::padding(&rows, at),
        18 => rows::values(&rows, at),
        19 => rows::guard(&rows, at),
        5 => names::end(&rows, at),
        6 => names::name(&rows, at),
        _ => operands::words(table, (number, at)),
    }
}

fn run_words(given: &Given, (number, value): Refusal) -> Option<Words> {
    match number {
        15 => list::form(given.list?, value),
        16 => list::call(given.table, given.list?, value),
        _ => Some(list::buffer()),
    }
}

fn rule_words(given: &Given, (number, value): Refusal) -> Option<Words> {
    match number {
        20 => rules::form(given.rules?, value),
        21 => rules::pair(given.rules?, value),
        _ => rules::call(given.table, given.rules?, value),
    }
}
