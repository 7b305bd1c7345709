//! Pieces of sentences.

use super::Words;
use crate::words::{instruction, kind_name, opcode_name, sort_name};
use reference::program::{Program, Sort};
use reference::row::{kind, Row, ROW_BYTES};

/// The name with its article.
pub fn a(name: &str) -> String {
    let article = if name.starts_with(['a', 'e', 'i', 'o', 'u']) { "an" } else { "a" };
    format!("{article} {name}")
}

/// So many of the things with this name.
pub fn counted(count: usize, name: &str) -> String {
    match count {
        0 => format!("no {name}s"),
        1 => format!("1 {name}"),
        _ => format!("{count} {name}s"),
    }
}

/// The same of things that have numbers.
pub fn numbered(count: usize, name: &str) -> String {
    let from = if count == 0 { "" } else { ", numbered from 0" };
    format!("{}{from}", counted(count, name))
}

/// Numbers one after the other; many are cut short.
pub fn listed(numbers: &[usize]) -> String {
    const SHOWN: usize = 8;
    let mut items: Vec<String> = numbers.iter().take(SHOWN).map(usize::to_string).collect();
    if numbers.len() > SHOWN {
        items.push(format!("{} more", numbers.len() - SHOWN));
    }
    joined(&items, "and")
}

/// Things one after the other, with a word before the last.
pub fn joined(items: &[String], word: &str) -> String {
    match items {
        [] => String::new(),
        [only] => only.clone(),
        [before @ .., last] => format!("{} {word} {last}", before.join(", ")),
    }
}

/// `row 15 Ret` or `row 4, a local`.
pub fn row_named(rows: &[Row], at: usize) -> Option<String> {
    let row = rows.get(at)?;
    match opcode_name(row.a).filter(|_| row.kind == kind::INSTRUCTION) {
        Some(_) => Some(format!("row {at} {}", instruction(row))),
        None => Some(format!("row {at}, {}", a(kind_name(row.kind)?))),
    }
}

/// A sort with its article.
pub fn a_sort(sort: Sort) -> String {
    let (number, of) = sort.bytes();
    a(&sort_name(number, of))
}

/// What can become of records of these types that cannot stay where they are, in a procedure of this module.
pub fn record_ways(program: &Program, module: u8, types: &[u8]) -> String {
    let record = if types.len() == 1 { "the record" } else { "each record" };
    let mut modules: Vec<u8> = types.iter().map(|&of| program.types[usize::from(of)].module).collect();
    modules.sort_unstable();
    modules.dedup();
    match modules[..] {
        [only] if only == module => format!("return {record}, publish it or Unpack it"),
        [only] => format!("return {record}, or give it to a public procedure of module {only}"),
        _ => format!("return {record}, or give it to a public procedure of its module"),
    }
}

/// What is wrong, and its mend where one helps.
pub type Cause = (String, Option<String>);

/// The words for all causes that hold of one row; none if there are none.
pub fn all_causes(named: String, causes: Vec<Cause>) -> Option<Words> {
    let (faults, mends): (Vec<String>, Vec<Option<String>>) = causes.into_iter().unzip();
    let mut mends: Vec<String> = mends.into_iter().flatten().collect();
    mends.dedup();
    let mend = (!mends.is_empty()).then(|| mends.join("; "));
    (!faults.is_empty()).then(|| Words::new(format!("{named}: {}", faults.join("; also ")), mend))
}

/// Longer files are cut before they come here, so that their length is not known.
const KNOWN_LENGTH: usize = 1 << 20;

/// What is wrong with the number of bytes of something that has at most so many rows.
pub fn length_fault(what: &str, bytes: usize, most: usize) -> Option<String> {
    if bytes > KNOWN_LENGTH {
        return Some(format!("{what} has over {KNOWN_LENGTH} bytes; at most {} bytes, {most} rows", most * ROW_BYTES));
    }
    let (has, most_bytes) = (counted(bytes, "byte"), most * ROW_BYTES);
    let rest = counted(bytes % ROW_BYTES, "byte");
    match (bytes > most_bytes, bytes.is_multiple_of(ROW_BYTES)) {
        (false, true) => None,
        (false, false) => Some(format!("{what} has {has}, no multiple of 16: its last row has {rest}")),
        (true, true) => {
            let rows = bytes / ROW_BYTES;
            Some(format!("{what} has {has}, {rows} rows; at most {most_bytes} bytes, {most} rows"))
        }
        (true, false) => {
            Some(format!("{what} has {has}, over {most_bytes} and no multiple of 16: its last row has {rest}"))
        }
    }
}

/// The same for something that has at least one row.
pub fn needed_length_fault(what: &str, bytes: usize, most: usize) -> Option<String> {
    if bytes == 0 {
        return Some(format!("{what} has no bytes; it must have 1 to {most} rows of 16 bytes"));
    }
    length_fault(what, bytes, most)
}
