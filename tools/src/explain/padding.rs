//! Unused bytes that are not zero, of rows of a table, of a list and of a rule file.

use super::phrases::{joined, Cause};
use reference::row::{Row, Uses};

/// An unused byte that is not zero.
struct Dirty {
    byte: usize,
    holds: u8,
    part: char,
}

fn dirty_bytes(row: &Row, used: Uses) -> Vec<Dirty> {
    let parts = [(used.a, 'A', 1..2), (used.b, 'B', 2..4), (used.c, 'C', 4..8), (used.d, 'D', 8..16)];
    let bytes = row.to_bytes();
    let unused = parts.into_iter().filter(|(used, ..)| !used);
    let all = unused.flat_map(|(_, part, places)| {
        places.map(move |byte| Dirty { byte, holds: bytes[byte], part }).filter(|dirty| dirty.holds != 0)
    });
    all.collect()
}

/// What is wrong with the unused bytes of a row, and its mend; `user` names what has no use for a part.
pub fn fault(row: &Row, used: Uses, user: impl Fn(char) -> String) -> Option<Cause> {
    let dirty = dirty_bytes(row, used);
    let first = dirty.first()?;
    let Dirty { byte, holds, part } = first;
    let bytes: Vec<String> = dirty.iter().map(|dirty| dirty.byte.to_string()).collect();
    let plural = if bytes.len() > 1 { "s" } else { "" };
    Some((
        format!("byte {byte} is {holds}; {} uses no {part}, and unused bytes must be 0", user(*part)),
        Some(format!("set byte{plural} {} to 0", joined(&bytes, "and"))),
    ))
}
