//! Rows as lines of text that turn back into the same bytes, whatever the bytes are. A line has the five numbers of a
//! row; a last row that is not whole is the word `bytes` and its bytes. What stands behind a `#` is for people.

use reference::row::{Row, ROW_BYTES};
use std::fmt;

/// Comments stand in one column, where the numbers before them are not longer than this.
const WIDEST: usize = 20;

/// The numbers of a row, each with its bytes.
const PLACES: [(&str, usize); 5] = [("kind", 1), ("A", 1), ("B", 2), ("C", 4), ("D", 8)];

/// The first word of a row that is not whole.
const SHORT: &str = "bytes";

/// What a text cannot be turned back for, and in which line, from 1.
#[derive(Clone, Debug, PartialEq, Eq)]
pub struct Error {
    pub line: usize,
    pub what: String,
}

impl fmt::Display for Error {
    fn fmt(&self, to: &mut fmt::Formatter) -> fmt::Result {
        write!(to, "line {}: {}", self.line, self.what)
    }
}

impl std::error::Error for Error {}

/// A line for each row, with a comment for each whole row by its number. A comment has no newline.
pub fn lines(bytes: &[u8], comment: impl Fn(usize) -> String) -> String {
    lines_with(bytes, |c| c.to_string(), comment)
}

/// The same with C in eight hexadecimal digits, for rows that hold four numbers there.
pub fn lines_by_bytes(bytes: &[u8], comment: impl Fn(usize) -> String) -> String {
    lines_with(bytes, |c| format!("{c:#010x}"), comment)
}

fn lines_with(bytes: &[u8], write_c: impl Fn(u32) -> String, comment: impl Fn(usize) -> String) -> String {
    let rows: Vec<&[u8]> = bytes.chunks(ROW_BYTES).collect();
    let numbers = |row: &[u8]| numbers(row, &write_c);
    let width = rows.iter().map(|row| numbers(row).len()).max().unwrap_or(0).min(WIDEST);
    let label_width = label(rows.len().saturating_sub(1)).len();
    let mut text = String::from("# kind A B C D\n");
    for (place, row) in rows.into_iter().enumerate() {
        let says = match row.len() {
            ROW_BYTES => comment(place),
            some => format!("{some} of {ROW_BYTES} bytes: not a whole row"),
        };
        text += &format!("{:width$}  {:label_width$} {says}\n", numbers(row), label(place));
    }
    text
}

fn label(row: usize) -> String {
    format!("# row {row}:")
}

fn numbers(row: &[u8], write_c: impl Fn(u32) -> String) -> String {
    if row.len() < ROW_BYTES {
        return row.iter().fold(SHORT.to_string(), |line, byte| format!("{line} {byte}"));
    }
    let Row { kind, a, b, c, d } = Row::from_bytes(row);
    format!("{kind} {a} {b} {} {d}", write_c(c))
}

/// The bytes that a text stands for.
pub fn bytes_of(text: &[u8]) -> Result<Vec<u8>, Error> {
    let mut bytes = Vec::new();
    for (place, line) in text.split(|&byte| byte == b'\n').enumerate() {
        let code = line.split(|&byte| byte == b'#').next().unwrap_or_default();
        let code = String::from_utf8_lossy(code);
        let words: Vec<&str> = code.split_ascii_whitespace().collect();
        add_row(&mut bytes, &words).map_err(|what| Error { line: place + 1, what })?;
    }
    Ok(bytes)
}

/// Adds the row that the words of a line stand for; a line without words is none.
fn add_row(bytes: &mut Vec<u8>, words: &[&str]) -> Result<(), String> {
    let Some(first) = words.first() else {
        return Ok(());
    };
    if !bytes.len().is_multiple_of(ROW_BYTES) {
        return Err("a row below a short one; only the last row can be short".to_string());
    }
    bytes.extend(if *first == SHORT { short_row(&words[1..])? } else { whole_row(words)? });
    Ok(())
}

fn whole_row(words: &[&str]) -> Result<Vec<u8>, String> {
    check_numbers(words)?;
    if words.len() != PLACES.len() {
        let numbers = if words.len() == 1 { "number" } else { "numbers" };
        return Err(format!("{} {numbers}; a row has five: kind A B C D", words.len()));
    }
    let mut row = Vec::new();
    for (word, (place, size)) in words.iter().zip(PLACES) {
        row.extend(number(word, place, size)?);
    }
    Ok(row)
}

fn short_row(words: &[&str]) -> Result<Vec<u8>, String> {
    check_numbers(words)?;
    if !(1..ROW_BYTES).contains(&words.len()) {
        return Err(format!("{} bytes; a short row has 1 to {}", words.len(), ROW_BYTES - 1));
    }
    let mut row = Vec::new();
    for (place, word) in words.iter().enumerate() {
        row.extend(number(word, &format!("byte {place}"), 1)?);
    }
    Ok(row)
}

fn check_numbers(words: &[&str]) -> Result<(), String> {
    match words.iter().find(|word| digits(word).is_none()) {
        Some(word) => Err(format!("'{}' is no number, decimal or 0x hexadecimal", start(word))),
        None => Ok(()),
    }
}

/// The bytes of a number for a place of this size, the lowest first.
fn number(word: &str, place: &str, size: usize) -> Result<Vec<u8>, String> {
    let most = u64::MAX >> (64 - 8 * size);
    let value = digits(word).and_then(|(digits, base)| u64::from_str_radix(digits, base).ok());
    match value {
        Some(value) if value <= most => Ok(value.to_le_bytes()[..size].to_vec()),
        _ => Err(format!("{place} is {}; at most {most}", start(word))),
    }
}

/// The digits of a number and their base; nothing if the word is no number.
fn digits(word: &str) -> Option<(&str, u32)> {
    let (digits, base) = word.strip_prefix("0x").map_or((word, 10), |digits| (digits, 16));
    let good = !digits.is_empty() && digits.chars().all(|digit| digit.is_digit(base));
    good.then_some((digits, base))
}

/// A word as it can be printed, or its beginning if it is long.
fn start(word: &str) -> String {
    let (most, rest) = (40, "..");
    let start: String = word.chars().take(most).collect();
    format!("{}{}", start.escape_debug(), if start.len() < word.len() { rest } else { "" })
}
