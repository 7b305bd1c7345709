//! The program behind `./yithrel` for what is not proved. It works in a folder where `./yithrel` has put what it was given under fixed names: table.bin,
//! calls.bin, rules.bin (each may be missing) and rows.

use std::io::{self, BufWriter, ErrorKind, Write};
use std::path::Path;
use std::process::ExitCode;
use tools::explain::{self, Given};
use tools::{notation, show, trace};

const USAGE: &str =
    "usage: tools show-table | show-list | show-rules | rows | trace DIR, or tools explain NUMBER VALUE DIR
(./yithrel --help tells what they do)";

fn main() -> ExitCode {
    let words: Vec<String> = std::env::args().skip(1).collect();
    let words: Vec<&str> = words.iter().map(String::as_str).collect();
    let done = match words[..] {
        ["show-table", dir] => show_one(dir, "table.bin", show::table),
        ["show-list", dir] => show_list(dir),
        ["show-rules", dir] => show_one(dir, "rules.bin", show::rules),
        ["rows", dir] => rows(dir),
        ["trace", dir] => write_trace(dir),
        ["explain", number, value, dir] => explain_refusal(number, value, dir),
        _ => Err(USAGE.to_string().into()),
    };
    match done {
        Ok(()) => ExitCode::SUCCESS,
        Err(Failure::NobodyReads) => ExitCode::from(NOBODY_READS),
        Err(Failure::Told(message)) => {
            eprintln!("yithrel: {message}");
            ExitCode::from(2)
        }
    }
}

/// The status of a program whose output nobody reads.
const NOBODY_READS: u8 = 141;

/// Why nothing came of it.
enum Failure {
    NobodyReads,
    Told(String),
}

impl From<String> for Failure {
    fn from(message: String) -> Failure {
        Failure::Told(message)
    }
}

fn read(dir: &str, name: &str) -> Result<Vec<u8>, String> {
    std::fs::read(Path::new(dir).join(name)).map_err(|error| format!("cannot read {name}: {error}"))
}

/// The file's bytes if there is such a file.
fn read_if_there(dir: &str, name: &str) -> Result<Option<Vec<u8>>, String> {
    match std::fs::read(Path::new(dir).join(name)) {
        Ok(bytes) => Ok(Some(bytes)),
        Err(error) if error.kind() == ErrorKind::NotFound => Ok(None),
        Err(error) => Err(format!("cannot read {name}: {error}")),
    }
}

fn not_written(error: io::Error) -> Failure {
    match error.kind() {
        ErrorKind::BrokenPipe => Failure::NobodyReads,
        _ => Failure::Told(format!("the answer could not be written: {error}")),
    }
}

fn print(bytes: &[u8]) -> Result<(), Failure> {
    let mut out = io::stdout();
    out.write_all(bytes).and_then(|()| out.flush()).map_err(not_written)
}

fn show_one(dir: &str, name: &str, show: fn(&[u8]) -> String) -> Result<(), Failure> {
    print(show(&read(dir, name)?).as_bytes())
}

fn show_list(dir: &str) -> Result<(), Failure> {
    print(show::list(&read(dir, "table.bin")?, &read(dir, "calls.bin")?).as_bytes())
}

fn rows(dir: &str) -> Result<(), Failure> {
    let bytes = notation::bytes_of(&read(dir, "rows")?).map_err(|error| error.to_string())?;
    print(&bytes)
}

/// The steps on standard output, and the text in the file `text`.
fn write_trace(dir: &str) -> Result<(), Failure> {
    let (table, list, rules) = (read(dir, "table.bin")?, read(dir, "calls.bin")?, read_if_there(dir, "rules.bin")?);
    let mut out = BufWriter::new(io::stdout().lock());
    let text = trace::write_steps(&mut out, &table, &list, rules.as_deref()).map_err(not_written)?;
    out.flush().map_err(not_written)?;
    let text = text.map_err(|(number, row)| format!("refused {number} row {row} by the second implementation"))?;
    std::fs::write(Path::new(dir).join("text"), text).map_err(|error| format!("cannot write text: {error}"))?;
    Ok(())
}

fn explain_refusal(number: &str, value: &str, dir: &str) -> Result<(), Failure> {
    let parsed = number.parse().ok().zip(value.parse().ok());
    let (number, value) = parsed.ok_or_else(|| USAGE.to_string())?;
    let table = read(dir, "table.bin")?;
    let (list, rules) = (read_if_there(dir, "calls.bin")?, read_if_there(dir, "rules.bin")?);
    let given = Given { table: &table, list: list.as_deref(), rules: rules.as_deref() };
    print(explain::refusal(&given, number, value)?.as_bytes())
}
