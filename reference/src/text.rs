//! The text of a run, fixed to the byte.

use crate::machine::{Entry, Machine, Outcome};
use crate::program::Program;
use std::io::Write;

/// Writes one `call` line.
pub fn write_call(text: &mut Vec<u8>, number: usize, outcome: &Outcome) {
    match outcome {
        Outcome::Done(results) => {
            put(text, format_args!("call {number} done"));
            for result in results {
                put(text, format_args!(" {result}"));
            }
        }
        Outcome::Stopped { stop, row } => {
            put(text, format_args!("call {number} stop {} row {row}", stop.number()));
        }
    }
    text.push(b'\n');
}

/// Writes one `store` line per entry. The lines rise by type, then by address, both as numbers.
pub fn write_store(text: &mut Vec<u8>, machine: &Machine) {
    let mut entries: Vec<&Entry> = machine.store().iter().collect();
    entries.sort_unstable_by_key(|entry| (entry.of, entry.address));
    for entry in entries {
        put(text, format_args!("store {} {}", entry.of, entry.address));
        write_fields(text, machine, machine.entry_fields(entry));
        text.push(b'\n');
    }
}

fn write_fields(text: &mut Vec<u8>, machine: &Machine, (of, fields): (u8, &[u64])) {
    let program: &Program = machine.program();
    for (field, &inside) in program.fields(of).iter().zip(fields) {
        if field.sort.is_record() {
            let nested = machine.record_fields(inside as u8);
            put(text, format_args!(" ({}", nested.0));
            write_fields(text, machine, nested);
            text.push(b')');
        } else {
            put(text, format_args!(" {inside}"));
        }
    }
}

/// The lines of calls in a text, without their ends.
pub fn call_lines(text: &[u8]) -> impl Iterator<Item = &[u8]> {
    text.split(|&byte| byte == b'\n').filter(|line| line.starts_with(b"call "))
}

fn put(text: &mut Vec<u8>, words: std::fmt::Arguments) {
    text.write_fmt(words).expect("writing to memory does not fail");
}
