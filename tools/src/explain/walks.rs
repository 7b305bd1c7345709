//! Refusals of the passes locals (11, 12) and leaks (13, 14), each with walks that show it.

use super::declared::instruction_at;
use super::drawing::{lines, number_taken};
use super::leaks::*;
use super::phrases::{a_sort, record_ways, row_named};
use super::replay::replay;
use super::search::{instr_at, to_leak, to_local, Followed, Walk};
use super::Words;
use reference::program::{Instr, Program, Sort};
use reference::row::{read_rows, sort, Row};
use reference::Refusal;

pub fn words(table: &[u8], refusal: Refusal) -> Result<Words, String> {
    let (number, at) = refusal;
    let rows = read_rows(table);
    let unshown = || format!("no walk was found for refused {number} row {at}: please report this table");
    let program = reference::type_check(table).map_err(|_| unshown())?;
    let walks = walks_to(&program, refusal).ok_or_else(unshown)?;
    let borrowed = replay(&program, &walks, refusal)?;
    let mut words = match borrowed {
        Some(borrowed) => leak_words(&program, &rows, &walks, at, borrowed),
        None => local_words(&program, &rows, &walks, at),
    }
    .ok_or_else(unshown)?;
    words.shown = lines(&program, &rows, &walks);
    Ok(words)
}

/// The walks that show the refusal, the last one up to its row.
pub fn walks_to(program: &Program, (number, at): Refusal) -> Option<Vec<Walk>> {
    let (procedure, place) = instruction_at(program, at)?;
    let locals = program.locals(&program.procedures[procedure]);
    let walk_to = |local, followed| Some(vec![to_local(program, procedure, place, local, followed)?]);
    match (number, program.code(&program.procedures[procedure])[place]) {
        (11, Instr::MvLoc(local) | Instr::CpLoc(local) | Instr::BorrowLoc(local)) => {
            walk_to(local, Followed::Empty(local))
        }
        (12, Instr::StLoc(local)) => walk_to(local, Followed::Full(local)),
        (12, Instr::Ret) => {
            let records = (0..locals.len()).filter(|&local| locals[local].is_record()).map(|local| local as u8);
            records.filter_map(|local| walk_to(local, Followed::Full(local))).min_by_key(|walks| walks[0].len())
        }
        (13, Instr::Call(_)) | (14, Instr::Ret) => to_leak(program, procedure, place),
        _ => None,
    }
}

/// Where a mend belongs that would be wrong on other walks to the same row.
const FULL_WALKS: &str = "on the walks where it is full, before they meet the others";
const EMPTY_WALKS: &str = "on the walks where it is empty, before they meet the others";

fn local_words(program: &Program, rows: &[Row], walks: &[Walk], at: usize) -> Option<Words> {
    let walk = walks.last()?;
    let end = *walk.last()?;
    let named = row_named(rows, at)?;
    match end.followed {
        Followed::Empty(local) => {
            let fault = format!("{named}: local {local} is empty on some walk");
            Some(Words::new(fault, Some(empty_mend(program, walk, local))))
        }
        Followed::Full(local) => {
            let sort = program.locals(&program.procedures[end.procedure])[usize::from(local)];
            let why = match instr_at(program, end) {
                Instr::Ret => "cannot be left behind",
                _ => "cannot be overwritten",
            };
            let fault = format!("{named}: local {local} holds {} on some walk; a record {why}", a_sort(sort));
            let ways = match sort {
                Sort::Record(of)
                    if program.types[usize::from(of)].module != program.procedures[end.procedure].module =>
                {
                    record_ways(program, program.procedures[end.procedure].module, &[of])
                }
                _ => "Unpack the record, publish it, give it to a Call or return it".to_string(),
            };
            let mend = match to_local(program, end.procedure, end.place, local, Followed::Empty(local)) {
                Some(_) => format!("{FULL_WALKS}, MvLoc {local}, and {ways}"),
                None => format!("MvLoc {local} before, and {ways}"),
            };
            Some(Words::new(fault, Some(mend)))
        }
        _ => None,
    }
}

fn empty_mend(program: &Program, walk: &Walk, local: u8) -> String {
    let end = walk[walk.len() - 1];
    let procedure = &program.procedures[end.procedure];
    let is_record = program.locals(procedure)[usize::from(local)].is_record();
    let emptied = walk[..walk.len() - 1].iter().rfind(|&&step| instr_at(program, step) == Instr::MvLoc(local));
    let copied = |place: usize| match is_record {
        true => String::new(),
        false => format!(", or CpLoc {local} instead of MvLoc {local} at row {}", procedure.code_row + place),
    };
    let instead = emptied.map_or_else(String::new, |step| copied(step.place));
    // A record that is there cannot be overwritten.
    let some_full = || to_local(program, end.procedure, end.place, local, Followed::Full(local)).is_some();
    match is_record && some_full() {
        true => format!("{EMPTY_WALKS}, StLoc {local}"),
        false => format!("StLoc {local} on every walk before{instead}"),
    }
}

fn leak_words(program: &Program, rows: &[Row], walks: &[Walk], at: usize, borrowed: usize) -> Option<Words> {
    let end = *walks.last()?.last()?;
    let (procedure, place) = instruction_at(program, borrowed)?;
    let Instr::BorrowFld { of, field } = program.code(&program.procedures[procedure])[place] else {
        return None;
    };
    let number = number_taken(program, &end);
    let inside = end.procedure;
    let (does, mends) = match instr_at(program, end) {
        Instr::Call(callee) => {
            let called = program.procedure(callee);
            let does = match called.module == program.procedures[inside].module {
                true => format!("gives public procedure {callee}"),
                false => format!("gives procedure {callee} of module {}", called.module),
            };
            (does, given_mends(program, rows, inside, callee.into(), number, at))
        }
        _ => ("returns".to_string(), returned_mends(program, rows, inside, number, at)),
    };
    let reference = format!("a writable reference to guarded field {field} of type {of}, borrowed at row {borrowed}");
    let mend = (!mends.is_empty()).then(|| mends.join(", or "));
    Some(Words::new(format!("{}: {does} {reference}", row_named(rows, at)?), mend))
}

/// 13: what helps where the reference is given to a procedure as this parameter.
fn given_mends(program: &Program, rows: &[Row], inside: usize, callee: usize, number: usize, at: usize) -> Vec<String> {
    let module = program.procedures[inside].module;
    let helper = program.procedures[callee].module == module && private_helps(program, callee, at);
    let elsewhere = called_from_elsewhere(program, callee);
    let read_only = parameter_can_be_read_only(rows, callee, number);
    let mut mends = Vec::new();
    if read_only {
        let sort = sort::NUMBER_VIEW;
        mends.push(format!("Freeze the reference before the Call and let parameter {number} be of sort {sort}"));
    }
    if helper && !elsewhere {
        mends.push(format!("make procedure {callee} private"));
    }
    if helper && elsewhere && !read_only {
        mends.push(format!("Call a private procedure of module {module} that does the same"));
    }
    mends
}

/// 14: what helps where the reference is returned as this result. A private procedure is of use only where it is called.
fn returned_mends(program: &Program, rows: &[Row], inside: usize, number: usize, at: usize) -> Vec<String> {
    let mut mends = Vec::new();
    if result_can_be_read_only(program, rows, inside, number) {
        let sort = sort::NUMBER_VIEW;
        mends.push(format!("Freeze the reference before Ret and let result {number} be of sort {sort}"));
    }
    let of_use = called_at_home(program, inside) && !called_from_elsewhere(program, inside);
    if of_use && private_helps(program, inside, at) {
        mends.push(format!("make procedure {inside} private"));
    }
    mends
}
