//! Which mends of a leak (13, 14) work: each is tried before it is told.

use super::effects::{pushes, takes, Wanted};
use reference::marks::{is_helper, smallest};
use reference::program::{Instr, Program, Sort};
use reference::row::{kind, sort, write_rows, Row};
use reference::walks::facts_of;
use std::collections::BTreeSet;

/// The rows that give away a marked reference or return one.
fn leaks(program: &Program) -> BTreeSet<usize> {
    let (marks, _) = smallest(program);
    let mut rows = BTreeSet::new();
    for (number, procedure) in program.procedures.iter().enumerate() {
        if !program.is_trusted(procedure.module) {
            continue;
        }
        let facts = facts_of(program, number, &marks);
        for (place, &instr) in program.code(procedure).iter().enumerate() {
            let gives_away = match instr {
                Instr::Call(callee) => !is_helper(program, procedure, callee),
                Instr::Ret => procedure.public,
                _ => false,
            };
            let taken = (1 << program.arity(procedure, instr).0) - 1;
            if gives_away && facts.marked_operands[place] & taken != 0 {
                rows.insert(procedure.code_row + place);
            }
        }
    }
    rows
}

/// Whether no leak is at this row, and none where there was none, once the procedure is private.
pub fn private_helps(program: &Program, procedure: usize, at: usize) -> bool {
    let mut mended = program.clone();
    mended.procedures[procedure].public = false;
    let after = leaks(&mended);
    !after.contains(&at) && after.is_subset(&leaks(program))
}

/// The procedures that call this one.
pub fn callers(program: &Program, procedure: usize) -> Vec<usize> {
    let calls = |instr: &Instr| matches!(*instr, Instr::Call(callee) if usize::from(callee) == procedure);
    let all = 0..program.procedures.len();
    all.filter(|&number| program.code(&program.procedures[number]).iter().any(calls)).collect()
}

/// Whether a procedure of another module calls this one.
pub fn called_from_elsewhere(program: &Program, procedure: usize) -> bool {
    let module = |number: usize| program.procedures[number].module;
    callers(program, procedure).into_iter().any(|caller| module(caller) != module(procedure))
}

/// Whether another procedure of its module calls this one.
pub fn called_at_home(program: &Program, procedure: usize) -> bool {
    let module = |number: usize| program.procedures[number].module;
    callers(program, procedure).into_iter().any(|caller| caller != procedure && module(caller) == module(procedure))
}

/// Whether the parameter can be read-only: what the procedure does with it can be done with a read-only reference.
pub fn parameter_can_be_read_only(rows: &[Row], procedure: usize, parameter: usize) -> bool {
    read_only_fits(rows, procedure, 1 + parameter, &[procedure]).unwrap_or_default()
}

/// The same of a result: what its callers do with it.
pub fn result_can_be_read_only(program: &Program, rows: &[Row], procedure: usize, result: usize) -> bool {
    let locals = program.locals(&program.procedures[procedure]).len();
    read_only_fits(rows, procedure, 1 + locals + result, &callers(program, procedure)).unwrap_or_default()
}

/// Whether the code of `users` takes the right operands once the sort that stands so many rows below the procedure's own is read-only.
fn read_only_fits(rows: &[Row], procedure: usize, below: usize, users: &[usize]) -> Option<bool> {
    let mut procedures = (0..rows.len()).filter(|&at| rows[at].kind == kind::PROCEDURE);
    let at = procedures.nth(procedure)? + below;
    let mut rows = rows.to_vec();
    rows.get_mut(at)?.a = sort::NUMBER_VIEW;
    let program = reference::name_check(&write_rows(&rows)).ok()?;
    Some(users.iter().all(|&user| takes_what_it_finds(&program, user).is_some()))
}

/// Nothing if an operand is of the wrong sort and no Freeze helps. The operands are as many as before, so that they are empty at each edge.
fn takes_what_it_finds(program: &Program, number: usize) -> Option<()> {
    let procedure = &program.procedures[number];
    let mut operands: Vec<Sort> = Vec::new();
    for &instr in program.code(procedure) {
        let wanted = takes(program, number, instr);
        let taken = operands.split_off(operands.len().checked_sub(wanted.len())?);
        let fits = |wanted: Wanted, sort: Sort| {
            wanted.fits(sort) || sort.frozen().is_some_and(|frozen| wanted.only() == Some(frozen))
        };
        if !wanted.iter().zip(&taken).all(|(wanted, &sort)| fits(wanted.wanted, sort)) {
            return None;
        }
        operands.extend(pushes(program, procedure, instr, &taken));
    }
    Some(())
}
