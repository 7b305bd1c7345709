//! The call list: refusals 15 and 16, and its calls.

use crate::program::{Program, Sort};
use crate::row::{limit, read_rows, Row, ROW_BYTES};
use crate::Refusal;

const CALL: u8 = 1;
const ARGUMENT: u8 = 2;

#[derive(Clone, Debug, PartialEq, Eq)]
pub struct ListCall {
    pub procedure: usize,
    pub budget: u32,
    pub arguments: Vec<u64>,
}

/// Judges the list against an accepted table and hands back its calls.
pub fn check_list(program: &Program, list: &[u8]) -> Result<Vec<ListCall>, Refusal> {
    if list.len() > limit::LIST_BYTES || !list.len().is_multiple_of(ROW_BYTES) {
        return Err((15, 0));
    }
    let rows = read_rows(list);
    let mut calls = Vec::new();
    for (place, row) in rows.iter().enumerate() {
        if !row_allowed(row, place) {
            return Err((15, place));
        }
        if row.kind == CALL {
            calls.push(read_call(program, row, &rows[place + 1..]).ok_or((16, place))?);
        }
    }
    Ok(calls)
}

fn row_allowed(row: &Row, place: usize) -> bool {
    match row.kind {
        CALL => row.a == 0 && row.d == 0,
        ARGUMENT => place > 0 && row.a == 0 && row.b == 0 && row.c == 0,
        _ => false,
    }
}

fn read_call(program: &Program, row: &Row, below: &[Row]) -> Option<ListCall> {
    let arguments: Vec<u64> = below.iter().take_while(|row| row.kind == ARGUMENT).map(|row| row.d).collect();
    let procedure = program.procedures.get(usize::from(row.b))?;
    let mut sorts = program.params(procedure).iter().chain(program.results(procedure));
    let good = procedure.public
        && sorts.all(|&sort| sort == Sort::Number)
        && arguments.len() == procedure.params
        && (1..=limit::BUDGET).contains(&row.c);
    good.then_some(ListCall { procedure: usize::from(row.b), budget: row.c, arguments })
}
