//! Walks in lines, an instruction each, with what matters there.

use super::search::{instr_at, Followed, Step, Walk};
use crate::words::instruction;
use reference::program::{Instr, Program};
use reference::row::Row;

/// Walks with more rows are shortened to so many at either end and the rows that matter.
const WHOLE: usize = 40;
const ENDS: usize = 12;

/// The walks below their titles.
pub fn lines(program: &Program, rows: &[Row], walks: &[Walk]) -> Vec<String> {
    let drawn: Vec<Vec<Line>> = walks.iter().map(|walk| walk_lines(program, rows, walk)).collect();
    let width = |of: fn(&Line) -> &String| drawn.iter().flatten().map(|line| of(line).len()).max().unwrap_or(0);
    let widths = (width(|line| &line.row), width(|line| &line.instruction));
    let mut lines = Vec::new();
    for (index, walk) in drawn.iter().enumerate() {
        lines.push(title(program, walks, index));
        lines.extend(shortened(walk, widths));
    }
    lines
}

fn title(program: &Program, walks: &[Walk], index: usize) -> String {
    let walk = &walks[index];
    let procedure = walk[0].procedure;
    if walks.len() == 1 {
        return "a walk that shows it:".to_string();
    }
    let order = match index {
        0 => "first",
        index if index + 1 == walks.len() => "last",
        _ => "then",
    };
    let marked = match (walk[0].followed, index) {
        (_, 0) => String::new(),
        (Followed::MarkedLocal(parameter), _) => format!(", whose parameter {parameter} starts marked"),
        _ => {
            let end = &walks[index - 1][walks[index - 1].len() - 1];
            format!(", where result {} of procedure {} is marked", number_taken(program, end), end.procedure)
        }
    };
    format!("{order}, a walk of procedure {procedure}{marked}:")
}

/// Which of the operands that the instruction takes is followed, the first being 0.
pub fn number_taken(program: &Program, step: &Step) -> usize {
    let (takes, _) = program.arity(&program.procedures[step.procedure], instr_at(program, *step));
    match step.followed {
        Followed::MarkedOperand(depth) => takes.saturating_sub(depth + 1),
        _ => 0,
    }
}

/// One row of a walk.
struct Line {
    row: String,
    instruction: String,
    note: String,
    matters: bool,
}

impl Line {
    fn text(&self, (row_width, instruction_width): (usize, usize)) -> String {
        let Line { row, instruction, note, .. } = self;
        let text = format!("  {row:<row_width$}  {instruction:<instruction_width$}  {note}");
        text.trim_end().to_string()
    }
}

/// The lines of a walk, those in the middle of a long one left out if they do not matter.
fn shortened(walk: &[Line], widths: (usize, usize)) -> Vec<String> {
    let kept = |index: usize| {
        let at_end = index < ENDS || index + ENDS >= walk.len();
        walk.len() <= WHOLE || at_end || walk[index].matters
    };
    let mut lines = Vec::new();
    let mut left_out = 0;
    for (index, line) in walk.iter().enumerate() {
        // A single row is not worth leaving out.
        let alone = left_out == 0 && index + 1 < walk.len() && kept(index + 1);
        if !kept(index) && !alone {
            left_out += 1;
            continue;
        }
        if left_out > 0 {
            lines.push(format!("  ... {left_out} rows more"));
            left_out = 0;
        }
        lines.push(line.text(widths));
    }
    lines
}

fn walk_lines(program: &Program, rows: &[Row], walk: &Walk) -> Vec<Line> {
    (0..walk.len()).map(|index| line(program, rows, walk, index)).collect()
}

fn line(program: &Program, rows: &[Row], walk: &Walk, index: usize) -> Line {
    let step = walk[index];
    let row = program.procedures[step.procedure].code_row + step.place;
    let next = walk.get(index + 1);
    let instr = instr_at(program, step);
    let start = if index == 0 { start_note(step.followed) } else { None };
    let place_note = match next {
        Some(next) => change_note(program, step, instr, next.followed),
        // How it starts is how it stands there.
        None if start.is_some() => None,
        None => Some(end_note(program, step, instr)),
    };
    let matters = start.is_some() || place_note.is_some();
    let jump = next.and_then(|next| jump_note(program, instr, next));
    let notes: Vec<String> = [start, place_note, jump].into_iter().flatten().collect();
    Line { row: format!("row {row}"), instruction: instruction(&rows[row]), note: notes.join("; "), matters }
}

fn start_note(followed: Followed) -> Option<String> {
    match followed {
        Followed::Empty(local) => Some(format!("local {local} starts empty")),
        Followed::Full(local) => Some(format!("local {local}, a parameter, starts full")),
        Followed::MarkedLocal(local) => Some(format!("local {local}, a parameter, starts marked")),
        _ => None,
    }
}

/// What the instruction does to what is followed.
fn change_note(program: &Program, step: Step, instr: Instr, after: Followed) -> Option<String> {
    match (step.followed, instr, after) {
        (Followed::Full(local), Instr::MvLoc(_), Followed::Empty(_)) => Some(format!("local {local} is emptied")),
        (Followed::Empty(local), Instr::StLoc(_), Followed::Full(_)) => Some(format!("local {local} is filled")),
        (Followed::Nothing, Instr::BorrowFld { of, field }, Followed::MarkedOperand(_)) => {
            Some(format!("marked: borrowed from guarded field {field} of type {of}"))
        }
        (Followed::Nothing, Instr::Call(callee), Followed::MarkedOperand(depth)) => {
            let results = program.results(program.procedure(callee)).len();
            Some(format!("marked: result {} of procedure {callee}", results.saturating_sub(depth + 1)))
        }
        (Followed::MarkedOperand(_), Instr::StLoc(local), Followed::MarkedLocal(_)) => {
            Some(format!("stored in local {local}"))
        }
        (Followed::MarkedLocal(local), Instr::MvLoc(_), Followed::MarkedOperand(_)) => {
            Some(format!("moved from local {local}"))
        }
        (Followed::MarkedLocal(local), Instr::CpLoc(_), Followed::MarkedOperand(_)) => {
            Some(format!("copied from local {local}"))
        }
        _ => None,
    }
}

/// How it stands with what is followed at the last row.
fn end_note(program: &Program, step: Step, instr: Instr) -> String {
    match (step.followed, instr) {
        (Followed::Empty(local), _) => format!("local {local} is empty"),
        (Followed::Full(local), _) => format!("local {local} holds a record"),
        (_, Instr::Call(callee)) => {
            format!("given to procedure {callee} as parameter {}", number_taken(program, &step))
        }
        _ => format!("returned as result {}", number_taken(program, &step)),
    }
}

fn jump_note(program: &Program, instr: Instr, next: &Step) -> Option<String> {
    let target = instr.target()?;
    let row = program.procedures[next.procedure].code_row + target;
    match instr {
        Instr::BranchCond(_) if next.place == target => Some(format!("jump to row {row} taken")),
        Instr::BranchCond(_) => Some(format!("jump to row {row} not taken")),
        _ => Some(format!("jump to row {row}")),
    }
}
