//! What the rows of a table declare, counted from the rows themselves, and where instructions stand.

use reference::program::{Procedure, Program};
use reference::row::{kind, Row};
use std::ops::Range;

/// How many rows of each kind there are; fields, locals, results and instructions within their owner, the last type or procedure.
#[derive(Default)]
pub struct Counts([usize; kind::INSTRUCTION as usize + 1]);

impl Counts {
    pub fn of(rows: &[Row]) -> Counts {
        let mut counts = Counts::default();
        for row in rows {
            match row.kind {
                kind::TYPE => counts.0[usize::from(kind::FIELD)] = 0,
                kind::PROCEDURE => counts.0[usize::from(kind::LOCAL)..].fill(0),
                _ => {}
            }
            if let Some(count) = counts.0.get_mut(usize::from(row.kind)) {
                *count += 1;
            }
        }
        counts
    }

    /// From row 0 to this row.
    pub fn up_to(rows: &[Row], at: usize) -> Option<Counts> {
        Some(Counts::of(rows.get(..=at)?))
    }

    pub fn count(&self, kind: u8) -> usize {
        self.0.get(usize::from(kind)).copied().unwrap_or(0)
    }

    /// The number of the last one of this kind.
    pub fn last(&self, kind: u8) -> Option<usize> {
        self.count(kind).checked_sub(1)
    }
}

/// The rows of the procedure that this row stands in: from its own to the last before the next procedure or module.
pub fn procedure_rows(rows: &[Row], at: usize) -> Option<Range<usize>> {
    let first = rows.get(..=at)?.iter().rposition(|row| row.kind == kind::PROCEDURE)?;
    let ends = |row: &Row| matches!(row.kind, kind::MODULE | kind::PROCEDURE);
    let length = rows[first + 1..].iter().position(ends).unwrap_or(rows.len() - first - 1);
    Some(first..first + 1 + length)
}

/// How many fields a type has; none if there is no such type.
pub fn fields_of(rows: &[Row], of: usize) -> Option<usize> {
    let (first, _) = rows.iter().enumerate().filter(|(_, row)| row.kind == kind::TYPE).nth(of)?;
    Some(rows[first + 1..].iter().take_while(|row| row.kind == kind::FIELD).count())
}

/// The number of the procedure that has an instruction in this row, and its place there.
pub fn instruction_at(program: &Program, at: usize) -> Option<(usize, usize)> {
    let stands_in = |procedure: &Procedure| {
        let place = at.checked_sub(procedure.code_row)?;
        (place < procedure.code.len()).then_some(place)
    };
    program.procedures.iter().enumerate().find_map(|(number, procedure)| Some((number, stands_in(procedure)?)))
}
