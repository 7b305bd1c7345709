//! The passes "length" (1) and "rows" (2, 3, 4, 18, 19).

use crate::row::{kind, last_a, limit, op, sort, uses, Row, ROW_BYTES};
use crate::Refusal;

pub fn check_length(bytes: &[u8]) -> Result<(), Refusal> {
    let good = !bytes.is_empty() && bytes.len().is_multiple_of(ROW_BYTES) && bytes.len() <= limit::ROWS * ROW_BYTES;
    if good {
        Ok(())
    } else {
        Err((1, 0))
    }
}

/// What the later passes need to know of a procedure before its rows are decoded.
#[derive(Clone, Copy, Debug)]
pub struct ProcedureOutline {
    pub row: usize,
    pub module: usize,
    pub locals: usize,
    pub params: usize,
    pub results: usize,
    pub code: usize,
}

impl ProcedureOutline {
    /// Row of the first instruction.
    pub fn code_row(&self) -> usize {
        self.row + 1 + self.locals + self.results
    }
}

/// Counts of everything in the table, in table order.
#[derive(Clone, Debug, Default)]
pub struct Outline {
    pub trusted: Vec<bool>,
    /// Per type: its module and its number of fields.
    pub types: Vec<(usize, usize)>,
    pub procedures: Vec<ProcedureOutline>,
}

/// The rows pass. It hands on the outline that it counted.
pub fn check_rows(rows: &[Row]) -> Result<Outline, Refusal> {
    let mut outline = Outline::default();
    let mut above = None;
    for (place, row) in rows.iter().enumerate() {
        if !may_stand(row.kind, above) {
            return Err((2, place));
        }
        if !outline.count(row, place) {
            return Err((3, place));
        }
        if !unused_zero(row) {
            return Err((4, place));
        }
        if !outline.allows_values(row) {
            return Err((18, place));
        }
        if !outline.allows_guard(row) {
            return Err((19, place));
        }
        above = Some(row.kind);
    }
    Ok(outline)
}

fn may_stand(this: u8, above: Option<u8>) -> bool {
    let Some(above) = above else {
        return this == kind::MODULE;
    };
    match this {
        kind::MODULE | kind::PROCEDURE => true,
        kind::TYPE => (kind::MODULE..=kind::FIELD).contains(&above),
        kind::FIELD => (kind::TYPE..=kind::FIELD).contains(&above),
        kind::LOCAL => (kind::PROCEDURE..=kind::LOCAL).contains(&above),
        kind::RESULT => (kind::PROCEDURE..=kind::RESULT).contains(&above),
        kind::INSTRUCTION => (kind::PROCEDURE..=kind::INSTRUCTION).contains(&above),
        _ => false,
    }
}

impl Outline {
    /// Counts a row in; false if that passes a limit.
    fn count(&mut self, row: &Row, place: usize) -> bool {
        match row.kind {
            kind::MODULE => {
                self.trusted.push(row.a == 1);
                self.trusted.len() <= limit::MODULES
            }
            kind::TYPE => {
                self.types.push((self.trusted.len() - 1, 0));
                self.types.len() <= limit::TYPES
            }
            kind::FIELD => {
                let fields = &mut self.types.last_mut().expect("a type stands above").1;
                *fields += 1;
                *fields <= limit::FIELDS
            }
            kind::PROCEDURE => {
                self.procedures.push(ProcedureOutline {
                    row: place,
                    module: self.trusted.len() - 1,
                    locals: 0,
                    params: 0,
                    results: 0,
                    code: 0,
                });
                self.procedures.len() <= limit::PROCEDURES
            }
            _ => self.count_in_procedure(row),
        }
    }

    fn count_in_procedure(&mut self, row: &Row) -> bool {
        let procedure = self.procedures.last_mut().expect("a procedure stands above");
        let (count, most) = match row.kind {
            kind::LOCAL => {
                procedure.params += usize::from(row.c == 1);
                (&mut procedure.locals, limit::LOCALS)
            }
            kind::RESULT => (&mut procedure.results, limit::RESULTS),
            _ => (&mut procedure.code, limit::INSTRUCTIONS),
        };
        *count += 1;
        *count <= most
    }

    /// Whether the row (counted in already) has only values allowed in the bytes that it uses.
    fn allows_values(&self, row: &Row) -> bool {
        let rest = match row.kind {
            kind::FIELD => row.c <= 1,
            kind::LOCAL => row.c == 0 || (row.c == 1 && self.params_only()),
            kind::INSTRUCTION => row.a != op::OP || row.b <= op::LAST_OP,
            _ => true,
        };
        rest && row.a <= last_a(row.kind)
    }

    /// Whether all locals of this procedure so far are parameters.
    fn params_only(&self) -> bool {
        let procedure = self.procedures.last().expect("a procedure stands above");
        procedure.params == procedure.locals
    }

    /// Whether the row, if it is a guarded field, is a number of a trusted module.
    fn allows_guard(&self, row: &Row) -> bool {
        let guarded = row.kind == kind::FIELD && row.c == 1;
        let trusted = *self.trusted.last().expect("a module stands above");
        !guarded || (row.a == sort::NUMBER && trusted)
    }
}

fn unused_zero(row: &Row) -> bool {
    let used = uses(row.kind, row.a);
    (used.a || row.a == 0) && (used.b || row.b == 0) && (used.c || row.c == 0) && (used.d || row.d == 0)
}
