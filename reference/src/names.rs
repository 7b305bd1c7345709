//! The pass "names": 5 (a procedure without an end) and 6 (a name of nothing).

use crate::row::{kind, op, sort, Row};
use crate::shape::{Outline, ProcedureOutline};
use crate::Refusal;

pub fn check_names(rows: &[Row], outline: &Outline) -> Result<(), Refusal> {
    let mut types = 0;
    let mut procedures = 0;
    for (place, row) in rows.iter().enumerate() {
        let exists = match row.kind {
            kind::TYPE => {
                types += 1;
                true
            }
            // The field's own type is number `types - 1`.
            kind::FIELD => row.a == 0 || usize::from(row.b) + 1 < types,
            kind::PROCEDURE => {
                if !has_end(rows, &outline.procedures[procedures]) {
                    return Err((5, place));
                }
                procedures += 1;
                true
            }
            kind::LOCAL | kind::RESULT => !sort::uses_b(row.a) || usize::from(row.b) < outline.types.len(),
            kind::INSTRUCTION => names_something(row, outline, &outline.procedures[procedures - 1]),
            _ => true,
        };
        if !exists {
            return Err((6, place));
        }
    }
    Ok(())
}

fn has_end(rows: &[Row], procedure: &ProcedureOutline) -> bool {
    let Some(last) = procedure.code.checked_sub(1) else {
        return false;
    };
    matches!(rows[procedure.code_row() + last].a, op::RET | op::BRANCH)
}

fn names_something(row: &Row, outline: &Outline, inside: &ProcedureOutline) -> bool {
    let b = usize::from(row.b);
    match row.a {
        op::MV_LOC | op::CP_LOC | op::ST_LOC | op::BORROW_LOC => b < inside.locals,
        op::BORROW_FLD => outline.types.get(b / 8).is_some_and(|&(_, fields)| b % 8 < fields),
        op::PACK..=op::EXISTS => b < outline.types.len(),
        op::CALL => b < outline.procedures.len(),
        op::BRANCH | op::BRANCH_COND => b < inside.code,
        _ => true,
    }
}
