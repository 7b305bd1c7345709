//! One row of a table, of a call list or of a rule file: 16 bytes, little-endian, unsigned.

pub const ROW_BYTES: usize = 16;

#[derive(Clone, Copy, Debug, Default, PartialEq, Eq)]
pub struct Row {
    pub kind: u8,
    pub a: u8,
    pub b: u16,
    pub c: u32,
    pub d: u64,
}

impl Row {
    pub fn from_bytes(bytes: &[u8]) -> Row {
        let bytes: [u8; ROW_BYTES] = bytes.try_into().expect("a row has 16 bytes");
        let word = u128::from_le_bytes(bytes);
        Row {
            kind: word as u8,
            a: (word >> 8) as u8,
            b: (word >> 16) as u16,
            c: (word >> 32) as u32,
            d: (word >> 64) as u64,
        }
    }

    pub fn to_bytes(self) -> [u8; ROW_BYTES] {
        let word = u128::from(self.kind)
            | u128::from(self.a) << 8
            | u128::from(self.b) << 16
            | u128::from(self.c) << 32
            | u128::from(self.d) << 64;
        word.to_le_bytes()
    }
}

/// The whole rows of `bytes`; a shorter rest at the end is left out.
pub fn read_rows(bytes: &[u8]) -> Vec<Row> {
    bytes.chunks_exact(ROW_BYTES).map(Row::from_bytes).collect()
}

pub fn write_rows(rows: &[Row]) -> Vec<u8> {
    rows.iter().flat_map(|row| row.to_bytes()).collect()
}

/// Kinds of table rows.
pub mod kind {
    pub const MODULE: u8 = 1;
    pub const TYPE: u8 = 2;
    pub const FIELD: u8 = 3;
    pub const PROCEDURE: u8 = 4;
    pub const LOCAL: u8 = 5;
    pub const RESULT: u8 = 6;
    pub const INSTRUCTION: u8 = 7;
}

/// Sorts, the A of local and result rows. Fields have the first two only.
pub mod sort {
    pub const NUMBER: u8 = 0;
    pub const RECORD: u8 = 1;
    pub const NUMBER_REF: u8 = 2;
    pub const RECORD_REF: u8 = 3;
    pub const NUMBER_VIEW: u8 = 4;
    pub const RECORD_VIEW: u8 = 5;
    pub const LAST: u8 = RECORD_VIEW;

    /// Whether B names a type. With a sort that is not allowed it counts as used.
    pub fn uses_b(sort: u8) -> bool {
        matches!(sort, RECORD | RECORD_REF | RECORD_VIEW) || sort > LAST
    }
}

/// Opcodes, the A of an instruction row.
pub mod op {
    pub const POP: u8 = 0;
    pub const LOAD_CONST: u8 = 1;
    pub const MV_LOC: u8 = 2;
    pub const CP_LOC: u8 = 3;
    pub const ST_LOC: u8 = 4;
    pub const BORROW_LOC: u8 = 5;
    pub const READ_REF: u8 = 6;
    pub const WRITE_REF: u8 = 7;
    pub const BORROW_FLD: u8 = 8;
    pub const PACK: u8 = 9;
    pub const UNPACK: u8 = 10;
    pub const MOVE_TO: u8 = 11;
    pub const MOVE_FROM: u8 = 12;
    pub const BORROW_GLOBAL: u8 = 13;
    pub const EXISTS: u8 = 14;
    pub const CALL: u8 = 15;
    pub const RET: u8 = 16;
    pub const BRANCH: u8 = 17;
    pub const BRANCH_COND: u8 = 18;
    pub const OP: u8 = 19;
    pub const FREEZE: u8 = 20;
    pub const LAST: u8 = FREEZE;

    /// The highest B of OP.
    pub const LAST_OP: u16 = 3;

    /// Whether B is used. With an opcode that is not allowed it counts as used.
    pub fn uses_b(opcode: u8) -> bool {
        !matches!(opcode, POP | LOAD_CONST | READ_REF | WRITE_REF | RET | FREEZE)
    }

    /// Whether D is used, in the same way.
    pub fn uses_d(opcode: u8) -> bool {
        opcode == LOAD_CONST || opcode > LAST
    }
}

/// The highest A allowed in a table row of this kind; a type row does not use its A.
pub fn last_a(kind: u8) -> u8 {
    match kind {
        kind::TYPE => 0,
        kind::LOCAL | kind::RESULT => sort::LAST,
        kind::INSTRUCTION => op::LAST,
        _ => 1,
    }
}

/// Which of A, B, C and D a table row uses.
#[derive(Clone, Copy, Debug, PartialEq, Eq)]
pub struct Uses {
    pub a: bool,
    pub b: bool,
    pub c: bool,
    pub d: bool,
}

/// Kind and A tell what is used. With an A that is not allowed, what some allowed A uses counts as used.
pub fn uses(kind: u8, a: u8) -> Uses {
    let (b, c, d) = match kind {
        kind::FIELD => (a != sort::NUMBER, true, false),
        kind::LOCAL => (sort::uses_b(a), true, false),
        kind::RESULT => (sort::uses_b(a), false, false),
        kind::INSTRUCTION => (op::uses_b(a), false, op::uses_d(a)),
        _ => (false, false, false),
    };
    Uses { a: kind != kind::TYPE, b, c, d }
}

/// Limits of documents 01 and 02.
pub mod limit {
    pub const ROWS: usize = 2_048;
    pub const MODULES: usize = 16;
    pub const TYPES: usize = 64;
    pub const FIELDS: usize = 8;
    pub const PROCEDURES: usize = 128;
    pub const LOCALS: usize = 16;
    pub const RESULTS: usize = 4;
    pub const INSTRUCTIONS: usize = 256;
    pub const OPERANDS: usize = 16;
    pub const LIST_BYTES: usize = 4_096;
    pub const TEXT_BYTES: usize = 65_536;
    /// Rows of a rule file.
    pub const RULES: usize = 256;
    pub const BUDGET: u32 = 65_535;
    pub const FRAMES: usize = 16;
    pub const RECORDS: usize = 128;
    pub const ENTRIES: usize = 64;
}

#[cfg(test)]
mod tests {
    use super::{kind::*, last_a, uses};

    /// The used ones of B, C and D by name.
    fn used(kind: u8, a: u8) -> String {
        let uses = uses(kind, a);
        let names = [(uses.b, 'B'), (uses.c, 'C'), (uses.d, 'D')];
        names.iter().filter(|(used, _)| *used).map(|&(_, name)| name).collect()
    }

    #[test]
    fn only_type_rows_leave_a_unused() {
        for kind in MODULE..=INSTRUCTION {
            for a in 0..=255 {
                assert_eq!(uses(kind, a).a, kind != TYPE);
            }
        }
    }

    #[test]
    fn an_a_that_is_not_allowed_uses_what_some_allowed_a_uses() {
        for kind in MODULE..=INSTRUCTION {
            let some = |name: char| (0..=last_a(kind)).any(|a| used(kind, a).contains(name));
            let expected: String = "BCD".chars().filter(|&name| some(name)).collect();
            for a in last_a(kind) + 1..=255 {
                assert_eq!(used(kind, a), expected, "kind {kind}, A {a}");
            }
        }
    }

    #[test]
    fn what_counts_as_used_beside_such_an_a() {
        let expected = ["", "", "BC", "", "BC", "B", "BD"];
        for (kind, expected) in (MODULE..=INSTRUCTION).zip(expected) {
            assert_eq!(used(kind, 255), expected, "kind {kind}");
        }
    }
}
