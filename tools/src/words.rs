//! The format's words: kinds, sorts and instructions by name.

use reference::row::{kind, limit, op, sort, Row};

/// Instructions by opcode.
pub const OPCODES: [&str; op::LAST as usize + 1] = [
    "Pop",
    "LoadConst",
    "MvLoc",
    "CpLoc",
    "StLoc",
    "BorrowLoc",
    "ReadRef",
    "WriteRef",
    "BorrowFld",
    "Pack",
    "Unpack",
    "MoveTo",
    "MoveFrom",
    "BorrowGlobal",
    "Exists",
    "Call",
    "Ret",
    "Branch",
    "BranchCond",
    "Op",
    "Freeze",
];

/// The B of Op.
pub const OPERATIONS: [&str; op::LAST_OP as usize + 1] = ["add", "subtract", "equal", "less"];

/// Kinds of table rows, from 1.
pub const KINDS: [&str; kind::INSTRUCTION as usize] =
    ["module", "type", "field", "procedure", "local", "result", "instruction"];

/// The kinds that a row of this kind may follow; all, or none above, where nothing is said.
pub fn may_follow(number: u8) -> Option<&'static [u8]> {
    match number {
        kind::TYPE => Some(&[kind::MODULE, kind::TYPE, kind::FIELD]),
        kind::FIELD => Some(&[kind::TYPE, kind::FIELD]),
        kind::LOCAL => Some(&[kind::PROCEDURE, kind::LOCAL]),
        kind::RESULT => Some(&[kind::PROCEDURE, kind::LOCAL, kind::RESULT]),
        kind::INSTRUCTION => Some(&[kind::PROCEDURE, kind::LOCAL, kind::RESULT, kind::INSTRUCTION]),
        _ => None,
    }
}

/// How many rows of this kind there may be in a table, or in their owner.
pub fn most(number: u8) -> usize {
    match number {
        kind::MODULE => limit::MODULES,
        kind::TYPE => limit::TYPES,
        kind::FIELD => limit::FIELDS,
        kind::PROCEDURE => limit::PROCEDURES,
        kind::LOCAL => limit::LOCALS,
        kind::RESULT => limit::RESULTS,
        _ => limit::INSTRUCTIONS,
    }
}

/// The name of a kind of table rows.
pub fn kind_name(number: u8) -> Option<&'static str> {
    KINDS.get(usize::from(number).checked_sub(1)?).copied()
}

/// The name of an instruction.
pub fn opcode_name(opcode: u8) -> Option<&'static str> {
    OPCODES.get(usize::from(opcode)).copied()
}

/// A sort with its type in words.
pub fn sort_name(number: u8, of: u16) -> String {
    match number {
        sort::NUMBER => "number".to_string(),
        sort::RECORD => format!("record of type {of}"),
        sort::NUMBER_REF => "writable reference to a number".to_string(),
        sort::RECORD_REF => format!("writable reference to a record of type {of}"),
        sort::NUMBER_VIEW => "read-only reference to a number".to_string(),
        sort::RECORD_VIEW => format!("read-only reference to a record of type {of}"),
        _ => format!("sort {number}, which is none"),
    }
}

/// An instruction row as `Name` or `Name OPERAND`, the operand as it stands in the row.
pub fn instruction(row: &Row) -> String {
    match opcode_name(row.a) {
        Some(name) if row.a == op::LOAD_CONST => format!("{name} {}", row.d),
        Some(name) if op::uses_b(row.a) => format!("{name} {}", row.b),
        Some(name) => name.to_string(),
        None => format!("opcode {}, which is none", row.a),
    }
}
