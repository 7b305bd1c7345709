//! A table decoded once, after the names pass: every number in it names something.

use crate::arith::Arith;
use crate::row::{kind, op, sort, Row};
use crate::shape::Outline;
use std::ops::Range;

#[derive(Clone, Copy, Debug, PartialEq, Eq, PartialOrd, Ord)]
pub enum Sort {
    Number,
    Record(u8),
    /// A writable reference to a number.
    NumberRef,
    /// A writable reference to a record.
    RecordRef(u8),
    /// A read-only reference to a number.
    NumberView,
    /// A read-only reference to a record.
    RecordView(u8),
}

impl Sort {
    fn new(number: u8, of: u16) -> Sort {
        let of = of as u8;
        match number {
            sort::NUMBER => Sort::Number,
            sort::RECORD => Sort::Record(of),
            sort::NUMBER_REF => Sort::NumberRef,
            sort::RECORD_REF => Sort::RecordRef(of),
            sort::NUMBER_VIEW => Sort::NumberView,
            _ => Sort::RecordView(of),
        }
    }

    /// A and B of a row of this sort.
    pub fn bytes(self) -> (u8, u16) {
        match self {
            Sort::Number => (sort::NUMBER, 0),
            Sort::Record(of) => (sort::RECORD, of.into()),
            Sort::NumberRef => (sort::NUMBER_REF, 0),
            Sort::RecordRef(of) => (sort::RECORD_REF, of.into()),
            Sort::NumberView => (sort::NUMBER_VIEW, 0),
            Sort::RecordView(of) => (sort::RECORD_VIEW, of.into()),
        }
    }

    pub fn is_record(self) -> bool {
        matches!(self, Sort::Record(_))
    }

    pub fn is_view(self) -> bool {
        matches!(self, Sort::NumberView | Sort::RecordView(_))
    }

    pub fn is_reference(self) -> bool {
        self.borrowed().is_none()
    }

    /// The sort of a writable reference to a place of this sort.
    pub fn borrowed(self) -> Option<Sort> {
        match self {
            Sort::Number => Some(Sort::NumberRef),
            Sort::Record(of) => Some(Sort::RecordRef(of)),
            _ => None,
        }
    }

    /// What Freeze makes of a writable reference.
    pub fn frozen(self) -> Option<Sort> {
        match self {
            Sort::NumberRef => Some(Sort::NumberView),
            Sort::RecordRef(of) => Some(Sort::RecordView(of)),
            _ => None,
        }
    }
}

#[derive(Clone, Copy, Debug, PartialEq, Eq)]
pub enum Instr {
    Pop,
    LoadConst(u64),
    MvLoc(u8),
    CpLoc(u8),
    StLoc(u8),
    BorrowLoc(u8),
    ReadRef,
    WriteRef,
    BorrowFld { of: u8, field: u8 },
    Pack(u8),
    Unpack(u8),
    MoveTo(u8),
    MoveFrom(u8),
    BorrowGlobal(u8),
    Exists(u8),
    Call(u8),
    Ret,
    Branch(u16),
    BranchCond(u16),
    Op(Arith),
    Freeze,
}

impl Instr {
    fn new(row: &Row) -> Instr {
        let b = row.b as u8;
        match row.a {
            op::POP => Instr::Pop,
            op::LOAD_CONST => Instr::LoadConst(row.d),
            op::MV_LOC => Instr::MvLoc(b),
            op::CP_LOC => Instr::CpLoc(b),
            op::ST_LOC => Instr::StLoc(b),
            op::BORROW_LOC => Instr::BorrowLoc(b),
            op::READ_REF => Instr::ReadRef,
            op::WRITE_REF => Instr::WriteRef,
            op::BORROW_FLD => Instr::BorrowFld { of: (row.b / 8) as u8, field: b % 8 },
            op::PACK => Instr::Pack(b),
            op::UNPACK => Instr::Unpack(b),
            op::MOVE_TO => Instr::MoveTo(b),
            op::MOVE_FROM => Instr::MoveFrom(b),
            op::BORROW_GLOBAL => Instr::BorrowGlobal(b),
            op::EXISTS => Instr::Exists(b),
            op::CALL => Instr::Call(b),
            op::RET => Instr::Ret,
            op::BRANCH => Instr::Branch(row.b),
            op::BRANCH_COND => Instr::BranchCond(row.b),
            op::FREEZE => Instr::Freeze,
            _ => Instr::Op(Arith::new(row.b)),
        }
    }

    /// The instruction that this one may jump to.
    pub fn target(self) -> Option<usize> {
        match self {
            Instr::Branch(to) | Instr::BranchCond(to) => Some(usize::from(to)),
            _ => None,
        }
    }
}

#[derive(Clone, Copy, Debug)]
pub struct Field {
    pub sort: Sort,
    pub guarded: bool,
}

#[derive(Clone, Debug)]
pub struct RecordType {
    pub module: u8,
    fields: Range<usize>,
}

#[derive(Clone, Debug)]
pub struct Procedure {
    pub module: u8,
    pub public: bool,
    pub params: usize,
    /// Row of the first instruction.
    pub code_row: usize,
    locals: Range<usize>,
    results: Range<usize>,
    /// Its instructions within `Program::code`.
    pub code: Range<usize>,
}

#[derive(Clone, Debug)]
pub struct Program {
    pub rows: usize,
    pub trusted: Vec<bool>,
    pub types: Vec<RecordType>,
    pub procedures: Vec<Procedure>,
    pub code: Vec<Instr>,
    /// Per instruction of `code`: whether a read-only reference to a record is on top when it comes up. The operands
    /// pass tells.
    pub view_on_top: Vec<bool>,
    fields: Vec<Field>,
    sorts: Vec<Sort>,
}

impl Program {
    pub fn decode(rows: &[Row], outline: &Outline) -> Program {
        let mut program = Program {
            rows: rows.len(),
            trusted: outline.trusted.clone(),
            types: Vec::with_capacity(outline.types.len()),
            procedures: Vec::with_capacity(outline.procedures.len()),
            code: Vec::with_capacity(rows.len()),
            view_on_top: Vec::new(),
            fields: Vec::new(),
            sorts: Vec::new(),
        };
        for row in rows {
            program.decode_row(row, outline);
        }
        program
    }

    fn decode_row(&mut self, row: &Row, outline: &Outline) {
        match row.kind {
            kind::TYPE => {
                let (module, fields) = outline.types[self.types.len()];
                let first = self.fields.len();
                self.types.push(RecordType { module: module as u8, fields: first..first + fields });
            }
            kind::FIELD => self.fields.push(Field { sort: Sort::new(row.a, row.b), guarded: row.c == 1 }),
            kind::PROCEDURE => self.begin_procedure(row.a == 1, outline),
            kind::LOCAL | kind::RESULT => self.sorts.push(Sort::new(row.a, row.b)),
            kind::INSTRUCTION => self.code.push(Instr::new(row)),
            _ => {}
        }
    }

    fn begin_procedure(&mut self, public: bool, outline: &Outline) {
        let of = &outline.procedures[self.procedures.len()];
        let local = self.sorts.len();
        let result = local + of.locals;
        let code = self.code.len();
        self.procedures.push(Procedure {
            module: of.module as u8,
            public,
            params: of.params,
            code_row: of.code_row(),
            locals: local..result,
            results: result..result + of.results,
            code: code..code + of.code,
        });
    }

    pub fn fields(&self, of: u8) -> &[Field] {
        &self.fields[self.types[usize::from(of)].fields.clone()]
    }

    pub fn procedure(&self, number: u8) -> &Procedure {
        &self.procedures[usize::from(number)]
    }

    pub fn locals(&self, procedure: &Procedure) -> &[Sort] {
        &self.sorts[procedure.locals.clone()]
    }

    pub fn params(&self, procedure: &Procedure) -> &[Sort] {
        &self.locals(procedure)[..procedure.params]
    }

    pub fn results(&self, procedure: &Procedure) -> &[Sort] {
        &self.sorts[procedure.results.clone()]
    }

    pub fn code(&self, procedure: &Procedure) -> &[Instr] {
        &self.code[procedure.code.clone()]
    }

    pub fn is_trusted(&self, module: u8) -> bool {
        self.trusted[usize::from(module)]
    }

    pub fn is_guarded(&self, of: u8, field: u8) -> bool {
        self.fields(of)[usize::from(field)].guarded
    }

    /// How many operands the instruction takes and how many it gives.
    pub fn arity(&self, inside: &Procedure, instr: Instr) -> (usize, usize) {
        match instr {
            Instr::Pop | Instr::StLoc(_) | Instr::BranchCond(_) => (1, 0),
            Instr::LoadConst(_) | Instr::MvLoc(_) | Instr::CpLoc(_) | Instr::BorrowLoc(_) => (0, 1),
            Instr::ReadRef | Instr::BorrowFld { .. } | Instr::Freeze => (1, 1),
            Instr::MoveFrom(_) | Instr::BorrowGlobal(_) | Instr::Exists(_) => (1, 1),
            Instr::WriteRef | Instr::MoveTo(_) => (2, 0),
            Instr::Op(_) => (2, 1),
            Instr::Pack(of) => (self.fields(of).len(), 1),
            Instr::Unpack(of) => (1, self.fields(of).len()),
            Instr::Call(callee) => {
                let callee = self.procedure(callee);
                (callee.params, callee.results.len())
            }
            Instr::Ret => (inside.results.len(), 0),
            Instr::Branch(_) => (0, 0),
        }
    }
}
