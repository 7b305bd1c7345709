//! A table before it is written as rows. Nothing here is checked: a plan may break any rule.

use crate::program::Sort;
use crate::row::{kind, op, write_rows, Row};
use crate::rules::{Rule, RULE};

/// One instruction to write.
#[derive(Clone, Copy, Debug, PartialEq, Eq)]
pub struct Code {
    pub op: u8,
    pub b: u16,
    pub d: u64,
}

impl Code {
    pub fn target(self) -> Option<usize> {
        matches!(self.op, op::BRANCH | op::BRANCH_COND).then_some(usize::from(self.b))
    }

    pub fn row(self) -> Row {
        Row { kind: kind::INSTRUCTION, a: self.op, b: self.b, c: 0, d: self.d }
    }
}

/// Instructions by name.
pub mod asm {
    use super::Code;
    use crate::row::op;

    pub const ADD: u16 = 0;
    pub const SUB: u16 = 1;
    pub const EQUAL: u16 = 2;
    pub const LESS: u16 = 3;

    const fn plain(op: u8, b: u16) -> Code {
        Code { op, b, d: 0 }
    }

    pub const fn load(number: u64) -> Code {
        Code { op: op::LOAD_CONST, b: 0, d: number }
    }
    pub const fn pop() -> Code {
        plain(op::POP, 0)
    }
    pub const fn mv(local: u16) -> Code {
        plain(op::MV_LOC, local)
    }
    pub const fn cp(local: u16) -> Code {
        plain(op::CP_LOC, local)
    }
    pub const fn st(local: u16) -> Code {
        plain(op::ST_LOC, local)
    }
    pub const fn borrow(local: u16) -> Code {
        plain(op::BORROW_LOC, local)
    }
    pub const fn read() -> Code {
        plain(op::READ_REF, 0)
    }
    pub const fn write() -> Code {
        plain(op::WRITE_REF, 0)
    }
    pub const fn field(of: u16, field: u16) -> Code {
        plain(op::BORROW_FLD, of * 8 + field)
    }
    pub const fn pack(of: u16) -> Code {
        plain(op::PACK, of)
    }
    pub const fn unpack(of: u16) -> Code {
        plain(op::UNPACK, of)
    }
    pub const fn move_to(of: u16) -> Code {
        plain(op::MOVE_TO, of)
    }
    pub const fn move_from(of: u16) -> Code {
        plain(op::MOVE_FROM, of)
    }
    pub const fn global(of: u16) -> Code {
        plain(op::BORROW_GLOBAL, of)
    }
    pub const fn exists(of: u16) -> Code {
        plain(op::EXISTS, of)
    }
    pub const fn call(procedure: u16) -> Code {
        plain(op::CALL, procedure)
    }
    pub const fn ret() -> Code {
        plain(op::RET, 0)
    }
    pub const fn jump(to: u16) -> Code {
        plain(op::BRANCH, to)
    }
    pub const fn jump_if(to: u16) -> Code {
        plain(op::BRANCH_COND, to)
    }
    pub const fn arith(which: u16) -> Code {
        plain(op::OP, which)
    }
    pub const fn freeze() -> Code {
        plain(op::FREEZE, 0)
    }
}

#[derive(Clone, Copy, Debug)]
pub struct FieldPlan {
    pub sort: Sort,
    pub guarded: bool,
}

#[derive(Clone, Debug)]
pub struct TypePlan {
    pub module: usize,
    pub fields: Vec<FieldPlan>,
}

#[derive(Clone, Debug, Default)]
pub struct ProcPlan {
    pub module: usize,
    pub public: bool,
    pub params: Vec<Sort>,
    pub others: Vec<Sort>,
    pub results: Vec<Sort>,
    pub code: Vec<Code>,
}

impl ProcPlan {
    pub fn locals(&self) -> Vec<Sort> {
        [&self.params[..], &self.others[..]].concat()
    }

    /// Puts instructions in at `at`; jumps to `at` and beyond go on to the same instructions as before.
    pub fn insert(&mut self, at: usize, codes: &[Code]) {
        for code in &mut self.code {
            if code.target().is_some_and(|target| target >= at) {
                code.b += codes.len() as u16;
            }
        }
        self.code.splice(at..at, codes.iter().copied());
    }
}

/// Types and procedures stand in the order of their modules.
#[derive(Clone, Debug, Default)]
pub struct Plan {
    pub trusted: Vec<bool>,
    pub types: Vec<TypePlan>,
    pub procs: Vec<ProcPlan>,
}

impl Plan {
    pub fn rows(&self) -> Vec<Row> {
        let mut rows = Vec::new();
        for (module, &trusted) in self.trusted.iter().enumerate() {
            rows.push(module_row(trusted));
            for one in self.types.iter().filter(|one| one.module == module) {
                rows.push(type_row());
                rows.extend(one.fields.iter().map(|field| field_row(field.sort, field.guarded)));
            }
            for one in self.procs.iter().filter(|one| one.module == module) {
                rows.extend(proc_rows(one));
            }
        }
        rows
    }

    pub fn bytes(&self) -> Vec<u8> {
        write_rows(&self.rows())
    }

    pub fn add_type(&mut self, module: usize, fields: &[(Sort, bool)]) -> u16 {
        let fields = fields.iter().map(|&(sort, guarded)| FieldPlan { sort, guarded }).collect();
        self.types.push(TypePlan { module, fields });
        (self.types.len() - 1) as u16
    }

    pub fn add_proc(&mut self, procedure: ProcPlan) -> u16 {
        self.procs.push(procedure);
        (self.procs.len() - 1) as u16
    }
}

fn proc_rows(one: &ProcPlan) -> Vec<Row> {
    let mut rows = vec![proc_row(one.public)];
    rows.extend(one.params.iter().map(|&sort| local_row(sort, true)));
    rows.extend(one.others.iter().map(|&sort| local_row(sort, false)));
    rows.extend(one.results.iter().map(|&sort| result_row(sort)));
    rows.extend(one.code.iter().map(|code| code.row()));
    rows
}

pub fn module_row(trusted: bool) -> Row {
    Row { kind: kind::MODULE, a: trusted.into(), ..Row::default() }
}

pub fn type_row() -> Row {
    Row { kind: kind::TYPE, ..Row::default() }
}

pub fn field_row(sort: Sort, guarded: bool) -> Row {
    let (a, b) = sort.bytes();
    Row { kind: kind::FIELD, a, b, c: guarded.into(), d: 0 }
}

pub fn proc_row(public: bool) -> Row {
    Row { kind: kind::PROCEDURE, a: public.into(), ..Row::default() }
}

pub fn local_row(sort: Sort, param: bool) -> Row {
    let (a, b) = sort.bytes();
    Row { kind: kind::LOCAL, a, b, c: param.into(), d: 0 }
}

pub fn result_row(sort: Sort) -> Row {
    let (a, b) = sort.bytes();
    Row { kind: kind::RESULT, a, b, c: 0, d: 0 }
}

/// Row of a call list: a call.
pub fn call_row(procedure: u16, budget: u32) -> Row {
    Row { kind: 1, a: 0, b: procedure, c: budget, d: 0 }
}

/// Row of a call list: an argument.
pub fn argument_row(number: u64) -> Row {
    Row { kind: 2, d: number, ..Row::default() }
}

/// Row of a rule file.
pub fn rule_row(rule: &Rule) -> Row {
    let Rule { allows, callers, called } = *rule;
    let c = u32::from_le_bytes([callers.0, callers.1, called.0, called.1]);
    Row { kind: RULE, a: allows.into(), c, ..Row::default() }
}
