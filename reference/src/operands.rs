//! The pass "operands" (7 to 10). Operands are empty at block edges, so one sweep down the rows types every block.

use crate::program::{Instr, Procedure, Program, Sort};
use crate::row::limit;
use crate::Refusal;

/// Hands on `Program::view_on_top`.
pub fn check_operands(program: &Program) -> Result<Vec<bool>, Refusal> {
    let mut stack = Vec::with_capacity(2 * limit::OPERANDS);
    let mut view_on_top = Vec::with_capacity(program.code.len());
    for procedure in &program.procedures {
        let starts = block_starts(program.code(procedure));
        let mut typing = Typing { program, procedure, stack: &mut stack };
        for (place, &instr) in program.code(procedure).iter().enumerate() {
            view_on_top.push(matches!(typing.stack.last(), Some(Sort::RecordView(_))));
            if let Some(number) = typing.fault(instr, starts[place + 1]) {
                return Err((number, procedure.code_row + place));
            }
        }
    }
    Ok(view_on_top)
}

/// For each instruction, and for the place after the last: whether a block starts (or the code ends) there.
pub fn block_starts(code: &[Instr]) -> Vec<bool> {
    let mut starts = vec![false; code.len() + 1];
    starts[0] = true;
    starts[code.len()] = true;
    for (place, &instr) in code.iter().enumerate() {
        if let Some(target) = instr.target() {
            starts[target] = true;
        }
        if instr == Instr::Ret || instr.target().is_some() {
            starts[place + 1] = true;
        }
    }
    starts
}

struct Typing<'p, 's> {
    program: &'p Program,
    procedure: &'p Procedure,
    stack: &'s mut Vec<Sort>,
}

impl Typing<'_, '_> {
    fn fault(&mut self, instr: Instr, ends_block: bool) -> Option<u32> {
        if self.apply(instr).is_none() {
            return Some(7);
        }
        if self.stack.len() > limit::OPERANDS {
            return Some(8);
        }
        if ends_block && !self.stack.is_empty() {
            return Some(9);
        }
        if self.is_foreign(instr) {
            return Some(10);
        }
        None
    }

    /// The row's effect on the operands; nothing if one is missing or unfit.
    fn apply(&mut self, instr: Instr) -> Option<()> {
        let program = self.program;
        match instr {
            Instr::Pop => self.stack.pop().filter(|sort| !sort.is_record()).map(drop),
            Instr::LoadConst(_) => self.give(&[Sort::Number]),
            Instr::MvLoc(local) => self.give(&[self.local(local)]),
            Instr::CpLoc(local) if self.local(local).is_record() => None,
            Instr::CpLoc(local) => self.give(&[self.local(local)]),
            Instr::StLoc(local) => self.take(self.local(local)),
            Instr::BorrowLoc(local) => self.local(local).borrowed().and_then(|sort| self.give(&[sort])),
            Instr::ReadRef => match self.stack.pop()? {
                Sort::NumberRef | Sort::NumberView => self.give(&[Sort::Number]),
                _ => None,
            },
            Instr::WriteRef => self.take(Sort::NumberRef).and_then(|()| self.take(Sort::Number)),
            Instr::BorrowFld { of, field } => {
                let sort = program.fields(of)[usize::from(field)].sort.borrowed()?;
                match self.stack.pop()? {
                    Sort::RecordRef(have) if have == of => self.give(&[sort]),
                    Sort::RecordView(have) if have == of => self.give(&[sort.frozen()?]),
                    _ => None,
                }
            }
            Instr::Pack(of) => {
                self.take_all(program.fields(of).iter().map(|field| field.sort))?;
                self.give(&[Sort::Record(of)])
            }
            Instr::Unpack(of) => {
                self.take(Sort::Record(of))?;
                self.stack.extend(program.fields(of).iter().map(|field| field.sort));
                Some(())
            }
            Instr::MoveTo(of) => self.take(Sort::Number).and_then(|()| self.take(Sort::Record(of))),
            Instr::MoveFrom(of) => self.swap_number(Sort::Record(of)),
            Instr::BorrowGlobal(of) => self.swap_number(Sort::RecordRef(of)),
            Instr::Exists(_) => self.swap_number(Sort::Number),
            Instr::Call(callee) => {
                let callee = program.procedure(callee);
                self.take_all(program.params(callee).iter().copied())?;
                self.give(program.results(callee))
            }
            Instr::Ret => self.take_all(program.results(self.procedure).iter().copied()),
            Instr::Branch(_) => Some(()),
            Instr::BranchCond(_) => self.take(Sort::Number),
            Instr::Op(_) => self.take(Sort::Number).and_then(|()| self.swap_number(Sort::Number)),
            Instr::Freeze => {
                let sort = self.stack.pop()?.frozen()?;
                self.give(&[sort])
            }
        }
    }

    fn local(&self, local: u8) -> Sort {
        self.program.locals(self.procedure)[usize::from(local)]
    }

    fn give(&mut self, sorts: &[Sort]) -> Option<()> {
        self.stack.extend_from_slice(sorts);
        Some(())
    }

    fn take(&mut self, sort: Sort) -> Option<()> {
        (self.stack.pop()? == sort).then_some(())
    }

    fn take_all(&mut self, sorts: impl DoubleEndedIterator<Item = Sort>) -> Option<()> {
        sorts.rev().try_for_each(|sort| self.take(sort))
    }

    fn swap_number(&mut self, sort: Sort) -> Option<()> {
        self.take(Sort::Number)?;
        self.give(&[sort])
    }

    /// Whether the row works on a type, or calls a private procedure, of another module.
    fn is_foreign(&self, instr: Instr) -> bool {
        let module = self.procedure.module;
        match instr {
            Instr::BorrowFld { of, .. }
            | Instr::Pack(of)
            | Instr::Unpack(of)
            | Instr::MoveTo(of)
            | Instr::MoveFrom(of)
            | Instr::BorrowGlobal(of)
            | Instr::Exists(of) => self.program.types[usize::from(of)].module != module,
            Instr::Call(callee) => {
                let callee = self.program.procedure(callee);
                !callee.public && callee.module != module
            }
            _ => false,
        }
    }
}
