//! Follows walks that were found, instruction by instruction as document 01 says, with all locals and all operands: to be sure that
//! they are walks and show what they are told to show.

use super::search::{Followed, Step, Walk};
use reference::program::{Instr, Procedure, Program, Sort};
use reference::Refusal;

/// What an operand or a full local holds.
#[derive(Clone, Copy)]
struct Value {
    sort: Sort,
    /// If it is marked, the row of the BorrowFld that made it.
    borrowed: Option<usize>,
}

/// What the walk before showed: this parameter of this procedure starts marked, or this result of it is marked.
#[derive(Clone, Copy)]
enum Shown {
    Nothing,
    Parameter { procedure: usize, number: usize, borrowed: usize },
    Result { procedure: usize, number: usize, borrowed: usize },
}

/// Follows the walks up to the refusal. For 13 and 14 it hands back the row in which the reference was borrowed, if it was.
pub fn replay(program: &Program, walks: &[Walk], refusal: Refusal) -> Result<Option<usize>, String> {
    let holds = || {
        let (last, before) = walks.split_last()?;
        let mut shown = Shown::Nothing;
        for walk in before {
            let (replay, instr) = Replay::along(program, walk, shown)?;
            shown = replay.hands_on(instr, walk.last()?)?;
        }
        let (replay, instr) = Replay::along(program, last, shown)?;
        let end = last.last()?;
        let at = program.procedures[end.procedure].code_row + end.place;
        (at == refusal.1).then_some(())?;
        replay.shows(instr, end, refusal.0)
    };
    let (number, row) = refusal;
    holds().ok_or_else(|| {
        format!("the walk that was found for refused {number} row {row} is none: please report this table")
    })
}

struct Replay<'p> {
    program: &'p Program,
    procedure: &'p Procedure,
    number: usize,
    shown: Shown,
    locals: Vec<Option<Value>>,
    operands: Vec<Value>,
}

fn unmarked(sort: Sort) -> Value {
    Value { sort, borrowed: None }
}

impl<'p> Replay<'p> {
    /// Comes to the last instruction of the walk: the state before it, and the instruction.
    fn along(program: &'p Program, walk: &[Step], shown: Shown) -> Option<(Replay<'p>, Instr)> {
        let first = walk.first()?;
        let mut replay = Replay::begin(program, first.procedure, shown)?;
        let mut at = 0;
        for (index, step) in walk.iter().enumerate() {
            let stands = step.procedure == first.procedure && step.place == at && replay.has(step.followed);
            stands.then_some(())?;
            let instr = *program.code(replay.procedure).get(at)?;
            match walk.get(index + 1) {
                Some(next) => {
                    replay.does(instr, at)?;
                    at = goes_on(instr, at, next.place)?;
                }
                None => return Some((replay, instr)),
            }
        }
        None
    }

    fn begin(program: &'p Program, number: usize, shown: Shown) -> Option<Replay<'p>> {
        let procedure = program.procedures.get(number)?;
        let sorts = program.locals(procedure).iter().enumerate();
        let mut locals: Vec<_> =
            sorts.map(|(local, &sort)| (local < procedure.params).then_some(unmarked(sort))).collect();
        if let Shown::Parameter { procedure, number: parameter, borrowed } = shown {
            (procedure == number).then_some(())?;
            locals.get_mut(parameter)?.as_mut()?.borrowed = Some(borrowed);
        }
        Some(Replay { program, procedure, number, shown, locals, operands: Vec::new() })
    }

    fn local(&self, local: u8) -> Option<Value> {
        self.locals.get(usize::from(local)).copied().flatten()
    }

    /// Counted from the topmost.
    fn operand(&self, depth: usize) -> Option<Value> {
        self.operands.iter().rev().nth(depth).copied()
    }

    fn has(&self, followed: Followed) -> bool {
        match followed {
            Followed::Nothing => true,
            Followed::Empty(local) => self.local(local).is_none(),
            Followed::Full(local) => self.local(local).is_some(),
            Followed::MarkedLocal(local) => self.local(local).is_some_and(|value| value.borrowed.is_some()),
            Followed::MarkedOperand(depth) => self.operand(depth).is_some_and(|value| value.borrowed.is_some()),
        }
    }

    fn push(&mut self, sort: Sort) {
        self.operands.push(unmarked(sort));
    }

    fn take(&mut self, count: usize) -> Option<()> {
        self.operands.truncate(self.operands.len().checked_sub(count)?);
        Some(())
    }

    /// What the instruction does to locals and operands. A local that is empty where it is moved or copied is refused elsewhere.
    fn does(&mut self, instr: Instr, at: usize) -> Option<()> {
        let program = self.program;
        let sort_of = |local: u8| program.locals(self.procedure).get(usize::from(local)).copied();
        match instr {
            Instr::Branch(_) | Instr::Ret => {}
            Instr::Pop | Instr::BranchCond(_) => self.take(1)?,
            Instr::LoadConst(_) => self.push(Sort::Number),
            Instr::MvLoc(local) => {
                let value = self.local(local).unwrap_or(unmarked(sort_of(local)?));
                self.locals[usize::from(local)] = None;
                self.operands.push(value);
            }
            Instr::CpLoc(local) => {
                let value = self.local(local).unwrap_or(unmarked(sort_of(local)?));
                self.operands.push(value);
            }
            Instr::StLoc(local) => *self.locals.get_mut(usize::from(local))? = Some(self.operands.pop()?),
            Instr::BorrowLoc(local) => self.push(sort_of(local)?.borrowed()?),
            Instr::ReadRef | Instr::Exists(_) => self.swap(1, Sort::Number)?,
            Instr::WriteRef | Instr::MoveTo(_) => self.take(2)?,
            Instr::BorrowFld { of, field } => self.borrow_field(of, field, at)?,
            Instr::Pack(of) => self.swap(program.fields(of).len(), Sort::Record(of))?,
            Instr::Unpack(of) => {
                self.take(1)?;
                self.operands.extend(program.fields(of).iter().map(|field| unmarked(field.sort)));
            }
            Instr::MoveFrom(of) => self.swap(1, Sort::Record(of))?,
            Instr::BorrowGlobal(of) => self.swap(1, Sort::RecordRef(of))?,
            Instr::Call(callee) => self.call(callee)?,
            Instr::Op(_) => self.swap(2, Sort::Number)?,
            Instr::Freeze => {
                let sort = self.operands.pop()?.sort.frozen()?;
                self.push(sort);
            }
        }
        Some(())
    }

    fn swap(&mut self, count: usize, sort: Sort) -> Option<()> {
        self.take(count)?;
        self.push(sort);
        Some(())
    }

    /// A writable reference to a guarded field is marked.
    fn borrow_field(&mut self, of: u8, field: u8, at: usize) -> Option<()> {
        let record = self.operands.pop()?.sort;
        let field = self.program.fields(of).get(usize::from(field))?;
        let writable = field.sort.borrowed()?;
        match record {
            Sort::RecordRef(_) => {
                let borrowed = field.guarded.then_some(self.procedure.code_row + at);
                self.operands.push(Value { sort: writable, borrowed });
            }
            _ => self.push(writable.frozen()?),
        }
        Some(())
    }

    fn call(&mut self, callee: u8) -> Option<()> {
        let called = self.program.procedures.get(usize::from(callee))?;
        self.take(called.params)?;
        for (result, &sort) in self.program.results(called).iter().enumerate() {
            let borrowed = match self.shown {
                Shown::Result { procedure, number, borrowed } => {
                    (procedure == usize::from(callee) && number == result).then_some(borrowed)
                }
                _ => None,
            };
            self.operands.push(Value { sort, borrowed });
        }
        Some(())
    }

    /// The marked operand that the last step follows: where it stands among so many that are taken, the first being 0, and the row in
    /// which it was borrowed.
    fn marked_among(&self, end: &Step, taken: usize) -> Option<(usize, usize)> {
        let Followed::MarkedOperand(depth) = end.followed else {
            return None;
        };
        let value = self.operand(depth)?;
        let number = taken.checked_sub(depth + 1)?;
        (value.sort == Sort::NumberRef).then_some((number, value.borrowed?))
    }

    /// What a walk shows the next one: it gives a marked reference to a private procedure of its module, or returns it from one.
    fn hands_on(&self, instr: Instr, end: &Step) -> Option<Shown> {
        match instr {
            Instr::Call(callee) => {
                let called = self.program.procedure(callee);
                let (number, borrowed) = self.marked_among(end, called.params)?;
                let helper = !called.public && called.module == self.procedure.module;
                helper.then_some(Shown::Parameter { procedure: callee.into(), number, borrowed })
            }
            Instr::Ret if !self.procedure.public => {
                let (number, borrowed) = self.marked_among(end, self.program.results(self.procedure).len())?;
                Some(Shown::Result { procedure: self.number, number, borrowed })
            }
            _ => None,
        }
    }

    /// Whether the cause of the refusal holds before the last instruction; nothing if it does not.
    fn shows(&self, instr: Instr, end: &Step, refusal: u32) -> Option<Option<usize>> {
        let sorts = self.program.locals(self.procedure);
        let holds_record = |local: usize| sorts[local].is_record() && self.locals[local].is_some();
        match (refusal, instr) {
            (11, Instr::MvLoc(local) | Instr::CpLoc(local) | Instr::BorrowLoc(local)) => {
                self.local(local).is_none().then_some(None)
            }
            (12, Instr::StLoc(local)) => holds_record(local.into()).then_some(None),
            (12, Instr::Ret) => (0..sorts.len()).any(holds_record).then_some(None),
            (13, Instr::Call(callee)) => {
                let called = self.program.procedure(callee);
                let (_, borrowed) = self.marked_among(end, called.params)?;
                (called.public || called.module != self.procedure.module).then_some(Some(borrowed))
            }
            (14, Instr::Ret) => {
                let (_, borrowed) = self.marked_among(end, self.program.results(self.procedure).len())?;
                self.procedure.public.then_some(Some(borrowed))
            }
            _ => None,
        }
    }
}

/// The next place of a walk, if the instruction leads there.
fn goes_on(instr: Instr, at: usize, next: usize) -> Option<usize> {
    let leads = match instr {
        Instr::Ret => false,
        Instr::Branch(to) => next == usize::from(to),
        Instr::BranchCond(to) => next == usize::from(to) || next == at + 1,
        _ => next == at + 1,
    };
    leads.then_some(next)
}
