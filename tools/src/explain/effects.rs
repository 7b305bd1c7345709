//! What each instruction takes, in words, and what it pushes.

use super::phrases::a_sort;
use reference::program::{Instr, Procedure, Program, Sort};

/// What is taken in one place.
#[derive(Clone, Copy)]
pub enum Wanted {
    Only(Sort),
    NumberOrReference,
    ReferenceToNumber,
    ReferenceToRecord(u8),
    WritableReference,
}

impl Wanted {
    pub fn fits(self, sort: Sort) -> bool {
        match self {
            Wanted::Only(wanted) => sort == wanted,
            Wanted::NumberOrReference => !sort.is_record(),
            Wanted::ReferenceToNumber => matches!(sort, Sort::NumberRef | Sort::NumberView),
            Wanted::ReferenceToRecord(of) => sort == Sort::RecordRef(of) || sort == Sort::RecordView(of),
            Wanted::WritableReference => matches!(sort, Sort::NumberRef | Sort::RecordRef(_)),
        }
    }

    /// The one sort that fits, where there is only one.
    pub fn only(self) -> Option<Sort> {
        match self {
            Wanted::Only(sort) => Some(sort),
            _ => None,
        }
    }

    fn words(self) -> String {
        match self {
            Wanted::Only(sort) => a_sort(sort),
            Wanted::NumberOrReference => "a number or a reference, read-only or not".to_string(),
            Wanted::ReferenceToNumber => "a reference to a number, read-only or not".to_string(),
            Wanted::ReferenceToRecord(of) => format!("a reference to a record of type {of}, read-only or not"),
            Wanted::WritableReference => "a writable reference".to_string(),
        }
    }
}

/// One operand that an instruction takes, and what for.
pub struct Taken {
    pub wanted: Wanted,
    role: String,
}

impl Taken {
    fn new(wanted: Wanted, role: impl Into<String>) -> Taken {
        Taken { wanted, role: role.into() }
    }

    fn only(sort: Sort, role: impl Into<String>) -> Taken {
        Taken::new(Wanted::Only(sort), role)
    }

    pub fn words(&self) -> String {
        let role = if self.role.is_empty() { String::new() } else { format!(" {}", self.role) };
        format!("{}{role}", self.wanted.words())
    }
}

/// The operands that an instruction takes, the last on top. `inside` is the number of its procedure.
pub fn takes(program: &Program, inside: usize, instr: Instr) -> Vec<Taken> {
    let address = || Taken::only(Sort::Number, "as the address");
    match instr {
        Instr::LoadConst(_) | Instr::MvLoc(_) | Instr::CpLoc(_) | Instr::BorrowLoc(_) | Instr::Branch(_) => vec![],
        Instr::Pop => vec![Taken::new(Wanted::NumberOrReference, "")],
        Instr::StLoc(local) => {
            let sort = program.locals(&program.procedures[inside])[usize::from(local)];
            vec![Taken::only(sort, format!("for local {local}"))]
        }
        Instr::ReadRef => vec![Taken::new(Wanted::ReferenceToNumber, "")],
        Instr::WriteRef => {
            vec![Taken::only(Sort::Number, "below the reference"), Taken::only(Sort::NumberRef, "on top")]
        }
        Instr::BorrowFld { of, .. } => vec![Taken::new(Wanted::ReferenceToRecord(of), "")],
        Instr::Pack(of) => {
            let sorts = program.fields(of).iter().map(|field| field.sort);
            each(sorts, |field| format!("for field {field} of type {of}"))
        }
        Instr::Unpack(of) => vec![Taken::only(Sort::Record(of), "")],
        Instr::MoveTo(of) => vec![Taken::only(Sort::Record(of), "below the address"), address()],
        Instr::MoveFrom(_) | Instr::BorrowGlobal(_) | Instr::Exists(_) => vec![address()],
        Instr::Call(callee) => {
            let sorts = program.params(program.procedure(callee)).iter().copied();
            each(sorts, |param| format!("for parameter {param} of procedure {callee}"))
        }
        Instr::Ret => {
            let sorts = program.results(&program.procedures[inside]).iter().copied();
            each(sorts, |result| format!("for result {result} of procedure {inside}"))
        }
        Instr::BranchCond(_) => vec![Taken::only(Sort::Number, "as the condition")],
        Instr::Op(_) => {
            vec![Taken::only(Sort::Number, "as the first operand"), Taken::only(Sort::Number, "as the second operand")]
        }
        Instr::Freeze => vec![Taken::new(Wanted::WritableReference, "")],
    }
}

fn each(sorts: impl Iterator<Item = Sort>, role: impl Fn(usize) -> String) -> Vec<Taken> {
    sorts.enumerate().map(|(number, sort)| Taken::only(sort, role(number))).collect()
}

/// The sorts that an instruction pushes where it took these.
pub fn pushes(program: &Program, inside: &Procedure, instr: Instr, taken: &[Sort]) -> Vec<Sort> {
    let local = |local: u8| program.locals(inside)[usize::from(local)];
    match instr {
        Instr::LoadConst(_) | Instr::ReadRef | Instr::Exists(_) | Instr::Op(_) => vec![Sort::Number],
        Instr::MvLoc(number) | Instr::CpLoc(number) => vec![local(number)],
        Instr::BorrowLoc(number) => local(number).borrowed().into_iter().collect(),
        Instr::BorrowFld { of, field } => {
            let writable = program.fields(of)[usize::from(field)].sort.borrowed();
            let read_only = taken.iter().any(|sort| sort.is_view());
            writable.and_then(|sort| if read_only { sort.frozen() } else { Some(sort) }).into_iter().collect()
        }
        Instr::Pack(of) | Instr::MoveFrom(of) => vec![Sort::Record(of)],
        Instr::Unpack(of) => program.fields(of).iter().map(|field| field.sort).collect(),
        Instr::BorrowGlobal(of) => vec![Sort::RecordRef(of)],
        Instr::Call(callee) => program.results(program.procedure(callee)).to_vec(),
        Instr::Freeze => taken.iter().filter_map(|sort| sort.frozen()).collect(),
        _ => vec![],
    }
}
