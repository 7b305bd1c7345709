//! Refusals of the pass operands: 7 to 10. The operands of the block are followed from its first row to the refused one.

use super::declared::instruction_at;
use super::effects::{pushes, takes, Taken, Wanted};
use super::phrases::{a_sort, counted, joined, record_ways, row_named};
use super::Words;
use crate::words::opcode_name;
use reference::program::{Instr, Procedure, Program, Sort};
use reference::row::{limit, op, read_rows, Row};
use reference::Refusal;

/// One operand and the row that pushed it.
#[derive(Clone, Copy)]
struct Operand {
    sort: Sort,
    row: usize,
}

/// The refused row in its block.
struct Block<'t> {
    program: &'t Program,
    rows: &'t [Row],
    procedure: &'t Procedure,
    /// The procedure's number.
    inside: usize,
    /// The instruction's place in its procedure.
    place: usize,
    start: usize,
    /// The operands before the row.
    before: Vec<Operand>,
}

pub fn words(table: &[u8], (number, at): Refusal) -> Option<Words> {
    let program = reference::name_check(table).ok()?;
    let rows = read_rows(table);
    let block = Block::of(&program, &rows, at)?;
    let mut words = match number {
        7 => block.unfit_local().or_else(|| block.wrong_operand())?,
        8 => block.too_many()?,
        9 => block.left_over()?,
        10 => return block.foreign(),
        _ => return None,
    };
    words.fault = format!("{}: {}", row_named(&rows, at)?, words.fault);
    Some(words)
}

/// The first instruction, a jump target, and one below Ret or a jump start blocks.
fn starts_block(code: &[Instr], place: usize) -> bool {
    let below_end = || code[place - 1] == Instr::Ret || code[place - 1].target().is_some();
    place == 0 || below_end() || code.iter().any(|instr| instr.target() == Some(place))
}

impl<'t> Block<'t> {
    fn of(program: &'t Program, rows: &'t [Row], at: usize) -> Option<Block<'t>> {
        let (inside, place) = instruction_at(program, at)?;
        let procedure = &program.procedures[inside];
        let code = program.code(procedure);
        let start = (0..=place).rev().find(|&place| starts_block(code, place))?;
        let mut block = Block { program, rows, procedure, inside, place, start, before: Vec::new() };
        for place in start..place {
            block.before = block.after(place)?;
        }
        Some(block)
    }

    fn instr(&self) -> Instr {
        self.program.code(self.procedure)[self.place]
    }

    fn row(&self, place: usize) -> usize {
        self.procedure.code_row + place
    }

    /// The operands after the instruction at `place`, where those before it are `before`; none if there are too few.
    fn after(&self, place: usize) -> Option<Vec<Operand>> {
        let instr = self.program.code(self.procedure)[place];
        let count = takes(self.program, self.inside, instr).len();
        let (under, taken) = self.before.split_at(self.before.len().checked_sub(count)?);
        let taken: Vec<Sort> = taken.iter().map(|operand| operand.sort).collect();
        let pushed = pushes(self.program, self.procedure, instr, &taken).into_iter();
        let pushed = pushed.map(|sort| Operand { sort, row: self.row(place) });
        Some(under.iter().copied().chain(pushed).collect())
    }

    /// 7: CpLoc or BorrowLoc of a local that it does not work on.
    fn unfit_local(&self) -> Option<Words> {
        let (local, works_on, mend) = match self.instr() {
            Instr::CpLoc(local) => (local, "CpLoc copies a number or a reference", format!("MvLoc {local} moves it")),
            Instr::BorrowLoc(local) => {
                (local, "BorrowLoc borrows a number or a record", format!("CpLoc {local} copies the reference"))
            }
            _ => return None,
        };
        let sort = self.program.locals(self.procedure)[usize::from(local)];
        Some(Words::new(format!("local {local} is {}; {works_on}", a_sort(sort)), Some(mend)))
    }

    /// 7: an operand is missing or of the wrong kind. The topmost such place is told.
    fn wrong_operand(&self) -> Option<Words> {
        let taken = takes(self.program, self.inside, self.instr());
        let found = |depth: usize| Some(self.before[self.before.len().checked_sub(depth + 1)?]);
        let (number, found) = (0..taken.len()).rev().zip(0..).find_map(|(number, depth)| {
            let found = found(depth);
            (!found.is_some_and(|found| taken[number].wanted.fits(found.sort))).then_some((number, found))
        })?;
        let taken_here = &taken[number];
        let mut words = match found {
            Some(found) => {
                let fault = format!("takes {}, finds {}", taken_here.words(), a_sort(found.sort));
                // What is found where another operand is missing may be in the place of that one.
                let all_there = self.before.len() >= taken.len();
                let kind_mend = || self.kind_mend(taken_here.wanted, number, found).filter(|_| all_there);
                Words::new(fault, self.other_order(&taken).or_else(kind_mend))
            }
            None => self.missing(taken_here, taken.len())?,
        };
        words.shown.push(self.listing("operands before it", &self.before));
        Some(words)
    }

    /// The mend where all operands are there and only their order is wrong.
    fn other_order(&self, taken: &[Taken]) -> Option<String> {
        let under = self.before.len().checked_sub(taken.len())?;
        let wanted: Vec<Sort> = taken.iter().map(|taken| taken.wanted.only()).collect::<Option<_>>()?;
        let found: Vec<Sort> = self.before[under..].iter().map(|operand| operand.sort).collect();
        let sorted = |mut sorts: Vec<Sort>| {
            sorts.sort_unstable();
            sorts
        };
        let names: Vec<String> = wanted.iter().map(|&sort| a_sort(sort)).collect();
        let order = if names.len() == 2 { "the other" } else { "another" };
        let mend = || format!("its operands are there in {order} order: push {}", joined(&names, "and then"));
        (sorted(wanted) == sorted(found)).then(mend)
    }

    /// What helps where one sort is wanted and another found, in the place of operand `number`.
    fn kind_mend(&self, wanted: Wanted, number: usize, found: Operand) -> Option<String> {
        match (wanted, found.sort) {
            (Wanted::NumberOrReference, Sort::Record(of)) => {
                let ways = record_ways(self.program, self.procedure.module, &[of]);
                Some(format!("a record cannot be dropped: {ways}"))
            }
            (Wanted::Only(Sort::Number), Sort::NumberRef | Sort::NumberView) => {
                Some("ReadRef gives the number".to_string())
            }
            (Wanted::Only(wanted), sort) if sort.frozen() == Some(wanted) => {
                Some("Freeze the reference first".to_string())
            }
            (Wanted::Only(wanted), sort) if wanted.frozen() == Some(sort) => self.read_only_mend(wanted, number, found),
            (Wanted::WritableReference, sort) if sort.is_view() => {
                Some("it is read-only already: leave Freeze out".to_string())
            }
            _ => None,
        }
    }

    /// Where a read-only reference is in the place of a writable one. What no Freeze here made read-only cannot be had otherwise here.
    fn read_only_mend(&self, wanted: Sort, number: usize, found: Operand) -> Option<String> {
        let frozen_here = self.rows[found.row].a == op::FREEZE;
        // Without Freeze it may be a marked one, which cannot be given away.
        let unmarked = wanted != Sort::NumberRef || !self.program.is_trusted(self.procedure.module);
        match self.instr() {
            Instr::Ret => Some(format!("let result {number} be of sort {}", found.sort.bytes().0)),
            Instr::Call(_) if !unmarked => None,
            _ => frozen_here.then(|| format!("leave Freeze at row {} out", found.row)),
        }
    }

    fn missing(&self, taken: &Taken, count: usize) -> Option<Words> {
        let name = opcode_name(self.rows[self.row(self.place)].a)?;
        let there = match self.before.len() {
            0 => "none is there".to_string(),
            1 => "1 is there".to_string(),
            some => format!("{some} are there"),
        };
        let count = counted(count, "operand");
        let mend = (self.start > 0).then(|| "keep in locals what is needed from one block to the next".to_string());
        Some(Words::new(format!("takes {}, finds nothing: {name} takes {count}, {there}", taken.words()), mend))
    }

    /// 8: more than 16 operands.
    fn too_many(&self) -> Option<Words> {
        let after = self.after(self.place)?.len();
        let fault = format!("{after} operands are there after it; at most {}", limit::OPERANDS);
        Some(Words::new(fault, Some("keep some of them in locals".to_string())))
    }

    /// 9: operands left where the block ends, or under the results.
    fn left_over(&self) -> Option<Words> {
        let left = self.after(self.place)?;
        let are_left = match left.len() {
            1 => "1 operand is left".to_string(),
            some => format!("{some} operands are left"),
        };
        let fault = match self.instr() {
            Instr::Ret => format!("{are_left} under the results"),
            instr if instr.target().is_some() => format!("{are_left} at the end of its block, a jump"),
            _ => {
                let next = self.place + 1;
                let code = self.program.code(self.procedure);
                let jump = code.iter().position(|instr| instr.target() == Some(next))?;
                let (next, jump) = (self.row(next), self.row(jump));
                format!("{are_left} at the end of its block: row {next} is a target, of row {jump}")
            }
        };
        let mut words = Words::new(fault, Some(self.left_mend(&left)));
        words.shown.push(self.listing("left", &left));
        Some(words)
    }

    fn left_mend(&self, left: &[Operand]) -> String {
        let before = match self.instr() {
            Instr::Ret if !self.program.results(self.procedure).is_empty() => "before the results are pushed, ",
            Instr::BranchCond(_) => "before the condition is pushed, ",
            _ => "",
        };
        let record = |operand: &Operand| match operand.sort {
            Sort::Record(of) => Some(of),
            _ => None,
        };
        let types: Vec<u8> = left.iter().filter_map(record).collect();
        let own = |&of: &u8| self.program.types[usize::from(of)].module == self.procedure.module;
        let mend = match (self.instr(), &types[..]) {
            (Instr::Ret, []) => "Pop what is left".to_string(),
            (_, []) => "Pop what is left, or StLoc it if it is needed later".to_string(),
            (Instr::Ret, types) => {
                let others = if types.len() < left.len() { "; Pop what else is left" } else { "" };
                format!("{}{others}", record_ways(self.program, self.procedure.module, types))
            }
            (_, types) if types.iter().all(own) => {
                "StLoc what is left; a record can also be unpacked or published".to_string()
            }
            _ => "StLoc what is left; a record can also be given to a public procedure of its module".to_string(),
        };
        format!("{before}{mend}")
    }

    /// 10: a type or a private procedure of another module.
    fn foreign(&self) -> Option<Words> {
        let row = &self.rows[self.row(self.place)];
        let own = self.procedure.module;
        let (fault, mend) = match self.instr() {
            Instr::Call(callee) => {
                let module = self.program.procedure(callee).module;
                let fault = format!("procedure {callee} is private in module {module}; the Call is in module {own}");
                (fault, self.private_mend(callee, module))
            }
            Instr::BorrowFld { of, .. } => self.foreign_type(of, row.a)?,
            _ => self.foreign_type(row.b as u8, row.a)?,
        };
        Some(Words::new(format!("{}: {fault}", row_named(self.rows, self.row(self.place))?), Some(mend)))
    }

    fn foreign_type(&self, of: u8, opcode: u8) -> Option<(String, String)> {
        let module = self.program.types.get(usize::from(of))?.module;
        let (own, name) = (self.procedure.module, opcode_name(opcode)?);
        let does = match self.instr() {
            Instr::BorrowFld { of, field } if self.program.is_guarded(of, field) => "reads or writes the field",
            _ => "does it",
        };
        Some((
            format!("type {of} belongs to module {module}; {name} is in module {own} and works only in the type's own"),
            format!("Call a public procedure of module {module} that {does}"),
        ))
    }

    /// A public procedure can be given no marked reference and return none.
    fn private_mend(&self, callee: u8, module: u8) -> String {
        let program = self.program;
        let guarded = |of: u8| program.fields(of).iter().any(|field| field.guarded);
        let own = |of: &u8| program.types[usize::from(*of)].module == module;
        let called = program.procedure(callee);
        let mut sorts = program.params(called).iter().chain(program.results(called));
        let marked =
            sorts.any(|&sort| sort == Sort::NumberRef) && (0..program.types.len() as u8).filter(own).any(guarded);
        match marked {
            true => format!("Call a public procedure of module {module} that calls procedure {callee}"),
            false => format!("make procedure {callee} public, or Call a public one of module {module}"),
        }
    }

    fn listing(&self, title: &str, operands: &[Operand]) -> String {
        if operands.is_empty() {
            return format!("{title}: none; its block begins at row {}", self.row(self.start));
        }
        let each = operands.iter().map(|operand| format!("{} (row {})", a_sort(operand.sort), operand.row));
        format!("{title}, the last on top: {}", each.collect::<Vec<_>>().join(", "))
    }
}
