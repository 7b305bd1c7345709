//! Paper 5: which parameters of private procedures start marked, and which results of calls to them are marked.
//!
//! The smallest marks come in rounds. The first round knows no marks; each next one follows all walks under the marks
//! that the round before it found. Marks only grow from round to round, and the round that finds nothing new is the
//! last one.

use crate::program::{Instr, Procedure, Program};
use crate::walks::facts_of;

/// For each procedure of a table, bits by the number of the parameter or result. Public procedures have none.
#[derive(Clone, Debug, PartialEq, Eq)]
pub struct Marks {
    pub params: Vec<u16>,
    pub results: Vec<u16>,
}

impl Marks {
    pub fn none(program: &Program) -> Marks {
        let count = program.procedures.len();
        Marks { params: vec![0; count], results: vec![0; count] }
    }

    /// Whether some parameter or result is marked.
    pub fn any(&self) -> bool {
        self.params.iter().chain(&self.results).any(|&marked| marked != 0)
    }

    /// Which of the operands that a call of this procedure gives are marked, as bits counted from the topmost.
    pub fn given_by_call(&self, program: &Program, callee: u8) -> u32 {
        let results = program.results(program.procedure(callee)).len();
        turned(self.results[usize::from(callee)].into(), results)
    }
}

/// Whether a procedure may give marked references to this one: a private one of its own module.
pub fn is_helper(program: &Program, caller: &Procedure, callee: u8) -> bool {
    let callee = program.procedure(callee);
    !callee.public && callee.module == caller.module
}

/// The smallest marks, and how many rounds found new ones.
pub fn smallest(program: &Program) -> (Marks, usize) {
    let mut marks = Marks::none(program);
    let mut rounds = 0;
    loop {
        let found = found_under(program, &marks);
        if found == marks {
            return (marks, rounds);
        }
        marks = found;
        rounds += 1;
    }
}

/// The marks that walks of all procedures show where these marks are taken to hold.
pub fn found_under(program: &Program, marks: &Marks) -> Marks {
    let mut found = Marks::none(program);
    for (number, procedure) in program.procedures.iter().enumerate() {
        let facts = facts_of(program, number, marks);
        for (place, &instr) in program.code(procedure).iter().enumerate() {
            // Nothing is marked in a row that no walk reaches.
            let marked = facts.marked_operands[place];
            match instr {
                Instr::Call(callee) if is_helper(program, procedure, callee) => {
                    let params = program.procedure(callee).params;
                    found.params[usize::from(callee)] |= turned(marked, params) as u16;
                }
                Instr::Ret if !procedure.public => {
                    found.results[number] |= turned(marked, program.results(procedure).len()) as u16;
                }
                _ => {}
            }
        }
    }
    found
}

/// The lowest `count` bits in turned order: from counted from the topmost operand to counted from the first, or back.
fn turned(bits: u32, count: usize) -> u32 {
    (0..count).filter(|&at| bits >> at & 1 == 1).map(|at| 1 << (count - 1 - at)).sum()
}
