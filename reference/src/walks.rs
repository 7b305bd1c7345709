//! The passes "locals" (11, 12) and "leaks" (13, 14), judged over all walks. Which parameters start marked and which
//! results of calls are marked is said by `marks`; leaks are judged under the smallest marks only.
//!
//! Two explorations give the same facts. `joint` follows real walk states (row, full locals, marked locals) and
//! gives up when some row is met in too many states. `places` follows one place at a time (a local or an operand)
//! through the graph of rows. That is exact too: which way a walk goes depends on no local, and a marked value
//! comes from one place only, so what a walk does to one place can be followed without the others.

use crate::marks::{is_helper, smallest, Marks};
use crate::operands::block_starts;
use crate::program::{Instr, Procedure, Program};
use crate::Refusal;

/// States met at one row before `joint` gives up.
pub const JOINT_STATES: usize = 48;

/// For each instruction, what some walk that arrives there finds. Locals are bits by number; operands are bits
/// counted from the topmost.
#[derive(Clone, Debug, PartialEq, Eq)]
pub struct Facts {
    pub reached: Vec<bool>,
    pub empty: Vec<u16>,
    pub full: Vec<u16>,
    pub marked: Vec<u16>,
    pub marked_operands: Vec<u32>,
}

impl Facts {
    fn new(length: usize) -> Facts {
        Facts {
            reached: vec![false; length],
            empty: vec![0; length],
            full: vec![0; length],
            marked: vec![0; length],
            marked_operands: vec![0; length],
        }
    }
}

/// The lowest fault of the locals pass and that of the leaks pass, each over the whole table.
pub struct Faults {
    pub locals: Option<Refusal>,
    pub leaks: Option<Refusal>,
}

pub fn find_faults(program: &Program) -> Faults {
    let (marks, _) = smallest(program);
    faults_under(program, &marks)
}

/// The faults where these marks are taken to hold.
pub fn faults_under(program: &Program, marks: &Marks) -> Faults {
    let mut faults = Faults { locals: None, leaks: None };
    for (number, procedure) in program.procedures.iter().enumerate() {
        let facts = facts_of(program, number, marks);
        if faults.locals.is_none() {
            faults.locals =
                lowest(program, procedure, |place, instr| local_fault(program, procedure, &facts, place, instr));
        }
        if faults.leaks.is_none() && program.is_trusted(procedure.module) {
            faults.leaks =
                lowest(program, procedure, |place, instr| leak_fault(program, procedure, &facts, place, instr));
        }
    }
    faults
}

/// What walks of the procedure find where these marks hold.
pub fn facts_of(program: &Program, number: usize, marks: &Marks) -> Facts {
    match joint(program, number, marks, JOINT_STATES) {
        Some(facts) => {
            debug_assert_eq!(facts, places(program, number, marks));
            facts
        }
        None => places(program, number, marks),
    }
}

fn lowest(program: &Program, procedure: &Procedure, fault: impl Fn(usize, Instr) -> Option<u32>) -> Option<Refusal> {
    let mut code = program.code(procedure).iter().enumerate();
    code.find_map(|(place, &instr)| Some((fault(place, instr)?, procedure.code_row + place)))
}

fn local_fault(program: &Program, procedure: &Procedure, facts: &Facts, place: usize, instr: Instr) -> Option<u32> {
    let locals = program.locals(procedure);
    match instr {
        Instr::MvLoc(local) | Instr::CpLoc(local) | Instr::BorrowLoc(local) => {
            (facts.empty[place] & bit(local) != 0).then_some(11)
        }
        Instr::StLoc(local) => {
            let overwritten = locals[usize::from(local)].is_record() && facts.full[place] & bit(local) != 0;
            overwritten.then_some(12)
        }
        Instr::Ret => {
            let left = |local: usize| locals[local].is_record() && facts.full[place] >> local & 1 == 1;
            (0..locals.len()).any(left).then_some(12)
        }
        _ => None,
    }
}

fn leak_fault(program: &Program, procedure: &Procedure, facts: &Facts, place: usize, instr: Instr) -> Option<u32> {
    let number = match instr {
        Instr::Call(callee) if !is_helper(program, procedure, callee) => 13,
        Instr::Ret if procedure.public => 14,
        _ => return None,
    };
    let taken = low_bits(program.arity(procedure, instr).0);
    (facts.marked_operands[place] & taken != 0).then_some(number)
}

fn bit(local: u8) -> u16 {
    1 << local
}

fn low_bits(count: usize) -> u32 {
    (1 << count) - 1
}

/// A procedure whose walks are followed, and the marks that hold.
#[derive(Clone, Copy)]
struct Inside<'p> {
    program: &'p Program,
    procedure: &'p Procedure,
    number: usize,
    marks: &'p Marks,
}

impl<'p> Inside<'p> {
    fn new(program: &'p Program, number: usize, marks: &'p Marks) -> Inside<'p> {
        Inside { program, procedure: &program.procedures[number], number, marks }
    }

    fn code(&self) -> &'p [Instr] {
        self.program.code(self.procedure)
    }

    fn locals(&self) -> usize {
        self.program.locals(self.procedure).len()
    }

    fn arity(&self, instr: Instr) -> (usize, usize) {
        self.program.arity(self.procedure, instr)
    }

    /// Parameters that start marked.
    fn marked_params(&self) -> u16 {
        self.marks.params[self.number]
    }

    /// The marked references that the instruction makes whatever it takes, among the operands after it: BorrowFld of a
    /// guarded field through a writable one, and marked results of a call.
    fn made_marks(&self, place: usize) -> u32 {
        let at = self.procedure.code.start + place;
        match self.program.code[at] {
            Instr::BorrowFld { of, field } => {
                u32::from(self.program.is_guarded(of, field) && !self.program.view_on_top[at])
            }
            Instr::Call(callee) => self.marks.given_by_call(self.program, callee),
            _ => 0,
        }
    }
}

/// Where walks go on after the instruction at `place`: to the next row, to a target, both or nowhere.
fn ways_on(place: usize, instr: Instr) -> [Option<usize>; 2] {
    match instr {
        Instr::Ret => [None, None],
        Instr::Branch(_) => [instr.target(), None],
        _ => [Some(place + 1), instr.target()],
    }
}

/// For each row of the table whether it is an instruction that some walk reaches.
pub fn reached_rows(program: &Program) -> Vec<bool> {
    let mut rows = vec![false; program.rows];
    for procedure in &program.procedures {
        let mut waiting = vec![0];
        while let Some(place) = waiting.pop() {
            if !std::mem::replace(&mut rows[procedure.code_row + place], true) {
                waiting.extend(ways_on(place, program.code(procedure)[place]).into_iter().flatten());
            }
        }
    }
    rows
}

/// One walk at a row, as far as locals and leaks can tell walks apart.
#[derive(Clone, Copy, PartialEq, Eq)]
struct Walk {
    full: u16,
    marked: u16,
    operands: u32,
}

impl Walk {
    fn step(mut self, inside: Inside, place: usize) -> Walk {
        let instr = inside.code()[place];
        let (takes, gives) = inside.arity(instr);
        let given = match instr {
            Instr::MvLoc(local) | Instr::CpLoc(local) => u32::from(self.marked & bit(local) != 0),
            _ => inside.made_marks(place),
        };
        match instr {
            Instr::MvLoc(local) => {
                self.full &= !bit(local);
                self.marked &= !bit(local);
            }
            Instr::StLoc(local) => {
                self.full |= bit(local);
                self.marked &= !bit(local);
                self.marked |= if self.operands & 1 == 1 { bit(local) } else { 0 };
            }
            _ => {}
        }
        self.operands = self.operands >> takes << gives | given;
        self
    }
}

/// Walks waiting to be followed, and the states already met at each block start.
struct Met {
    states: Vec<Vec<Walk>>,
    waiting: Vec<(usize, Walk)>,
    most: usize,
}

impl Met {
    /// False if the row is met in too many states.
    fn arrive(&mut self, place: usize, walk: Walk) -> bool {
        let states = &mut self.states[place];
        if !states.contains(&walk) {
            states.push(walk);
            self.waiting.push((place, walk));
        }
        states.len() <= self.most
    }
}

/// Follows every walk state by state; nothing if some block start is met in more than `most` states.
pub fn joint(program: &Program, number: usize, marks: &Marks, most: usize) -> Option<Facts> {
    let inside = Inside::new(program, number, marks);
    let code = inside.code();
    let starts = block_starts(code);
    let mut facts = Facts::new(code.len());
    let mut met = Met { states: vec![Vec::new(); code.len()], waiting: Vec::new(), most };
    let params = low_bits(inside.procedure.params) as u16;
    met.arrive(0, Walk { full: params, marked: inside.marked_params(), operands: 0 });
    while let Some((mut place, mut walk)) = met.waiting.pop() {
        loop {
            note(&mut facts, place, walk, inside.locals());
            walk = walk.step(inside, place);
            if starts[place + 1] {
                break;
            }
            place += 1;
        }
        for next in ways_on(place, code[place]).into_iter().flatten() {
            if !met.arrive(next, walk) {
                return None;
            }
        }
    }
    Some(facts)
}

fn note(facts: &mut Facts, place: usize, walk: Walk, locals: usize) {
    facts.reached[place] = true;
    facts.empty[place] |= !walk.full & low_bits(locals) as u16;
    facts.full[place] |= walk.full;
    facts.marked[place] |= walk.marked;
    facts.marked_operands[place] |= walk.operands;
}

/// One thing that some walk brings to a row.
#[derive(Clone, Copy)]
enum Token {
    Walk,
    Empty(u8),
    Full(u8),
    Marked(u8),
    MarkedOperand(usize),
}

/// Follows single places through the graph of rows.
pub fn places(program: &Program, number: usize, marks: &Marks) -> Facts {
    let inside = Inside::new(program, number, marks);
    let code = inside.code();
    let mut search = Search { facts: Facts::new(code.len()), waiting: Vec::new() };
    search.arrive(0, Token::Walk);
    for local in 0..inside.locals() {
        let full = local < inside.procedure.params;
        search.arrive(0, if full { Token::Full(local as u8) } else { Token::Empty(local as u8) });
        if inside.marked_params() >> local & 1 == 1 {
            search.arrive(0, Token::Marked(local as u8));
        }
    }
    while let Some((place, token)) = search.waiting.pop() {
        for after in moves(inside, token, place) {
            for next in ways_on(place, code[place]).into_iter().flatten() {
                search.arrive(next, after);
            }
        }
    }
    search.facts
}

struct Search {
    facts: Facts,
    waiting: Vec<(usize, Token)>,
}

impl Search {
    fn arrive(&mut self, place: usize, token: Token) {
        let facts = &mut self.facts;
        let new = match token {
            Token::Walk => !std::mem::replace(&mut facts.reached[place], true),
            Token::Empty(local) => set(&mut facts.empty[place], local),
            Token::Full(local) => set(&mut facts.full[place], local),
            Token::Marked(local) => set(&mut facts.marked[place], local),
            Token::MarkedOperand(depth) => {
                let before = facts.marked_operands[place];
                facts.marked_operands[place] |= 1 << depth;
                before != facts.marked_operands[place]
            }
        };
        if new {
            self.waiting.push((place, token));
        }
    }
}

fn set(locals: &mut u16, local: u8) -> bool {
    let before = *locals;
    *locals |= bit(local);
    before != *locals
}

/// What the instruction makes of a token: the tokens at the next rows.
fn moves(inside: Inside, token: Token, place: usize) -> Vec<Token> {
    let instr = inside.code()[place];
    match (token, instr) {
        (Token::Walk, _) => {
            let made = inside.made_marks(place);
            let marked = (0..u32::BITS as usize).filter(|depth| made >> depth & 1 == 1).map(Token::MarkedOperand);
            [Token::Walk].into_iter().chain(marked).collect()
        }
        (Token::Empty(x), Instr::StLoc(y)) if x == y => vec![Token::Full(x)],
        (Token::Full(x), Instr::MvLoc(y)) if x == y => vec![Token::Empty(x)],
        (Token::Marked(x), Instr::StLoc(y)) if x == y => vec![],
        (Token::Marked(x), Instr::MvLoc(y)) if x == y => vec![Token::MarkedOperand(0)],
        (Token::Marked(x), Instr::CpLoc(y)) if x == y => vec![token, Token::MarkedOperand(0)],
        (Token::MarkedOperand(0), Instr::StLoc(y)) => vec![Token::Marked(y)],
        (Token::MarkedOperand(depth), _) => {
            let (takes, gives) = inside.arity(instr);
            depth.checked_sub(takes).map(|below| Token::MarkedOperand(below + gives)).into_iter().collect()
        }
        _ => vec![token],
    }
}
