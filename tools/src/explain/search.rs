//! Shortest walks, found over single places: which way a walk goes depends on no local and no operand, and a mark comes from one place
//! only, so that what a walk does to one place can be followed without the others.

use reference::marks::is_helper;
use reference::program::{Instr, Procedure, Program};
use std::cmp::Reverse;
use std::collections::{BTreeMap, BinaryHeap};

/// What is followed along a walk. Operands are counted from the topmost.
#[derive(Clone, Copy, Debug, PartialEq, Eq, PartialOrd, Ord)]
pub enum Followed {
    /// Only the walk, as long as nothing is marked.
    Nothing,
    Empty(u8),
    Full(u8),
    MarkedLocal(u8),
    MarkedOperand(usize),
}

/// A walk at an instruction, before it: the procedure's number, the instruction's place in it, and what is followed.
#[derive(Clone, Copy, Debug, PartialEq, Eq, PartialOrd, Ord)]
pub struct Step {
    pub procedure: usize,
    pub place: usize,
    pub followed: Followed,
}

/// From a procedure's first instruction on. It is not empty.
pub type Walk = Vec<Step>;

pub fn instr_at(program: &Program, step: Step) -> Instr {
    program.code(&program.procedures[step.procedure])[step.place]
}

/// A shortest way from one of the starts to a goal; `next` has the steps after one, each with its cost.
fn shortest(
    starts: impl IntoIterator<Item = Step>,
    goal: impl Fn(Step) -> bool,
    next: impl Fn(Step) -> Vec<(usize, Step)>,
) -> Option<Vec<Step>> {
    let mut waiting: BinaryHeap<_> = starts.into_iter().map(|start| Reverse((0, start, None))).collect();
    let mut came_from: BTreeMap<Step, Option<Step>> = BTreeMap::new();
    while let Some(Reverse((cost, step, from))) = waiting.pop() {
        if came_from.contains_key(&step) {
            continue;
        }
        came_from.insert(step, from);
        if goal(step) {
            let mut way: Vec<Step> = std::iter::successors(Some(step), |step| came_from[step]).collect();
            way.reverse();
            return Some(way);
        }
        waiting.extend(next(step).into_iter().map(|(more, after)| Reverse((cost + more, after, Some(step)))));
    }
    None
}

/// Where a walk goes on: to the next row, to a target, both or nowhere.
fn ways_on(instr: Instr, place: usize) -> impl Iterator<Item = usize> {
    let next = (!matches!(instr, Instr::Ret | Instr::Branch(_))).then_some(place + 1);
    next.into_iter().chain(instr.target())
}

/// The steps after one within its procedure.
fn within(program: &Program, step: Step) -> Vec<(usize, Step)> {
    let instr = instr_at(program, step);
    let followed = moves(program, step, instr);
    let ways = ways_on(instr, step.place);
    ways.flat_map(|place| followed.iter().map(move |&followed| (1, Step { place, followed, ..step }))).collect()
}

/// What can be followed after the instruction.
fn moves(program: &Program, step: Step, instr: Instr) -> Vec<Followed> {
    let procedure = &program.procedures[step.procedure];
    match (step.followed, instr) {
        (Followed::Nothing, Instr::BorrowFld { of, field }) => {
            let read_only = program.view_on_top[procedure.code.start + step.place];
            let marked = program.is_guarded(of, field) && !read_only;
            [Followed::Nothing].into_iter().chain(marked.then_some(Followed::MarkedOperand(0))).collect()
        }
        (Followed::Empty(x), Instr::StLoc(y)) if x == y => vec![Followed::Full(x)],
        (Followed::Full(x), Instr::MvLoc(y)) if x == y => vec![Followed::Empty(x)],
        (Followed::MarkedLocal(x), Instr::StLoc(y)) if x == y => vec![],
        (Followed::MarkedLocal(x), Instr::MvLoc(y)) if x == y => vec![Followed::MarkedOperand(0)],
        (Followed::MarkedLocal(x), Instr::CpLoc(y)) if x == y => vec![step.followed, Followed::MarkedOperand(0)],
        (Followed::MarkedOperand(0), Instr::StLoc(y)) => vec![Followed::MarkedLocal(y)],
        (Followed::MarkedOperand(depth), _) => {
            let (takes, gives) = program.arity(procedure, instr);
            depth.checked_sub(takes).map(|under| Followed::MarkedOperand(under + gives)).into_iter().collect()
        }
        _ => vec![step.followed],
    }
}

/// A shortest walk that brings this local to the instruction empty or full, as `followed` says.
pub fn to_local(program: &Program, procedure: usize, place: usize, local: u8, followed: Followed) -> Option<Walk> {
    let full = usize::from(local) < program.procedures[procedure].params;
    let first = if full { Followed::Full(local) } else { Followed::Empty(local) };
    let start = Step { procedure, place: 0, followed: first };
    shortest([start], |step| step.place == place && step.followed == followed, |step| within(program, step))
}

/// A shortest walk to the instruction.
fn to_place(program: &Program, procedure: usize, place: usize) -> Option<Walk> {
    let start = Step { procedure, place: 0, followed: Followed::Nothing };
    let plain = |step| within(program, step).into_iter().filter(|(_, step)| step.followed == Followed::Nothing);
    shortest([start], |step| step.place == place, |step| plain(step).collect())
}

/// How many instructions a shortest walk does before each one; none where no walk comes.
fn distances(program: &Program, procedure: &Procedure) -> Vec<Option<usize>> {
    let code = program.code(procedure);
    let mut distances = vec![None; code.len()];
    let mut round = vec![0];
    for distance in 0.. {
        round.retain(|&place| distances[place].is_none());
        if round.is_empty() {
            break;
        }
        for &place in &round {
            distances[place] = Some(distance);
        }
        round = round.iter().flat_map(|&place| ways_on(code[place], place)).collect();
    }
    distances
}

/// A Call that some walk reaches, and the length of a shortest one.
struct Caller {
    procedure: usize,
    place: usize,
    distance: usize,
}

/// For each procedure the Calls of it.
fn callers(program: &Program) -> Vec<Vec<Caller>> {
    let mut callers: Vec<Vec<Caller>> = program.procedures.iter().map(|_| Vec::new()).collect();
    for (procedure, caller) in program.procedures.iter().enumerate() {
        let distances = distances(program, caller);
        for (place, instr) in program.code(caller).iter().enumerate() {
            if let (Instr::Call(callee), Some(distance)) = (*instr, distances[place]) {
                callers[usize::from(callee)].push(Caller { procedure, place, distance });
            }
        }
    }
    callers
}

/// The walks, of fewest instructions in all, that bring a marked reference to an operand which the instruction takes. The first begins
/// without marks; each next one is of a procedure that the one before gives the reference to, by a Call of a helper or by Ret of one.
pub fn to_leak(program: &Program, procedure: usize, place: usize) -> Option<Vec<Walk>> {
    let refused = &program.procedures[procedure];
    let (takes, _) = program.arity(refused, program.code(refused)[place]);
    let callers = callers(program);
    let in_module = (0..program.procedures.len()).filter(|&number| program.procedures[number].module == refused.module);
    let starts = in_module.map(|procedure| Step { procedure, place: 0, followed: Followed::Nothing });
    let goal = |step: Step| {
        let marked = matches!(step.followed, Followed::MarkedOperand(depth) if depth < takes);
        marked && (step.procedure, step.place) == (procedure, place)
    };
    let next = |step| {
        let mut steps = within(program, step);
        steps.extend(across(program, &callers, step));
        steps
    };
    parted(program, shortest(starts, goal, next)?)
}

/// The steps into another walk: a marked parameter of a helper that is called, and a marked result where a helper was called.
fn across(program: &Program, callers: &[Vec<Caller>], step: Step) -> Vec<(usize, Step)> {
    let Followed::MarkedOperand(depth) = step.followed else {
        return vec![];
    };
    let inside = &program.procedures[step.procedure];
    let instr = instr_at(program, step);
    let (takes, _) = program.arity(inside, instr);
    match instr {
        Instr::Call(callee) if depth < takes && is_helper(program, inside, callee) => {
            let followed = Followed::MarkedLocal((takes - 1 - depth) as u8);
            vec![(1, Step { procedure: callee.into(), place: 0, followed })]
        }
        // Results stand for the caller in the order in which they stood for Ret.
        Instr::Ret if depth < takes && !inside.public => {
            let after = |caller: &Caller| Step { procedure: caller.procedure, place: caller.place + 1, ..step };
            callers[step.procedure].iter().map(|caller| (caller.distance + 1, after(caller))).collect()
        }
        _ => vec![],
    }
}

/// A way through several procedures as the walks of each. Where it goes on after a Call, the walk to that Call is put before.
fn parted(program: &Program, way: Vec<Step>) -> Option<Vec<Walk>> {
    let mut walks: Vec<Walk> = Vec::new();
    let mut above = None;
    for step in way {
        match (above.map(|above| instr_at(program, above)), walks.last_mut()) {
            (Some(Instr::Ret), _) => {
                let mut walk = to_place(program, step.procedure, step.place.checked_sub(1)?)?;
                walk.push(step);
                walks.push(walk);
            }
            (Some(Instr::Call(_)), _) if step.place == 0 => walks.push(vec![step]),
            (_, Some(walk)) => walk.push(step),
            (_, None) => walks.push(vec![step]),
        }
        above = Some(step);
    }
    Some(walks)
}
