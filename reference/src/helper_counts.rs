//! What helpers the made tables and runs have, and which wrong readings of paper 5 show in the verdicts.

use crate::list::ListCall;
use crate::machine::{Access, Machine, Outcome, Reference, Value, Watch};
use crate::marks::{found_under, smallest, Marks};
use crate::program::{Program, Sort};
use crate::stop::{Stop, STOPS};
use crate::text::write_store;
use crate::walks::faults_under;
use crate::{type_check, Refusal};

/// A reading that is not the paper's, and the marks that it comes to.
type WrongReading = (&'static str, fn(&Program) -> Marks);

pub const WRONG_READINGS: [WrongReading; 8] = [
    ("with no marks but those of the procedure itself", Marks::none),
    ("with the marks of one round", |program| found_under(program, &Marks::none(program))),
    ("with the marks of two rounds", |program| {
        let first = found_under(program, &Marks::none(program));
        found_under(program, &first)
    }),
    ("with parameters never marked", |program| settled(program, |_, marks| marks.params.fill(0))),
    ("with results never marked", |program| settled(program, |_, marks| marks.results.fill(0))),
    ("with parameters in turned order", |program| settled(program, turn_params)),
    ("with results in turned order", |program| settled(program, turn_results)),
    ("with every reference that a private procedure is given or returns marked", all_marked),
];

/// The smallest marks where those found in each round are misread in the same way.
fn settled(program: &Program, misread: fn(&Program, &mut Marks)) -> Marks {
    let mut marks = Marks::none(program);
    loop {
        let mut found = found_under(program, &marks);
        misread(program, &mut found);
        if found == marks {
            return marks;
        }
        marks = found;
    }
}

fn turn_params(program: &Program, marks: &mut Marks) {
    for (one, marked) in program.procedures.iter().zip(&mut marks.params) {
        *marked = turned(*marked, one.params);
    }
}

fn turn_results(program: &Program, marks: &mut Marks) {
    for (one, marked) in program.procedures.iter().zip(&mut marks.results) {
        *marked = turned(*marked, program.results(one).len());
    }
}

fn turned(bits: u16, count: usize) -> u16 {
    (0..count).filter(|&at| bits >> at & 1 == 1).map(|at| 1 << (count - 1 - at)).sum()
}

/// Marks that agree with all walks but are not the smallest.
fn all_marked(program: &Program) -> Marks {
    let writable = |sorts: &[Sort]| {
        let refs = (0..sorts.len()).filter(|&at| sorts[at] == Sort::NumberRef);
        refs.map(|at| 1 << at).sum()
    };
    let mut marks = Marks::none(program);
    for (number, one) in program.procedures.iter().enumerate().filter(|(_, one)| !one.public) {
        marks.params[number] = writable(program.params(one));
        marks.results[number] = writable(program.results(one));
    }
    marks
}

/// Counts over made tables.
#[derive(Clone, Debug, Default)]
pub struct TableCounts {
    /// Tables that are accepted, or refused with 13 or 14, and have a marked parameter or result.
    pub accepted: u64,
    pub given: u64,
    pub returned: u64,
    /// Of these: with a marked parameter, with a marked result.
    pub with_params: u64,
    pub with_results: u64,
    /// Of these: needed more than one round, more than two, more than eight.
    pub rounds: [u64; 3],
    /// Marked parameters and results.
    pub params: u64,
    pub results: u64,
    /// For each of `WRONG_READINGS`: tables with another verdict.
    pub otherwise: [u64; WRONG_READINGS.len()],
}

impl TableCounts {
    /// Adds a table and its verdict.
    pub fn add(&mut self, table: &[u8], verdict: Option<Refusal>) {
        if verdict.is_some_and(|(number, _)| !matches!(number, 13 | 14)) {
            return;
        }
        let program = type_check(table).expect("a table that gets to the leaks pass");
        for (count, (_, read)) in self.otherwise.iter_mut().zip(WRONG_READINGS) {
            *count += u64::from(faults_under(&program, &read(&program)).leaks != verdict);
        }
        let (marks, rounds) = smallest(&program);
        if !marks.any() {
            return;
        }
        match verdict {
            None => self.accepted += 1,
            Some((13, _)) => self.given += 1,
            Some(_) => self.returned += 1,
        }
        let count = |marks: &[u16]| marks.iter().map(|bits| u64::from(bits.count_ones())).sum();
        let (params, results): (u64, u64) = (count(&marks.params), count(&marks.results));
        self.with_params += u64::from(params > 0);
        self.with_results += u64::from(results > 0);
        self.params += params;
        self.results += results;
        for (count, least) in self.rounds.iter_mut().zip([1, 2, 8]) {
            *count += u64::from(rounds > least);
        }
    }

    /// A line for each count.
    pub fn lines(&self) -> String {
        let mut lines = String::new();
        let mut put = |what: &str, count: u64| lines.push_str(&format!("  {what}: {count}\n"));
        put("with helper marks, accepted", self.accepted);
        put("with helper marks, refused 13", self.given);
        put("with helper marks, refused 14", self.returned);
        put("with helper marks of parameters", self.with_params);
        put("with helper marks of results", self.with_results);
        for (least, count) in ["one round", "two rounds", "eight rounds"].into_iter().zip(self.rounds) {
            put(&format!("with helper marks that need more than {least}"), count);
        }
        put("marked parameters", self.params);
        put("marked results", self.results);
        for ((name, _), count) in WRONG_READINGS.iter().zip(self.otherwise) {
            put(&format!("verdicts not the same {name}"), count);
        }
        lines
    }
}

/// Looks whether private procedures hold writable references to guarded numbers.
#[derive(Default)]
struct Look {
    /// The running one does, at some instruction and at this one.
    held: bool,
    holds: bool,
    /// The store at this instruction as it would be printed.
    store: Vec<u8>,
}

impl Watch for Look {
    fn comes_up(&mut self, machine: &Machine) {
        let (program, depth) = (machine.program(), machine.frame_count() - 1);
        let guarded = |value: &Value| match *value {
            Value::Ref(Reference::Field { of, field, .. }, Access::Writable) => program.is_guarded(of, field),
            _ => false,
        };
        let private = !program.procedure(machine.frame_procedure(depth)).public;
        let mut locals = machine.frame_locals(depth).iter().flatten();
        self.holds = private && (locals.any(guarded) || machine.frame_operands(depth).iter().any(guarded));
        self.held |= self.holds;
        self.store.clear();
        if self.holds {
            write_store(&mut self.store, machine);
        }
    }
}

/// Counts over made runs.
#[derive(Clone, Debug, Default)]
pub struct RunCounts {
    /// Runs of tables with a marked parameter or result.
    pub runs: u64,
    /// Calls in which a private procedure held a writable reference to a guarded number.
    pub held: u64,
    /// Of these: stopped where it did, by stop.
    pub stopped: [u64; STOPS.len()],
    /// Of these: the store was not that of the call's start any more.
    pub restored: u64,
}

impl RunCounts {
    pub fn add(&mut self, program: &Program, calls: &[ListCall]) {
        if !smallest(program).0.any() {
            return;
        }
        self.runs += 1;
        let mut machine = Machine::new(program);
        for call in calls {
            let mut look = Look::default();
            let (outcome, _) = machine.call_watched(call.procedure, &call.arguments, call.budget, &mut look);
            self.held += u64::from(look.held);
            if let (Outcome::Stopped { stop, .. }, true) = (outcome, look.holds) {
                self.add_stop(stop, &look, &machine);
            }
        }
    }

    /// Adds a call that stopped; the machine is that of the call's start again.
    fn add_stop(&mut self, stop: Stop, look: &Look, machine: &Machine) {
        for (count, (one, _)) in self.stopped.iter_mut().zip(STOPS) {
            *count += u64::from(one == stop);
        }
        let mut store = Vec::new();
        write_store(&mut store, machine);
        self.restored += u64::from(store != look.store);
    }

    /// A line for each count.
    pub fn lines(&self) -> String {
        let mut lines = String::new();
        let mut put = |what: &str, count: u64| lines.push_str(&format!("  {what}: {count}\n"));
        put("runs with helper marks", self.runs);
        put("calls in which a helper held a guarded reference", self.held);
        for ((stop, _), count) in STOPS.iter().zip(self.stopped) {
            put(&format!("calls stopped {} in a helper that held one", stop.number()), count);
        }
        put("calls stopped so after changing the store", self.restored);
        lines
    }
}
