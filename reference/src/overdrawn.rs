//! What overdrawn calls the made runs have, and which wrong readings of paper 4 show in their texts.

use crate::arith::{Answer, Arith};
use crate::list::ListCall;
use crate::machine::{Machine, Outcome, Watch};
use crate::program::Program;
use crate::run_calls;
use crate::stop::Stop;
use crate::text::write_store;

/// A reading that is not the paper's, and what an Op gives by it.
type WrongReading = (&'static str, fn(Arith, u64, u64) -> Answer);

pub const WRONG_READINGS: [WrongReading; 5] = [
    ("with 32 for a difference below 0", |arith, first, second| match arith.of(first, second) {
        Answer::BelowZero => Answer::TooLarge,
        right => right,
    }),
    ("with 39 for a sum too large", |arith, first, second| match arith.of(first, second) {
        Answer::TooLarge => Answer::BelowZero,
        right => right,
    }),
    ("with 39 for a difference of equal numbers", |arith, first, second| match arith {
        Arith::Subtract if first == second => Answer::BelowZero,
        _ => arith.of(first, second),
    }),
    ("with the first number taken from the second", |arith, first, second| match arith {
        Arith::Subtract => arith.of(second, first),
        _ => arith.of(first, second),
    }),
    ("with differences that wrap around", |arith, first, second| match arith {
        Arith::Subtract => Answer::Number(first.wrapping_sub(second)),
        _ => arith.of(first, second),
    }),
];

struct Misread(fn(Arith, u64, u64) -> Answer);

impl Watch for Misread {
    fn comes_up(&mut self, _: &Machine) {}

    fn answer(&self, arith: Arith, first: u64, second: u64) -> Answer {
        self.0(arith, first, second)
    }
}

/// Looks at one call.
#[derive(Default)]
struct Look {
    /// The Op that has come up and what it gives.
    upcoming: Option<(Arith, Answer)>,
    /// How many frames there were when a difference below 0 came up.
    frames: usize,
    /// The store of that moment as it would be printed.
    store: Vec<u8>,
    /// How many differences of equal numbers were computed.
    equal: u64,
}

impl Look {
    fn overdrawn(&self) -> bool {
        matches!(self.upcoming, Some((_, Answer::BelowZero)))
    }
}

impl Watch for Look {
    fn comes_up(&mut self, machine: &Machine) {
        // An Op that was done has another instruction after it.
        self.equal += u64::from(self.upcoming == Some((Arith::Subtract, Answer::Number(0))));
        self.upcoming = machine.upcoming_op().map(|(arith, first, second)| (arith, arith.of(first, second)));
        if self.overdrawn() {
            self.frames = machine.frame_count();
            self.store = store_lines(machine);
        }
    }
}

fn store_lines(machine: &Machine) -> Vec<u8> {
    let mut lines = Vec::new();
    write_store(&mut lines, machine);
    lines
}

/// Counts over the calls and texts of runs.
#[derive(Clone, Debug, Default)]
pub struct OverdrawnCounts {
    /// Calls stopped with 39 in a frame above the first.
    pub nested: u64,
    /// Calls stopped with 39 whose store was not that of the call's start any more: it had to be restored.
    pub restored: u64,
    /// Differences of equal numbers computed.
    pub equal: u64,
    /// For each of `WRONG_READINGS`: texts that would be others.
    pub otherwise: [u64; WRONG_READINGS.len()],
    /// The same if 39 came before 31.
    pub before_budget: u64,
}

impl OverdrawnCounts {
    /// Adds a run and the text that it has by the right reading.
    pub fn add(&mut self, program: &Program, calls: &[ListCall], text: &[u8]) {
        let mut machine = Machine::new(program);
        let mut spent_before = false;
        for call in calls {
            let mut look = Look::default();
            let (outcome, _) = machine.call_watched(call.procedure, &call.arguments, call.budget, &mut look);
            self.equal += look.equal;
            match outcome {
                Outcome::Stopped { stop: Stop::BelowZero, .. } => self.add_stop(&look, &machine),
                Outcome::Stopped { stop: Stop::Budget, .. } => spent_before |= look.overdrawn(),
                _ => {}
            }
        }
        self.before_budget += u64::from(spent_before);
        for (count, (_, answer)) in self.otherwise.iter_mut().zip(WRONG_READINGS) {
            *count += u64::from(run_calls(program, calls, &mut Misread(answer)).0 != text);
        }
    }

    /// Adds a call that stopped with 39; the machine is that of the call's start again.
    fn add_stop(&mut self, look: &Look, machine: &Machine) {
        self.nested += u64::from(look.frames > 1);
        self.restored += u64::from(look.store != store_lines(machine));
    }

    /// A line for each count.
    pub fn lines(&self) -> String {
        let mut lines = String::new();
        let mut put = |what: &str, count: u64| lines.push_str(&format!("  {what}: {count}\n"));
        put("calls stopped 39 in a called frame", self.nested);
        put("calls stopped 39 after changing the store", self.restored);
        put("differences of equal numbers", self.equal);
        for ((name, _), count) in WRONG_READINGS.iter().zip(self.otherwise) {
            put(&format!("texts not the same {name}"), count);
        }
        put("texts not the same with 39 before 31", self.before_budget);
        lines
    }
}
