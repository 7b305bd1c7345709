//! What rule files the made tables and runs have, and which wrong readings of paper 7 show in the verdicts.

use crate::gen::rules::RuleFile;
use crate::gen::runs::Case;
use crate::list::{check_list, ListCall};
use crate::machine::{Machine, Watch};
use crate::program::Program;
use crate::row::{limit, ROW_BYTES};
use crate::rule_readings::{covering, is_used, pairs_up_to, present_pairs, Pair, WRONG_NUMBERS, WRONG_READINGS};
use crate::rules::{call_rows, check_rules, read_rules, CallRow, Rule};
use crate::walks::reached_rows;
use crate::{admit, Refusal};

/// A table that all other passes accept under a rule file, and its refusal.
struct Look<'l> {
    program: &'l Program,
    file: &'l [u8],
    refusal: Option<Refusal>,
}

impl Look<'_> {
    fn rules(&self) -> Vec<Rule> {
        read_rules(self.file).unwrap_or_default()
    }

    fn accepted(&self) -> bool {
        self.refusal.is_none()
    }

    /// Whether it is accepted and some pair, present or past the modules present, stands under rows like these.
    fn accepted_with(&self, present: bool, fits: fn(&[Rule]) -> bool) -> bool {
        let rules = self.rules();
        let pairs = present_pairs(self.program);
        let mut asked = pairs_up_to(limit::MODULES).into_iter().filter(|pair| pairs.contains(pair) == present);
        self.accepted() && asked.any(|pair| fits(&covering(&rules, pair)))
    }

    /// The bad row of 20, unless that tells the length.
    fn bad_row(&self) -> Option<usize> {
        let length = self.file.len();
        let whole = length.is_multiple_of(ROW_BYTES) && (1..=limit::RULES).contains(&(length / ROW_BYTES));
        self.refusal.filter(|&(number, _)| number == 20 && whole).map(|(_, row)| row)
    }

    /// The pair of 21, with the rows that cover it.
    fn unfit(&self) -> Option<(Pair, Vec<Rule>)> {
        let (_, told) = self.refusal.filter(|&(number, _)| number == 21)?;
        let pair = ((told / 16) as u8, (told % 16) as u8);
        Some((pair, covering(&self.rules(), pair)))
    }

    /// The Call of 22.
    fn forbidden(&self) -> Option<CallRow> {
        let (_, row) = self.refusal.filter(|&(number, _)| number == 22)?;
        call_rows(self.program).find(|call| call.row == row)
    }

    fn forbids(&self, pair: Pair) -> bool {
        matches!(covering(&self.rules(), pair)[..], [Rule { allows: false, .. }])
    }
}

/// A kind of table under a rule file, if all other passes accept it.
type Kind = (&'static str, fn(&Look) -> bool);

const KINDS: [Kind; 28] = [
    ("accepted under a rule file", |look| look.accepted()),
    ("accepted under one that forbids a pair of modules present", |look| {
        look.accepted_with(true, |covering| covering.iter().any(|rule| !rule.allows))
    }),
    ("accepted under one that forbids all pairs that no Call uses", |look| {
        let pairs = present_pairs(look.program);
        let others: Vec<Pair> = pairs.into_iter().filter(|&pair| !is_used(look.program, pair)).collect();
        look.accepted() && !others.is_empty() && others.into_iter().all(|pair| look.forbids(pair))
    }),
    ("accepted with Calls between modules", |look| {
        look.accepted() && call_rows(look.program).any(|call| call.caller != call.called)
    }),
    ("accepted with rows past the modules present", |look| look.accepted_with(false, |covering| !covering.is_empty())),
    ("accepted with a pair past the modules present under none and another under one", |look| {
        let is = |fits| look.accepted_with(false, fits);
        is(|covering| covering.is_empty()) && is(|covering| covering.len() == 1)
    }),
    ("accepted with a pair past the modules present under several", |look| {
        look.accepted_with(false, |covering| covering.len() > 1)
    }),
    ("accepted under 256 rows", |look| look.accepted() && look.file.len() == limit::RULES * ROW_BYTES),
    ("accepted with 16 modules", |look| look.accepted() && look.program.trusted.len() == limit::MODULES),
    ("refused 20 for no bytes", |look| look.file.is_empty()),
    ("refused 20 for a last row that is not whole", |look| !look.file.len().is_multiple_of(ROW_BYTES)),
    ("refused 20 for 257 rows", |look| look.file.len() == (limit::RULES + 1) * ROW_BYTES),
    ("refused 20 for more rows", |look| look.file.len() > (limit::RULES + 1) * ROW_BYTES),
    ("refused 20 for row 0", |look| look.bad_row() == Some(0)),
    ("refused 20 for a later row", |look| look.bad_row().is_some_and(|row| row > 0)),
    ("refused 20 for a row, and a later one is bad too", |look| {
        let bad = |row: &[u8]| read_rules(row).is_err();
        look.bad_row().is_some_and(|row| look.file.chunks(ROW_BYTES).skip(row + 1).any(bad))
    }),
    ("refused 21 for a pair under none", |look| look.unfit().is_some_and(|(_, covering)| covering.is_empty())),
    ("refused 21 for a pair under several that agree", |look| {
        look.unfit().is_some_and(|(_, covering)| {
            covering.len() > 1 && covering.iter().all(|rule| rule.allows == covering[0].allows)
        })
    }),
    ("refused 21 for a pair under several that do not", |look| {
        look.unfit().is_some_and(|(_, covering)| covering.iter().any(|rule| rule.allows != covering[0].allows))
    }),
    ("refused 21 for a module and itself", |look| look.unfit().is_some_and(|(pair, _)| pair.0 == pair.1)),
    ("refused 21 for a pair that no Call uses", |look| {
        look.unfit().is_some_and(|(pair, _)| !is_used(look.program, pair))
    }),
    ("refused 21 for the last pair of several", |look| {
        let last = look.program.trusted.len() as u8 - 1;
        last > 0 && look.unfit().is_some_and(|(pair, _)| pair == (last, last))
    }),
    ("refused 21 with a forbidden Call", |look| {
        look.unfit().is_some() && call_rows(look.program).any(|call| look.forbids(call.pair()))
    }),
    ("refused 22 between two modules", |look| look.forbidden().is_some_and(|call| call.caller != call.called)),
    ("refused 22 within one module", |look| look.forbidden().is_some_and(|call| call.caller == call.called)),
    ("refused 22 at a Call that no walk reaches", |look| {
        look.forbidden().is_some_and(|call| !reached_rows(look.program)[call.row])
    }),
    ("refused 22 below a Call that is allowed", |look| {
        look.forbidden().is_some_and(|one| call_rows(look.program).any(|call| call.row < one.row))
    }),
    ("refused 22 with another pair forbidden below", |look| {
        let others = |one: CallRow| call_rows(look.program).filter(move |call| call.pair() != one.pair());
        look.forbidden().is_some_and(|one| others(one).any(|call| look.forbids(call.pair())))
    }),
];

/// Counts over made tables and their rule files.
#[derive(Clone, Debug)]
pub struct RuleCounts {
    /// With a number other than 0, and with one other than 0 and 1.
    pub files: u64,
    pub other_numbers: u64,
    /// Without a file, but with bytes that are no good one.
    pub bytes_only: u64,
    /// With a malformed file, and refused by an earlier pass.
    pub refused_before: u64,
    /// For each of `KINDS`.
    pub kinds: [u64; KINDS.len()],
    /// For each of `WRONG_READINGS` and of `WRONG_NUMBERS`: tables with another verdict.
    pub otherwise: [u64; WRONG_READINGS.len()],
    pub misnumbered: [u64; WRONG_NUMBERS.len()],
}

impl Default for RuleCounts {
    fn default() -> RuleCounts {
        RuleCounts {
            files: 0,
            other_numbers: 0,
            bytes_only: 0,
            refused_before: 0,
            kinds: [0; KINDS.len()],
            otherwise: [0; WRONG_READINGS.len()],
            misnumbered: [0; WRONG_NUMBERS.len()],
        }
    }
}

impl RuleCounts {
    /// Adds a table, decoded if all passes but the last accept it, and its rule file.
    pub fn add(&mut self, program: Option<&Program>, rules: &RuleFile) {
        let has = rules.has != 0;
        let malformed = read_rules(&rules.bytes).is_err();
        self.files += u64::from(has);
        self.other_numbers += u64::from(rules.has > 1);
        self.bytes_only += u64::from(!has && malformed && !rules.bytes.is_empty());
        self.refused_before += u64::from(has && malformed && program.is_none());
        if let Some(program) = program {
            self.add_accepted(program, rules);
        }
    }

    fn add_accepted(&mut self, program: &Program, rules: &RuleFile) {
        let file = &rules.bytes[..];
        let looked_at = check_rules(program, file).err();
        for (count, (_, is_file)) in self.misnumbered.iter_mut().zip(WRONG_NUMBERS) {
            *count += u64::from(looked_at.is_some() && is_file(rules.has) != (rules.has != 0));
        }
        if rules.has == 0 {
            return;
        }
        let look = Look { program, file, refusal: looked_at };
        for (count, (_, is)) in self.kinds.iter_mut().zip(KINDS) {
            *count += u64::from(is(&look));
        }
        for (count, reading) in self.otherwise.iter_mut().zip(WRONG_READINGS) {
            *count += u64::from(reading.refusal(program, file) != looked_at);
        }
    }

    /// The kinds with how often they came.
    pub fn kinds_by_name(&self) -> impl Iterator<Item = (&'static str, u64)> + '_ {
        KINDS.iter().map(|(name, _)| *name).zip(self.kinds)
    }

    /// A line for each count.
    pub fn lines(&self) -> String {
        let mut lines = String::new();
        let mut put = |what: &str, count: u64| lines.push_str(&format!("  {what}: {count}\n"));
        put("with a rule file", self.files);
        put("with a rule file by a number other than 1", self.other_numbers);
        put("without a rule file, with bytes that are no good one", self.bytes_only);
        put("with a malformed rule file, refused by an earlier pass", self.refused_before);
        self.kinds_by_name().for_each(|(name, count)| put(name, count));
        for (reading, count) in WRONG_READINGS.iter().zip(self.otherwise) {
            put(&format!("verdicts not the same {}", reading.name), count);
        }
        for ((name, _), count) in WRONG_NUMBERS.iter().zip(self.misnumbered) {
            put(&format!("verdicts not the same {name}"), count);
        }
        lines
    }
}

/// Looks at the procedures that a call of the list enters after its first.
#[derive(Default)]
struct Entered {
    frames: usize,
    between: u64,
    within: u64,
}

impl Watch for Entered {
    fn comes_up(&mut self, machine: &Machine) {
        let frames = machine.frame_count();
        let module = |depth: usize| machine.program().procedure(machine.frame_procedure(depth)).module;
        if frames > self.frames && frames > 1 {
            let same = module(frames - 2) == module(frames - 1);
            self.within += u64::from(same);
            self.between += u64::from(!same);
        }
        self.frames = frames;
    }
}

/// Counts over made runs and their rule files.
#[derive(Clone, Debug, Default)]
pub struct RuleRunCounts {
    pub files: u64,
    /// Under a file: run through; and under one that forbids a pair of modules present.
    pub through: u64,
    pub forbidding: u64,
    /// Under a file: refused with 15 or 16, and with 17.
    pub bad_list: u64,
    pub short_text: u64,
    /// Refused with 20 to 22 where without the file the list would be refused, and where the buffer would be.
    pub before_list: u64,
    pub before_text: u64,
    /// Procedures entered under a file from another module, and from their own.
    pub between: u64,
    pub within: u64,
}

impl RuleRunCounts {
    /// Adds a run that was refused.
    pub fn add_refused(&mut self, case: &Case, (number, _): Refusal) {
        if case.rules.has == 0 {
            return;
        }
        self.files += 1;
        match number {
            15 | 16 => self.bad_list += 1,
            17 => self.short_text += 1,
            20..=22 => {
                let good_list = admit(&case.table).is_ok_and(|program| check_list(&program, &case.list).is_ok());
                self.before_list += u64::from(!good_list);
                self.before_text += u64::from(good_list && case.text_len < limit::TEXT_BYTES);
            }
            _ => {}
        }
    }

    /// Adds a run that was not.
    pub fn add_through(&mut self, case: &Case, program: &Program, calls: &[ListCall]) {
        let Some(file) = case.rules.given() else { return };
        self.files += 1;
        self.through += 1;
        let look = Look { program, file, refusal: None };
        self.forbidding += u64::from(present_pairs(program).into_iter().any(|pair| look.forbids(pair)));
        let mut machine = Machine::new(program);
        for call in calls {
            let mut entered = Entered::default();
            machine.call_watched(call.procedure, &call.arguments, call.budget, &mut entered);
            self.between += entered.between;
            self.within += entered.within;
        }
    }

    /// A line for each count.
    pub fn lines(&self) -> String {
        let mut lines = String::new();
        let mut put = |what: &str, count: u64| lines.push_str(&format!("  {what}: {count}\n"));
        put("with a rule file", self.files);
        put("run through under a rule file", self.through);
        put("run through under one that forbids a pair of modules present", self.forbidding);
        put("refused 15 or 16 under a rule file", self.bad_list);
        put("refused 17 under a rule file", self.short_text);
        put("refused 20 to 22 with a list that is refused too", self.before_list);
        put("refused 20 to 22 with a buffer that is too short too", self.before_text);
        put("procedures entered from another module under a rule file", self.between);
        put("procedures entered from their own module under a rule file", self.within);
        lines
    }
}
