//! The made rule files: good ones and faulty ones, for the modules and Calls of a table. They come from streams of their
//! own, so that a seed has the same tables and lists with them and without.

use super::plan::rule_row;
use super::rng::Rng;
use super::squares::{around, parted, past, single, singles, stretch, whole, LAST};
use crate::row::{kind, limit, write_rows, ROW_BYTES};
use crate::rules::{self, call_rows, CallRow, Rule};
use crate::type_check;
use crate::walks::reached_rows;

/// What a host gives: the bytes, and a number that is 0 if there is no file.
#[derive(Clone, Debug, PartialEq, Eq)]
pub struct RuleFile {
    pub bytes: Vec<u8>,
    pub has: u64,
}

impl RuleFile {
    /// The bytes that count.
    pub fn given(&self) -> Option<&[u8]> {
        rules::given(&self.bytes, self.has)
    }
}

/// The most bytes that a made file has.
pub const MOST_BYTES: usize = 8_192;

/// The most bytes where there is no file, so that nobody looks at them.
const UNREAD_BYTES: usize = 160;

/// What a file is meant to bring to a table that all other passes accept.
#[derive(Clone, Copy, Debug, PartialEq, Eq)]
pub enum Aim {
    /// It is accepted.
    Good,
    /// 20
    Malformed,
    /// 21
    Unfit,
    /// 22, if it has a Call.
    Forbidden,
}

const TABLE_AIMS: [(usize, Aim); 4] = [(37, Aim::Good), (19, Aim::Malformed), (20, Aim::Unfit), (24, Aim::Forbidden)];

/// Most runs are to have a text.
const RUN_AIMS: [(usize, Aim); 4] = [(58, Aim::Good), (14, Aim::Malformed), (13, Aim::Unfit), (15, Aim::Forbidden)];

/// The file of made table `number` of a seed.
pub fn for_table(seed: u64, number: u64, table: &[u8]) -> RuleFile {
    let ground = Ground::of(table);
    // A table that is refused early says nothing of the file, one with a single module little.
    let files = match ground.modules {
        _ if !ground.typed => 35,
        1 => 50,
        _ => 70,
    };
    some_file(&mut Rng::stream(seed, 3, number), &ground, files, &TABLE_AIMS)
}

/// The file of made run `number` of a seed.
pub fn for_run(seed: u64, number: u64, table: &[u8]) -> RuleFile {
    some_file(&mut Rng::stream(seed, 4, number), &Ground::of(table), 50, &RUN_AIMS)
}

/// Of 100 cases so many have a file.
fn some_file(rng: &mut Rng, ground: &Ground, files: usize, aims: &[(usize, Aim)]) -> RuleFile {
    let mut aims = aims.to_vec();
    if ground.calls.is_empty() && rng.chance(85) {
        aims.retain(|(_, aim)| *aim != Aim::Forbidden);
    }
    let aim = rng.weighted(&aims).unwrap_or(Aim::Good);
    if !rng.chance(files) {
        let mut bytes = if rng.chance(40) { Vec::new() } else { ground.file(rng, aim) };
        bytes.truncate(UNREAD_BYTES);
        return RuleFile { bytes, has: 0 };
    }
    let has = if rng.chance(80) { 1 } else { rng.pick(&[2, 256, 1 << 32, u64::MAX]) };
    RuleFile { bytes: ground.file(rng, aim), has }
}

/// What a table has for a rule file.
#[derive(Clone, Debug)]
pub struct Ground {
    /// Whether it gets past the operands pass. The Calls of other tables are not looked for.
    typed: bool,
    modules: u8,
    /// For each pair that a Call uses the first such Call, and whether a walk reaches it.
    calls: Vec<(CallRow, bool)>,
}

impl Ground {
    pub fn of(table: &[u8]) -> Ground {
        let Ok(program) = type_check(table) else {
            let modules = table.chunks(ROW_BYTES).filter(|row| row[0] == kind::MODULE).count();
            return Ground { typed: false, modules: modules.clamp(1, limit::MODULES) as u8, calls: Vec::new() };
        };
        let reached = reached_rows(&program);
        let mut calls: Vec<(CallRow, bool)> = Vec::new();
        for call in call_rows(&program) {
            if !calls.iter().any(|(one, _)| one.pair() == call.pair()) {
                calls.push((call, reached[call.row]));
            }
        }
        Ground { typed: true, modules: program.trusted.len() as u8, calls }
    }

    /// The bytes of a file for this aim.
    pub fn file(&self, rng: &mut Rng, aim: Aim) -> Vec<u8> {
        match aim {
            Aim::Good => written(&good(rng, self)),
            Aim::Malformed => malformed(rng, self),
            Aim::Unfit => written(&unfit(rng, self)),
            Aim::Forbidden => written(&forbidding(rng, self)),
        }
    }

    fn last(&self) -> u8 {
        self.modules - 1
    }

    /// Whether a Call uses a pair that the row covers.
    fn is_called(&self, rule: &Rule) -> bool {
        self.calls.iter().any(|(call, _)| rule.covers(call.caller, call.called))
    }

    /// Whether the row covers a pair of modules present.
    fn meets(&self, rule: &Rule) -> bool {
        rule.callers.0 < self.modules && rule.called.0 < self.modules
    }

    /// Two modules present: any, those at the ends, one with itself, or those of a Call.
    fn some_pair(&self, rng: &mut Rng) -> (u8, u8) {
        let one = rng.below(self.modules.into()) as u8;
        match rng.below(12) {
            0 => (0, 0),
            1 | 2 => (self.last(), self.last()),
            3 => rng.pick(&[(0, self.last()), (self.last(), 0)]),
            4 | 5 => (one, one),
            6 | 7 if !self.calls.is_empty() => rng.pick(&self.calls).0.pair(),
            _ => (one, rng.below(self.modules.into()) as u8),
        }
    }

    /// A Call; those within a module and those that no walk reaches are not left to luck.
    fn some_call(&self, rng: &mut Rng) -> Option<CallRow> {
        let (within, reached) = (rng.chance(30), rng.chance(50));
        let fits = |(call, live): &(CallRow, bool)| (call.caller == call.called) == within && *live == reached;
        let fitting: Vec<_> = self.calls.iter().copied().filter(fits).collect();
        let from = if fitting.is_empty() { &self.calls } else { &fitting };
        (!from.is_empty()).then(|| rng.pick(from).0)
    }

    /// The number up to which pairs have rows: that of the last module present, the highest, or one between.
    fn some_reach(&self, rng: &mut Rng) -> u8 {
        match rng.below(5) {
            0 | 1 => self.last(),
            2 | 3 => LAST,
            _ => rng.within(self.last().into(), LAST.into()) as u8,
        }
    }
}

fn written(rules: &[Rule]) -> Vec<u8> {
    let rows: Vec<_> = rules.iter().map(rule_row).collect();
    write_rows(&rows)
}

/// Rows that a Call needs allow; of the others so many of 100.
fn allow(rng: &mut Rng, ground: &Ground, rules: &mut [Rule], percent: usize) {
    for rule in rules {
        rule.allows = ground.is_called(rule) || rng.chance(percent);
    }
}

// Good files.

fn good(rng: &mut Rng, ground: &Ground) -> Vec<Rule> {
    let reach = ground.some_reach(rng);
    let mut rules = match rng.below(16) {
        0..=2 => vec![whole(reach)],
        3..=5 if ground.modules <= 6 => singles(ground.last()),
        6 if ground.modules > 6 => singles(ground.last()),
        _ => parted(rng, reach),
    };
    stretch(rng, &mut rules, reach);
    let percent = rng.pick(&[0, 0, 50, 80, 100]);
    allow(rng, ground, &mut rules, percent);
    if ground.modules <= LAST {
        change_past(rng, ground, &mut rules);
    }
    rng.shuffle(&mut rules);
    rules
}

/// Past the modules present pairs may stand under no row and under several.
fn change_past(rng: &mut Rng, ground: &Ground, rules: &mut Vec<Rule>) {
    if rng.chance(30) {
        rules.retain(|rule| ground.meets(rule) || rng.chance(50));
    }
    let more = match rng.below(80) {
        0..=19 => rng.within(1, 4),
        20 => limit::RULES,
        _ => 0,
    };
    fill(rng, ground, rules, (rules.len() + more).min(limit::RULES));
}

/// Adds rows past the modules present until there are so many.
fn fill(rng: &mut Rng, ground: &Ground, rules: &mut Vec<Rule>, count: usize) {
    while rules.len() < count {
        rules.push(past(rng, ground.modules));
    }
}

// Malformed ones.

fn malformed(rng: &mut Rng, ground: &Ground) -> Vec<u8> {
    let mut rules = match rng.below(10) {
        0..=5 => good(rng, ground),
        6 | 7 => unfit(rng, ground),
        _ => forbidding(rng, ground),
    };
    if rng.chance(4) && ground.modules <= LAST {
        fill(rng, ground, &mut rules, limit::RULES + 1);
        return written(&rules);
    }
    let mut bytes = written(&rules);
    match rng.below(40) {
        0..=3 => bytes.clear(),
        4..=7 => bytes.truncate(bytes.len() - rng.within(1, ROW_BYTES - 1)),
        8 | 9 => bytes.resize(bytes.len() + rng.within(1, ROW_BYTES - 1), rng.below(2) as u8),
        10 | 11 => {
            let length = rng.pick(&[4_095, 4_097, 4_111, 4_112, 4_128, 4_128, MOST_BYTES]);
            bytes = bytes.iter().copied().cycle().take(length).collect();
        }
        12 | 13 => bytes = noise(rng),
        14..=29 => spoil_one(rng, &mut bytes),
        _ => (0..rng.within(2, 4)).for_each(|_| spoil_one(rng, &mut bytes)),
    }
    bytes
}

/// Random bytes, many of them small.
fn noise(rng: &mut Rng) -> Vec<u8> {
    let length = if rng.chance(60) { ROW_BYTES * rng.within(1, 5) } else { rng.below(80) };
    let most = rng.pick(&[2, 4, 17, 256]);
    (0..length).map(|_| rng.below(most) as u8).collect()
}

/// Makes a row bad: the first, the last or any.
fn spoil_one(rng: &mut Rng, bytes: &mut [u8]) {
    let count = bytes.len() / ROW_BYTES;
    let at = match rng.below(10) {
        0 | 1 => 0,
        2..=4 => count - 1,
        _ => rng.below(count),
    };
    spoil(rng, &mut bytes[ROW_BYTES * at..][..ROW_BYTES]);
}

/// Makes a row bad by one of its bytes or by two numbers of modules.
fn spoil(rng: &mut Rng, row: &mut [u8]) {
    match rng.below(20) {
        0..=2 => row[0] = rng.pick(&[0, 2, 3, 129, 255]),
        3..=5 => row[1] = rng.pick(&[2, 3, 128, 255]),
        6 | 7 => row[rng.within(2, 3)] = 1 << rng.below(8),
        8..=12 => spoil_range(rng, &mut row[4..6]),
        13..=16 => spoil_range(rng, &mut row[6..8]),
        _ => row[rng.within(8, ROW_BYTES - 1)] = 1 << rng.below(8),
    }
}

/// The first number comes above the last, or one or both are too high.
fn spoil_range(rng: &mut Rng, range: &mut [u8]) {
    let too_high = rng.pick(&[16, 16, 16, 17, 31, 128, 255]);
    match rng.below(10) {
        0..=4 => {
            let last = if range[1] < LAST { range[1] } else { rng.below(LAST.into()) as u8 };
            let above = if rng.chance(60) { 1 } else { rng.within(1, (LAST - last).into()) as u8 };
            range.copy_from_slice(&[last + above, last]);
        }
        5 => range[0] = too_high,
        6..=8 => range[1] = too_high,
        _ => range.fill(too_high),
    }
}

// Files under which a pair has no row, or several.

fn unfit(rng: &mut Rng, ground: &Ground) -> Vec<Rule> {
    let reach = ground.some_reach(rng);
    let pair = ground.some_pair(rng);
    let alone = rng.chance(50);
    let mut rules = if alone { around(rng, reach, pair) } else { parted(rng, reach) };
    some_verdicts(rng, ground, &mut rules);
    // Two more may come.
    rules.truncate(limit::RULES - 2);
    match rng.below(16) {
        0..=5 if alone => {
            rules.remove(0);
        }
        0..=2 => narrow(rng, ground, &mut rules),
        3..=8 => double(rng, ground, &mut rules, pair),
        9..=11 => widen(rng, ground, &mut rules),
        12 => rules = nowhere_or_everywhere(rng, ground, reach),
        13 => {
            narrow(rng, ground, &mut rules);
            let other = some_present(rng, ground, &rules).map(|at| rules[at]);
            rules.extend(other);
        }
        _ => {
            // Two pairs that are the same but for their order.
            let one = (rng.below(ground.modules.into()) as u8, ground.last());
            rules.extend([single(one), single((one.1, one.0))]);
        }
    }
    if rules.is_empty() {
        // The only row was taken away, so there is one module.
        fill(rng, ground, &mut rules, 1);
    }
    rng.shuffle(&mut rules);
    rules
}

/// Allows what Calls need, or anything.
fn some_verdicts(rng: &mut Rng, ground: &Ground, rules: &mut [Rule]) {
    if rng.chance(65) {
        let percent = rng.pick(&[0, 60, 90, 100]);
        allow(rng, ground, rules, percent);
    } else {
        rules.iter_mut().for_each(|rule| rule.allows = rng.chance(60));
    }
}

/// Some row that covers a pair of modules present.
fn some_present(rng: &mut Rng, ground: &Ground, rules: &[Rule]) -> Option<usize> {
    let present: Vec<usize> = (0..rules.len()).filter(|&at| ground.meets(&rules[at])).collect();
    (!present.is_empty()).then(|| rng.pick(&present))
}

/// Takes pairs of modules present away from a row.
fn narrow(rng: &mut Rng, ground: &Ground, rules: &mut Vec<Rule>) {
    let Some(at) = some_present(rng, ground, rules) else { return };
    let Rule { callers, called, .. } = &mut rules[at];
    callers.1 = callers.1.min(ground.last());
    called.1 = called.1.min(ground.last());
    let range = if rng.chance(50) { callers } else { called };
    if range.0 == range.1 {
        rules.remove(at);
    } else if rng.chance(50) {
        range.0 += 1;
    } else {
        range.1 -= 1;
    }
}

/// Adds a second row for all pairs of another row or for this pair, which may say the same or not.
fn double(rng: &mut Rng, ground: &Ground, rules: &mut Vec<Rule>, pair: (u8, u8)) {
    let Some(at) = some_present(rng, ground, rules) else { return };
    let mut more = rules[at];
    if rng.chance(50) {
        let covering = rules.iter().find(|rule| rule.covers(pair.0, pair.1));
        more = Rule { allows: covering.is_some_and(|rule| rule.allows), ..single(pair) };
    }
    if rng.chance(40) {
        more.allows = !more.allows;
    }
    rules.push(more);
}

/// Lets a row cover pairs of modules present that others cover.
fn widen(rng: &mut Rng, ground: &Ground, rules: &mut Vec<Rule>) {
    let Some(at) = some_present(rng, ground, rules) else { return };
    let Rule { callers, called, .. } = &mut rules[at];
    let mut ranges = [callers, called];
    rng.shuffle(&mut ranges);
    for range in ranges {
        if range.0 > 0 && rng.chance(50) {
            range.0 -= 1;
            return;
        } else if range.1 < ground.last() {
            range.1 += 1;
            return;
        }
    }
    rules.push(rules[at]);
}

/// No pair of modules present has a row, or each has several.
fn nowhere_or_everywhere(rng: &mut Rng, ground: &Ground, reach: u8) -> Vec<Rule> {
    let mut rules = Vec::new();
    if ground.modules <= LAST && rng.chance(50) {
        let count = rng.within(1, 3);
        fill(rng, ground, &mut rules, count);
    } else {
        let count = rng.pick(&[2, 2, 2, 3, 3, 9, limit::RULES]);
        rules.resize(count, whole(reach));
        let percent = rng.pick(&[0, 50, 100]);
        rules.iter_mut().for_each(|rule| rule.allows = rng.chance(percent));
    }
    rules
}

// Files that forbid a Call.

fn forbidding(rng: &mut Rng, ground: &Ground) -> Vec<Rule> {
    let reach = ground.some_reach(rng);
    let mut rules = match rng.below(16) {
        0..=10 => forbidding_one(rng, ground, reach),
        11 => vec![Rule { allows: false, ..whole(reach) }],
        12 | 13 if ground.modules <= 6 => exchanged(ground),
        _ => {
            let mut rules = parted(rng, reach);
            rules.iter_mut().for_each(|rule| rule.allows = rng.chance(60));
            rules
        }
    };
    stretch(rng, &mut rules, reach);
    rng.shuffle(&mut rules);
    rules
}

/// Forbids the pair of one Call, and now and then the rows that another one needs.
fn forbidding_one(rng: &mut Rng, ground: &Ground, reach: u8) -> Vec<Rule> {
    let pair = |call: Option<CallRow>| call.map_or((0, 0), |call| call.pair());
    let one = pair(ground.some_call(rng));
    let other = if rng.chance(20) { pair(ground.some_call(rng)) } else { one };
    let mut rules = around(rng, reach, one);
    let percent = rng.pick(&[0, 60, 100, 100]);
    allow(rng, ground, &mut rules, percent);
    for rule in &mut rules {
        rule.allows &= !rule.covers(one.0, one.1) && !rule.covers(other.0, other.1);
    }
    rules
}

/// Allows what Calls need if caller and called are exchanged, and no more.
fn exchanged(ground: &Ground) -> Vec<Rule> {
    let mut rules = singles(ground.last());
    for rule in &mut rules {
        let turned = Rule { callers: rule.called, called: rule.callers, ..*rule };
        rule.allows = ground.is_called(&turned);
    }
    rules
}
