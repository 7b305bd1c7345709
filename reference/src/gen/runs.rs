//! The made runs: case `number` of a seed is a table, a call list, a rule file and the length of a text buffer.

use super::callers;
use super::helpers;
use super::keys;
use super::kit::{Id, Kit, ALL};
use super::plan::{argument_row, asm::call, call_row, Plan, ProcPlan};
use super::rng::Rng;
use super::rules::{self, RuleFile};
use super::tables;
use crate::machine::{Machine, Outcome, Watch};
use crate::program::{Instr, Program, Sort};
use crate::row::{limit, write_rows, Row};
use crate::stop::{Stop, STOPS};

#[derive(Clone, Debug)]
pub struct Case {
    pub table: Vec<u8>,
    pub list: Vec<u8>,
    pub rules: RuleFile,
    pub text_len: usize,
}

/// Of 100 runs so many are made for rule files. A stream of its own says which ones.
const CALLERS: usize = 10;

/// Calls before their budgets are chosen.
type Script = Vec<(Id, Vec<u64>)>;

pub fn case(seed: u64, number: u64) -> Case {
    let (table, list, text_len) = table_and_list(seed, number);
    let rules = rules::for_run(seed, number, &table);
    Case { table, list, rules, text_len }
}

fn table_and_list(seed: u64, number: u64) -> (Vec<u8>, Vec<u8>, usize) {
    let mut rng = Rng::stream(seed, 6, number);
    if rng.chance(CALLERS) {
        let (table, list) = caller_run(&mut rng);
        let text_len = if rng.chance(4) { rng.below(limit::TEXT_BYTES) } else { limit::TEXT_BYTES };
        return (table, list, text_len);
    }
    let mut rng = Rng::stream(seed, 2, number);
    let rng = &mut rng;
    let mut text_len = limit::TEXT_BYTES + if rng.chance(5) { rng.below(5_000) } else { 0 };
    let (table, list) = match rng.below(164) {
        0..=18 => random_run(rng),
        19..=25 => tangled_run(rng),
        26..=58 => {
            let (stop, _) = rng.pick(&STOPS);
            let script = script(rng, stop);
            kit_run(rng, &script)
        }
        59..=65 => {
            let script = stopping_script(rng);
            kit_run(rng, &script)
        }
        66..=71 => {
            let script = showing_script(rng);
            kit_run(rng, &script)
        }
        72..=78 => {
            let script = any_script(rng);
            kit_run(rng, &script)
        }
        79..=91 => bad_list(rng),
        92..=96 => {
            text_len = rng.pick(&[0, 1, 100, 65_535, 65_535, 65_535, 4_096]);
            random_run(rng)
        }
        97..=101 => {
            let (seed, number) = (rng.draw(), rng.below(1_000) as u64);
            (tables::table(seed, number), some_bytes(rng))
        }
        102 => (tables::accepted(rng), Vec::new()),
        103 | 104 => longest_list(rng),
        105..=116 => {
            let script = till_script(rng);
            kit_run(rng, &script)
        }
        117..=141 => key_run(rng),
        142..=155 => {
            let script = helper_script(rng);
            kit_run(rng, &script)
        }
        _ => helper_run(rng),
    };
    (table, list, text_len)
}

fn some_bytes(rng: &mut Rng) -> Vec<u8> {
    let length = rng.below(70);
    (0..length).map(|_| rng.below(3) as u8).collect()
}

// Budgets.

/// How many instructions were done each time that a Freeze came up, and each time that an Op did.
#[derive(Default)]
struct Moments {
    looked: u32,
    freezes: Vec<u32>,
    ops: Vec<u32>,
}

impl Moments {
    /// A budget that is spent just before a Freeze, now and then just after it.
    fn freeze_budget(&self, rng: &mut Rng) -> Option<u32> {
        let late = u32::from(rng.chance(25));
        (!self.freezes.is_empty()).then(|| rng.pick(&self.freezes) + late)
    }

    /// The same for an Op, mostly the last one: if an Op stops the call, it is that one.
    fn op_budget(&self, rng: &mut Rng) -> Option<u32> {
        let late = u32::from(rng.chance(25));
        let last = *self.ops.last()?;
        Some(late + if rng.chance(60) { last } else { rng.pick(&self.ops) })
    }
}

impl Watch for Moments {
    fn comes_up(&mut self, machine: &Machine) {
        match machine.upcoming() {
            Instr::Freeze => self.freezes.push(self.looked),
            Instr::Op(_) => self.ops.push(self.looked),
            _ => {}
        }
        self.looked += 1;
    }
}

#[derive(Clone, Copy, PartialEq, Eq)]
enum Budgets {
    /// Ample, just enough, one less, one more, spent at a Freeze or at an Op, or small.
    Any,
    /// Ample, just enough, or one more.
    Enough,
}

/// Writes calls as a list. What budget is enough is found by running each call on the machine that the calls before it
/// left.
fn list_of(rng: &mut Rng, program: &Program, calls: &[(u16, Vec<u64>)], budgets: Budgets) -> Vec<u8> {
    let mut machine = Machine::new(program);
    let mut rows = Vec::new();
    for (procedure, arguments) in calls {
        let number = usize::from(*procedure);
        let mut moments = Moments::default();
        let (outcome, done) = machine.clone().call_watched(number, arguments, limit::BUDGET, &mut moments);
        let needed = match outcome {
            Outcome::Done(_) => done,
            Outcome::Stopped { stop: Stop::Budget, .. } => rng.within(1, 500) as u32,
            // The stopping instruction must come up with budget left.
            Outcome::Stopped { .. } => done + 1,
        };
        let kinds = if budgets == Budgets::Enough { 17 } else { 24 };
        let budget = match rng.below(kinds) {
            0..=10 => limit::BUDGET,
            11..=14 => needed,
            15 | 16 => needed + 1,
            17 | 18 => needed.saturating_sub(1),
            19 | 20 => moments.freeze_budget(rng).unwrap_or(limit::BUDGET),
            21 | 22 => moments.op_budget(rng).unwrap_or(limit::BUDGET),
            _ => 1 + rng.below(12) as u32,
        };
        let budget = budget.clamp(1, limit::BUDGET);
        machine.call(number, arguments, budget);
        rows.push(call_row(*procedure, budget));
        rows.extend(arguments.iter().map(|&number| argument_row(number)));
    }
    rows.truncate(limit::LIST_BYTES / 16);
    write_rows(&rows)
}

fn some_number(rng: &mut Rng) -> u64 {
    match rng.below(10) {
        0 => u64::MAX - rng.below(2) as u64,
        1 => rng.draw(),
        2 => rng.below(1_000) as u64,
        _ => rng.below(5) as u64,
    }
}

// Runs of made tables.

/// Public procedures of numbers, with their number of parameters.
fn entries(program: &Program) -> Vec<(u16, usize)> {
    let numbers = |sorts: &[Sort]| sorts.iter().all(|&sort| sort == Sort::Number);
    let fits = |number: &usize| {
        let one = &program.procedures[*number];
        one.public && numbers(program.params(one)) && numbers(program.results(one))
    };
    (0..program.procedures.len())
        .filter(fits)
        .map(|number| (number as u16, program.procedures[number].params))
        .collect()
}

fn run_of(rng: &mut Rng, table: Vec<u8>) -> (Vec<u8>, Vec<u8>) {
    let Ok(program) = crate::admit(&table) else {
        let rows = [call_row(0, 100), argument_row(1)];
        return (table, write_rows(&rows));
    };
    let entries = entries(&program);
    let mut calls = Vec::new();
    if !entries.is_empty() {
        for _ in 0..rng.within(1, 8) {
            let (procedure, params) = rng.pick(&entries);
            calls.push((procedure, (0..params).map(|_| some_number(rng)).collect()));
        }
    }
    let list = list_of(rng, &program, &calls, Budgets::Any);
    (table, list)
}

pub fn random_run(rng: &mut Rng) -> (Vec<u8>, Vec<u8>) {
    let table = tables::accepted(rng);
    run_of(rng, table)
}

/// A table of tangled walks, accepted if one is found soon.
pub fn tangled_run(rng: &mut Rng) -> (Vec<u8>, Vec<u8>) {
    let mut table = tables::tangled(rng);
    for _ in 0..8 {
        let runs = crate::admit(&table).is_ok_and(|program| !entries(&program).is_empty());
        if runs {
            break;
        }
        table = tables::tangled(rng);
    }
    run_of(rng, table)
}

/// A table whose helpers hand a reference to a guarded number on without harm.
pub fn helper_run(rng: &mut Rng) -> (Vec<u8>, Vec<u8>) {
    let mut plan = Plan::default();
    for _ in 0..4 {
        plan = Plan::default();
        let (_, family) = rng.pick(&helpers::FAMILIES);
        helpers::add(&mut plan, rng, family, true);
        if crate::admit(&plan.bytes()).is_ok_and(|program| !entries(&program).is_empty()) {
            break;
        }
    }
    run_of(rng, plan.bytes())
}

/// A table of modules that call one another, to some depth.
pub fn caller_run(rng: &mut Rng) -> (Vec<u8>, Vec<u8>) {
    let table = callers::plan(rng).bytes();
    let (table, mut list) = run_of(rng, table);
    if rng.chance(6) && !list.is_empty() {
        let at = rng.below(list.len());
        list[at] ^= 1 << rng.below(8);
    }
    (table, list)
}

// Runs of kit procedures.

fn kit_run(rng: &mut Rng, script: &Script) -> (Vec<u8>, Vec<u8>) {
    let wanted: Vec<Id> = script.iter().map(|&(id, _)| id).collect();
    let kit = Kit::new(rng, &wanted);
    let table = kit.plan.bytes();
    let program = crate::admit(&table).expect("kit procedures are accepted");
    let calls: Vec<(u16, Vec<u64>)> =
        script.iter().map(|(id, arguments)| (kit.number(*id), arguments.clone())).collect();
    let list = list_of(rng, &program, &calls, Budgets::Any);
    (table, list)
}

fn address(rng: &mut Rng) -> u64 {
    rng.below(3) as u64
}

/// Calls that bring the stop, with others around them.
fn script(rng: &mut Rng, stop: Stop) -> Script {
    let mut calls = Script::new();
    for _ in 0..rng.below(4) {
        calls.push((Id::Mint, vec![address(rng), some_number(rng)]));
    }
    let at = address(rng);
    match stop {
        Stop::Budget => {
            let rounds = rng.below(40) as u64;
            calls.push(if rng.chance(50) { (Id::Forever, vec![]) } else { (Id::Spin, vec![rounds]) });
            calls.push((Id::Set, vec![at, 5]));
        }
        Stop::TooLarge | Stop::BelowZero => {
            calls.push((Id::Mint, vec![at, 500]));
            for _ in 0..rng.within(1, 3) {
                calls.extend(if stop == Stop::TooLarge { adding(rng, at) } else { taking(rng, at) });
            }
        }
        Stop::KeyTaken => {
            let other = rng.pick(&[Id::Mint, Id::MakeCrate]);
            calls.push((other, vec![at, 3]));
            calls.push((other, vec![at, 4]));
            calls.push((Id::Shift, vec![at, address(rng)]));
        }
        Stop::NoSuchKey => {
            let missing = at + 10;
            let one = [Id::Get, Id::Burn, Id::Has, Id::BoxGet, Id::Unbox, Id::NoteGet, Id::Uncrate];
            calls.push((rng.pick(&one), vec![missing]));
            calls.push((rng.pick(&one), vec![at]));
            calls.push((Id::Shift, vec![missing, at]));
        }
        Stop::Stale => {
            for _ in 0..rng.within(1, 3) {
                let id = if rng.chance(45) { rng.pick(&STALE_FROZEN) } else { rng.pick(&STALE) };
                calls.push((Id::Mint, vec![at, 6]));
                calls.push((id, vec![at]));
            }
        }
        Stop::Frames => {
            let id = rng.pick(&[Id::Deep, Id::Ping, Id::Deep, Id::Hold8]);
            calls.push((id, vec![rng.within(14, 17) as u64]));
        }
        Stop::Records => calls.extend(many_records(rng)),
        Stop::Entries => calls.extend(many_entries(rng)),
    }
    for _ in 0..rng.below(3) {
        let id = rng.pick(&[Id::Get, Id::Has, Id::Burn]);
        calls.push((id, vec![address(rng)]));
    }
    calls
}

const STALE: [Id; 21] = [
    Id::StaleField,
    Id::StaleReused,
    Id::StaleGlobal,
    Id::StaleReplaced,
    Id::Follow,
    Id::FollowToEnd,
    Id::StaleFrame,
    Id::StaleFrameReused,
    Id::StaleFrameWrite,
    Id::StaleEmpty,
    Id::StaleEmptyWrite,
    Id::Refilled,
    Id::StaleRecordLocal,
    Id::RefilledRecord,
    Id::MovedAway,
    Id::StaleMovedAway,
    Id::HandleStale,
    Id::WriteUp,
    Id::StaleReused,
    Id::StaleReplaced,
    Id::StaleFrameReused,
];

const STALE_FROZEN: [Id; 21] = [
    Id::WeighBroken,
    Id::ReadLent,
    Id::LabelLent,
    Id::HandleFrozen,
    Id::HandleFrozenCoin,
    Id::EarlyStaleField,
    Id::EarlyStaleReused,
    Id::EarlyStaleGlobal,
    Id::EarlyStaleReplaced,
    Id::EarlyStaleRecordLocal,
    Id::EarlyRefilledRecord,
    Id::EarlyMovedAway,
    Id::EarlyStaleMovedAway,
    Id::EarlyStaleFrame,
    Id::EarlyStaleEmpty,
    Id::EarlyRefilled,
    Id::LateStaleField,
    Id::LateStaleGlobal,
    Id::LateStaleRecordLocal,
    Id::LateStaleFrame,
    Id::LateStaleEmpty,
];

/// A number that is small, at an end or in the middle of 64 bits, or any.
fn edge(rng: &mut Rng) -> u64 {
    let near = [0, 1, 2, 255, 256, 500, (1 << 32) - 1, 1 << 32, (1 << 63) - 1, 1 << 63, u64::MAX - 1, u64::MAX];
    if rng.chance(15) {
        rng.draw()
    } else {
        rng.pick(&near)
    }
}

/// Two numbers, mostly the first below the second by little or much, or equal, or above by 1.
fn two_numbers(rng: &mut Rng) -> (u64, u64) {
    let number = edge(rng).min(u64::MAX - 1);
    match rng.below(12) {
        0 | 1 => (0, 1),
        2..=4 => (number, number + 1),
        5 => (0, u64::MAX),
        6 | 7 => (number, number),
        8 => rng.pick(&[(0, 0), (u64::MAX, u64::MAX)]),
        9 => (number + 1, number),
        _ => (edge(rng), edge(rng)),
    }
}

/// Two numbers, mostly with a sum of 2^64, of 1 less, or of the most that there can be.
fn addends(rng: &mut Rng) -> (u64, u64) {
    let number = edge(rng).max(1);
    match rng.below(8) {
        0..=2 => (number, u64::MAX - number + 1),
        3 | 4 => (number, u64::MAX - number),
        5 => (u64::MAX, u64::MAX),
        _ => (edge(rng), edge(rng)),
    }
}

/// A call that takes `b` from `a`, with what it needs before it. The coin at the address is there.
fn taking(rng: &mut Rng, at: u64) -> Script {
    let (a, b) = two_numbers(rng);
    // The seventeenth frame is one too many.
    let deeper = if rng.chance(25) { rng.within(14, 16) } else { rng.within(1, 13) } as u64;
    let elsewhere = rng.within(10, 12) as u64;
    let set = (Id::Set, vec![at, a]);
    match rng.below(28) {
        0 | 1 => vec![(Id::Subtract, vec![a, b])],
        2 | 3 => vec![(Id::SubtractTurned, vec![b, a])],
        4 => vec![(rng.pick(&[Id::ZeroLessMost, Id::MostLessMost]), vec![])],
        5 => vec![(Id::Compare, vec![a, b])],
        6 => vec![set, (Id::Take, vec![at, b])],
        7 => vec![(Id::Set, vec![at, b]), (Id::TakeTurned, vec![at, a])],
        8 => vec![set, (Id::TakeEnough, vec![at, b])],
        9 => vec![set, (Id::Balance, vec![at, 0, b])],
        10 => vec![set, (Id::Repack, vec![at, b])],
        11 => vec![(Id::WriteTake, vec![at, edge(rng), a, b])],
        12 => vec![(Id::PublishTake, vec![elsewhere, a, b])],
        13 => vec![(Id::MakeCrate, vec![elsewhere, a]), (Id::CrateTake, vec![elsewhere, b])],
        14 | 15 => vec![(Id::DeductOwn, vec![a, b])],
        16 => vec![set, (Id::Pay, vec![at, address(rng), b])],
        17 | 18 => vec![set, (Id::PayLate, vec![at, address(rng), b])],
        19 => vec![set, (Id::Order, vec![at, elsewhere, b])],
        20..=24 => vec![(Id::Dig, vec![deeper, at, a, b])],
        _ => vec![(Id::Delve, vec![deeper, at, a, b])],
    }
}

/// A call that adds two numbers, in the same way.
fn adding(rng: &mut Rng, at: u64) -> Script {
    let (a, b) = addends(rng);
    let set = (Id::Set, vec![at, a]);
    match rng.below(7) {
        0 | 1 => vec![(Id::Add, vec![a, b])],
        2 => vec![(Id::MostAndMost, vec![])],
        3 => vec![(Id::Compare, vec![a, b])],
        4 => vec![set, (Id::Bump, vec![at, b])],
        5 => vec![set, (Id::Balance, vec![at, b, rng.pick(&[0, 1, u64::MAX])])],
        _ => vec![set, (Id::PayLate, vec![address(rng), at, b])],
    }
}

/// Credits are drawn on and paid in, too much and just enough, among calls that stop otherwise.
fn till_script(rng: &mut Rng) -> Script {
    let mut calls = vec![(Id::Mint, vec![0, 500]), (Id::Mint, vec![1, edge(rng)])];
    for _ in 0..rng.within(2, 6) {
        let at = rng.below(2) as u64;
        match rng.below(8) {
            0..=3 => calls.extend(taking(rng, at)),
            4..=6 => calls.extend(adding(rng, at)),
            _ => calls.push(stopping_otherwise(rng, at)),
        }
        if rng.chance(30) {
            calls.push((Id::Get, vec![at]));
        }
    }
    calls
}

/// A call that stops with 33 to 38.
fn stopping_otherwise(rng: &mut Rng, at: u64) -> (Id, Vec<u64>) {
    match rng.below(6) {
        0 => (Id::Mint, vec![at, 1]),
        1 => (Id::Get, vec![at + 50]),
        2 => (Id::StaleGlobal, vec![at]),
        3 => (Id::Deep, vec![16]),
        4 => (Id::FillCrates, vec![40, 100]),
        _ => (Id::Fill, vec![65, 100]),
    }
}

/// Comes to 127, 128 or 129 records.
fn many_records(rng: &mut Rng) -> Script {
    let mut calls = match rng.below(4) {
        0 => {
            let count = rng.within(31, 33) as u64;
            vec![(Id::FillCrates, vec![count, 100]), (Id::Mint, vec![50, 1]), (Id::Mint, vec![51, 1])]
        }
        1 => {
            let count = rng.within(62, 65) as u64;
            vec![(Id::FillBoxes, vec![count, 100]), (Id::Unbox, vec![101]), (Id::Mint, vec![50, 1])]
        }
        2 => vec![(Id::Hold9, vec![rng.within(12, 15) as u64])],
        _ => {
            let frames = rng.within(13, 16) as u64;
            let coins = rng.within(0, 17) as u64;
            vec![(Id::Fill, vec![coins, 200]), (Id::Hold8, vec![frames - 1])]
        }
    };
    // Records broken up make room for others.
    if rng.chance(60) {
        let last = calls[calls.len() - 1].clone();
        calls.push((Id::Churn, vec![rng.pick(&[1, 2, 127, 130, 200])]));
        calls.push(last);
    }
    // Those of an overdrawn call live no longer.
    if rng.chance(40) {
        calls.insert(0, (Id::FillStop, vec![rng.within(1, 60) as u64, 300, 0]));
    }
    calls
}

/// Comes to 63, 64 or 65 entries, and meets taken keys there.
fn many_entries(rng: &mut Rng) -> Script {
    let count = rng.within(61, 65) as u64;
    let mut calls = vec![(Id::Fill, vec![count, 100])];
    for _ in 0..rng.within(1, 4) {
        let at = rng.pick(&[0, 1, 100, 101, 300]);
        calls.push(match rng.below(5) {
            0 => (Id::PutToken, vec![at]),
            1 => (Id::BoxUp, vec![at]),
            2 => (Id::PutNote, vec![at, 8]),
            3 => (Id::Burn, vec![at]),
            _ => (Id::Mint, vec![at, 7]),
        });
    }
    calls
}

/// Calls that change the store in every way and then stop, among calls that look at it.
fn stopping_script(rng: &mut Rng) -> Script {
    let mut calls = vec![(Id::Mint, vec![0, 10]), (Id::Mint, vec![1, 20])];
    for _ in 0..rng.within(1, 5) {
        let (at, x) = (address(rng), u64::from(rng.chance(25)));
        calls.push(match rng.below(8) {
            0 => (Id::WriteStop, vec![at, 55, x]),
            1 => (Id::MoveStop, vec![at, address(rng) + 3, x]),
            2 => (Id::BurnStop, vec![at, x]),
            3 => (Id::BoxStop, vec![at, x]),
            4 => (Id::DeepWriteStop, vec![at, 66, x]),
            5 => (Id::FillStop, vec![rng.below(4) as u64, 8, x]),
            6 => (Id::Bump, vec![at, 1]),
            _ => (Id::Get, vec![at]),
        });
    }
    calls.push((Id::Get, vec![address(rng)]));
    calls
}

/// Numbers are read through read-only references in both modules, among calls that write them.
fn showing_script(rng: &mut Rng) -> Script {
    let mut calls = vec![(Id::Mint, vec![0, 10]), (Id::Mint, vec![1, 20])];
    for _ in 0..rng.within(2, 6) {
        let (at, value) = (address(rng), some_number(rng));
        calls.push(match rng.below(10) {
            0 => (Id::ShowLabel, vec![at]),
            1 => (Id::ReadWeight, vec![at]),
            2 => (Id::WeighOwn, vec![value]),
            3 => (Id::WeighBroken, vec![value]),
            4 => (Id::BoxWeight, vec![at]),
            5 => (Id::SeeWrite, vec![at, value]),
            6 => (Id::WatchWrite, vec![at, value]),
            7 => (Id::HandleFrozen, vec![value]),
            8 => (Id::BoxUp, vec![at]),
            _ => (Id::Set, vec![at, value]),
        });
    }
    calls.push((Id::ReadWeight, vec![address(rng)]));
    calls
}

/// Helpers read and write numbers of coins, and meet every stop while they hold references to them.
fn helper_script(rng: &mut Rng) -> Script {
    let mut calls = vec![(Id::Mint, vec![0, 500]), (Id::Mint, vec![1, edge(rng)])];
    for _ in 0..rng.within(2, 7) {
        let at = address(rng);
        let (a, b) = if rng.chance(50) { two_numbers(rng) } else { addends(rng) };
        let x = u64::from(rng.chance(25));
        let deep = rng.within(12, 16) as u64;
        calls.push(match rng.below(22) {
            0 => (Id::HelpSet, vec![at, a]),
            1 | 2 => (Id::HelpBump, vec![at, b]),
            3 | 4 => (Id::HelpTake, vec![at, b]),
            5 => (Id::HelpSwap, vec![at]),
            6 | 7 => (Id::HelpDeep, vec![if rng.chance(60) { deep } else { 2 }, at, a]),
            8 | 9 => (Id::HelpEither, vec![if rng.chance(30) { deep } else { rng.below(6) as u64 }, at, a]),
            10 => (Id::HelpStale, vec![at]),
            11 => (Id::HelpStaleReused, vec![at]),
            12 => (Id::HelpStop, vec![at, a, x]),
            13 => (Id::HelpDeepStop, vec![at, a, b]),
            14 => (Id::HelpPublish, vec![at, address(rng) + 1]),
            15 => (Id::HelpWithdraw, vec![at, address(rng)]),
            16 => (Id::HelpHold, vec![rng.within(11, 15) as u64, at]),
            17 => (Id::HelpFill, vec![at, rng.within(58, 65) as u64, 100]),
            18 => (Id::HelpSpin, vec![at, rng.pick(&[3, 20, 100_000])]),
            19 => (Id::HelpShow, vec![at]),
            20 => (Id::HelpFollow, vec![at]),
            _ => (Id::HelpPay, vec![at, address(rng), b]),
        });
        if rng.chance(30) {
            calls.push((Id::Get, vec![at]));
        }
    }
    calls
}

fn any_script(rng: &mut Rng) -> Script {
    let wanted: Vec<Id> = (0..rng.within(2, 6)).map(|_| rng.pick(&ALL)).chain([Id::Mint]).collect();
    let entries = Kit::new(rng, &wanted).entries();
    let mut calls = Script::new();
    for _ in 0..rng.within(3, 14) {
        let (id, params) = rng.pick(&entries);
        calls.push((id, (0..params).map(|_| rng.below(4) as u64).collect()));
    }
    calls
}

/// The bank's and the user's records are published, moved, put into one another and taken apart.
fn moving_script(rng: &mut Rng) -> Script {
    let count = rng.within(3, 6);
    let addresses = keys::addresses(rng, count);
    let mut calls = Script::new();
    for _ in 0..rng.within(6, 20) {
        let (at, value) = (rng.pick(&addresses), some_number(rng));
        calls.push(match rng.below(14) {
            0..=2 => (Id::Mint, vec![at, value]),
            3 => (Id::PutToken, vec![at]),
            4 | 5 => (Id::PutNote, vec![at, value]),
            6 | 7 => (Id::MakeCrate, vec![at, value]),
            8 => (Id::BoxUp, vec![at]),
            9 => (Id::Unbox, vec![at]),
            10 => (Id::Uncrate, vec![at]),
            11 => (Id::Shift, vec![at, rng.pick(&addresses)]),
            12 => (Id::MoveStop, vec![at, rng.pick(&addresses), 0]),
            _ => (Id::BoxStop, vec![at, 0]),
        });
    }
    calls
}

// Runs whose store holds keys of several types.

fn key_run(rng: &mut Rng) -> (Vec<u8>, Vec<u8>) {
    let (depot, budgets) = match rng.below(20) {
        0..=2 => (keys::full(rng), Budgets::Enough),
        3 | 4 => (keys::emptied(rng), Budgets::Enough),
        5..=10 => (keys::spread(rng), Budgets::Enough),
        11..=16 => (keys::spread(rng), Budgets::Any),
        _ => {
            let script = moving_script(rng);
            return kit_run(rng, &script);
        }
    };
    let table = depot.plan.bytes();
    let program = crate::admit(&table).expect("tables for keys are accepted");
    let list = list_of(rng, &program, &depot.calls, budgets);
    (table, list)
}

/// 256 rows: the longest good list.
fn longest_list(rng: &mut Rng) -> (Vec<u8>, Vec<u8>) {
    let mut script = Script::new();
    for number in 0..85 {
        script.push((Id::Mint, vec![number % 70, number]));
    }
    script.push((Id::Forever, vec![]));
    kit_run(rng, &script)
}

// Lists that are refused.

/// Procedures with a parameter or a result that is a reference; one of them is private.
const NOT_OF_NUMBERS: [Id; 5] = [Id::Lend, Id::Value, Id::Weight, Id::Label, Id::Slot];

fn bad_list(rng: &mut Rng) -> (Vec<u8>, Vec<u8>) {
    let script = stopping_script(rng);
    let kit = Kit::new(rng, &[&NOT_OF_NUMBERS[..], &script.iter().map(|&(id, _)| id).collect::<Vec<_>>()].concat());
    let mut plan = kit.plan.clone();
    if rng.chance(30) {
        hide_some(&mut plan, rng);
    }
    let mut rows = Vec::new();
    for (id, arguments) in &script {
        rows.push(call_row(kit.number(*id), rng.pick(&[1, 50, 65_535])));
        rows.extend(arguments.iter().map(|&number| argument_row(number)));
    }
    for _ in 0..rng.within(1, 2) {
        spoil(rng, &mut rows, &kit);
    }
    let mut list = write_rows(&rows);
    match rng.below(12) {
        0 => list.truncate(list.len() - rng.within(1, 15)),
        1 => list.resize(limit::LIST_BYTES + 16, 0),
        _ => {}
    }
    (plan.bytes(), list)
}

/// Makes a procedure private that no other module calls.
fn hide_some(plan: &mut Plan, rng: &mut Rng) {
    let calls = |one: &ProcPlan, number: usize| one.code.contains(&call(number as u16));
    let called = |number: usize, module: usize| plan.procs.iter().any(|one| one.module != module && calls(one, number));
    let free: Vec<usize> = (0..plan.procs.len()).filter(|&number| !called(number, plan.procs[number].module)).collect();
    if !free.is_empty() {
        let number = rng.pick(&free);
        plan.procs[number].public = false;
    }
}

fn spoil(rng: &mut Rng, rows: &mut Vec<Row>, kit: &Kit) {
    let at = rng.below(rows.len());
    let calls: Vec<usize> = (0..rows.len()).filter(|&at| rows[at].kind == 1).collect();
    let chosen = if calls.is_empty() { at } else { rng.pick(&calls) };
    match rng.below(14) {
        0 => rows[at].kind = rng.pick(&[0, 3, 4, 255]),
        1 => rows[at].a = 1 + rng.below(255) as u8,
        2 => rows[at].d = if rows[at].kind == 1 { 1 << rng.below(64) } else { rows[at].d },
        3 if rows[at].kind == 2 => rows[at].c = 1 << rng.below(32),
        4 if rows[at].kind == 2 => rows[at].b = 1 << rng.below(16),
        5 => rows.insert(0, argument_row(1)),
        6 => rows[chosen].b = kit.plan.procs.len() as u16 + rng.below(3) as u16,
        7 | 12 | 13 => rows[chosen].c = rng.pick(&[0, 65_536, 65_536, 65_537, 1 << 31]),
        8 => rows[chosen].b = kit.number(rng.pick(&NOT_OF_NUMBERS)),
        9 => rows.insert(chosen + 1, argument_row(5)),
        10 => {
            rows.remove(at);
        }
        _ => rows[chosen].b = rng.below(kit.plan.procs.len()) as u16,
    }
}
