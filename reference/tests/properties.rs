//! What holds of all made inputs.

use reference::arith::Arith;
use reference::gen::keys::{self, Depot};
use reference::gen::plan::{argument_row, call_row, Plan};
use reference::gen::rng::Rng;
use reference::gen::rules::{Aim, Ground, MOST_BYTES};
use reference::gen::squares;
use reference::gen::tables::TableCase;
use reference::gen::value_faults::{self, CAUSES};
use reference::gen::view_faults::{add_pair, Family, FAMILIES};
use reference::gen::{callers, faults, helpers, limits, runs, structured, tables, wild};
use reference::helper_counts::{self, RunCounts, TableCounts};
use reference::machine::{Access, Entry, Machine, Outcome, Reference, Value, Watch};
use reference::marks::{found_under, is_helper, smallest, Marks};
use reference::orders::{StoreCounts, OTHER_ORDERS};
use reference::overdrawn::{OverdrawnCounts, WRONG_READINGS};
use reference::program::{Instr, Procedure, Program, Sort};
use reference::row::{write_rows, Row};
use reference::rule_counts::{RuleCounts, RuleRunCounts};
use reference::rule_readings::{self, RIGHT};
use reference::rules::{call_rows, check_rules, Rule};
use reference::stop::Stop;
use reference::walks::{joint, places, reached_rows};
use reference::TABLE_PASSES;
use std::collections::{BTreeMap, BTreeSet};

#[test]
fn judging_is_deterministic() {
    for number in 0..1_500 {
        let TableCase { table, rules } = tables::case(11, number);
        assert_eq!(table, tables::table(11, number));
        assert_eq!(rules, tables::case(11, number).rules);
        let lent = (table.clone(), rules.clone());
        let verdict = reference::judge_under(&table, rules.given());
        assert_eq!(verdict, reference::judge_under(&table, rules.given()));
        assert_eq!((&table, &rules), (&lent.0, &lent.1));
        match verdict {
            Ok(rows) => assert_eq!(rows * 16, table.len()),
            Err((number, row)) => {
                assert!(TABLE_PASSES.iter().any(|(_, refusals)| refusals.contains(&number)));
                let most = match number {
                    20 => rules.bytes.len() / 16,
                    21 => 256,
                    _ => table.len() / 16,
                };
                assert!(row == 0 || row < most);
            }
        }
    }
}

#[test]
fn structured_tables_are_accepted() {
    for number in 0..1_500 {
        let mut rng = Rng::stream(12, 0, number);
        let table = tables::accepted(&mut rng);
        assert_eq!(reference::judge(&table), Ok(table.len() / 16), "table {number}");
    }
}

#[test]
fn limits_are_met_and_passed() {
    for number in 0..limits::TABLES {
        let table = limits::table(number);
        let verdict = reference::judge(&table);
        let refusal = verdict.err().map(|(refusal, _)| refusal);
        let expected = match number {
            _ if number % 2 == 0 => None,
            15 => Some(8),
            17 => Some(1),
            _ => Some(3),
        };
        assert_eq!(refusal, expected, "table {number}");
    }
}

/// Both explorations of walks give the same facts wherever the joint one ends.
fn explorations_agree(program: &Program) -> usize {
    let mut compared = 0;
    let (marks, _) = smallest(program);
    for number in 0..program.procedures.len() {
        if let Some(facts) = joint(program, number, &marks, 2_000) {
            assert_eq!(facts, places(program, number, &marks));
            compared += 1;
        }
    }
    compared
}

#[test]
fn joint_walks_agree_with_single_places() {
    let mut compared = 0;
    for number in 0..1_000 {
        let mut rng = Rng::stream(13, 0, number);
        let tangled = tables::tangled(&mut rng);
        compared += explorations_agree(&reference::type_check(&tangled).expect("well typed"));
        if let Ok(program) = reference::type_check(&tables::table(13, number)) {
            compared += explorations_agree(&program);
        }
    }
    assert!(compared > 4_000, "{compared} procedures compared");
}

#[test]
fn many_joint_states_are_judged_by_places() {
    // Each of sixteen locals is filled or not, on the way to the last rows: 65,536 joint states there.
    use reference::gen::plan::{asm::*, Plan, ProcPlan};
    let locals = 16;
    let mut code = Vec::new();
    for local in 0..locals {
        let next = code.len() as u16 + 4;
        code.extend([load(0), jump_if(next), load(1), st(local)]);
    }
    code.extend([cp(9), pop(), ret()]);
    let procedure = ProcPlan { public: true, others: vec![Sort::Number; 16], code, ..ProcPlan::default() };
    let plan = Plan { trusted: vec![false], types: vec![], procs: vec![procedure] };
    // Rows: the module, the procedure, 16 locals, 64 instructions; then CpLoc of a local that may be empty.
    assert_eq!(reference::judge(&plan.bytes()), Err((11, 82)));
    let program = reference::type_check(&plan.bytes()).expect("well typed");
    assert!(joint(&program, 0, &Marks::none(&program), 2_000).is_none());
}

// Marks of helpers.

/// What is marked at an instruction. Operands are counted from the topmost.
#[derive(Clone, Copy, PartialEq, Eq, PartialOrd, Ord)]
enum Marked {
    Local(usize),
    Operand(usize),
}

/// Follows marks over the whole table at once: into called procedures, and back to all calls of one that returns one.
struct Chase<'p> {
    program: &'p Program,
    /// Reached calls by callee: the caller and the instruction.
    sites: BTreeMap<u8, Vec<(usize, usize)>>,
    seen: BTreeSet<(usize, usize, Marked)>,
    waiting: Vec<(usize, usize, Marked)>,
    marks: Marks,
}

fn ways_on(place: usize, instr: Instr) -> Vec<usize> {
    match instr {
        Instr::Ret => vec![],
        Instr::Branch(to) => vec![to.into()],
        Instr::BranchCond(to) => vec![place + 1, to.into()],
        _ => vec![place + 1],
    }
}

fn reached(code: &[Instr]) -> BTreeSet<usize> {
    let mut reached = BTreeSet::new();
    let mut waiting = vec![0];
    while let Some(place) = waiting.pop() {
        if reached.insert(place) {
            waiting.extend(ways_on(place, code[place]));
        }
    }
    reached
}

impl Chase<'_> {
    fn marks(program: &Program) -> Marks {
        let mut chase = Chase {
            program,
            sites: BTreeMap::new(),
            seen: BTreeSet::new(),
            waiting: Vec::new(),
            marks: Marks::none(program),
        };
        for (number, procedure) in program.procedures.iter().enumerate() {
            for place in reached(program.code(procedure)) {
                match program.code(procedure)[place] {
                    Instr::Call(callee) => chase.sites.entry(callee).or_default().push((number, place)),
                    Instr::BorrowFld { of, field }
                        if program.is_guarded(of, field) && !program.view_on_top[procedure.code.start + place] =>
                    {
                        chase.go(number, place + 1, Marked::Operand(0));
                    }
                    _ => {}
                }
            }
        }
        while let Some((number, place, marked)) = chase.waiting.pop() {
            chase.step(number, place, marked);
        }
        chase.marks
    }

    fn go(&mut self, number: usize, place: usize, marked: Marked) {
        if self.seen.insert((number, place, marked)) {
            self.waiting.push((number, place, marked));
        }
    }

    fn step(&mut self, number: usize, place: usize, marked: Marked) {
        let program = self.program;
        let procedure = &program.procedures[number];
        let instr = program.code(procedure)[place];
        let (takes, gives) = program.arity(procedure, instr);
        let after: Vec<Marked> = match (marked, instr) {
            (Marked::Local(x), Instr::MvLoc(y)) if x == usize::from(y) => vec![Marked::Operand(0)],
            (Marked::Local(x), Instr::CpLoc(y)) if x == usize::from(y) => vec![marked, Marked::Operand(0)],
            (Marked::Local(x), Instr::StLoc(y)) if x == usize::from(y) => vec![],
            (Marked::Local(_), _) => vec![marked],
            (Marked::Operand(0), Instr::StLoc(y)) => vec![Marked::Local(y.into())],
            (Marked::Operand(depth), _) if depth >= takes => vec![Marked::Operand(depth - takes + gives)],
            (Marked::Operand(depth), Instr::Call(callee)) if is_helper(program, procedure, callee) => {
                let param = takes - 1 - depth;
                self.marks.params[usize::from(callee)] |= 1 << param;
                self.go(callee.into(), 0, Marked::Local(param));
                vec![]
            }
            (Marked::Operand(depth), Instr::Ret) if !procedure.public => {
                self.marks.results[number] |= 1 << (takes - 1 - depth);
                for (caller, site) in self.sites.get(&(number as u8)).cloned().unwrap_or_default() {
                    self.go(caller, site + 1, Marked::Operand(depth));
                }
                vec![]
            }
            _ => vec![],
        };
        for next in ways_on(place, instr) {
            for &one in &after {
                self.go(number, next, one);
            }
        }
    }
}

#[test]
fn rounds_come_to_the_marks_of_one_search() {
    let (mut marked, mut compared) = (0, 0);
    for number in 0..5_000 {
        let Ok(program) = reference::type_check(&tables::table(41, number)) else { continue };
        let (marks, rounds) = smallest(&program);
        assert_eq!(marks, Chase::marks(&program), "table {number}");
        assert_eq!(marks, found_under(&program, &marks));
        assert_eq!(marks.any(), rounds > 0);
        for (one, (params, results)) in program.procedures.iter().zip(marks.params.iter().zip(&marks.results)) {
            let may_have = !one.public && program.is_trusted(one.module);
            assert!(may_have || (*params, *results) == (0, 0));
        }
        compared += 1;
        marked += usize::from(rounds > 0);
    }
    assert!(compared >= 1_800 && marked >= 450, "{marked} of {compared} tables with marks");
}

#[test]
fn families_of_helpers_get_their_verdicts() {
    for (number, family) in helpers::FAMILIES {
        for item in 0..300 {
            let verdict = |mended: bool| {
                let mut plan = Plan::default();
                helpers::add(&mut plan, &mut Rng::stream(42, number.into(), item), family, mended);
                reference::judge(&plan.bytes()).err().map(|refusal| refusal.0)
            };
            assert_eq!(verdict(false), Some(number), "{family:?}, item {item}");
            let mended = if family == helpers::Family::Foreign { Some(number) } else { None };
            assert_eq!(verdict(true), mended, "{family:?}, item {item}");
        }
    }
}

#[test]
fn made_tables_tell_readings_of_paper_5_apart() {
    let mut counts = TableCounts::default();
    for number in 0..5_000 {
        let table = tables::table(43, number);
        counts.add(&table, reference::judge(&table).err());
    }
    assert!(counts.accepted >= 150 && counts.given >= 100 && counts.returned >= 70, "{counts:?}");
    assert!(counts.with_params >= 400 && counts.with_results >= 200, "{counts:?}");
    assert!(counts.rounds[0] >= 250 && counts.rounds[1] >= 150 && counts.rounds[2] >= 10, "{counts:?}");
    for ((reading, _), count) in helper_counts::WRONG_READINGS.iter().zip(counts.otherwise) {
        assert!(count >= 50, "{reading}: {counts:?}");
    }
}

#[test]
fn made_runs_stop_in_helpers() {
    let mut counts = RunCounts::default();
    for number in 0..8_000 {
        let case = runs::case(44, number);
        if let Ok((program, calls)) = reference::admit_run(&case.table, &case.list, case.rules.given(), case.text_len) {
            counts.add(&program, &calls);
        }
    }
    assert!(counts.runs >= 500 && counts.held >= 1_000 && counts.restored >= 100, "{counts:?}");
    assert!(counts.stopped.iter().all(|&times| times >= 5), "{counts:?}");
}

// Demand 3, watched while running.

/// Looks at every state in which an instruction comes up.
#[derive(Default)]
struct Guard {
    looked: u64,
    /// Writable references to guarded fields.
    guarded_seen: u64,
    /// Read-only ones that guests hold.
    shown_to_guests: u64,
    freezes: u64,
}

impl Watch for Guard {
    fn comes_up(&mut self, machine: &Machine) {
        self.looked += 1;
        let program = machine.program();
        let depth = machine.frame_count() - 1;
        let inside = program.procedure(machine.frame_procedure(depth));
        check_operands(machine, program, inside, depth);
        self.freezes += u64::from(machine.upcoming() == Instr::Freeze);
        for depth in 0..machine.frame_count() {
            let module = program.procedure(machine.frame_procedure(depth)).module;
            let locals = machine.frame_locals(depth).iter().copied().flatten();
            for value in machine.frame_operands(depth).iter().copied().chain(locals) {
                self.look_at(program, module, value);
            }
        }
        assert!(machine.live_records() <= 128 && machine.store().len() <= 64 && machine.frame_count() <= 16);
    }
}

impl Guard {
    /// A value that a frame of the module holds.
    fn look_at(&mut self, program: &Program, module: u8, value: Value) {
        let Value::Ref(Reference::Field { of, field, .. }, access) = value else { return };
        if !program.is_guarded(of, field) {
            return;
        }
        if access == Access::Writable {
            self.guarded_seen += 1;
            assert!(program.is_trusted(module), "a guest holds a writable reference to a guarded field");
            assert_eq!(program.types[usize::from(of)].module, module);
        } else if !program.is_trusted(module) {
            self.shown_to_guests += 1;
        }
    }
}

/// No operand of the instruction that comes up is missing or of the wrong kind, and its local fits.
fn check_operands(machine: &Machine, program: &Program, inside: &Procedure, depth: usize) {
    let instr = machine.upcoming();
    let have: Vec<Sort> = machine.frame_operands(depth).iter().map(|&value| machine.sort_of(value)).collect();
    assert!(have.len() <= 16);
    let locals = machine.frame_locals(depth);
    for (local, &sort) in locals.iter().zip(program.locals(inside)) {
        assert!(local.is_none_or(|value| machine.sort_of(value) == sort));
    }
    if let Instr::MvLoc(local) | Instr::CpLoc(local) | Instr::BorrowLoc(local) = instr {
        assert!(locals[usize::from(local)].is_some(), "an empty local is used");
    }
    if let Instr::StLoc(local) = instr {
        let overwritten = locals[usize::from(local)].is_some_and(|value| machine.sort_of(value).is_record());
        assert!(!overwritten, "a record is overwritten");
    }
    if instr == Instr::Ret {
        let left = |local: &Option<Value>| local.is_some_and(|value| machine.sort_of(value).is_record());
        assert!(!locals.iter().any(left), "a record is dropped");
        assert_eq!(have, program.results(inside));
    }
    let wanted = wanted(program, inside, instr);
    let takes = wanted.len();
    assert!(have.len() >= takes, "{instr:?} misses operands");
    for (have, wanted) in have[have.len() - takes..].iter().zip(wanted) {
        assert!(wanted.contains(have), "{instr:?} gets {have:?}");
    }
}

/// The sorts that an instruction takes for each operand, the topmost last.
fn wanted(program: &Program, inside: &Procedure, instr: Instr) -> Vec<Vec<Sort>> {
    let number = vec![Sort::Number];
    let each = |sorts: &[Sort]| sorts.iter().map(|&sort| vec![sort]).collect();
    let of_each_type = |sort: fn(u8) -> Sort| (0..program.types.len()).map(move |of| sort(of as u8));
    let writable = [Sort::NumberRef].into_iter().chain(of_each_type(Sort::RecordRef));
    match instr {
        Instr::Pop => {
            let views = [Sort::NumberView].into_iter().chain(of_each_type(Sort::RecordView));
            vec![[Sort::Number].into_iter().chain(writable).chain(views).collect()]
        }
        Instr::StLoc(local) => vec![vec![program.locals(inside)[usize::from(local)]]],
        Instr::ReadRef => vec![vec![Sort::NumberRef, Sort::NumberView]],
        Instr::WriteRef => vec![number, vec![Sort::NumberRef]],
        Instr::BorrowFld { of, .. } => vec![vec![Sort::RecordRef(of), Sort::RecordView(of)]],
        Instr::Pack(of) => program.fields(of).iter().map(|field| vec![field.sort]).collect(),
        Instr::Unpack(of) => vec![vec![Sort::Record(of)]],
        Instr::MoveTo(of) => vec![vec![Sort::Record(of)], number],
        Instr::MoveFrom(_) | Instr::BorrowGlobal(_) | Instr::Exists(_) | Instr::BranchCond(_) => vec![number],
        Instr::Call(callee) => each(program.params(program.procedure(callee))),
        Instr::Ret => each(program.results(inside)),
        Instr::Op(_) => vec![number.clone(), number],
        Instr::Freeze => vec![writable.collect()],
        _ => vec![],
    }
}

fn watch_run(table: &[u8], list: &[u8], guard: &mut Guard, ends: &mut BTreeMap<u32, u64>) {
    let Ok(program) = reference::admit(table) else { return };
    let Ok(calls) = reference::check_list(&program, list) else { return };
    let mut machine = Machine::new(&program);
    for call in calls {
        // Long loops show nothing new.
        let budget = call.budget.min(3_000);
        let before = machine.clone();
        let (outcome, done) = machine.call_watched(call.procedure, &call.arguments, budget, guard);
        assert!(done <= budget);
        match outcome {
            Outcome::Done(_) => *ends.entry(0).or_default() += 1,
            Outcome::Stopped { stop, .. } => {
                *ends.entry(stop.number()).or_default() += 1;
                assert_eq!(store_text(&machine), store_text(&before));
                assert_eq!(machine.live_records(), before.live_records());
            }
        }
        assert_eq!(machine.frame_count(), 0);
        assert_eq!(machine.live_records(), records_in_store(&machine));
    }
}

fn store_text(machine: &Machine) -> Vec<u8> {
    let mut text = Vec::new();
    reference::text::write_store(&mut text, machine);
    text
}

/// Entries and the records nested in them: each is one `store` word or one bracket.
fn records_in_store(machine: &Machine) -> usize {
    let text = store_text(machine);
    text.iter().filter(|&&byte| byte == b'\n' || byte == b'(').count()
}

#[test]
fn accepted_tables_run_safely() {
    let mut guard = Guard::default();
    let mut ends = BTreeMap::new();
    for number in 0..1_500 {
        let case = runs::case(14, number);
        watch_run(&case.table, &case.list, &mut guard, &mut ends);
    }
    for number in 0..500 {
        let (table, list) = runs::tangled_run(&mut Rng::stream(15, 0, number));
        watch_run(&table, &list, &mut guard, &mut ends);
        let (table, list) = runs::random_run(&mut Rng::stream(16, 0, number));
        watch_run(&table, &list, &mut guard, &mut ends);
        let (table, list) = runs::helper_run(&mut Rng::stream(35, 0, number));
        watch_run(&table, &list, &mut guard, &mut ends);
    }
    assert!(guard.looked > 100_000, "{} states looked at", guard.looked);
    assert!(guard.guarded_seen > 1_000, "{} guarded references seen", guard.guarded_seen);
    assert!(guard.shown_to_guests > 200, "{} read-only ones seen in guests", guard.shown_to_guests);
    assert!(guard.freezes > 1_000, "{} times Freeze", guard.freezes);
    for end in [0].into_iter().chain(31..=39) {
        assert!(ends.contains_key(&end), "no call ends with {end}");
    }
}

#[test]
fn texts_fit_their_buffer_and_are_deterministic() {
    for number in 0..600 {
        let case = runs::case(17, number);
        let answer = reference::run(&case.table, &case.list, case.rules.given(), case.text_len);
        assert_eq!(answer, reference::run(&case.table, &case.list, case.rules.given(), case.text_len));
        if let Ok(text) = answer {
            assert!(text.len() <= 65_536);
        }
    }
}

/// The keys of the store lines, which stand below the lines of calls.
fn store_keys(text: &[u8]) -> Vec<(u64, u64)> {
    let text = std::str::from_utf8(text).expect("plain text");
    assert!(text.is_empty() || text.ends_with('\n'));
    let below = text.lines().skip_while(|line| line.starts_with("call "));
    below.map(|line| key_of(line).unwrap_or_else(|| panic!("no store line: {line}"))).collect()
}

fn key_of(line: &str) -> Option<(u64, u64)> {
    let mut words = line.strip_prefix("store ")?.split(' ');
    Some((words.next()?.parse().ok()?, words.next()?.parse().ok()?))
}

/// Strictly, so no key stands twice.
#[test]
fn store_lines_rise_by_type_then_address() {
    let mut lines = 0;
    for number in 0..3_000 {
        let case = runs::case(26, number);
        let Ok((text, store)) = reference::run_with_store(&case.table, &case.list, case.rules.given(), case.text_len)
        else {
            continue;
        };
        let keys = store_keys(&text);
        assert!(keys.is_sorted_by(|one, next| one < next), "case {number}: {keys:?}");
        assert_eq!(keys.len(), store.len());
        assert!(store.iter().all(|entry| keys.contains(&(entry.of.into(), entry.address))));
        lines += keys.len();
    }
    assert!(lines > 10_000, "{lines} store lines");
}

#[test]
fn made_runs_tell_orders_apart() {
    let mut counts = StoreCounts::default();
    let mut full_of_types = 0;
    for number in 0..3_200 {
        let case = runs::case(27, number);
        if let Ok((_, store)) = reference::run_with_store(&case.table, &case.list, case.rules.given(), case.text_len) {
            counts.add(&store);
            full_of_types += u64::from(store.len() == 64 && types_of(&store) >= 2);
        }
    }
    let [none, one, two, more] = counts.by_lines;
    assert!(none >= 300 && one >= 200 && two >= 200, "{counts:?}");
    assert!(more >= 400 && counts.several_types * 3 >= more * 2, "{counts:?}");
    assert!(counts.mixed * 3 >= more * 2 && counts.mixed_types * 5 >= more * 3, "{counts:?}");
    assert!(full_of_types >= 30 && counts.full >= full_of_types, "{full_of_types} full ones of several types");
    for ((order, _), count) in OTHER_ORDERS.iter().zip(counts.otherwise) {
        assert!(count >= 80, "{order}: {counts:?}");
    }
}

fn types_of(store: &[Entry]) -> usize {
    store.iter().map(|entry| entry.of).collect::<BTreeSet<u8>>().len()
}

/// Remembers the Op that has come up and where. One with another instruction after it was done.
#[derive(Default)]
struct LastOp {
    upcoming: Option<(Arith, u64, u64)>,
    frames: usize,
    trusted: bool,
}

impl Watch for LastOp {
    fn comes_up(&mut self, machine: &Machine) {
        if let Some(done) = self.upcoming {
            assert_eq!(rule(done), None, "{done:?} did not stop");
        }
        self.upcoming = machine.upcoming_op();
        self.frames = machine.frame_count();
        let inside = machine.program().procedure(machine.frame_procedure(self.frames - 1));
        self.trusted = machine.program().is_trusted(inside.module);
    }
}

/// The stop of an Op, in numbers wide enough for every sum and difference.
fn rule((arith, first, second): (Arith, u64, u64)) -> Option<Stop> {
    let (first, second) = (i128::from(first), i128::from(second));
    match arith {
        Arith::Add if first + second >= 1 << 64 => Some(Stop::TooLarge),
        Arith::Subtract if first - second < 0 => Some(Stop::BelowZero),
        _ => None,
    }
}

/// 32 and 39 come where the rule says and only there, unless the budget is spent; 39 in frames of all depths and in both
/// kinds of module, also in lists with 32.
#[test]
fn sums_and_differences_stop_by_the_rule() {
    let mut depths = BTreeSet::new();
    let mut modules: BTreeMap<bool, usize> = BTreeMap::new();
    let (mut both, mut spent) = (0, 0);
    for number in 0..5_500 {
        let case = runs::case(33, number);
        let Ok((program, calls)) = reference::admit_run(&case.table, &case.list, case.rules.given(), case.text_len)
        else {
            continue;
        };
        let mut machine = Machine::new(&program);
        let mut stops = Vec::new();
        for call in calls {
            let mut last = LastOp::default();
            let (outcome, _) = machine.call_watched(call.procedure, &call.arguments, call.budget, &mut last);
            let by_rule = last.upcoming.and_then(rule);
            let Outcome::Stopped { stop, .. } = outcome else { continue };
            stops.push(stop);
            match stop {
                Stop::Budget => spent += usize::from(by_rule == Some(Stop::BelowZero)),
                Stop::TooLarge | Stop::BelowZero => assert_eq!(by_rule, Some(stop)),
                _ => assert_eq!(last.upcoming, None),
            }
            if stop == Stop::BelowZero {
                depths.insert(last.frames);
                *modules.entry(last.trusted).or_default() += 1;
            }
        }
        both += usize::from(stops.contains(&Stop::TooLarge) && stops.contains(&Stop::BelowZero));
    }
    assert!((1..=16).all(|depth| depths.contains(&depth)), "{depths:?}");
    assert!(modules.values().all(|&times| times >= 200) && modules.len() == 2, "{modules:?}");
    assert!(both >= 80 && spent >= 80, "{both} lists with both stops, {spent} budgets spent just before 39");
}

#[test]
fn made_runs_tell_readings_of_paper_4_apart() {
    let mut counts = OverdrawnCounts::default();
    for number in 0..2_500 {
        let case = runs::case(34, number);
        if let Ok((program, calls)) = reference::admit_run(&case.table, &case.list, case.rules.given(), case.text_len) {
            let (text, _) = reference::run_calls(&program, &calls, &mut ());
            counts.add(&program, &calls, &text);
        }
    }
    assert!(counts.nested >= 100 && counts.restored >= 100 && counts.equal >= 500, "{counts:?}");
    assert!(counts.before_budget >= 40, "{counts:?}");
    for ((reading, _), count) in WRONG_READINGS.iter().zip(counts.otherwise) {
        assert!(count >= 100, "{reading}: {counts:?}");
    }
}

/// The calls with ample budgets.
fn run_depot(depot: &Depot) -> (String, Vec<Entry>) {
    let mut list = Vec::new();
    for (procedure, arguments) in &depot.calls {
        list.push(call_row(*procedure, 65_535));
        list.extend(arguments.iter().map(|&number| argument_row(number)));
    }
    let answer = reference::run_with_store(&depot.plan.bytes(), &write_rows(&list), None, 65_536);
    let (text, store) = answer.expect("not refused");
    (String::from_utf8(text).expect("plain text"), store)
}

#[test]
fn stores_are_filled_spread_and_emptied() {
    let (mut spread, mut modules, mut nested, mut undone) = (0, 0, 0, 0);
    for item in 0..200 {
        let depot = keys::spread(&mut Rng::stream(28, 0, item));
        let (text, store) = run_depot(&depot);
        spread += usize::from(store.len() >= 3 && types_of(&store) >= 2);
        let homes: BTreeSet<usize> = store.iter().map(|entry| depot.plan.types[usize::from(entry.of)].module).collect();
        modules += usize::from(homes.len() >= 2);
        nested += usize::from(text.contains('('));
        undone += usize::from(text.contains(" stop 39 "));
        let (text, store) = run_depot(&keys::full(&mut Rng::stream(29, 0, item)));
        assert!(store.len() == 64 && types_of(&store) >= 2, "item {item}: {} entries", store.len());
        assert!(text.contains(" stop 38 "), "item {item}");
        let (text, store) = run_depot(&keys::emptied(&mut Rng::stream(30, 0, item)));
        assert!(store.len() <= 1, "item {item}: {} entries", store.len());
        assert!(text.lines().count() >= 3, "item {item}");
    }
    assert!(spread >= 150, "{spread} stores of several types");
    assert!(modules >= 100 && nested >= 80 && undone >= 100, "{modules} {nested} {undone}");
}

/// Whether the budget that `needed` tells is the least one that ends the call the same way.
#[test]
fn budgets_at_and_below_what_is_needed() {
    for number in 0..200 {
        let (table, list) = runs::random_run(&mut Rng::stream(18, 0, number));
        let program = reference::admit(&table).expect("accepted");
        let machine = Machine::new(&program);
        for call in reference::check_list(&program, &list).expect("a good list") {
            let run = |budget| machine.clone().call(call.procedure, &call.arguments, budget);
            let (outcome, done) = run(65_535);
            if matches!(outcome, Outcome::Done(_)) {
                assert_eq!(run(done), (outcome, done));
                let (short, steps) = run(done - 1);
                assert!(matches!(short, Outcome::Stopped { stop: Stop::Budget, .. }));
                assert_eq!(steps, done - 1);
            }
        }
    }
}

#[test]
fn each_refusal_and_stop_comes_often() {
    let mut verdicts: BTreeMap<u32, usize> = BTreeMap::new();
    let (mut bytes, mut freezing) = (0, 0);
    for number in 0..2_000 {
        let TableCase { table, rules } = tables::case(1, number);
        assert!(rules.bytes.len() <= MOST_BYTES);
        bytes += 12 + table.len() + rules.bytes.len();
        let program = reference::admit_under(&table, rules.given());
        freezing += usize::from(program.as_ref().is_ok_and(|program| program.code.contains(&Instr::Freeze)));
        *verdicts.entry(program.err().map_or(0, |refusal| refusal.0)).or_default() += 1;
    }
    assert!((200..verdicts[&0] - 100).contains(&freezing), "Freeze in {freezing} accepted tables");
    assert!((500..=900).contains(&verdicts[&0]), "{verdicts:?}");
    for number in TABLE_PASSES.iter().flat_map(|(_, refusals)| *refusals) {
        assert!(verdicts.get(number).is_some_and(|&times| times >= 25), "{number}: {verdicts:?}");
    }
    assert!((20..=22).all(|number| verdicts[&number] >= 80), "{verdicts:?}");
    assert!(bytes < 4_000_000, "{bytes} bytes");
}

#[test]
fn each_refusal_and_stop_comes_among_runs() {
    let mut refusals = BTreeMap::new();
    let mut texts = String::new();
    for number in 0..8_000 {
        let case = runs::case(1, number);
        match reference::run(&case.table, &case.list, case.rules.given(), case.text_len) {
            Ok(text) => texts.push_str(std::str::from_utf8(&text).expect("plain text")),
            Err((number, _)) => *refusals.entry(number).or_insert(0) += 1,
        }
    }
    for stop in 31..=39 {
        let times = texts.matches(&format!(" stop {stop} row ")).count();
        assert!(times >= 100, "{times} times stop {stop}");
    }
    assert!((1..=22).all(|number| refusals.contains_key(&number)), "{refusals:?}");
    assert!([15, 16, 17, 20, 21, 22].iter().all(|number| refusals[number] >= 200), "{refusals:?}");
    assert!(refusals.values().sum::<u64>() <= 3_200, "{refusals:?}");
}

/// A cause alone, with a dirty byte beside it, with more in its used bytes, and with both.
#[test]
fn wrong_values_are_told_at_their_row() {
    for (number, cause) in CAUSES {
        for item in 0..150 {
            let mut rng = Rng::stream(23, 0, item);
            let mut rows = structured::plan(&mut rng, structured::SMALL).rows();
            let at = value_faults::put_in(&mut rows, &mut rng, cause);
            let verdict = |rows: &[Row]| reference::judge(&write_rows(rows));
            let mut dirty = |rows: &[Row]| {
                let mut rows = rows.to_vec();
                value_faults::dirty(&mut rows[at], &mut rng);
                verdict(&rows)
            };
            assert_eq!(verdict(&rows), Err((number, at)), "{cause:?}, item {item}");
            assert_eq!(dirty(&rows), Err((4, at)), "{cause:?}, item {item}");
            value_faults::worsen(&mut rows[at], &mut Rng::stream(24, 0, item));
            assert_eq!(verdict(&rows), Err((18, at)), "{cause:?}, item {item}");
            assert_eq!(dirty(&rows), Err((4, at)), "{cause:?}, item {item}");
        }
    }
}

#[test]
fn tables_meant_for_4_18_and_19_get_them() {
    for number in [4, 18, 19] {
        for item in 0..300 {
            let table = faults::table(&mut Rng::stream(25, number.into(), item), number);
            let refusal = reference::judge(&table).err().map(|refusal| refusal.0);
            assert_eq!(refusal, Some(number), "item {item}");
        }
    }
}

#[test]
fn faults_with_read_only_references_are_refused() {
    for (number, family) in FAMILIES {
        let verdict = |item| {
            let table = faults::table_with_views(&mut Rng::stream(21, 0, item), family);
            reference::judge(&table).err().map_or(0, |refusal| refusal.0)
        };
        let verdicts: Vec<u32> = (0..200).map(verdict).collect();
        let hits = verdicts.iter().filter(|&&have| have == number).count();
        let accepted = verdicts.iter().filter(|&&have| have == 0).count();
        let pairs = matches!(family, Family::Given | Family::Returned);
        assert!(hits >= if pairs { 80 } else { 160 }, "{family:?}: {hits}");
        assert!(!pairs || accepted >= 60, "{family:?}: {accepted}");
    }
}

#[test]
fn leaks_are_mended_by_freeze() {
    for number in [13, 14] {
        for item in 0..200 {
            let verdict = |frozen| {
                let mut plan = Plan::default();
                add_pair(&mut plan, &mut Rng::stream(22, number.into(), item), number, frozen);
                reference::judge(&plan.bytes()).err().map(|refusal| refusal.0)
            };
            assert_eq!((verdict(true), verdict(false)), (None, Some(number)), "item {item}");
        }
    }
}

#[test]
fn wild_tables_are_well_typed() {
    for number in 0..600 {
        let flavours = [wild::Flavour::Locals, wild::Flavour::Records, wild::Flavour::Leaks, wild::Flavour::Helpers];
        for flavour in flavours {
            let mut rng = Rng::stream(19, 0, number);
            let table = wild::plan(&mut rng, flavour).bytes();
            let refusal = reference::judge(&table).err().map_or(11, |refusal| refusal.0);
            assert!((11..=14).contains(&refusal));
        }
    }
}

#[test]
fn large_tables_are_accepted_too() {
    for number in 0..60 {
        let mut rng = Rng::stream(20, 0, number);
        let plan = structured::plan(&mut rng, structured::LARGE);
        assert!(reference::judge(&plan.bytes()).is_ok(), "table {number}");
    }
}

// Rule files

/// The pass against the paper's words, also on bytes that are not looked at where the number is 0.
#[test]
fn rule_files_are_judged_by_the_rows_that_cover_each_pair() {
    let mut judged = 0;
    for number in 0..6_000 {
        let TableCase { table, rules } = tables::case(51, number);
        let program = reference::admit(&table);
        let verdict = reference::judge_under(&table, rules.given());
        assert_eq!(reference::judge(&table), program.as_ref().map(|program| program.rows).map_err(|&refusal| refusal));
        let Ok(program) = program else {
            assert_eq!(verdict, reference::judge(&table));
            continue;
        };
        let expected = RIGHT.refusal(&program, &rules.bytes);
        assert_eq!(check_rules(&program, &rules.bytes).err(), expected, "table {number}");
        assert_eq!(verdict.err(), expected.filter(|_| rules.has != 0), "table {number}");
        judged += 1;
    }
    assert!(judged >= 2_400, "{judged} tables that no other pass refuses");
}

#[test]
fn made_tables_tell_readings_of_paper_7_apart() {
    let mut counts = RuleCounts::default();
    let (mut files, mut verdicts) = (0, BTreeMap::<u32, u64>::new());
    for number in 0..8_000 {
        let TableCase { table, rules } = tables::case(52, number);
        let program = reference::admit(&table);
        counts.add(program.as_ref().ok(), &rules);
        if rules.has != 0 && program.is_ok() {
            files += 1;
            let verdict = reference::judge_under(&table, rules.given());
            *verdicts.entry(verdict.err().map_or(0, |refusal| refusal.0)).or_default() += 1;
        }
    }
    assert!((3_400..=4_600).contains(&counts.files) && counts.refused_before >= 300, "{counts:?}");
    assert!(counts.other_numbers >= 500 && counts.bytes_only >= 250, "{counts:?}");
    assert!((35..=47).contains(&(100 * verdicts[&0] / files)), "{verdicts:?}");
    assert!((20..=22).all(|number| 100 * verdicts[&number] / files >= 14), "{verdicts:?}");
    for (name, count) in counts.kinds_by_name() {
        assert!(count >= 3, "{name}: {counts:?}");
    }
    for (reading, count) in rule_readings::WRONG_READINGS.iter().zip(counts.otherwise) {
        assert!(count >= 12, "{}: {counts:?}", reading.name);
    }
    for ((reading, _), count) in rule_readings::WRONG_NUMBERS.iter().zip(counts.misnumbered) {
        assert!(count >= 25, "{reading}: {counts:?}");
    }
}

#[test]
fn made_runs_are_run_and_refused_under_files() {
    let mut counts = RuleRunCounts::default();
    let mut through = 0;
    for number in 0..4_000 {
        let case = runs::case(53, number);
        assert!(case.rules.bytes.len() <= MOST_BYTES);
        match reference::admit_run(&case.table, &case.list, case.rules.given(), case.text_len) {
            Ok((program, calls)) => {
                counts.add_through(&case, &program, &calls);
                through += 1;
            }
            Err(refusal) => counts.add_refused(&case, refusal),
        }
    }
    assert!(through >= 2_400, "{through} runs through");
    assert!((1_800..=2_200).contains(&counts.files) && counts.through >= 800, "{counts:?}");
    assert!(counts.forbidding >= 300 && counts.bad_list >= 60 && counts.short_text >= 20, "{counts:?}");
    assert!(counts.before_list >= 30 && counts.before_text >= 10, "{counts:?}");
    assert!(counts.between >= 3_000 && counts.within >= 3_000, "{counts:?}");
}

/// Looks at each Call that comes up and at each procedure that is entered, under the rows of a rule file.
struct Permitted<'f> {
    rules: &'f [Rule],
    frames: usize,
    calls: u64,
    entered: u64,
}

impl Permitted<'_> {
    /// The pair stands under one row, which allows it.
    fn check(&self, caller: u8, called: u8) {
        let covering: Vec<&Rule> = self.rules.iter().filter(|rule| rule.covers(caller, called)).collect();
        assert!(matches!(covering[..], [Rule { allows: true, .. }]), "{caller} calls {called} by {covering:?}");
    }
}

impl Watch for Permitted<'_> {
    fn comes_up(&mut self, machine: &Machine) {
        let frames = machine.frame_count();
        let module = |depth: usize| machine.program().procedure(machine.frame_procedure(depth)).module;
        if let Instr::Call(callee) = machine.upcoming() {
            self.check(module(frames - 1), machine.program().procedure(callee).module);
            self.calls += 1;
        }
        if frames > self.frames && frames > 1 {
            self.check(module(frames - 2), module(frames - 1));
            self.entered += 1;
        }
        self.frames = frames;
    }
}

#[test]
fn no_procedure_is_entered_by_a_forbidden_pair() {
    let (mut calls, mut entered) = (0, 0);
    for number in 0..4_000 {
        let case = runs::case(54, number);
        let Some(file) = case.rules.given() else { continue };
        let Ok((program, list)) = reference::admit_run(&case.table, &case.list, Some(file), case.text_len) else {
            continue;
        };
        let rules: Vec<Rule> = reference::row::read_rows(file).iter().filter_map(Rule::new).collect();
        let mut machine = Machine::new(&program);
        for call in list {
            let mut permitted = Permitted { rules: &rules, frames: 0, calls: 0, entered: 0 };
            machine.call_watched(call.procedure, &call.arguments, call.budget.min(3_000), &mut permitted);
            calls += permitted.calls;
            entered += permitted.entered;
        }
    }
    assert!(calls >= entered && entered >= 10_000, "{calls} Calls came up, {entered} procedures entered");
}

#[test]
fn files_get_what_they_are_meant_for() {
    for aim in [Aim::Good, Aim::Malformed, Aim::Unfit, Aim::Forbidden] {
        let (mut hits, mut tried) = (0, 0);
        for item in 0..1_500 {
            let mut rng = Rng::stream(55, 0, item);
            let table = if item % 3 == 0 { tables::accepted(&mut rng) } else { callers::plan(&mut rng).bytes() };
            let program = reference::admit(&table).expect("accepted");
            if aim == Aim::Forbidden && call_rows(&program).next().is_none() {
                continue;
            }
            let file = Ground::of(&table).file(&mut rng, aim);
            let number = reference::judge_under(&table, Some(&file)).err().map_or(0, |refusal| refusal.0);
            let meant = match aim {
                Aim::Good => 0,
                Aim::Malformed => 20,
                Aim::Unfit => 21,
                Aim::Forbidden => 22,
            };
            tried += 1;
            hits += usize::from(number == meant);
            assert!(
                number == meant || matches!(aim, Aim::Malformed | Aim::Forbidden),
                "{aim:?}, item {item}: {number}"
            );
        }
        // Random bytes may be well formed, and a file that forbids at random may forbid nothing that is needed.
        assert!(hits * 100 >= tried * 85, "{aim:?}: {hits} of {tried}");
    }
}

#[test]
fn parted_squares_have_one_row_for_each_pair() {
    for item in 0..2_000 {
        let mut rng = Rng::stream(56, 0, item);
        let last = rng.below(16) as u8;
        let pair = (rng.within(0, last.into()) as u8, rng.within(0, last.into()) as u8);
        let around = squares::around(&mut rng, last, pair);
        assert_eq!(around[0], squares::single(pair));
        for rules in [around, squares::parted(&mut rng, last)] {
            assert!(rules.len() <= 256);
            for (caller, called) in (0..16).flat_map(|caller| (0..16).map(move |called| (caller, called))) {
                let covering = rules.iter().filter(|rule| rule.covers(caller, called)).count();
                assert_eq!(covering, usize::from(caller <= last && called <= last), "item {item}: {rules:?}");
            }
        }
        if last > 0 {
            let past = squares::past(&mut rng, last);
            assert!(past.callers.0 >= last || past.called.0 >= last);
        }
    }
}

#[test]
fn modules_that_call_one_another_are_accepted() {
    let (mut between, mut within, mut unreached, mut empty) = (0, 0, 0, 0);
    let mut modules = BTreeSet::new();
    for item in 0..1_000 {
        let table = callers::plan(&mut Rng::stream(57, 0, item)).bytes();
        let program = reference::admit(&table).expect("accepted");
        let reached = reached_rows(&program);
        modules.insert(program.trusted.len());
        for call in call_rows(&program) {
            unreached += usize::from(!reached[call.row]);
            within += usize::from(call.caller == call.called);
            between += usize::from(call.caller != call.called);
        }
        let has_procedures = |module: usize| program.procedures.iter().any(|one| usize::from(one.module) == module);
        empty += usize::from(!(0..program.trusted.len()).all(has_procedures));
    }
    assert!([1, 2, 3, 4, 16].iter().all(|count| modules.contains(count)), "{modules:?}");
    assert!(between >= 3_000 && within >= 1_000 && unreached >= 1_000 && empty >= 200);
}
