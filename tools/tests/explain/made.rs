//! Made tables, runs and bytes: every refusal has words, and the walks that are told are walks.

use reference::gen::rng::Rng;
use reference::gen::{runs, tables};
use reference::program::{Instr, Program};
use reference::row::{limit, op, read_rows, Row};
use std::collections::{BTreeSet, VecDeque};
use tools::explain::{refusal, Given};

const TABLES: u64 = 5_000;
const RUNS: u64 = 2_000;
const BYTES: u64 = 4_000;

/// The words for a refusal, with all that holds of any.
fn words(given: &Given, (number, value): (u32, usize)) -> String {
    let text = refusal(given, number, value).expect("every refusal has words");
    assert!(text.ends_with('\n') && !text.starts_with(' '), "{text}");
    assert!(text.lines().skip(1).all(|line| line.starts_with("  ") && line.trim_end() == line), "{text}");
    for other in [(number + 1, value), (number - 1, value), (number, value + 1), (0, 0)] {
        refusal(given, other.0, other.1).expect_err("another refusal is not explained");
    }
    if (11..=14).contains(&number) {
        check_walks(given.table, &text, (number, value));
    }
    text
}

/// The rows of each walk that is told, with none where rows are left out.
fn told_walks(text: &str) -> Vec<Vec<Option<usize>>> {
    let mut walks: Vec<Vec<Option<usize>>> = Vec::new();
    for line in text.lines().skip(1) {
        match line.strip_prefix("    ") {
            None if line.contains("a walk") => walks.push(Vec::new()),
            None => {}
            Some(line) => {
                let row = line.strip_prefix("row ").and_then(|rest| rest.split(' ').next());
                let walk = walks.last_mut().expect("a walk has a title");
                walk.push(row.map(|row| row.parse().expect("a row has a number")));
            }
        }
    }
    walks
}

/// The walks that are told begin with a procedure's first instruction, go on as instructions lead, and end in the refused row.
fn check_walks(table: &[u8], text: &str, (number, value): (u32, usize)) {
    let program = reference::type_check(table).expect("11 to 14 come after this");
    let rows = read_rows(table);
    let walks = told_walks(text);
    let firsts: Vec<usize> = program.procedures.iter().map(|procedure| procedure.code_row).collect();
    for walk in &walks {
        let first = walk[0].expect("the first row is told");
        assert!(firsts.contains(&first), "{text}");
        for pair in walk.windows(2) {
            if let [Some(row), Some(next)] = *pair {
                assert!(leads_to(&program, &rows, row, next), "{text}");
            }
        }
    }
    assert_eq!(walks.last().and_then(|walk| *walk.last()?), Some(value), "{text}");
    if let ([walk], 11 | 12) = (&walks[..], number) {
        let whole = walk.iter().all(Option::is_some);
        assert!(!whole || walk.len() == shortest(&program, value), "{text}");
    }
}

fn leads_to(program: &Program, rows: &[Row], row: usize, next: usize) -> bool {
    let first = program.procedures.iter().map(|procedure| procedure.code_row).filter(|&first| first <= row).max();
    let target = first.expect("a procedure has the row") + usize::from(rows[row].b);
    match rows[row].a {
        op::RET => false,
        op::BRANCH => next == target,
        op::BRANCH_COND => next == target || next == row + 1,
        _ => next == row + 1,
    }
}

/// How many rows the shortest walk has that shows a refusal 11 or 12 in this row, by a search over sets of full locals.
fn shortest(program: &Program, value: usize) -> usize {
    let procedure =
        program.procedures.iter().rfind(|procedure| procedure.code_row <= value).expect("the row is in one");
    let (code, sorts) = (program.code(procedure), program.locals(procedure));
    let refused = |instr: Instr, full: u32| match instr {
        Instr::MvLoc(local) | Instr::CpLoc(local) | Instr::BorrowLoc(local) => full >> local & 1 == 0,
        Instr::StLoc(local) => full >> local & 1 == 1 && sorts[usize::from(local)].is_record(),
        Instr::Ret => (0..sorts.len()).any(|local| full >> local & 1 == 1 && sorts[local].is_record()),
        _ => false,
    };
    let mut met = BTreeSet::new();
    let mut waiting = VecDeque::from([(1, 0, (1u32 << procedure.params) - 1)]);
    while let Some((length, place, full)) = waiting.pop_front() {
        let instr = code[place];
        if procedure.code_row + place == value && refused(instr, full) {
            return length;
        }
        let after = match instr {
            Instr::MvLoc(local) => full & !(1 << local),
            Instr::StLoc(local) => full | 1 << local,
            _ => full,
        };
        let next = (!matches!(instr, Instr::Ret | Instr::Branch(_))).then_some(place + 1);
        for next in next.into_iter().chain(instr.target()) {
            if met.insert((next, after)) {
                waiting.push_back((length + 1, next, after));
            }
        }
    }
    panic!("no walk shows the refusal")
}

#[test]
fn made_tables() {
    let mut numbers = BTreeSet::new();
    let mut chains = 0;
    for number in 0..TABLES {
        let case = tables::case(8, number);
        let given = Given { table: &case.table, list: None, rules: case.rules.given() };
        if let Err(refused) = reference::judge_under(given.table, given.rules) {
            let text = words(&given, refused);
            chains += usize::from(told_walks(&text).len() > 1);
            numbers.insert(refused.0);
        }
    }
    let all: BTreeSet<u32> = (1..=14).chain(18..=22).collect();
    assert_eq!(numbers, all);
    assert!(chains > 100, "{chains}");
}

#[test]
fn made_runs() {
    let mut numbers = BTreeSet::new();
    for number in 0..RUNS {
        let case = runs::case(8, number);
        let given = Given { table: &case.table, list: Some(&case.list), rules: case.rules.given() };
        if let Err(refused) = reference::admit_run(given.table, &case.list, given.rules, case.text_len) {
            words(&given, refused);
            numbers.insert(refused.0);
        }
    }
    assert!([15, 16, 17, 20, 21, 22].iter().all(|number| numbers.contains(number)), "{numbers:?}");
}

#[test]
fn random_bytes() {
    let mut rng = Rng::new(8);
    for _ in 0..BYTES {
        let (table, list, rules) = (some_bytes(&mut rng), some_bytes(&mut rng), some_bytes(&mut rng));
        let list = rng.chance(50).then_some(&list[..]);
        let rules = rng.chance(50).then_some(&rules[..]);
        let given = Given { table: &table, list, rules };
        let judged = match list {
            Some(list) => reference::admit_run(&table, list, rules, limit::TEXT_BYTES).map(drop),
            None => reference::judge_under(&table, rules).map(drop),
        };
        let told = judged.err();
        if let Some((number, value)) = told {
            refusal(&given, number, value).expect("every refusal has words");
        }
        let guess = (rng.below(25) as u32, rng.below(40));
        let right = told == Some(guess) || (guess == (17, 0) && told.is_none() && list.is_some());
        assert_eq!(refusal(&given, guess.0, guess.1).is_ok(), right);
    }
}

/// Bytes, or rows whose kinds and values are mostly small; sometimes the last row is not whole.
fn some_bytes(rng: &mut Rng) -> Vec<u8> {
    let rows = rng.below(12);
    let mut bytes: Vec<u8> = match rng.below(3) {
        0 => (0..rows * 16).map(|_| rng.draw() as u8).collect(),
        1 => (0..rows * 16).map(|at| if at % 16 < 3 { rng.below(8) as u8 } else { 0 }).collect(),
        _ => (0..rows * 16).map(|at| [1, 2, 3, 4, 5, 6, 7, 7, 7][(at / 16).min(8)] * u8::from(at % 16 == 0)).collect(),
    };
    if rng.chance(10) {
        bytes.pop();
    }
    bytes
}
