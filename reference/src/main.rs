//! The program `reference`: see README.md for its commands.

use reference::gen::rules::RuleFile;
use reference::gen::runs;
use reference::gen::tables::{self, TableCase};
use reference::helper_counts::{RunCounts, TableCounts};
use reference::orders::StoreCounts;
use reference::overdrawn::OverdrawnCounts;
use reference::program::Program;
use reference::row::{kind, op, read_rows};
use reference::rule_counts::{RuleCounts, RuleRunCounts};
use reference::stop::STOPS;
use reference::text::call_lines;
use reference::{refusal_lines, Refusal, RUN_PASSES, TABLE_PASSES};
use std::collections::BTreeMap;
use std::io::Write;
use std::path::Path;
use std::process::ExitCode;

const USAGE: &str = "usage:
  reference judge FILE [RULES]
  reference run TABLE CALLS [RULES]
  reference made SEED COUNT OUTDIR
  reference made-runs SEED COUNT OUTDIR
  reference histogram SEED COUNT";

fn main() -> ExitCode {
    let words: Vec<String> = std::env::args().skip(1).collect();
    let words: Vec<&str> = words.iter().map(String::as_str).collect();
    let done = match words[..] {
        ["judge", file] => judge(file, None),
        ["judge", file, rules] => judge(file, Some(rules)),
        ["run", table, calls] => run(table, calls, None),
        ["run", table, calls, rules] => run(table, calls, Some(rules)),
        ["made", seed, count, dir] => numbers(seed, count).and_then(|(seed, count)| made(seed, count, dir)),
        ["made-runs", seed, count, dir] => numbers(seed, count).and_then(|(seed, count)| made_runs(seed, count, dir)),
        ["histogram", seed, count] => numbers(seed, count).and_then(|(seed, count)| histogram(seed, count)),
        _ => Err(USAGE.to_string()),
    };
    match done {
        Ok(()) => ExitCode::SUCCESS,
        Err(message) => {
            eprintln!("{message}");
            ExitCode::from(2)
        }
    }
}

fn numbers(seed: &str, count: &str) -> Result<(u64, u64), String> {
    let number = |word: &str| word.parse::<u64>().map_err(|_| format!("not a number: {word}\n{USAGE}"));
    Ok((number(seed)?, number(count)?))
}

fn read(file: &str) -> Result<Vec<u8>, String> {
    std::fs::read(file).map_err(|error| format!("cannot read {file}: {error}"))
}

fn write(dir: &str, name: &str, bytes: &[u8]) -> Result<(), String> {
    let path = Path::new(dir).join(name);
    std::fs::create_dir_all(dir)
        .and_then(|()| std::fs::write(&path, bytes))
        .map_err(|error| format!("cannot write {}: {error}", path.display()))
}

fn print(bytes: &[u8]) -> Result<(), String> {
    std::io::stdout().write_all(bytes).map_err(|error| format!("cannot print: {error}"))
}

fn judge_line(verdict: Result<usize, Refusal>) -> String {
    match verdict {
        Ok(rows) => format!("accepted {rows}\n"),
        Err(refusal) => refusal_line(refusal),
    }
}

fn refusal_line((number, row): Refusal) -> String {
    format!("refused {number} row {row}\n")
}

fn run_text(answer: Result<Vec<u8>, Refusal>) -> Vec<u8> {
    answer.unwrap_or_else(|refusal| refusal_line(refusal).into_bytes())
}

fn judge(file: &str, rules: Option<&str>) -> Result<(), String> {
    let (table, rules) = (read(file)?, rules.map(read).transpose()?);
    print(judge_line(reference::judge_under(&table, rules.as_deref())).as_bytes())
}

fn run(table: &str, calls: &str, rules: Option<&str>) -> Result<(), String> {
    let (table, list, rules) = (read(table)?, read(calls)?, rules.map(read).transpose()?);
    print(&run_text(reference::run(&table, &list, rules.as_deref(), reference::row::limit::TEXT_BYTES)))
}

fn put_number(container: &mut Vec<u8>, number: u32) {
    container.extend_from_slice(&number.to_le_bytes());
}

fn put_counted(container: &mut Vec<u8>, bytes: &[u8]) {
    put_number(container, bytes.len() as u32);
    container.extend_from_slice(bytes);
}

/// Whether there is a rule file, as 0 or 1, and the bytes.
fn put_rules(container: &mut Vec<u8>, rules: &RuleFile) {
    put_number(container, (rules.has != 0).into());
    put_counted(container, &rules.bytes);
}

fn made(seed: u64, count: u64, dir: &str) -> Result<(), String> {
    let mut container = Vec::new();
    let mut expected = String::new();
    for number in 0..count {
        let case = tables::case(seed, number);
        expected.push_str(&judge_line(reference::judge_under(&case.table, case.rules.given())));
        put_counted(&mut container, &case.table);
        put_rules(&mut container, &case.rules);
    }
    write(dir, "tables.bin", &container)?;
    write(dir, "stdout", expected.as_bytes())
}

fn made_runs(seed: u64, count: u64, dir: &str) -> Result<(), String> {
    let mut container = Vec::new();
    let mut expected = Vec::new();
    for number in 0..count {
        let case = runs::case(seed, number);
        expected.extend_from_slice(format!("case {number}\n").as_bytes());
        expected.extend_from_slice(&run_text(reference::run(
            &case.table,
            &case.list,
            case.rules.given(),
            case.text_len,
        )));
        put_counted(&mut container, &case.table);
        put_counted(&mut container, &case.list);
        put_rules(&mut container, &case.rules);
        put_number(&mut container, case.text_len as u32);
    }
    write(dir, "cases.bin", &container)?;
    write(dir, "stdout", &expected)
}

/// How often each verdict comes among made tables, and each refusal and call's end among made runs; what helpers and
/// rule files both have, what stores runs leave, and what overdrawn calls they have.
fn histogram(seed: u64, count: u64) -> Result<(), String> {
    print(format!("{count} tables\n{}{count} runs\n{}", table_lines(seed, count), run_lines(seed, count)).as_bytes())
}

fn table_lines(seed: u64, count: u64) -> String {
    let mut verdicts: BTreeMap<u32, u64> = BTreeMap::new();
    let (mut freezing, mut showing) = (0, 0);
    let mut helped = TableCounts::default();
    let mut ruled = RuleCounts::default();
    for number in 0..count {
        let TableCase { table, rules } = tables::case(seed, number);
        let program = reference::admit(&table);
        freezing += u64::from(read_rows(&table).iter().any(|row| row.kind == kind::INSTRUCTION && row.a == op::FREEZE));
        showing += u64::from(program.as_ref().is_ok_and(shows));
        helped.add(&table, program.as_ref().err().copied());
        ruled.add(program.as_ref().ok(), &rules);
        let verdict = reference::judge_under(&table, rules.given());
        *verdicts.entry(verdict.map_or_else(|refusal| refusal.0, |_| 0)).or_default() += 1;
    }
    let mut lines = format!("  accepted: {}\n", verdicts.get(&0).unwrap_or(&0));
    lines.push_str(&refusal_lines(&TABLE_PASSES, &verdicts));
    lines.push_str(&format!("  with Freeze: {freezing}\n"));
    lines.push_str(&format!("  accepted with a read-only parameter or result: {showing}\n"));
    lines.push_str(&helped.lines());
    lines.push_str(&ruled.lines());
    lines
}

/// Whether a procedure has a read-only parameter or result.
fn shows(program: &Program) -> bool {
    program
        .procedures
        .iter()
        .any(|one| program.params(one).iter().chain(program.results(one)).any(|sort| sort.is_view()))
}

fn run_lines(seed: u64, count: u64) -> String {
    let mut refusals: BTreeMap<u32, u64> = BTreeMap::new();
    let mut calls: BTreeMap<Option<u32>, u64> = BTreeMap::new();
    let mut stores = StoreCounts::default();
    let mut overdrawn = OverdrawnCounts::default();
    let mut helped = RunCounts::default();
    let mut ruled = RuleRunCounts::default();
    let mut through = 0;
    for number in 0..count {
        let case = runs::case(seed, number);
        match reference::admit_run(&case.table, &case.list, case.rules.given(), case.text_len) {
            Ok((program, list)) => {
                let (text, store) = reference::run_calls(&program, &list, &mut ());
                through += 1;
                call_lines(&text).for_each(|line| *calls.entry(stop_of(line)).or_default() += 1);
                stores.add(&store);
                overdrawn.add(&program, &list, &text);
                helped.add(&program, &list);
                ruled.add_through(&case, &program, &list);
            }
            Err(refusal) => {
                *refusals.entry(refusal.0).or_default() += 1;
                ruled.add_refused(&case, refusal);
            }
        }
    }
    let mut lines = format!("  run through: {through}\n");
    lines.push_str(&refusal_lines(&TABLE_PASSES, &refusals));
    lines.push_str(&refusal_lines(&RUN_PASSES, &refusals));
    lines.push_str(&call_end_lines(&calls));
    lines.push_str(&overdrawn.lines());
    lines.push_str(&helped.lines());
    lines.push_str(&ruled.lines());
    lines.push_str(&stores.lines());
    lines
}

/// A line for each way in which a call can end; those that never came too.
fn call_end_lines(calls: &BTreeMap<Option<u32>, u64>) -> String {
    let times = |end: Option<u32>| calls.get(&end).unwrap_or(&0);
    let mut lines = format!("  calls done: {}\n", times(None));
    for (stop, name) in STOPS {
        let number = stop.number();
        lines.push_str(&format!("  calls stopped {number}, {name}: {}\n", times(Some(number))));
    }
    lines
}

/// The stop that a call's line tells, if it does not say `done`.
fn stop_of(line: &[u8]) -> Option<u32> {
    let words: Vec<&str> = std::str::from_utf8(line).ok()?.split(' ').collect();
    let number = words.get(3).filter(|_| words.get(2) == Some(&"stop"))?;
    number.parse().ok()
}
