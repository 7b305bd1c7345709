//! The judge against the reference judge: in speed, on tables of several sizes and under several rule files, and in its answers, on
//! made tables under made rule files.

use crate::times::Times;
use crate::{policies, proved};
use reference::gen::rounds as marks;
use reference::gen::tables;
use reference::rules::given;
use reference::{refusal_lines, TABLE_PASSES};
use std::collections::BTreeMap;
use std::hint::black_box;
use std::time::Instant;

/// A judge: of a table, of the bytes of a rule file and of a number that is 0 if there is none.
type Judge = fn(&[u8], &[u8], u64) -> u64;

fn plain(table: &[u8], rules: &[u8], has: u64) -> u64 {
    match reference::judge_under(table, given(rules, has)) {
        Ok(rows) => rows as u64,
        Err((number, row)) => (u64::from(number) << 32) + row as u64,
    }
}

fn row(kind: u8, a: u8, b: u16, c: u32, d: u64) -> Vec<u8> {
    let mut bytes = vec![kind, a];
    bytes.extend(b.to_le_bytes());
    bytes.extend(c.to_le_bytes());
    bytes.extend(d.to_le_bytes());
    bytes
}

fn code(op: u8, b: u16) -> Vec<u8> {
    row(7, op, b, 0, 0)
}

/// A trusted module with a guarded field and `procedures` procedures that each pack a credit and move it, `turns` times.
fn credits(procedures: usize, turns: usize) -> Vec<u8> {
    let mut rows = vec![row(1, 1, 0, 0, 0), row(2, 0, 0, 0, 0), row(3, 0, 0, 1, 0)];
    for _ in 0..procedures {
        rows.push(row(4, 1, 0, 0, 0));
        rows.push(row(5, 0, 0, 1, 0));
        for _ in 0..turns {
            rows.extend([row(7, 1, 0, 0, 500), code(9, 0), code(3, 0), code(11, 0)]);
        }
        rows.push(code(16, 0));
    }
    rows.concat()
}

/// A table of 2,048 rows, the most there may be: long procedures, and two empty modules to fill it.
pub fn full() -> Vec<u8> {
    let mut table = credits(8, 60);
    table.extend(&credits(1, 24)[3 * 16..]);
    table.extend(row(1, 0, 0, 0, 0));
    table.extend(row(1, 0, 0, 0, 0));
    table
}

/// Procedures with a loop in which references move on from local to local, each time round by one.
pub fn rounds(procedures: usize, locals: u16) -> Vec<u8> {
    let mut rows = vec![row(1, 1, 0, 0, 0), row(2, 0, 0, 0, 0), row(3, 0, 0, 1, 0)];
    for _ in 0..procedures {
        rows.push(row(4, 1, 0, 0, 0));
        rows.push(row(5, 3, 0, 1, 0));
        for _ in 1..locals {
            rows.push(row(5, 2, 0, 1, 0));
        }
        for l in (1..locals - 1).rev() {
            rows.extend([code(3, l), code(4, l + 1)]);
        }
        rows.extend([code(3, 0), code(8, 0), code(4, 1), code(17, 0)]);
    }
    rows.concat()
}

/// Passes over all tables and samples of each table in a pass, of which the shortest counts, and the length of each in nanoseconds:
/// short enough that most are not interrupted.
const PASSES: usize = 4;
const SAMPLES: usize = 100;
const SAMPLE: f64 = 200_000.0;

/// What is judged. No rules are no rule file.
#[derive(Clone, Copy)]
struct Given<'g> {
    table: &'g [u8],
    rules: &'g [u8],
}

impl Given<'_> {
    fn judged(self, judge: Judge) -> u64 {
        judge(black_box(self.table), black_box(self.rules), black_box(!self.rules.is_empty()).into())
    }

    /// The time of `calls` calls in nanoseconds, for one.
    fn sample(self, judge: Judge, calls: usize) -> f64 {
        let start = Instant::now();
        let mut sum = 0u64;
        for _ in 0..calls {
            sum = sum.wrapping_add(self.judged(judge));
        }
        black_box(sum);
        start.elapsed().as_nanos() as f64 / calls as f64
    }

    /// Calls that fill a sample.
    fn calls(self, judge: Judge) -> usize {
        (SAMPLE / self.sample(judge, 5)).max(1.0) as usize
    }
}

/// The times of one call for each that is given, by each judge, the least of many short samples. The tables take turns, so that slow times
/// of the computer meet all of them.
fn least_times<const JUDGES: usize>(given: &[Given], judges: [Judge; JUDGES]) -> Vec<[f64; JUDGES]> {
    let mut least = vec![[f64::INFINITY; JUDGES]; given.len()];
    for _ in 0..PASSES {
        for (given, least) in given.iter().zip(&mut least) {
            let calls = judges.map(|judge| given.calls(judge));
            for _ in 0..SAMPLES {
                for number in 0..JUDGES {
                    least[number] = least[number].min(given.sample(judges[number], calls[number]));
                }
            }
        }
    }
    least
}

/// The times of both judges.
fn times(given: &[Given]) -> Vec<Times> {
    least_times(given, [proved::judge, plain]).into_iter().map(|[proved, plain]| Times { proved, plain }).collect()
}

/// The times of the proved judge alone.
fn proved_times(given: &[Given]) -> Vec<f64> {
    least_times(given, [proved::judge]).into_iter().map(|[proved]| proved).collect()
}

fn without_rules(table: &[u8]) -> Given<'_> {
    Given { table, rules: &[] }
}

/// Tables in which marks go through calls of helpers, beside tables of as many rows without helpers that have marks in as many locals.
fn helpers() {
    let tables = [
        ("ring of 8", marks::ring(8, 16)),
        ("ring of 28", marks::ring(28, 16)),
        ("ring of 57", marks::ring(57, 16)),
        ("chain of 32", marks::chain(32)),
        ("chain of 64", marks::chain(64)),
        ("chain of 127", marks::chain(127)),
    ];
    let plain = tables.each_ref().map(|(_, table)| marks::plain(table.len() / 16));
    for (name, table) in &tables {
        assert_eq!(without_rules(table).judged(proved::judge), table.len() as u64 / 16, "{name}");
    }
    let with = proved_times(&tables.each_ref().map(|(_, table)| without_rules(table)));
    let without = proved_times(&plain.each_ref().map(|table| without_rules(table)));
    println!("{:28} {:>6} {:>12} {:>12} {:>8} {:>10}", "helpers", "rows", "proved ns", "without ns", "ratio", "ns a row");
    for ((name, table), (with, without)) in tables.iter().zip(with.iter().zip(&without)) {
        let rows = table.len() / 16;
        println!("{:28} {:>6} {:>12.0} {:>12.0} {:>8.2} {:>10.1}", name, rows, with, without, with / without, with / rows as f64);
    }
}

/// What each family of tables has.
const CREDITS: &str = "credits";
const ROUNDS: &str = "loops with references";
const RINGS: &str = "helper rings";
const CHAINS: &str = "helper chains";

/// A table that was judged without a rule file.
pub struct Judged {
    pub name: &'static str,
    pub family: &'static str,
    pub rows: usize,
    pub times: Times,
}

/// Measures both judges on tables of several families.
pub fn measure_tables() -> Vec<Judged> {
    let bytes = (0..32768u32).map(|i| (i.wrapping_mul(2654435761) >> 13) as u8).collect();
    let tables = [
        ("credits, small", CREDITS, credits(1, 1)),
        ("credits, typical", CREDITS, credits(20, 3)),
        ("credits, large", CREDITS, credits(60, 7)),
        ("credits, 2,048 rows", CREDITS, full()),
        ("rounds, small", ROUNDS, rounds(1, 8)),
        ("rounds, large", ROUNDS, rounds(40, 16)),
        ("random bytes", "random bytes", bytes),
    ];
    let given = tables.each_ref().map(|(_, _, table)| without_rules(table));
    for (given, (name, _, _)) in given.iter().zip(&tables) {
        assert_eq!(given.judged(proved::judge), given.judged(plain), "{name}");
    }
    let mut judged = Vec::new();
    for ((name, family, table), times) in tables.iter().zip(times(&given)) {
        judged.push(Judged { name, family, rows: table.len() / 16, times });
    }
    judged
}

/// A table of 16 modules that was judged under a rule file.
pub struct JudgedUnder {
    pub name: &'static str,
    pub rows: usize,
    pub rules: usize,
    pub times: Times,
    /// Those of the same table without a rule file.
    pub without: Times,
}

/// Measures both judges under several rule files, on a typical table and on one of the most rows.
pub fn measure_rule_files() -> Vec<JudgedUnder> {
    [304, 2_048].into_iter().flat_map(measure_under).collect()
}

fn measure_under(rows: usize) -> Vec<JudgedUnder> {
    let (table, files) = (policies::table(rows), policies::files());
    let none = without_rules(&table);
    assert_eq!((none.judged(proved::judge), none.judged(plain)), (rows as u64, rows as u64));
    let mut given = vec![none];
    for (name, rules) in &files {
        let under = Given { rules, ..none };
        assert_eq!(under.judged(proved::judge), under.judged(plain), "{name}");
        given.push(under);
    }
    let times = times(&given);
    let mut judged = Vec::new();
    for ((name, rules), &with) in files.iter().zip(&times[1..]) {
        judged.push(JudgedUnder { name, rows, rules: rules.len() / 16, times: with, without: times[0] });
    }
    judged
}

/// How the time of the proved judge grows with a table of one family.
pub struct Growth {
    pub family: &'static str,
    /// Rows, and nanoseconds of one judgement.
    pub points: Vec<(usize, f64)>,
}

/// Points of each growth.
const POINTS: usize = 8;

/// Measures the proved judge on tables of several families, in even steps up to the largest.
pub fn measure_growth() -> Vec<Growth> {
    let steps = |largest: usize| (1..=POINTS).map(move |step| largest * step / POINTS);
    let families: [(_, Vec<Vec<u8>>); 4] = [
        (CREDITS, steps(65).map(|procedures| credits(procedures, 7)).collect()),
        (ROUNDS, steps(41).map(|procedures| rounds(procedures, 16)).collect()),
        (RINGS, steps(57).map(|helpers| marks::ring(helpers, 16)).collect()),
        (CHAINS, steps(127).map(marks::chain).collect()),
    ];
    let given: Vec<_> = families.iter().flat_map(|(_, tables)| tables).map(|table| without_rules(table)).collect();
    let mut points = Vec::new();
    for (given, time) in given.iter().zip(proved_times(&given)) {
        let rows = given.table.len() / 16;
        assert_eq!(given.judged(proved::judge), rows as u64);
        points.push((rows, time));
    }
    families.iter().zip(points.chunks(POINTS)).map(|((family, _), points)| Growth { family, points: points.to_vec() }).collect()
}

pub fn speed() {
    println!("{:28} {:>6} {:>12} {:>12} {:>8} {:>10}", "table", "rows", "proved ns", "plain ns", "ratio", "ns a row");
    for Judged { name, rows, times, .. } in measure_tables() {
        let Times { proved, plain } = times;
        let (ratio, each) = (times.ratio(), proved / rows as f64);
        println!("{name:28} {rows:>6} {proved:>12.0} {plain:>12.0} {ratio:>8.2} {each:>10.1}");
    }
    helpers();
    rule_files();
}

/// What a file takes is the time with it less that without.
fn rule_files() {
    println!(
        "{:28} {:>6} {:>6} {:>12} {:>12} {:>8} {:>12} {:>12} {:>8}",
        "rule file", "rows", "rules", "proved ns", "plain ns", "ratio", "proved file", "plain file", "ratio"
    );
    for JudgedUnder { name, rows, rules, times, without } in measure_rule_files() {
        let Times { proved, plain } = times;
        let file = Times { proved: proved - without.proved, plain: plain - without.plain };
        println!(
            "{name:28} {rows:>6} {rules:>6} {proved:>12.0} {plain:>12.0} {:>8.2} {:>12.0} {:>12.0} {:>8.2}",
            times.ratio(),
            file.proved,
            file.plain,
            file.ratio()
        );
    }
}

pub fn compare(seed: u64, count: usize) {
    let (mut different, mut files) = (0, 0);
    let mut verdicts: BTreeMap<u32, u64> = BTreeMap::new();
    for number in 0..count as u64 {
        let case = tables::case(seed, number);
        let (table, rules) = (case.table.clone(), case.rules.clone());
        let expected = plain(&table, &rules.bytes, rules.has);
        *verdicts.entry((expected >> 32) as u32).or_default() += 1;
        files += u64::from(rules.has != 0);
        let answer = proved::judge(&table, &rules.bytes, rules.has);
        if answer != expected || table != case.table || rules != case.rules {
            different += 1;
            eprintln!("table {number} of seed {seed} differs");
        }
    }
    println!("  accepted: {}", verdicts.get(&0).unwrap_or(&0));
    print!("{}", refusal_lines(&TABLE_PASSES, &verdicts));
    println!("  with a rule file: {files}");
    println!("{count} tables of seed {seed}: {different} different");
    std::process::exit(i32::from(different != 0));
}
