//! The machine against the reference machine: in its answers, on made runs under made rule files, and in speed, on loops and lists of short calls.

use crate::loops::{self, Course, Setting, Work};
use crate::proved;
use crate::times::Times;
use reference::gen::runs::{self, Case};
use reference::machine::{Machine, Watch};
use reference::row::limit;
use reference::text::call_lines;
use reference::{refusal_lines, Refusal, RUN_PASSES, TABLE_PASSES};
use std::collections::BTreeMap;
use std::hint::black_box;
use std::time::Instant;

/// Threads that compare runs.
const THREADS: u64 = 2;

/// Bytes before and after the text buffer that are looked at too.
const MARGIN: usize = 64;

/// Rounds of which the fastest counts.
const ROUNDS: usize = 150;

/// How often each refusal came and how often calls ended in which way, and how many runs differed.
#[derive(Default)]
struct Tally {
    /// By refusal, or 0 for runs through.
    runs: BTreeMap<u32, u64>,
    /// By stop, or 0 for calls done.
    calls: BTreeMap<u32, u64>,
    /// With a rule file, and of these run through.
    files: u64,
    through: u64,
    different: u64,
}

impl Tally {
    fn count(&mut self, case: &Case, answer: &Result<Vec<u8>, Refusal>) {
        let file = case.rules.has != 0;
        self.files += u64::from(file);
        self.through += u64::from(file && answer.is_ok());
        match answer {
            Ok(text) => {
                *self.runs.entry(0).or_default() += 1;
                for end in ends(text) {
                    *self.calls.entry(end).or_default() += 1;
                }
            }
            Err((number, _)) => *self.runs.entry(*number).or_default() += 1,
        }
    }

    fn add(&mut self, other: Tally) {
        for (number, times) in other.runs {
            *self.runs.entry(number).or_default() += times;
        }
        for (stop, times) in other.calls {
            *self.calls.entry(stop).or_default() += times;
        }
        self.files += other.files;
        self.through += other.through;
        self.different += other.different;
    }

    fn print(&self) {
        println!("  run through: {}", self.runs.get(&0).unwrap_or(&0));
        print!("{}", refusal_lines(&TABLE_PASSES, &self.runs));
        print!("{}", refusal_lines(&RUN_PASSES, &self.runs));
        println!("  with a rule file: {}", self.files);
        println!("  run through under a rule file: {}", self.through);
        for (stop, times) in &self.calls {
            match stop {
                0 => println!("  calls done: {times}"),
                _ => println!("  calls stopped {stop}: {times}"),
            }
        }
    }
}

/// For each call of a text its stop, or 0 if it was done.
pub fn ends(text: &[u8]) -> Vec<u32> {
    call_lines(text).map(stop_of).collect()
}

/// The stop of a call's line, or 0.
fn stop_of(line: &[u8]) -> u32 {
    let mut words = line.split(|&byte| byte == b' ').skip(2);
    match words.next() {
        Some(b"stop") => words.next().and_then(|word| std::str::from_utf8(word).ok()?.parse().ok()).unwrap_or(0),
        _ => 0,
    }
}

pub fn compare(seed: u64, count: u64) {
    let mut tally = Tally::default();
    std::thread::scope(|scope| {
        let part = |first| scope.spawn(move || compare_part(seed, (first..count).step_by(THREADS as usize)));
        let threads: Vec<_> = (0..THREADS).map(part).collect();
        for thread in threads {
            tally.add(thread.join().expect("comparing does not panic"));
        }
    });
    tally.print();
    println!("{count} runs of seed {seed}: {} different", tally.different);
    std::process::exit(i32::from(tally.different != 0));
}

fn compare_part(seed: u64, numbers: impl Iterator<Item = u64>) -> Tally {
    let mut tally = Tally::default();
    for number in numbers {
        let case = runs::case(seed, number);
        let expected = reference::run(&case.table, &case.list, case.rules.given(), case.text_len);
        tally.count(&case, &expected);
        if let Some(what) = difference(&case, &expected, number) {
            tally.different += 1;
            eprintln!("run {number} of seed {seed} differs: {what}");
        }
    }
    tally
}

/// Runs the case through the C function and tells what is not as expected, if anything.
fn difference(case: &Case, expected: &Result<Vec<u8>, Refusal>, number: u64) -> Option<&'static str> {
    let (table, list, rules) = (case.table.clone(), case.list.clone(), case.rules.clone());
    let before: Vec<u8> = (number..).take(case.text_len + 2 * MARGIN).map(|i| (i * 37 + (i >> 8)) as u8).collect();
    let mut after = before.clone();
    let text = &mut after[MARGIN..MARGIN + case.text_len];
    let answer = proved::run(&table, &list, &rules.bytes, rules.has, text);
    let (number, text) = match expected {
        Ok(text) => (text.len() as u64, &text[..]),
        Err((number, row)) => ((u64::from(*number) << 32) + *row as u64, &[][..]),
    };
    let end = MARGIN + text.len();
    if answer != number {
        Some("answer")
    } else if after[MARGIN..end] != *text {
        Some("text")
    } else if after[..MARGIN] != before[..MARGIN] || after[end..] != before[end..] {
        Some("bytes beside the text changed")
    } else if table != case.table {
        Some("table changed")
    } else if list != case.list {
        Some("list changed")
    } else if rules != case.rules {
        Some("rules changed")
    } else {
        None
    }
}

/// The most records, entries and frames that there were at a time.
#[derive(Default)]
struct Most {
    records: usize,
    entries: usize,
    frames: usize,
}

impl Watch for Most {
    fn comes_up(&mut self, machine: &Machine) {
        self.records = self.records.max(machine.live_records());
        self.entries = self.entries.max(machine.store().len());
        self.frames = self.frames.max(machine.frame_count());
    }
}

fn most_of(course: &Course) -> Most {
    let program = reference::admit(&course.table).expect("the table is accepted");
    let calls = reference::check_list(&program, &course.long).expect("the list is good");
    let mut machine = Machine::new(&program);
    let mut most = Most::default();
    for call in calls {
        machine.call_watched(call.procedure, &call.arguments, call.budget, &mut most);
    }
    most
}

/// Both machines must write the same text for the list.
fn check(course: &Course, list: &[u8], text: &mut [u8]) {
    let expected = reference::run(&course.table, list, None, text.len()).expect("table and list are good");
    assert_eq!(proved::run(&course.table, list, &[], 0, text), expected.len() as u64);
    assert!(text.starts_with(&expected));
}

/// The time of one run in nanoseconds.
fn time(run: impl FnOnce()) -> f64 {
    let start = Instant::now();
    run();
    start.elapsed().as_nanos() as f64
}

/// The least times of a course in nanoseconds, by list and machine.
struct Best {
    proved: [f64; 2],
    plain: [f64; 2],
}

impl Best {
    /// One round.
    fn improve(&mut self, course: &Course, text: &mut [u8]) {
        let table = &course.table;
        for (number, list) in [&course.short, &course.long].into_iter().enumerate() {
            let proved = time(|| {
                black_box(proved::run(black_box(table), black_box(list), &[], 0, text));
            });
            let plain = time(|| {
                black_box(reference::run(black_box(table), black_box(list), None, limit::TEXT_BYTES)).ok();
            });
            self.proved[number] = self.proved[number].min(proved);
            self.plain[number] = self.plain[number].min(plain);
        }
    }
}

/// A course, and the times of one instruction, call or line of its work. What both lists do, judging too, is taken off.
pub struct Measured {
    pub work: Work,
    pub setting: Setting,
    course: Course,
    pub times: Times,
}

/// Measures both machines on each work in each of its settings.
pub fn measure() -> Vec<Measured> {
    let mut text = vec![0; limit::TEXT_BYTES];
    let mut courses = Vec::new();
    for work in loops::WORKS {
        for setting in loops::SETTINGS {
            let Some(course) = loops::course(work, setting) else { continue };
            check(&course, &course.short, &mut text);
            check(&course, &course.long, &mut text);
            let best = Best { proved: [f64::INFINITY; 2], plain: [f64::INFINITY; 2] };
            courses.push((work, setting, course, best));
        }
    }
    // The courses take turns, so that slow times of the computer meet all of them.
    for _ in 0..ROUNDS {
        for (_, _, course, best) in &mut courses {
            best.improve(course, &mut text);
        }
    }
    let measured = |(work, setting, course, best): (_, _, Course, Best)| {
        let each = |[short, long]: [f64; 2]| (long - short) / course.more as f64;
        let times = Times { proved: each(best.proved), plain: each(best.plain) };
        Measured { work, setting, course, times }
    };
    courses.into_iter().map(measured).collect()
}

/// Prints nanoseconds for one instruction, call or line of each course's work on the proved and on the plain machine.
pub fn speed() {
    let all = measure();
    println!(
        "{:23} {:12} {:>6} {:>8} {:>8} {:>7} {:>10} {:>9} {:>7}",
        "loop", "setting", "rows", "records", "entries", "frames", "proved ns", "plain ns", "ratio"
    );
    for Measured { work, setting, course, times } in &all {
        let Times { proved, plain } = times;
        let Most { records, entries, frames } = most_of(course);
        let (work, setting, rows, ratio) = (work.name(), setting.name(), course.table.len() / 16, times.ratio());
        println!(
            "{work:23} {setting:12} {rows:>6} {records:>8} {entries:>8} {frames:>7} \
             {proved:>10.1} {plain:>9.1} {ratio:>7.2}"
        );
    }
}
