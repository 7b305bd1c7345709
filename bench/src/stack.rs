//! The stack that the C functions need: the stack below a call is filled with a pattern beforehand, and read back afterwards
//! through /proc/self/mem.

use crate::loops::{self, SETTINGS, WORKS};
use crate::{judging, policies, proved, running};
use reference::gen::plan::{argument_row, asm::*, call_row, Plan, ProcPlan};
use reference::gen::limits;
use reference::gen::runs::{self, Case};
use reference::gen::tables::{self, TableCase};
use reference::program::Sort;
use reference::row::{limit, write_rows};
use std::fs::File;
use std::hint::black_box;
use std::os::unix::fs::FileExt;

const SEED: u64 = 11;

/// Made tables and made runs that are tried.
const MADE: u64 = 1_000;

/// Bytes of stack that are filled.
const AREA: usize = 512 * 1024;

const PAINT: u8 = 0xA5;

/// Reads back what calls leave on the stack.
struct Gauge {
    memory: File,
    area: Vec<u8>,
}

impl Gauge {
    /// The bytes of stack that the call needs.
    #[inline(never)]
    fn depth(&mut self, call: &mut dyn FnMut()) -> usize {
        let top = black_box(&self.area.len()) as *const usize as usize;
        let low = paint();
        call();
        self.memory.read_exact_at(&mut self.area, low as u64).expect("own memory is readable");
        let untouched = self.area.iter().position(|&byte| byte != PAINT).unwrap_or(AREA);
        assert!(untouched > 0, "the call needs more stack than was filled");
        top - (low + untouched)
    }

    fn judge(&mut self, table: &[u8], rules: &[u8], has: u64) -> usize {
        self.depth(&mut || {
            black_box(proved::judge(table, rules, has));
        })
    }

    fn run(&mut self, table: &[u8], list: &[u8], rules: &[u8], has: u64, text: &mut [u8]) -> usize {
        self.depth(&mut || {
            black_box(proved::run(table, list, rules, has, text));
        })
    }
}

/// Fills the stack below the caller and tells the lowest address filled.
#[inline(never)]
fn paint() -> usize {
    let area = [PAINT; AREA];
    black_box(&area).as_ptr() as usize
}

/// The deepest of several calls: how deep, how many of them went there, and the first that did.
#[derive(Default)]
struct Deepest {
    calls: u64,
    bytes: usize,
    reached: u64,
    first: String,
}

impl Deepest {
    fn add(&mut self, bytes: usize, name: impl Fn() -> String) {
        self.calls += 1;
        if bytes > self.bytes {
            self.bytes = bytes;
            self.reached = 0;
            self.first = name();
        }
        self.reached += u64::from(bytes == self.bytes);
    }

    fn print(&self, what: &str) {
        let Deepest { calls, bytes, reached, first } = self;
        let kilobytes = *bytes as f64 / 1_000.0;
        println!("{what:48} {bytes:>7} bytes ({kilobytes:.1} KB), in {reached} of {calls} calls, first in {first}");
    }
}

/// A table of 2,048 rows with types nested 64 deep, and a list that needs a 17th frame, publishes a record of the last type from the
/// 16th frame, then 63 other entries, and last finds no room for a second such record.
fn nested() -> (Vec<u8>, Vec<u8>) {
    let mut plan = Plan { trusted: vec![true], ..Plan::default() };
    let mut code = vec![load(u64::MAX)];
    plan.add_type(0, &[(Sort::Number, true)]);
    code.push(pack(0));
    for number in 1..limit::TYPES as u8 {
        plan.add_type(0, &[(Sort::Record(number - 1), false), (Sort::Number, true)]);
        code.extend([load(u64::MAX), pack(number.into())]);
    }
    code.extend([load(u64::MAX), move_to(limit::TYPES as u16 - 1), ret()]);
    let publish = plan.add_proc(ProcPlan { public: true, code, ..ProcPlan::default() });
    let descent = loops::add_descent(&mut plan, publish);
    let fill = loops::add_fill(&mut plan, 0, 0, &[load(u64::MAX)]);
    let rows = limit::ROWS - plan.rows().len();
    loops::add_crowd(&mut plan, 14, 0, rows);
    let list = [
        call_row(descent, limit::BUDGET),
        argument_row(limit::FRAMES as u64 - 1),
        call_row(descent, limit::BUDGET),
        argument_row(limit::FRAMES as u64 - 2),
        call_row(fill, limit::BUDGET),
        argument_row(limit::ENTRIES as u64 - 1),
        call_row(publish, limit::BUDGET),
    ];
    let (table, list) = (plan.bytes(), write_rows(&list));
    let text = reference::run(&table, &list, None, limit::TEXT_BYTES).expect("table and list are good");
    let ends = running::ends(&text);
    assert_eq!((table.len(), &ends[..]), (16 * limit::ROWS, &[36, 0, 0, 37][..]));
    let opened = text.iter().take_while(|&&byte| byte != b')').filter(|&&byte| byte == b'(').count();
    assert_eq!(opened, limit::TYPES - 1);
    (table, list)
}

/// Tables and lists made to need much.
fn hard() -> Vec<(String, Vec<u8>, Vec<u8>)> {
    let mut cases = Vec::new();
    let (table, list) = nested();
    cases.push(("64 nested types".to_string(), table, list));
    for work in WORKS {
        for setting in SETTINGS {
            if let Some(course) = loops::course(work, setting) {
                cases.push((format!("{}, {}", work.name(), setting.name()), course.table, course.long));
            }
        }
    }
    cases.push(("credits, 2,048 rows".to_string(), judging::full(), Vec::new()));
    cases.push(("rounds, 16 locals".to_string(), judging::rounds(40, 16), Vec::new()));
    cases.push(("16 modules, 2,048 rows".to_string(), policies::table(limit::ROWS), write_rows(&[call_row(0, limit::BUDGET)])));
    for number in 0..limits::TABLES {
        cases.push((format!("limit {number}"), limits::table(number), Vec::new()));
    }
    cases
}

pub fn measure() {
    let thread = std::thread::Builder::new().stack_size(4 * AREA).spawn(measure_here).expect("a thread starts");
    thread.join().expect("measuring does not panic");
}

fn measure_here() {
    let memory = File::open("/proc/self/mem").expect("own memory is readable");
    let mut gauge = Gauge { memory, area: vec![0; AREA] };
    let mut nothing = Deepest::default();
    nothing.add(gauge.depth(&mut || ()), || "the measuring itself".to_string());
    nothing.print("no call");

    measure_made(&mut gauge);
    measure_hard(&mut gauge);
}

/// Made tables and runs, without rule files and with their own.
fn measure_made(gauge: &mut Gauge) {
    let [mut judged, mut ran, mut judged_under, mut ran_under] = std::array::from_fn(|_| Deepest::default());
    for number in 0..MADE {
        let name = || format!("{number} of seed {SEED}");
        let of_run = || format!("table of run {number} of seed {SEED}");
        let TableCase { table, rules } = tables::case(SEED, number);
        judged.add(gauge.judge(&table, &[], 0), name);
        judged_under.add(gauge.judge(&table, &rules.bytes, 1), name);
        let Case { table, list, rules, text_len } = runs::case(SEED, number);
        let mut text = vec![0; text_len];
        judged.add(gauge.judge(&table, &[], 0), of_run);
        judged_under.add(gauge.judge(&table, &rules.bytes, 1), of_run);
        ran.add(gauge.run(&table, &list, &[], 0, &mut text), name);
        ran_under.add(gauge.run(&table, &list, &rules.bytes, 1, &mut text), name);
    }
    judged.print("yithrel_judge, made tables");
    ran.print("yithrel_run, made runs");
    judged_under.print("yithrel_judge, made tables with rule files");
    ran_under.print("yithrel_run, made runs with rule files");
}

/// Tables and runs at the limits, without a rule file and with each of several.
fn measure_hard(gauge: &mut Gauge) {
    let [mut judged, mut ran, mut judged_under, mut ran_under] = std::array::from_fn(|_| Deepest::default());
    let mut text = vec![0; limit::TEXT_BYTES];
    let files = policies::files();
    for (name, table, list) in hard() {
        judged.add(gauge.judge(&table, &[], 0), || name.clone());
        ran.add(gauge.run(&table, &list, &[], 0, &mut text), || name.clone());
        for (file, rules) in &files {
            let name = || format!("{name}, {file}");
            judged_under.add(gauge.judge(&table, rules, 1), name);
            ran_under.add(gauge.run(&table, &list, rules, 1, &mut text), name);
        }
    }
    judged.print("yithrel_judge, tables at the limits");
    ran.print("yithrel_run, runs at the limits");
    judged_under.print("yithrel_judge, tables at the limits, rule files");
    ran_under.print("yithrel_run, runs at the limits, rule files");
}
