//! Tables and lists for the speed of running: loops that go on until the budget is spent, and lists of short calls, each alone and
//! in settings that should not matter to them; a full store that is printed.

use reference::gen::plan::{argument_row, asm::*, call_row, Code, Plan, ProcPlan};
use reference::program::Sort;
use reference::row::{limit, write_rows, Row};

const N: Sort = Sort::Number;

/// What a list does again and again.
#[derive(Clone, Copy, Debug, PartialEq, Eq)]
pub enum Work {
    /// Takes 1 from a number in a local.
    Arithmetic,
    /// Adds 1 to a field of a record in a local, through a reference.
    Field,
    /// Packs a record, publishes it, withdraws it and unpacks it.
    Store,
    /// Calls a procedure that returns at once.
    Call,
    /// Short calls of the list that end.
    Ends,
    /// Short calls of the list that stop.
    Stops,
    /// Short calls of the list that change records and end.
    Changes,
    /// Short calls of the list that change records and stop, so that what they changed is put back.
    Undone,
    /// Prints a full store whose keys were published rising.
    Rising,
    /// The same with keys falling.
    Falling,
    /// The same with keys in no order.
    Mixed,
}

pub const WORKS: [Work; 11] = [
    Work::Arithmetic,
    Work::Field,
    Work::Store,
    Work::Call,
    Work::Ends,
    Work::Stops,
    Work::Changes,
    Work::Undone,
    Work::Rising,
    Work::Falling,
    Work::Mixed,
];

impl Work {
    pub fn name(self) -> &'static str {
        match self {
            Work::Arithmetic => "arithmetic",
            Work::Field => "record field",
            Work::Store => "Pack to Unpack",
            Work::Call => "Call and Ret",
            Work::Ends => "short calls (a call)",
            Work::Stops => "stopped calls (a call)",
            Work::Changes => "changing calls (a call)",
            Work::Undone => "undone calls (a call)",
            Work::Rising => "rising keys (a line)",
            Work::Falling => "falling keys (a line)",
            Work::Mixed => "mixed keys (a line)",
        }
    }

    /// Whether the list's calls are short, so that they and not their instructions are counted.
    fn is_short(self) -> bool {
        matches!(self, Work::Ends | Work::Stops | Work::Changes | Work::Undone)
    }

    /// For each of the keys of a full store that the work prints, as number of 64, when it is published; none if it prints none.
    fn keys(self) -> Option<fn(usize) -> usize> {
        match self {
            Work::Rising => Some(|turn| turn),
            Work::Falling => Some(|turn| limit::ENTRIES - 1 - turn),
            Work::Mixed => Some(|turn| turn * 29 % limit::ENTRIES),
            _ => None,
        }
    }

    /// Records and entries that the work has at most at a time, beyond those that it finds.
    fn needs(self) -> (usize, usize) {
        match self {
            Work::Field | Work::Changes | Work::Undone => (1, 0),
            Work::Store => (1, 1),
            _ => (0, 0),
        }
    }
}

/// What is there besides the work.
#[derive(Clone, Copy, Debug, PartialEq, Eq)]
pub enum Setting {
    Alone,
    /// 127 records live and the store has 63 entries, those of the work included.
    FullMemory,
    /// The work is done in the topmost of 16 frames.
    DeepFrames,
    /// The table has 2,048 rows; other modules stand before and after.
    LongTable,
}

pub const SETTINGS: [Setting; 4] = [Setting::Alone, Setting::FullMemory, Setting::DeepFrames, Setting::LongTable];

impl Setting {
    pub fn name(self) -> &'static str {
        match self {
            Setting::Alone => "alone",
            Setting::FullMemory => "full memory",
            Setting::DeepFrames => "deep frames",
            Setting::LongTable => "long table",
        }
    }
}

/// A table and two lists that differ only in how much of the work they do.
pub struct Course {
    pub table: Vec<u8>,
    pub short: Vec<u8>,
    pub long: Vec<u8>,
    /// Instructions, calls where they are short, or lines of the store, of the work that only the long list does.
    pub more: u64,
}

/// Budgets of a loop's call: the small one too brings every loop to its first round. A run takes few milliseconds, so that some of
/// many are not disturbed by what else the machine does.
const BUDGETS: (u32, u32) = (1_000, 17_000);

/// The work in the setting; none for short calls on deep frames, as calls of the list start without a frame, and none for printing
/// where the work is not alone.
pub fn course(work: Work, setting: Setting) -> Option<Course> {
    if let Some(keys) = work.keys() {
        return (setting == Setting::Alone).then(|| printing(keys));
    }
    if work.is_short() && setting == Setting::DeepFrames {
        return None;
    }
    let mut plan = Plan::default();
    let mut before = Vec::new();
    match setting {
        Setting::FullMemory => {
            let (records, entries) = work.needs();
            before = fill(&mut plan, 127 - records, 63 - entries);
        }
        Setting::LongTable => add_crowd(&mut plan, 6, 4, 960),
        _ => {}
    }
    let mut procedure = add_work(&mut plan, work);
    let mut arguments = Vec::new();
    if setting == Setting::DeepFrames {
        procedure = add_descent(&mut plan, procedure);
        // The frame of depth 0, that of the work and those that it makes.
        let others = if work == Work::Call { 3 } else { 2 };
        arguments.push(argument_row((limit::FRAMES - others) as u64));
    }
    if setting == Setting::LongTable {
        let rows = limit::ROWS - plan.rows().len();
        add_crowd(&mut plan, 7, 4, rows);
    }
    let list = |calls: usize, budget: u32| {
        let call = [&[call_row(procedure, budget)], &arguments[..]].concat();
        write_rows(&[&before[..], &call.repeat(calls)].concat())
    };
    let (short, long, more) = if work.is_short() {
        let calls = limit::LIST_BYTES / 16 - before.len();
        (list(0, limit::BUDGET), list(calls, limit::BUDGET), calls as u64)
    } else {
        let (small, large) = BUDGETS;
        (list(1, small), list(1, large), u64::from(large - small))
    };
    Some(Course { table: plan.bytes(), short, long, more })
}

/// A call that publishes the keys in these turns, sixteen of each of four types; in the short list it stops at last, so that there is
/// nothing to print.
fn printing(key: fn(usize) -> usize) -> Course {
    let mut plan = Plan::default();
    let module = add_module(&mut plan);
    let types: Vec<u16> = (0..4).map(|_| plan.add_type(module, &[(N, false)])).collect();
    let mut code = Vec::new();
    for turns in [0..limit::ENTRIES / 2, limit::ENTRIES / 2..limit::ENTRIES] {
        let publish = |turn: usize| {
            let of = types[key(turn) / 16];
            [load(500), pack(of), load(key(turn) as u64 % 16), move_to(of)]
        };
        let half = turns.flat_map(publish).chain([ret()]).collect();
        code.push(call(plan.add_proc(ProcPlan { module, code: half, ..ProcPlan::default() })));
    }
    code.extend([mv(0), load(1), arith(SUB), pop(), ret()]);
    let all = plan.add_proc(ProcPlan { module, public: true, params: vec![N], code, ..ProcPlan::default() });
    let list = |last: u64| write_rows(&[call_row(all, limit::BUDGET), argument_row(last)]);
    Course { table: plan.bytes(), short: list(0), long: list(1), more: limit::ENTRIES as u64 }
}

fn add_module(plan: &mut Plan) -> usize {
    plan.trusted.push(false);
    plan.trusted.len() - 1
}

/// Adds a module that does the work and tells the number of its procedure.
fn add_work(plan: &mut Plan, work: Work) -> u16 {
    let module = add_module(plan);
    let of = match work {
        Work::Field | Work::Store | Work::Changes | Work::Undone => plan.add_type(module, &[(N, false)]),
        _ => 0,
    };
    let mut others = Vec::new();
    let mut results = Vec::new();
    let code = match work {
        Work::Arithmetic => {
            others = vec![N];
            vec![load(1_000_000_000), st(0), mv(0), load(1), arith(SUB), st(0), jump(2)]
        }
        Work::Field => {
            others = vec![Sort::Record(of as u8), Sort::NumberRef];
            let make = [load(0), pack(of), st(0)];
            let round = [borrow(0), field(of, 0), st(1), cp(1), read(), load(1), arith(ADD), cp(1), write(), jump(3)];
            [&make[..], &round].concat()
        }
        Work::Store => {
            vec![load(5), pack(of), load(7), move_to(of), load(7), move_from(of), unpack(of), pop(), jump(0)]
        }
        Work::Call => {
            let callee = plan.add_proc(ProcPlan { module, public: true, code: vec![ret()], ..ProcPlan::default() });
            vec![call(callee), jump(0)]
        }
        Work::Ends => {
            results = vec![N];
            vec![load(1), load(2), arith(ADD), ret()]
        }
        Work::Stops => {
            results = vec![N];
            vec![load(1), load(2), arith(SUB), ret()]
        }
        Work::Changes => vec![load(5), pack(of), unpack(of), pop(), ret()],
        Work::Undone => vec![load(5), pack(of), unpack(of), load(6), arith(SUB), pop(), ret()],
        Work::Rising | Work::Falling | Work::Mixed => unreachable!("what prints has a course of its own"),
    };
    plan.add_proc(ProcPlan { module, public: true, others, results, code, ..ProcPlan::default() })
}

/// Adds a procedure that calls itself as often as its argument says, and then the one that is given.
pub fn add_descent(plan: &mut Plan, last: u16) -> u16 {
    let own = plan.procs.len() as u16;
    let module = plan.trusted.len() - 1;
    let others = vec![N; limit::LOCALS - 1];
    let code = vec![cp(0), jump_if(4), call(last), ret(), mv(0), load(1), arith(SUB), call(own), ret()];
    plan.add_proc(ProcPlan { module, public: true, params: vec![N], others, code, ..ProcPlan::default() })
}

/// Adds a module that publishes boxes of a coin each and crates of two coins each, and gives the list's rows that make as many
/// records and entries as asked.
fn fill(plan: &mut Plan, records: usize, entries: usize) -> Vec<Row> {
    let module = add_module(plan);
    let coin = plan.add_type(module, &[(N, false)]);
    let inside = (Sort::Record(coin as u8), false);
    let one = plan.add_type(module, &[inside]);
    let two = plan.add_type(module, &[inside, inside]);
    let crates = records - 2 * entries;
    let boxes = entries - crates;
    let mut rows = Vec::new();
    for (count, of, coins) in [(boxes, one, 1), (crates, two, 2)] {
        let make = [load(5), pack(coin)].repeat(coins);
        let procedure = add_fill(plan, module, of, &make);
        if count > 0 {
            rows.extend([call_row(procedure, limit::BUDGET), argument_row(count as u64)]);
        }
    }
    rows
}

/// Adds a procedure that publishes as many records of a type as its argument says; `make` pushes the fields of one.
pub fn add_fill(plan: &mut Plan, module: usize, of: u16, make: &[Code]) -> u16 {
    let publish = [pack(of), cp(0), move_to(of), mv(0), load(1), arith(SUB), st(0), cp(0), jump_if(0), ret()];
    let code = [make, &publish].concat();
    plan.add_proc(ProcPlan { module, public: true, params: vec![N], code, ..ProcPlan::default() })
}

/// Adds modules of as many types each and eight procedures each, of `rows` rows in all.
pub fn add_crowd(plan: &mut Plan, modules: usize, types: usize, rows: usize) {
    for number in 0..modules {
        let module = add_module(plan);
        for _ in 0..types {
            plan.add_type(module, &[(N, false); 3]);
        }
        // Procedures have a parameter and a result, fields and types four rows.
        let code = share(rows, modules, number) - 1 - 4 * types - 8 * 3;
        for place in 0..8 {
            let code = idle(share(code, 8, place));
            let (params, results) = (vec![N], vec![N]);
            plan.add_proc(ProcPlan { module, public: true, params, results, code, ..ProcPlan::default() });
        }
    }
}

/// Part `number` of `whole` parted as evenly as may be.
fn share(whole: usize, parts: usize, number: usize) -> usize {
    whole / parts + usize::from(number < whole % parts)
}

/// As many instructions, the last of which return local 0.
fn idle(length: usize) -> Vec<Code> {
    let mut code = vec![jump(1); length % 2];
    while code.len() + 2 < length {
        code.extend([load(3), pop()]);
    }
    code.extend([cp(0), ret()]);
    code
}
