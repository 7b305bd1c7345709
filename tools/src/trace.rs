//! A run step by step. Each call of the list has a line, then one for each instruction that comes up, also the one that
//! stops, then one for its end. The text of the run, which stands below in a trace, is handed back.
//!
//! The line of an instruction has its step within the call, the depth of its frame, its row, its name and operand, the
//! frame's operands before it, the topmost last, behind an arrow those that it pushes, and what it changes: the difference
//! between what the machine shows when it comes up and when the next one does, or at the end of the call. What is set to
//! the value that it had is not told, nor a jump to the next row. Below a stop stands what is put back, which is such a
//! difference too.
//!
//! A record is told by a number that is given out once in a run. `&record 3`, `&record 3.field 0` and `&local 1 of frame 2`
//! are references, `&view record 3` is a read-only one. A stale one, whose record was unpacked, whose frame has returned or
//! whose local is empty, is marked as such.

use crate::words;
use reference::list::ListCall;
use reference::machine::{self, Access, Identity, Machine, Outcome, Reference, Value, Watch};
use reference::program::Field;
use reference::row::{limit, read_rows, Row};
use reference::stop::{Stop, STOPS};
use reference::{admit_run, text, Refusal};
use std::collections::{BTreeMap, BTreeSet};
use std::io::{self, Write};

const HEADINGS: [&str; 6] = ["# step", "frame", "row", "instruction", "operands, topmost last -> pushed", "changes"];
const LEGEND: &str = "# & is a reference, &view a read-only one; a stale one leads nowhere any more";

/// Writes the steps of a run and hands back its text; writes nothing if the run is refused.
pub fn write_steps(
    out: &mut impl Write,
    table: &[u8],
    list: &[u8],
    rules: Option<&[u8]>,
) -> io::Result<Result<Vec<u8>, Refusal>> {
    let (program, calls) = match admit_run(table, list, rules, limit::TEXT_BYTES) {
        Ok(admitted) => admitted,
        Err(refusal) => return Ok(Err(refusal)),
    };
    let rows = read_rows(table);
    let mut machine = Machine::new(&program);
    let mut text = Vec::new();
    writeln!(out, "{}\n{LEGEND}\n", columns(HEADINGS))?;
    for (number, call) in calls.iter().enumerate() {
        let mut steps = Steps { rows: &rows, lines: String::new(), count: 0, before: None };
        let outcome = steps.follow(&mut machine, number, call);
        out.write_all(steps.lines.as_bytes())?;
        text::write_call(&mut text, number, &outcome);
    }
    text::write_store(&mut text, &machine);
    Ok(Ok(text))
}

/// The lines of one call.
struct Steps<'t> {
    rows: &'t [Row],
    lines: String,
    /// How many instructions have their line.
    count: usize,
    /// What the machine showed when the last instruction came up, which has no line yet.
    before: Option<Moment>,
}

impl Watch for Steps<'_> {
    fn comes_up(&mut self, machine: &Machine) {
        let now = Moment::of(machine);
        if let Some(before) = self.before.take() {
            self.tell_step(&before, Some(&now));
        }
        self.before = Some(now);
    }
}

impl Steps<'_> {
    fn follow(&mut self, machine: &mut Machine, number: usize, call: &ListCall) -> Outcome {
        let arguments = behind(" with ", numbers(&call.arguments));
        self.line(&format!("call {number}: procedure {}{arguments}, budget {}", call.procedure, call.budget));
        let (outcome, _) = machine.call_watched(call.procedure, &call.arguments, call.budget, self);
        let before = self.before.take().expect("a procedure has instructions");
        let after = Moment::of(machine);
        match &outcome {
            Outcome::Done(results) => {
                self.tell_step(&before, Some(&after));
                self.line(&format!("done{}", behind(" ", numbers(results))));
            }
            Outcome::Stopped { stop, row } => {
                self.tell_step(&before, None);
                self.tell_stop(*stop, *row, memory_changes(&before, &after, &PUT_BACK));
            }
        }
        self.line("");
        outcome
    }

    fn line(&mut self, words: &str) {
        self.lines.push_str(words);
        self.lines.push('\n');
    }

    /// The line of the instruction that came up before, with what it did unless it stopped.
    fn tell_step(&mut self, before: &Moment, after: Option<&Moment>) {
        self.count += 1;
        let frame = before.running().expect("an instruction came up");
        let [step, depth, row] = [self.count, before.frames.len() - 1, frame.row].map(|number| number.to_string());
        let instruction = words::instruction(&self.rows[frame.row]);
        let mut operands = before.list(&frame.operands);
        let mut changed = String::new();
        if let Some(after) = after {
            operands.push_str(&behind(" -> ", after.list(pushed(before, after))));
            changed = changes(before, after).join("; ");
        }
        self.line(&columns([&step, &depth, &row, &instruction, operands.trim_start(), &changed]));
    }

    fn tell_stop(&mut self, stop: Stop, row: usize, put_back: Vec<String>) {
        let (_, cause) = STOPS.iter().find(|(known, _)| *known == stop).expect("all stops are named");
        let number = stop.number();
        self.line(&format!("stop {number} ({cause}) at row {row}; the store is that of the call's beginning"));
        for change in put_back {
            self.line(&format!("  {change}"));
        }
    }
}

/// What the machine shows at one moment, records by their identity.
struct Moment {
    /// The running one last; none at the end of a call.
    frames: Vec<Frame>,
    /// How many operands the instruction that comes up pushes.
    pushes: usize,
    records: BTreeMap<Identity, Record>,
    store: BTreeSet<Entry>,
}

/// Type and address, and the record that is there.
type Entry = (u8, u64, Identity);

struct Frame {
    identity: Identity,
    procedure: u8,
    /// Of the instruction that comes up.
    row: usize,
    locals: Vec<Option<Shown>>,
    operands: Vec<Shown>,
}

struct Record {
    of: u8,
    fields: Vec<Shown>,
}

#[derive(Clone, Copy, PartialEq, Eq)]
enum Shown {
    Number(u64),
    Record(Identity),
    Ref(Reference, Access),
}

impl Moment {
    fn of(machine: &Machine) -> Moment {
        let frames: Vec<Frame> = (0..machine.frame_count()).map(|depth| Frame::of(machine, depth)).collect();
        let record = |(room, identity)| (identity, Record::of(machine, room));
        let entry = |entry: &machine::Entry| (entry.of, entry.address, machine.entry_record(entry));
        Moment {
            pushes: frames.last().map_or(0, |frame| frame.pushes(machine)),
            frames,
            records: machine.live_rooms().map(record).collect(),
            store: machine.store().iter().map(entry).collect(),
        }
    }

    fn running(&self) -> Option<&Frame> {
        self.frames.last()
    }

    fn has_frame(&self, frame: &Frame) -> bool {
        self.frames.iter().any(|other| other.identity == frame.identity)
    }

    fn is_stale(&self, reference: Reference) -> bool {
        match reference {
            Reference::Local { depth, local, frame, .. } => match self.frames.get(usize::from(depth)) {
                Some(found) => found.identity != frame || found.locals[usize::from(local)].is_none(),
                None => true,
            },
            Reference::Field { record, .. } | Reference::Record { record, .. } => !self.records.contains_key(&record),
        }
    }

    fn word(&self, value: Shown) -> String {
        match value {
            Shown::Number(number) => number.to_string(),
            Shown::Record(identity) => format!("record {identity}"),
            Shown::Ref(reference, access) => {
                let mark = if access == Access::ReadOnly { "&view " } else { "&" };
                let place = match reference {
                    Reference::Local { depth, local, .. } => format!("local {local} of frame {depth}"),
                    Reference::Field { record, field, .. } => format!("record {record}.field {field}"),
                    Reference::Record { record, .. } => format!("record {record}"),
                };
                let stale = if self.is_stale(reference) { " (stale)" } else { "" };
                format!("{mark}{place}{stale}")
            }
        }
    }

    fn list<'v>(&self, values: impl IntoIterator<Item = &'v Shown>) -> String {
        join(values.into_iter().map(|&value| self.word(value)))
    }
}

impl Frame {
    fn of(machine: &Machine, depth: usize) -> Frame {
        let shown = |&value: &Value| Shown::of(machine, value);
        Frame {
            identity: machine.frame_identity(depth),
            procedure: machine.frame_procedure(depth),
            row: machine.frame_row(depth),
            locals: machine.frame_locals(depth).iter().map(|local| local.as_ref().map(shown)).collect(),
            operands: machine.frame_operands(depth).iter().map(shown).collect(),
        }
    }

    /// How many operands the instruction that comes up pushes; the frame is the running one.
    fn pushes(&self, machine: &Machine) -> usize {
        let program = machine.program();
        program.arity(program.procedure(self.procedure), machine.upcoming()).1
    }
}

impl Record {
    fn of(machine: &Machine, room: u8) -> Record {
        let (of, values) = machine.record_fields(room);
        let shown = |(field, &value): (&Field, &u64)| match field.sort.is_record() {
            true => Shown::Record(machine.record_identity(value as u8)),
            false => Shown::Number(value),
        };
        Record { of, fields: machine.program().fields(of).iter().zip(values).map(shown).collect() }
    }
}

impl Shown {
    fn of(machine: &Machine, value: Value) -> Shown {
        match value {
            Value::Number(number) => Shown::Number(number),
            Value::Record(room) => Shown::Record(machine.record_identity(room)),
            Value::Ref(reference, access) => Shown::Ref(reference, access),
        }
    }
}

/// The operands that an instruction pushed, if its frame runs on.
fn pushed<'m>(before: &'m Moment, after: &'m Moment) -> &'m [Shown] {
    match runs_on(before, after) {
        Some((_, frame)) => &frame.operands[frame.operands.len() - before.pushes..],
        None => &[],
    }
}

/// The running frame at both moments, if it is the same.
fn runs_on<'m>(before: &'m Moment, after: &'m Moment) -> Option<(&'m Frame, &'m Frame)> {
    let (old, new) = (before.running()?, after.running()?);
    (old.identity == new.identity).then_some((old, new))
}

/// All that differs but for the operands.
fn changes(before: &Moment, after: &Moment) -> Vec<String> {
    let mut changes = frame_changes(before, after);
    changes.extend(local_changes(before, after));
    changes.extend(memory_changes(before, after, &DONE));
    changes
}

/// Frames entered and left, or a jump. The operands of a frame that is left are its results; of one that is entered the
/// parameters alone are full.
fn frame_changes(before: &Moment, after: &Moment) -> Vec<String> {
    let mut changes = Vec::new();
    for frame in before.frames.iter().filter(|frame| !after.has_frame(frame)) {
        let results = behind(" with ", after.list(&frame.operands));
        changes.push(format!("procedure {} returned{results}", frame.procedure));
    }
    for frame in after.frames.iter().filter(|frame| !before.has_frame(frame)) {
        let parameters = behind(" with ", after.list(frame.locals.iter().flatten()));
        changes.push(format!("procedure {} entered{parameters}", frame.procedure));
    }
    match runs_on(before, after) {
        Some((old, new)) if new.row != old.row + 1 => changes.push(format!("jump to row {}", new.row)),
        _ => {}
    }
    changes
}

/// Locals of frames that are there at both moments.
fn local_changes(before: &Moment, after: &Moment) -> Vec<String> {
    let mut changes = Vec::new();
    for (depth, (old, new)) in before.frames.iter().zip(&after.frames).enumerate() {
        if old.identity != new.identity {
            continue;
        }
        let of = if depth + 1 == before.frames.len() { String::new() } else { format!(" of frame {depth}") };
        for (number, (&old, &new)) in old.locals.iter().zip(&new.locals).enumerate() {
            if old != new {
                changes.push(format!("local {number}{of}{}", local_change(before, after, old, new)));
            }
        }
    }
    changes
}

fn local_change(before: &Moment, after: &Moment, old: Option<Shown>, new: Option<Shown>) -> String {
    match (old, new) {
        (_, None) => " emptied".to_string(),
        (None, Some(new)) => format!(" set to {}", after.word(new)),
        (Some(old), Some(new)) => format!(": {} -> {}", before.word(old), after.word(new)),
    }
}

/// What is said of records and store entries that are there at one of two moments only.
struct Wording {
    record_comes: &'static str,
    record_goes: &'static str,
    entry_comes: &'static str,
    entry_goes: &'static str,
}

const DONE: Wording =
    Wording { record_comes: "made", record_goes: "unpacked", entry_comes: "published", entry_goes: "moved out" };

const PUT_BACK: Wording =
    Wording { record_comes: "there again", record_goes: "gone", entry_comes: "there again", entry_goes: "gone" };

/// Records, their fields and the store.
fn memory_changes(before: &Moment, after: &Moment, wording: &Wording) -> Vec<String> {
    let mut changes = record_changes(before, after, wording);
    changes.extend(store_changes(before, after, wording));
    changes
}

fn record_changes(before: &Moment, after: &Moment, wording: &Wording) -> Vec<String> {
    let mut changes = Vec::new();
    for identity in before.records.keys().filter(|identity| !after.records.contains_key(identity)) {
        changes.push(format!("record {identity} {}", wording.record_goes));
    }
    for (identity, new) in &after.records {
        match before.records.get(identity) {
            Some(old) => changes.extend(field_changes(*identity, old, new, after)),
            None => {
                let fields = after.list(&new.fields);
                changes.push(format!("record {identity} of type {} {} ({fields})", new.of, wording.record_comes));
            }
        }
    }
    changes
}

fn field_changes(identity: Identity, old: &Record, new: &Record, after: &Moment) -> Vec<String> {
    let mut changes = Vec::new();
    for (number, (&old, &new)) in old.fields.iter().zip(&new.fields).enumerate() {
        if old != new {
            changes.push(format!("record {identity} field {number}: {} -> {}", after.word(old), after.word(new)));
        }
    }
    changes
}

fn store_changes(before: &Moment, after: &Moment, wording: &Wording) -> Vec<String> {
    let gone = before.store.difference(&after.store).map(|entry| (entry, wording.entry_goes));
    let come = after.store.difference(&before.store).map(|entry| (entry, wording.entry_comes));
    let change = |((of, address, record), how): (&Entry, &str)| format!("store {of} {address}: record {record} {how}");
    gone.chain(come).map(change).collect()
}

/// A line of the cells in their columns.
fn columns([step, depth, row, instruction, operands, changed]: [&str; 6]) -> String {
    let line = format!("{step:>6} {depth:>5} {row:>5}  {instruction:<16}  {operands:<36}  {changed}");
    line.trim_end().to_string()
}

fn numbers(of: &[u64]) -> String {
    join(of.iter().map(u64::to_string))
}

fn join(words: impl Iterator<Item = String>) -> String {
    words.collect::<Vec<_>>().join(", ")
}

/// The words behind `sign`, or nothing if there are none.
fn behind(sign: &str, words: String) -> String {
    if words.is_empty() {
        words
    } else {
        format!("{sign}{words}")
    }
}
