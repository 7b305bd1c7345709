//! What each row says, by name and number: of tables, lists of calls and rule files, also of broken ones. A listing is
//! no judgement; but what is not allowed in a row by itself is told behind a `;`.

use crate::{notation, words};
use reference::row::{kind, limit, op, read_rows, sort, uses, Row, Uses};
use reference::rules::RULE;
use std::collections::HashMap;

/// Kinds of list rows.
const CALL: u8 = 1;
const ARGUMENT: u8 = 2;

/// Of the rows that jump to an instruction, so many are told.
const JUMPS_TOLD: usize = 3;

/// The listing of a table.
pub fn table(bytes: &[u8]) -> String {
    let table = Table::read(bytes);
    notation::lines(bytes, |row| table.row(row))
}

/// The listing of a list of calls over a table.
pub fn list(table: &[u8], list: &[u8]) -> String {
    let table = Table::read(table);
    let rows = read_rows(list);
    let (mut calls, mut arguments) = (0, 0);
    let mut says = Vec::new();
    for (place, row) in rows.iter().enumerate() {
        says.push(match row.kind {
            CALL => {
                (calls, arguments) = (calls + 1, 0);
                table.call(calls - 1, row, &rows[place + 1..])
            }
            ARGUMENT => {
                arguments += 1;
                argument(arguments - 1, calls > 0, row)
            }
            _ => no_kind(row),
        });
    }
    notation::lines(list, |row| says[row].clone())
}

/// The listing of a rule file.
pub fn rules(bytes: &[u8]) -> String {
    let rows = read_rows(bytes);
    notation::lines_by_bytes(bytes, |row| rule(&rows[row]))
}

/// A table as far as it can be read. A row belongs to the nearest row above that can have it: a type or procedure to a
/// module, a field to a type, and locals, results and instructions to a procedure.
#[derive(Default)]
struct Table {
    rows: Vec<Row>,
    places: Vec<Place>,
    /// The rows of modules.
    modules: Vec<usize>,
    types: Vec<Owner>,
    procedures: Vec<Owner>,
    /// For each procedure, how many of its first locals are parameters.
    takes: Vec<usize>,
    /// The rows that jump to a row.
    jumps: HashMap<usize, Vec<usize>>,
}

/// A row's number among its like, and the number of what it belongs to.
#[derive(Clone, Copy, Default)]
struct Place {
    number: usize,
    of: Option<usize>,
}

/// A type or a procedure.
struct Owner {
    row: usize,
    module: Option<usize>,
    /// The rows that belong to it, by kind.
    members: [Vec<usize>; kind::INSTRUCTION as usize + 1],
}

impl Owner {
    fn new(row: usize, module: Option<usize>) -> Owner {
        Owner { row, module, members: Default::default() }
    }

    fn members(&self, kind: u8) -> &[usize] {
        &self.members[usize::from(kind)]
    }
}

impl Table {
    fn read(bytes: &[u8]) -> Table {
        let mut table = Table { rows: read_rows(bytes), ..Table::default() };
        for row in 0..table.rows.len() {
            let place = table.place(row);
            table.places.push(place);
        }
        let is_parameter = |&&row: &&usize| table.rows[row].c == 1;
        let takes = |of: &Owner| of.members(kind::LOCAL).iter().take_while(is_parameter).count();
        table.takes = table.procedures.iter().map(takes).collect();
        for row in 0..table.rows.len() {
            if let Some(to) = table.target(row) {
                table.jumps.entry(to).or_default().push(row);
            }
        }
        table
    }

    /// Counts a row in and tells its place.
    fn place(&mut self, row: usize) -> Place {
        let kind = self.rows[row].kind;
        let module = self.modules.len().checked_sub(1);
        match kind {
            kind::MODULE => Place { number: push(&mut self.modules, row), of: None },
            kind::TYPE => Place { number: push(&mut self.types, Owner::new(row, module)), of: module },
            kind::PROCEDURE => Place { number: push(&mut self.procedures, Owner::new(row, module)), of: module },
            kind::FIELD => member_place(&mut self.types, kind, row),
            kind::LOCAL | kind::RESULT | kind::INSTRUCTION => member_place(&mut self.procedures, kind, row),
            _ => Place::default(),
        }
    }

    /// The row that a row jumps to.
    fn target(&self, row: usize) -> Option<usize> {
        let Row { kind, a, b, .. } = self.rows[row];
        if kind != kind::INSTRUCTION || !matches!(a, op::BRANCH | op::BRANCH_COND) {
            return None;
        }
        let procedure = &self.procedures[self.places[row].of?];
        procedure.members(kind::INSTRUCTION).get(usize::from(b)).copied()
    }

    /// What a row says, and behind it what there is to note.
    fn row(&self, number: usize) -> String {
        let row = &self.rows[number];
        let Place { number: n, of } = self.places[number];
        let says = match row.kind {
            kind::MODULE => format!("module {n}, {}", trust(row)),
            kind::TYPE => format!("  type {n} of {}", part("module", of)),
            kind::FIELD => format!("    field {n} of {}: {}", part("type", of), self.field_sort(row, of)),
            kind::PROCEDURE => format!("  procedure {n} of {}, {}", part("module", of), visibility(row)),
            kind::LOCAL => format!("    local {n}: {}{}", self.sort(row), parameter(row)),
            kind::RESULT => format!("    result {n}: {}", self.sort(row)),
            kind::INSTRUCTION => format!("    {n:>3} {}{}", words::instruction(row), self.operand(number)),
            _ => return no_kind(row),
        };
        let notes = [
            self.note_jumps(number),
            self.note_owner(number),
            self.note_order(number),
            self.note_limit(number),
            self.note_guard(number),
            self.note_parameter(number),
            note_unused(row, uses(row.kind, row.a)),
        ];
        with_notes(says, notes)
    }

    /// The sort of a local or result.
    fn sort(&self, row: &Row) -> String {
        let names_type = sort::uses_b(row.a) && row.a <= sort::LAST;
        let missing = names_type && usize::from(row.b) >= self.types.len();
        words::sort_name(row.a, row.b) + if missing { ", which is none" } else { "" }
    }

    /// The sort of a field, and whether it is guarded. The type of a record must be lower than the field's own.
    fn field_sort(&self, row: &Row, of: Option<usize>) -> String {
        let lower = of.is_some_and(|of| usize::from(row.b) < of);
        let fault = match self.types.get(usize::from(row.b)) {
            _ if row.a != sort::RECORD => "",
            None => ", which is none",
            Some(_) if lower => "",
            Some(_) => ", which is not lower",
        };
        let guard = match row.c {
            0 => String::new(),
            1 => ", guarded".to_string(),
            other => format!(", C {other}, which is none"),
        };
        format!("{}{fault}{guard}", field_name(row))
    }

    /// What the operand of an instruction stands for.
    fn operand(&self, number: usize) -> String {
        let row = &self.rows[number];
        let b = usize::from(row.b);
        let names = match row.a {
            op::MV_LOC..=op::BORROW_LOC => self.local(b, self.places[number].of),
            op::BORROW_FLD => self.field(b / limit::FIELDS, b % limit::FIELDS),
            op::PACK..=op::EXISTS => self.type_of(b),
            op::CALL => self.callee(b),
            op::BRANCH | op::BRANCH_COND => match self.target(number) {
                Some(to) => format!("to row {to}"),
                None => format!("instruction {b}, which is none"),
            },
            op::OP => match words::OPERATIONS.get(b) {
                Some(name) => name.to_string(),
                None => format!("operation {b}, which is none"),
            },
            _ => return String::new(),
        };
        format!(": {names}")
    }

    fn local(&self, number: usize, of: Option<usize>) -> String {
        let row = of.and_then(|of| self.procedures[of].members(kind::LOCAL).get(number));
        match row {
            Some(&row) => format!("local {number}, {}", self.sort(&self.rows[row])),
            None => format!("local {number}, which is none"),
        }
    }

    fn field(&self, of: usize, number: usize) -> String {
        let Some(owner) = self.types.get(of) else {
            return format!("type {of}, which is none");
        };
        let Some(&row) = owner.members(kind::FIELD).get(number) else {
            return format!("field {number} of type {of}, which is none");
        };
        let row = &self.rows[row];
        let guarded = if row.c == 1 { "guarded " } else { "" };
        format!("field {number} of type {of}, {guarded}{}", field_name(row))
    }

    fn type_of(&self, number: usize) -> String {
        match self.types.get(number) {
            Some(owner) => format!("type {number} of {}", part("module", owner.module)),
            None => format!("type {number}, which is none"),
        }
    }

    fn callee(&self, number: usize) -> String {
        let Some(callee) = self.procedures.get(number) else {
            return format!("procedure {number}, which is none");
        };
        let (visibility, module) = (visibility(&self.rows[callee.row]), part("module", callee.module));
        let gives = callee.members(kind::RESULT).len();
        format!("{visibility}, {module}, takes {}, gives {gives}", self.takes[number])
    }

    fn note_jumps(&self, number: usize) -> Option<String> {
        let jumps = self.jumps.get(&number)?;
        let rows: Vec<String> = jumps.iter().take(JUMPS_TOLD).map(usize::to_string).collect();
        let rest = match jumps.len() - rows.len() {
            0 => String::new(),
            more => format!(" and {more} more"),
        };
        let word = if jumps.len() == 1 { "row" } else { "rows" };
        Some(format!("from {word} {}{rest}", rows.join(", ")))
    }

    fn note_owner(&self, number: usize) -> Option<String> {
        let inside = matches!(self.rows[number].kind, kind::LOCAL | kind::RESULT | kind::INSTRUCTION);
        (inside && self.places[number].of.is_none()).then(|| "in no procedure".to_string())
    }

    fn note_order(&self, number: usize) -> Option<String> {
        let this = self.rows[number].kind;
        let Some(above) = number.checked_sub(1).map(|above| self.rows[above].kind) else {
            return (this != kind::MODULE).then(|| "the first row must be a module".to_string());
        };
        let may_follow = words::may_follow(this)?;
        let name = |kind| words::kind_name(kind).map_or(format!("kind {kind}"), str::to_string);
        (!may_follow.contains(&above)).then(|| format!("{} may not follow {}", name(this), name(above)))
    }

    fn note_limit(&self, number: usize) -> Option<String> {
        let most = words::most(self.rows[number].kind);
        (self.places[number].number >= most).then(|| format!("past the limit of {most}"))
    }

    fn note_guard(&self, number: usize) -> Option<String> {
        let row = &self.rows[number];
        if row.kind != kind::FIELD || row.c != 1 {
            return None;
        }
        let module = self.places[number].of.and_then(|of| self.types[of].module);
        let guest = module.is_some_and(|module| self.rows[self.modules[module]].a == 0);
        if row.a == sort::NUMBER && !guest {
            return None;
        }
        Some(if guest { "a guard in a guest" } else { "a guard on what is no number" }.to_string())
    }

    fn note_parameter(&self, number: usize) -> Option<String> {
        let row = &self.rows[number];
        let Place { number, of } = self.places[number];
        let late = row.kind == kind::LOCAL && row.c == 1 && number >= self.takes[of?];
        late.then(|| "a parameter after another local".to_string())
    }

    /// A call of a list, which is followed by the rows below.
    fn call(&self, number: usize, row: &Row, below: &[Row]) -> String {
        let procedure = usize::from(row.b);
        let given = below.iter().take_while(|row| row.kind == ARGUMENT).count();
        let (callee, arguments, sorts) = match self.procedures.get(procedure) {
            Some(owner) => (self.called(owner), note_arguments(given, self.takes[procedure]), self.note_sorts(owner)),
            None => (", which is none".to_string(), None, None),
        };
        let good = (1..=limit::BUDGET).contains(&row.c);
        let notes = [
            arguments,
            sorts,
            (!good).then(|| format!("a budget is 1 to {}", limit::BUDGET)),
            note_unused(row, Uses { a: false, b: true, c: true, d: false }),
        ];
        with_notes(format!("call {number}: procedure {procedure}{callee}, budget {}", row.c), notes)
    }

    /// Where a called procedure stands, and its visibility if it is not public.
    fn called(&self, owner: &Owner) -> String {
        let row = &self.rows[owner.row];
        let visibility = match row.a {
            0 => ", which is private".to_string(),
            1 => String::new(),
            _ => format!(", {}", visibility(row)),
        };
        format!(" (row {}){visibility}", owner.row)
    }

    fn note_sorts(&self, owner: &Owner) -> Option<String> {
        let locals = owner.members(kind::LOCAL).iter().filter(|&&row| self.rows[row].c == 1);
        let mut rows = locals.chain(owner.members(kind::RESULT));
        rows.any(|&row| self.rows[row].a != sort::NUMBER).then(|| "takes or gives what is no number".to_string())
    }
}

fn push<T>(list: &mut Vec<T>, item: T) -> usize {
    list.push(item);
    list.len() - 1
}

/// Gives a row to the last of the owners.
fn member_place(owners: &mut [Owner], kind: u8, row: usize) -> Place {
    match owners.len().checked_sub(1) {
        Some(of) => Place { number: push(&mut owners[of].members[usize::from(kind)], row), of: Some(of) },
        None => Place::default(),
    }
}

fn argument(number: usize, of_call: bool, row: &Row) -> String {
    let of = if of_call { "" } else { " of no call" };
    let unused = note_unused(row, Uses { a: false, b: false, c: false, d: true });
    with_notes(format!("  argument {number}{of}: {}", row.d), [unused])
}

fn rule(row: &Row) -> String {
    if row.kind != RULE {
        return no_kind(row);
    }
    let [first_caller, last_caller, first_called, last_called] = row.c.to_le_bytes();
    let says = match row.a {
        0 => "forbid".to_string(),
        1 => "allow".to_string(),
        other => format!("A {other}, neither allow nor forbid:"),
    };
    let says = format!("{says} {} to call {}", modules(first_caller, last_caller), modules(first_called, last_called));
    let notes = [
        note_modules(first_caller, last_caller),
        note_modules(first_called, last_called),
        note_unused(row, Uses { a: true, b: false, c: true, d: false }),
    ];
    with_notes(says, notes)
}

fn modules(first: u8, last: u8) -> String {
    if first == last {
        format!("module {first}")
    } else {
        format!("modules {first} to {last}")
    }
}

fn note_modules(first: u8, last: u8) -> Option<String> {
    let most = limit::MODULES - 1;
    if first > last {
        Some(format!("{first} is above {last}"))
    } else {
        (usize::from(last) > most).then(|| format!("module {last} is above {most}"))
    }
}

fn note_arguments(given: usize, takes: usize) -> Option<String> {
    (given != takes).then(|| format!("given {given}, takes {takes}"))
}

/// The first byte that is not used and not zero.
fn note_unused(row: &Row, used: Uses) -> Option<String> {
    let is_used = |byte| match byte {
        0 => true,
        1 => used.a,
        2..=3 => used.b,
        4..=7 => used.c,
        _ => used.d,
    };
    let bytes = row.to_bytes().into_iter().enumerate();
    let mut dirty = bytes.filter(|&(byte, value)| value != 0 && !is_used(byte));
    let (byte, value) = dirty.next()?;
    let rest = match dirty.count() {
        0 => String::new(),
        more => format!(" and {more} more not 0"),
    };
    Some(format!("unused byte {byte} is {value}{rest}"))
}

fn with_notes<const N: usize>(says: String, notes: [Option<String>; N]) -> String {
    notes.into_iter().flatten().fold(says, |says, note| format!("{says}; {note}"))
}

fn no_kind(row: &Row) -> String {
    format!("kind {}, which is none", row.kind)
}

/// `type 3`, or `no type`.
fn part(name: &str, number: Option<usize>) -> String {
    number.map_or(format!("no {name}"), |number| format!("{name} {number}"))
}

fn field_name(row: &Row) -> String {
    if row.a <= sort::RECORD {
        words::sort_name(row.a, row.b)
    } else {
        format!("sort {}, which no field has", row.a)
    }
}

fn trust(row: &Row) -> String {
    flag(row.a, ["guest", "trusted"], "trust")
}

fn visibility(row: &Row) -> String {
    flag(row.a, ["private", "public"], "visibility")
}

fn flag(value: u8, names: [&str; 2], what: &str) -> String {
    names.get(usize::from(value)).map_or(format!("{what} {value}, which is none"), |name| name.to_string())
}

fn parameter(row: &Row) -> String {
    match row.c {
        0 => String::new(),
        1 => ", parameter".to_string(),
        other => format!(", C {other}, which is none"),
    }
}
