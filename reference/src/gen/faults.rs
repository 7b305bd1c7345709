//! For each refusal of tables a family of tables made to get it. Some miss: a fault put in may bring a lower one.

use super::helpers;
use super::limits;
use super::plan::{asm::*, Plan, ProcPlan};
use super::plan_faults::put_in_plan;
use super::rng::Rng;
use super::row_faults::{bad_length, put_in_rows};
use super::structured::{self, SMALL};
use super::view_faults::{self, Family, FAMILIES};
use super::wild::{self, Flavour};
use crate::program::Sort;
use crate::row::{write_rows, Row};
use crate::TABLE_PASSES;

/// A table meant to be refused with `number`, one of the refusals of tables.
pub fn table(rng: &mut Rng, number: u32) -> Vec<u8> {
    let mut plan = match number {
        3 if rng.chance(30) => return limits::table(2 * rng.below(7) + 1),
        11 if rng.chance(75) => tangled(rng, &[Flavour::Locals, Flavour::Locals, Flavour::Broad]),
        12 if rng.chance(75) => tangled(rng, &[Flavour::Records]),
        13 | 14 if rng.chance(55) => tangled(rng, &[Flavour::Leaks, Flavour::Leaks, Flavour::Broad, Flavour::Helpers]),
        _ => base(rng),
    };
    let enough_as_it_is = match number {
        11 | 12 => rng.chance(55),
        13 | 14 => rng.chance(25),
        _ => false,
    };
    if !enough_as_it_is {
        put_in_plan(&mut plan, rng, number);
    }
    let mut rows = plan.rows();
    put_in_rows(&mut rows, rng, number);
    let mut bytes = write_rows(&rows);
    if number == 1 {
        bad_length(&mut bytes, rng);
    }
    bytes
}

/// A table with a fault of read-only references. Of leaks every other one is mended: then it is accepted.
pub fn table_with_views(rng: &mut Rng, family: Family) -> Vec<u8> {
    let mut plan = if rng.chance(20) { tangled(rng, &[Flavour::Leaks]) } else { base(rng) };
    match family {
        Family::Given | Family::Returned => {
            let (number, frozen) = (if family == Family::Given { 13 } else { 14 }, rng.chance(50));
            view_faults::add_pair(&mut plan, rng, number, frozen);
        }
        _ => view_faults::put_in_plan(&mut plan, rng, family),
    }
    let mut rows = plan.rows();
    view_faults::put_in_rows(&mut rows, rng, family);
    write_rows(&rows)
}

/// A table with helpers of the family, mended or not, alone or beside others.
pub fn table_with_helpers(rng: &mut Rng, family: helpers::Family, mended: bool) -> Vec<u8> {
    let mut plan = match rng.below(30) {
        0..=25 => Plan::default(),
        26..=28 => base(rng),
        _ => tangled(rng, &[Flavour::Helpers]),
    };
    helpers::add(&mut plan, rng, family, mended);
    if rng.chance(20) {
        let (_, other) = rng.pick(&helpers::FAMILIES);
        let mended = rng.chance(50);
        helpers::add(&mut plan, rng, other, mended);
    }
    plan.bytes()
}

#[derive(Clone, Copy)]
enum Fault {
    Refusal(u32),
    Views(Family),
    Helpers(helpers::Family),
}

impl Fault {
    /// A fault of one of these refusals.
    fn new(rng: &mut Rng, refusals: &[u32]) -> Fault {
        let views = FAMILIES.iter().filter(|(number, _)| refusals.contains(number));
        let helped = helpers::FAMILIES.iter().filter(|(number, _)| refusals.contains(number));
        let views: Vec<Fault> = views.map(|&(_, family)| Fault::Views(family)).collect();
        let helped: Vec<Fault> = helped.map(|&(_, family)| Fault::Helpers(family)).collect();
        match rng.below(100) {
            0..=24 if !views.is_empty() => rng.pick(&views),
            25..=36 if !helped.is_empty() => rng.pick(&helped),
            _ => Fault::Refusal(rng.pick(refusals)),
        }
    }

    fn put_in_plan(self, plan: &mut Plan, rng: &mut Rng) {
        match self {
            Fault::Refusal(number) => put_in_plan(plan, rng, number),
            Fault::Views(family) => view_faults::put_in_plan(plan, rng, family),
            Fault::Helpers(family) => {
                let mended = rng.chance(20);
                helpers::add(plan, rng, family, mended);
            }
        }
    }

    fn put_in_rows(self, rows: &mut Vec<Row>, rng: &mut Rng) {
        match self {
            Fault::Refusal(number) => put_in_rows(rows, rng, number),
            Fault::Views(family) => view_faults::put_in_rows(rows, rng, family),
            Fault::Helpers(_) => {}
        }
    }
}

/// Of two or three faults the refusals to choose from: those of the rows pass, 18 and 19 beside later ones, or any.
fn some_refusals(rng: &mut Rng) -> Vec<Vec<u32>> {
    // Those of the last pass are faults of the rule file.
    let passes = &TABLE_PASSES[..TABLE_PASSES.len() - 1];
    let order: Vec<u32> = passes.iter().flat_map(|(_, refusals)| *refusals).copied().collect();
    let from = |lowest: u32| order.iter().copied().skip_while(|&number| number != lowest).collect::<Vec<u32>>();
    let mut refusals = match rng.below(8) {
        0 | 1 => vec![vec![2, 3, 4, 18, 19]; 3],
        2 | 3 => vec![vec![18, 19], from(5), from(5)],
        _ => vec![from(rng.pick(&[2, 5, 7, 9, 11])); 3],
    };
    refusals.truncate(rng.within(2, 3));
    refusals
}

/// A table with two or three faults.
pub fn table_of_many(rng: &mut Rng) -> Vec<u8> {
    let flavours = [Flavour::Locals, Flavour::Records, Flavour::Leaks];
    let mut plan = if rng.chance(40) { tangled(rng, &flavours) } else { base(rng) };
    let refusals = some_refusals(rng);
    let faults: Vec<Fault> = refusals.iter().map(|refusals| Fault::new(rng, refusals)).collect();
    for fault in &faults {
        fault.put_in_plan(&mut plan, rng);
    }
    let mut rows = plan.rows();
    for fault in &faults {
        fault.put_in_rows(&mut rows, rng);
    }
    let mut bytes = write_rows(&rows);
    if rng.chance(3) {
        bytes.pop();
    }
    bytes
}

fn tangled(rng: &mut Rng, flavours: &[Flavour]) -> Plan {
    let flavour = rng.pick(flavours);
    wild::plan(rng, flavour)
}

/// A small good table, often with a module that has something of everything.
fn base(rng: &mut Rng) -> Plan {
    let mut plan = structured::plan(rng, SMALL);
    if rng.chance(33) {
        add_sampler(&mut plan, rng);
    }
    plan
}

/// Adds a module with nested records and one procedure of locals of every sort.
fn add_sampler(plan: &mut Plan, rng: &mut Rng) {
    let module = plan.trusted.len();
    let trusted = rng.chance(60);
    plan.trusted.push(trusted);
    let (number, guarded) = ((Sort::Number, false), (Sort::Number, trusted));
    let inner = plan.add_type(module, &[guarded, number]);
    let outer = plan.add_type(module, &[(Sort::Record(inner as u8), false), number]);
    let (inside, outside) = (inner as u8, outer as u8);
    let code = vec![
        cp(0),
        pop(),
        load(2),
        cp(1),
        write(),
        mv(2),
        unpack(inner),
        pop(),
        pop(),
        cp(3),
        field(inner, 0),
        read(),
        pop(),
        cp(4),
        field(outer, 0),
        field(inner, 1),
        pop(),
        mv(5),
        unpack(outer),
        pop(),
        st(2),
        mv(2),
        load(1),
        move_to(inner),
        load(1),
        exists(outer),
        pop(),
        cp(6),
        read(),
        pop(),
        cp(8),
        field(outer, 0),
        field(inner, 0),
        st(6),
        cp(3),
        freeze(),
        st(7),
        ret(),
    ];
    let mut params = vec![Sort::Number, Sort::NumberRef, Sort::Record(inside), Sort::RecordRef(inside)];
    params.extend([Sort::RecordRef(outside), Sort::Record(outside)]);
    params.extend([Sort::NumberView, Sort::RecordView(inside), Sort::RecordView(outside)]);
    plan.add_proc(ProcPlan { module, public: rng.chance(50), params, code, ..ProcPlan::default() });
}
