//! Tables that the judge accepts: modules, types and signatures at random, bodies by `body`.

use super::body::write_body;
use super::plan::{Plan, ProcPlan};
use super::rng::Rng;
use crate::program::Sort;

/// How large a table is to be.
#[derive(Clone, Copy, Debug)]
pub struct Size {
    pub modules: usize,
    pub types: usize,
    pub procs: usize,
    pub statements: usize,
    pub most_code: usize,
}

pub const SMALL: Size = Size { modules: 2, types: 2, procs: 2, statements: 2, most_code: 24 };
pub const MIDDLE: Size = Size { modules: 3, types: 3, procs: 3, statements: 4, most_code: 48 };
pub const LARGE: Size = Size { modules: 5, types: 3, procs: 4, statements: 8, most_code: 160 };

pub fn some_size(rng: &mut Rng) -> Size {
    match rng.below(40) {
        0..=35 => SMALL,
        36..=38 => MIDDLE,
        _ => LARGE,
    }
}

pub fn plan(rng: &mut Rng, size: Size) -> Plan {
    let mut plan = Plan::default();
    for _ in 0..rng.within(1, size.modules) {
        plan.trusted.push(rng.chance(60));
    }
    for module in 0..plan.trusted.len() {
        add_types(&mut plan, rng, module, size);
    }
    for module in 0..plan.trusted.len() {
        add_procs(&mut plan, rng, module, size);
    }
    let carries: Vec<bool> =
        plan.procs.iter().map(|one| !one.public && plan.trusted[one.module] && rng.chance(75)).collect();
    // Many procedures have less room each.
    let most_code = size.most_code.min(1_600 / plan.procs.len().max(1));
    for me in 0..plan.procs.len() {
        let statements = rng.within(0, size.statements);
        plan.procs[me].code = write_body(&plan, &carries, rng, me, statements, most_code);
    }
    plan
}

fn add_types(plan: &mut Plan, rng: &mut Rng, module: usize, size: Size) {
    for _ in 0..rng.within(0, size.types) {
        let own: Vec<usize> = (0..plan.types.len()).filter(|&of| plan.types[of].module == module).collect();
        let mut fields = Vec::new();
        for _ in 0..rng.weighted(&[(1, 0), (4, 1), (4, 2), (2, 3), (1, 4)]).unwrap_or(1) {
            let nested = if rng.chance(15) { (0..plan.types.len()).collect() } else { own.clone() };
            if !nested.is_empty() && rng.chance(40) {
                fields.push((Sort::Record(rng.pick(&nested) as u8), false));
            } else {
                fields.push((Sort::Number, plan.trusted[module] && rng.chance(60)));
            }
        }
        plan.add_type(module, &fields);
    }
}

/// Makers and droppers of the module's types, so that other modules can have their records, procedures that show
/// numbers, then anything.
fn add_procs(plan: &mut Plan, rng: &mut Rng, module: usize, size: Size) {
    let own: Vec<usize> = (0..plan.types.len()).filter(|&of| plan.types[of].module == module).collect();
    for of in own {
        if rng.chance(45) {
            let record = Sort::Record(of as u8);
            let public = rng.chance(85);
            let params = vec![Sort::Number; rng.below(3)];
            plan.add_proc(ProcPlan { module, public, params, results: vec![record], ..ProcPlan::default() });
            let results = vec![Sort::Number; rng.below(2)];
            plan.add_proc(ProcPlan { module, public, params: vec![record], results, ..ProcPlan::default() });
        }
    }
    add_showing(plan, rng, module);
    add_helpers(plan, rng, module);
    for _ in 0..rng.within(1, size.procs) {
        let entry = rng.chance(50);
        let procedure = some_proc(plan, rng, module, entry);
        plan.add_proc(procedure);
    }
}

/// Procedures that give read-only references to numbers of the module's types, and some that are given read-only
/// references: to a number, or to a record that another module shows numbers of.
fn add_showing(plan: &mut Plan, rng: &mut Rng, module: usize) {
    for of in 0..plan.types.len() {
        let view = Sort::RecordView(of as u8);
        let own = plan.types[of].module == module;
        let takes_view = |one: &ProcPlan| one.public && one.params == [view];
        if own && rng.chance(20) {
            let from = rng.pick(&[view, view, Sort::RecordRef(of as u8), Sort::Number]);
            let (params, results) = (vec![from], vec![Sort::NumberView]);
            plan.add_proc(ProcPlan { module, public: rng.chance(85), params, results, ..ProcPlan::default() });
        } else if !own && plan.procs.iter().any(takes_view) && rng.chance(60) {
            let results = vec![rng.pick(&[Sort::Number, Sort::Number, Sort::NumberView, view])];
            plan.add_proc(ProcPlan {
                module,
                public: rng.chance(70),
                params: vec![view],
                results,
                ..ProcPlan::default()
            });
        }
    }
    if rng.chance(20) {
        let (params, results) = (vec![Sort::NumberView], vec![Sort::Number]);
        plan.add_proc(ProcPlan { module, public: rng.chance(85), params, results, ..ProcPlan::default() });
    }
}

/// Private procedures for the module's guarded numbers: some borrow one, some are given a reference to one.
fn add_helpers(plan: &mut Plan, rng: &mut Rng, module: usize) {
    for of in 0..plan.types.len() {
        let one = &plan.types[of];
        if one.module != module || !one.fields.iter().any(|field| field.guarded) || !rng.chance(14) {
            continue;
        }
        let reference = Sort::NumberRef;
        let from = rng.pick(&[Sort::RecordRef(of as u8), Sort::RecordRef(of as u8), Sort::Number]);
        let mut others: [(&[Sort], &[Sort]); 4] = [
            (&[Sort::Number, reference], &[]),
            (&[reference], &[reference]),
            (&[reference, reference], &[reference, reference]),
            (&[reference], &[Sort::Number]),
        ];
        rng.shuffle(&mut others);
        let borrows: (&[Sort], &[Sort]) = (&[from], &[reference]);
        for &(params, results) in [borrows].iter().chain(&others[..1]) {
            let (params, results) = (params.to_vec(), results.to_vec());
            plan.add_proc(ProcPlan { module, params, results, ..ProcPlan::default() });
        }
    }
}

/// A procedure without a body. An entry can be called by a list: public, numbers only.
fn some_proc(plan: &Plan, rng: &mut Rng, module: usize, entry: bool) -> ProcPlan {
    let sorts = |rng: &mut Rng, most: usize, numbers: bool, results: bool| -> Vec<Sort> {
        (0..rng.within(0, most))
            .map(|_| if numbers { Sort::Number } else { some_sort(plan, rng, module, results) })
            .collect()
    };
    let public = entry || rng.chance(50);
    let params = sorts(rng, 3, entry, false);
    let others = sorts(rng, 5, false, false);
    let mut results = sorts(rng, 2, entry, true);
    // A reference that was given goes back read-only.
    let back = params.iter().rev().find_map(|&sort| if sort.is_view() { Some(sort) } else { sort.frozen() });
    results.extend(back.filter(|_| rng.chance(30)));
    ProcPlan { module, public, params, others, results, code: Vec::new() }
}

fn some_sort(plan: &Plan, rng: &mut Rng, module: usize, result: bool) -> Sort {
    let of = if plan.types.is_empty() { None } else { Some(rng.below(plan.types.len())) };
    let usable = of.is_some_and(|of| has_maker_and_dropper(plan, module, of));
    match (rng.below(14), of) {
        (0..=2, Some(of)) if usable => Sort::Record(of as u8),
        (3..=4, Some(of)) if !result || plan.types[of].module == module => Sort::RecordRef(of as u8),
        (5, _) => Sort::NumberRef,
        (6, _) if !result => Sort::NumberRef,
        (7..=8, Some(of)) if !result || plan.types[of].module == module => Sort::RecordView(of as u8),
        (9, _) => Sort::NumberView,
        (10, _) if !result => Sort::NumberView,
        _ => Sort::Number,
    }
}

/// Whether code of the module can surely make and get rid of records of the type.
fn has_maker_and_dropper(plan: &Plan, module: usize, of: usize) -> bool {
    let record = [Sort::Record(of as u8)];
    let made = plan.procs.iter().any(|one| one.public && one.results == record);
    let dropped = plan.procs.iter().any(|one| one.public && one.params == record);
    plan.types[of].module == module || (made && dropped)
}
