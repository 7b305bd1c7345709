//! Tests: walks that are found pass the replay, and what is made of them by a change does not: they are shortest, so that nothing can be
//! left out of them. Then walks written by hand in tables with and without the guard or the procedure that lets them pass.

use super::replay::replay;
use super::search::{Followed, Step, Walk};
use super::walks::walks_to;
use reference::gen::plan::{asm::*, Plan, ProcPlan};
use reference::gen::tables;
use reference::program::{Program, Sort};
use reference::Refusal;

const TABLES: u64 = 4_000;

struct Found {
    program: Program,
    walks: Vec<Walk>,
    refusal: Refusal,
}

impl Found {
    fn passes(&self, walks: &[Walk]) -> bool {
        replay(&self.program, walks, self.refusal).is_ok()
    }
}

/// The walks of made tables that are refused with 11 to 14.
fn found() -> impl Iterator<Item = Found> {
    let tables = (0..TABLES).map(|number| tables::table(9, number));
    tables.filter_map(|table| {
        let refusal = reference::judge(&table).err().filter(|(number, _)| (11..=14).contains(number))?;
        let program = reference::type_check(&table).ok()?;
        let walks = walks_to(&program, refusal).expect("a refusal has a walk");
        Some(Found { program, walks, refusal })
    })
}

#[test]
fn a_walk_that_was_found_passes() {
    let mut counts = [0; 15];
    for found in found() {
        assert!(found.passes(&found.walks));
        counts[found.refusal.0 as usize] += 1;
    }
    assert!(counts[11..].iter().all(|&count| count > 20), "{counts:?}");
}

#[test]
fn no_step_can_be_left_out_or_repeated() {
    for found in found() {
        for (at, walk) in found.walks.iter().enumerate() {
            for (step, &again) in walk.iter().enumerate() {
                let mut walks = found.walks.clone();
                walks[at].remove(step);
                assert!(!found.passes(&walks), "step {step} of walk {at} left out: {:?}", found.walks);
                let mut walks = found.walks.clone();
                walks[at].insert(step, again);
                assert!(!found.passes(&walks), "step {step} of walk {at} repeated: {:?}", found.walks);
            }
        }
    }
}

#[test]
fn no_walk_can_be_left_out() {
    let mut chains = 0;
    for found in found() {
        chains += usize::from(found.walks.len() > 1);
        for at in 0..found.walks.len() {
            let mut walks = found.walks.clone();
            walks.remove(at);
            assert!(!found.passes(&walks), "walk {at} left out: {:?}", found.walks);
        }
    }
    assert!(chains > 20, "{chains}");
}

#[test]
fn what_is_followed_must_be_so() {
    for found in found() {
        for (at, walk) in found.walks.iter().enumerate() {
            for step in 0..walk.len() {
                let mut walks = found.walks.clone();
                walks[at][step].followed = match walk[step].followed {
                    Followed::Empty(local) => Followed::Full(local),
                    Followed::Full(local) => Followed::Empty(local),
                    Followed::MarkedLocal(local) => Followed::Empty(local),
                    // No more operands are there than sixteen.
                    Followed::MarkedOperand(_) | Followed::Nothing => Followed::MarkedOperand(16),
                };
                assert!(!found.passes(&walks), "step {step} of walk {at}: {:?}", found.walks);
            }
        }
    }
}

#[test]
fn a_walk_shows_its_own_refusal_only() {
    for found in found() {
        let (number, row) = found.refusal;
        let shows = |refusal| replay(&found.program, &found.walks, refusal).is_ok();
        assert!((11..=14).all(|other| other == number || !shows((other, row))));
        assert!(!shows((number, row + 1)) && !shows((0, row)));
    }
}

const LEAKING: &[u8] = include_bytes!("../../../examples/leaking.bin");
const HELPED: &[u8] = include_bytes!("../../../examples/helped.bin");

/// A walk that goes from row to row, with what is followed before each.
fn straight(procedure: usize, followed: &[Followed]) -> Walk {
    followed.iter().enumerate().map(|(place, &followed)| Step { procedure, place, followed }).collect()
}

/// Whether the walks show the refusal in the table after these bytes, by row and place in it, are set.
fn shows(table: &[u8], walks: &[Walk], refusal: Refusal, set: &[(usize, usize, u8)]) -> bool {
    let mut table = table.to_vec();
    for &(row, byte, value) in set {
        table[16 * row + byte] = value;
    }
    let program = reference::type_check(&table).expect("the table comes as far as that");
    replay(&program, walks, refusal).is_ok()
}

#[test]
fn a_mark_needs_a_guard_and_a_public_procedure() {
    let walks = [straight(1, &[Followed::Nothing, Followed::Nothing, Followed::MarkedOperand(0)])];
    assert!(shows(LEAKING, &walks, (14, 15), &[]));
    let (unguarded, private) = ((2, 4, 0), (10, 1, 0));
    assert!(!shows(LEAKING, &walks, (14, 15), &[unguarded]));
    assert!(!shows(LEAKING, &walks, (14, 15), &[private]));
}

#[test]
fn marks_come_from_results_of_private_procedures_only() {
    let borrows = straight(1, &[Followed::Nothing, Followed::Nothing, Followed::Nothing, Followed::MarkedOperand(0)]);
    let gives = [Followed::Nothing, Followed::Nothing, Followed::MarkedOperand(0), Followed::MarkedOperand(1)];
    let walks = [borrows, straight(3, &gives)];
    let (returns_public, takes_public) = ((10, 1, 1), (17, 1, 1));
    assert!(shows(HELPED, &walks, (13, 30), &[takes_public]));
    assert!(!shows(HELPED, &walks, (13, 30), &[]));
    assert!(!shows(HELPED, &walks, (13, 30), &[takes_public, returns_public]));
}

#[test]
fn marks_come_to_parameters_of_private_procedures_only() {
    let mut plan = Plan { trusted: vec![true], ..Plan::default() };
    plan.add_type(0, &[(Sort::Number, true)]);
    let reference = vec![Sort::NumberRef];
    // Procedure 0 gives procedure 1 the reference, and that one procedure 2.
    let code = vec![mv(0), field(0, 0), call(1), ret()];
    plan.add_proc(ProcPlan { public: true, params: vec![Sort::RecordRef(0)], code, ..ProcPlan::default() });
    let code = vec![mv(0), call(2), ret()];
    plan.add_proc(ProcPlan { params: reference.clone(), code, ..ProcPlan::default() });
    plan.add_proc(ProcPlan { public: true, params: reference, code: vec![ret()], ..ProcPlan::default() });
    let borrows = straight(0, &[Followed::Nothing, Followed::Nothing, Followed::MarkedOperand(0)]);
    let walks = [borrows, straight(1, &[Followed::MarkedLocal(0), Followed::MarkedOperand(0)])];
    assert!(shows(&plan.bytes(), &walks, (13, 12), &[]));
    plan.procs[1].public = true;
    assert!(!shows(&plan.bytes(), &walks, (13, 12), &[]));
}
