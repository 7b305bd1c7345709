//! Paper 5 in tables written by hand: marked references may be given to private procedures of the module and come back
//! from them. Each verdict and text is worked out from the documents.

mod common;

use common::*;
use reference::gen::rounds;
use reference::marks::{smallest, Marks};
use reference::row::{kind, op, write_rows, Row};

/// Rows 0 to 3: a trusted module with type 0, a guarded and a plain number.
fn head() -> Vec<Row> {
    vec![trusted(), ty(), guarded(), num()]
}

/// The module with these procedures. Rows of the first one begin at row 4.
fn bank(procedures: &[&[Row]]) -> Vec<Row> {
    [&head(), &procedures.concat()[..]].concat()
}

/// A public procedure that is given a reference.
fn own_public() -> Vec<Row> {
    vec![public(), param(R), ret()]
}

// Given

#[test]
fn a_helper_is_given_a_marked_reference() {
    // Rows 4 to 9, then the callee at 10.
    let give = |number: u16| [public(), param(rec_ref(0)), mv(0), field(0, number), call(1), ret()];
    let write_it = [param(R), load(3), mv(0), write(), ret()];
    let helper = [&[private()][..], &write_it].concat();
    accepted(&bank(&[&give(0), &helper]));
    // The same with a public callee, with a plain number, and from a private procedure.
    let callee = [&[public()][..], &write_it].concat();
    refused(&bank(&[&give(0), &callee]), 13, 8);
    accepted(&bank(&[&give(1), &callee]));
    let mut rows = bank(&[&give(0), &callee]);
    rows[4] = private();
    refused(&rows, 13, 8);
    rows[10] = private();
    accepted(&rows);
}

#[test]
fn other_modules_are_given_none() {
    // Rows 4 to 9, the other module at 10, its procedure at 11.
    let give = [public(), param(rec_ref(0)), mv(0), field(0, 0), call(1), ret()];
    for module in [guest(), trusted()] {
        let other = |procedure: Row| bank(&[&give, &[module, procedure, param(R), ret()]]);
        refused(&other(public()), 13, 8);
        // 10 comes before leaks are judged.
        refused(&other(private()), 10, 8);
    }
    // A private procedure of this module by the number of which the other module's stood there.
    let rows = bank(&[&give, &[private(), param(R), ret()], &[guest(), private(), param(R), ret()]]);
    accepted(&rows);
}

#[test]
fn a_helper_gives_it_to_a_public_procedure() {
    // 4 to 9: gives. 10 to 14: the helper, whose Call is row 13. 15: the public one.
    let give = |number: u16| [public(), param(rec_ref(0)), mv(0), field(0, number), call(1), ret()];
    let helper = [private(), param(R), mv(0), call(2), ret()];
    refused(&bank(&[&give(0), &helper, &own_public()]), 13, 13);
    accepted(&bank(&[&give(1), &helper, &own_public()]));
    // Nobody gives the helper anything.
    accepted(&bank(&[&[public(), ret()], &helper, &own_public()]));
}

#[test]
fn a_helper_that_nobody_calls() {
    // 4 to 9: private, gives the mark to the helper at 10 to 14, whose Call is row 13.
    let give = [private(), param(rec_ref(0)), mv(0), field(0, 0), call(1), ret()];
    let helper = [private(), param(R), mv(0), call(2), ret()];
    refused(&bank(&[&give, &helper, &own_public()]), 13, 13);
    // Its own leak counts as well.
    refused(&bank(&[&give, &own_public()]), 13, 8);
    // It may return the mark itself.
    accepted(&bank(&[&[private(), param(rec_ref(0)), result(R), mv(0), field(0, 0), ret()]]));
}

#[test]
fn a_call_that_no_walk_reaches_gives_nothing() {
    // 4 to 10: 6 jump 4; 7 to 9 are not reached; 10 ret. 11 to 15: the helper, whose Call is row 14.
    let give = |over: Row| [public(), param(rec_ref(0)), over, mv(0), field(0, 0), call(1), ret()];
    let helper = [private(), param(R), mv(0), call(2), ret()];
    accepted(&bank(&[&give(jump(4)), &helper, &own_public()]));
    refused(&bank(&[&give(jump(1)), &helper, &own_public()]), 13, 14);
}

#[test]
fn one_of_several_parameters() {
    // 4 to 12: the Call is row 11. 13 to 19: the helper, whose Call is row 18.
    let give = |first: u16, second: u16| {
        vec![public(), param(rec_ref(0)), cp(0), field(0, first), load(5), mv(0), field(0, second), call(1), ret()]
    };
    let helper = |local: u16| vec![private(), param(R), param(N), param(R), cp(local), call(2), ret()];
    let table = |first, second, local| bank(&[&give(first, second), &helper(local), &own_public()]);
    refused(&table(0, 1, 0), 13, 18);
    accepted(&table(0, 1, 2));
    refused(&table(1, 0, 2), 13, 18);
    accepted(&table(1, 0, 0));
    refused(&table(0, 0, 0), 13, 18);
    accepted(&table(1, 1, 2));
}

#[test]
fn another_call_site_marks_the_parameter() {
    // 4 to 9: gives its own number's reference and returns what comes back; Ret is row 9.
    let harmless = [public(), param(N), result(R), borrow(0), call(1), ret()];
    let pass = [private(), param(R), result(R), mv(0), ret()];
    accepted(&bank(&[&harmless, &pass]));
    let other = |number: u16| [private(), param(rec_ref(0)), mv(0), field(0, number), call(1), pop(), ret()];
    accepted(&bank(&[&harmless, &pass, &other(1)]));
    refused(&bank(&[&harmless, &pass, &other(0)]), 14, 9);
    // The other one's call is not reached.
    let dead = [private(), param(rec_ref(0)), ret(), mv(0), field(0, 0), call(1), pop(), ret()];
    accepted(&bank(&[&harmless, &pass, &dead]));
}

#[test]
fn public_parameters_start_unmarked() {
    // 4 to 8: public, returns what it is given. 9 to 15: gives it a mark at row 13. 14 at row 8 is no fault.
    let pass = [public(), param(R), result(R), mv(0), ret()];
    let give = [public(), param(rec_ref(0)), mv(0), field(0, 0), call(0), pop(), ret()];
    refused(&bank(&[&pass, &give]), 13, 13);
}

// Returned

#[test]
fn a_helper_returns_a_marked_reference() {
    let slot = |number: u16| [private(), param(rec_ref(0)), result(R), mv(0), field(0, number), ret()];
    // 4 to 9: the helper. 10 to 16: writes through what comes back.
    let write_it = [public(), param(rec_ref(0)), load(3), mv(0), call(0), write(), ret()];
    accepted(&bank(&[&slot(0), &write_it]));
    // 10 to 15: gives it on; that Call is row 14.
    let give = [public(), param(rec_ref(0)), mv(0), call(0), call(2), ret()];
    refused(&bank(&[&slot(0), &give, &own_public()]), 13, 14);
    accepted(&bank(&[&slot(1), &give, &own_public()]));
    // 10 to 15: returns it; Ret is row 15.
    let back = [public(), param(rec_ref(0)), result(R), mv(0), call(0), ret()];
    refused(&bank(&[&slot(0), &back]), 14, 15);
    accepted(&bank(&[&slot(1), &back]));
    // A private one may; frozen, a public one may too.
    accepted(&bank(&[&slot(0), &[&[private()][..], &back[1..]].concat()]));
    accepted(&bank(&[&slot(0), &[public(), param(rec_ref(0)), result(V), mv(0), call(0), freeze(), ret()]]));
}

#[test]
fn public_results_are_unmarked() {
    // 4 to 9: returns what the public procedure below gives; it is not marked. 15: that one's Ret.
    let back = [public(), param(rec_ref(0)), result(R), mv(0), call(1), ret()];
    let slot = [public(), param(rec_ref(0)), result(R), mv(0), field(0, 0), ret()];
    refused(&bank(&[&back, &slot]), 14, 15);
    // With a private one below the first Ret is the leak.
    refused(&bank(&[&back, &[&[private()][..], &slot[1..]].concat()]), 14, 9);
}

#[test]
fn one_of_several_results() {
    // 4 to 12: the helper gives two references, the first of a field and the second of the other.
    let give = |first: u16| {
        let codes = [cp(0), field(0, first), mv(0), field(0, 1 - first), ret()];
        [&[private(), param(rec_ref(0)), result(R), result(R)][..], &codes].concat()
    };
    // 13 to 23: keeps both; 1 is the first and 2 the second. Ret is row 23.
    let back = |kept: u16| {
        let head = [public(), param(rec_ref(0)), local(R), local(R), result(R)];
        [&head[..], &[mv(0), call(0), st(2), st(1), cp(kept), ret()]].concat()
    };
    accepted(&bank(&[&give(1), &back(1)]));
    refused(&bank(&[&give(1), &back(2)]), 14, 23);
    refused(&bank(&[&give(0), &back(1)]), 14, 23);
    accepted(&bank(&[&give(0), &back(2)]));
}

#[test]
fn one_of_four_results() {
    // 4 to 17: a number and three references, the marked one in this place among them. 18 to 31: returns one of them.
    let give = |marked: u16| {
        let mut rows = vec![private(), param(rec_ref(0)), result(N), result(R), result(R), result(R), load(8)];
        for place in 0..3 {
            rows.extend([cp(0), field(0, u16::from(place != marked))]);
        }
        rows.push(ret());
        rows
    };
    let back = |kept: u16| {
        let head = [public(), param(rec_ref(0)), local(R), local(R), local(R), result(R)];
        [&head[..], &[mv(0), call(0), st(3), st(2), st(1), pop(), cp(1 + kept), ret()]].concat()
    };
    for marked in 0..3 {
        for kept in 0..3 {
            let rows = bank(&[&give(marked), &back(kept)]);
            if marked == kept {
                refused(&rows, 14, 31);
            } else {
                accepted(&rows);
            }
        }
    }
}

#[test]
fn a_ret_that_no_walk_reaches_gives_nothing() {
    // 4 to 12: returns its own number's reference; 10 to 12 are not reached.
    let slot =
        |first: Row| vec![private(), param(rec_ref(0)), param(N), result(R), first, ret(), mv(0), field(0, 0), ret()];
    let back = [public(), param(rec_ref(0)), result(R), mv(0), load(1), call(0), ret()];
    accepted(&bank(&[&slot(borrow(1)), &back]));
    // With a way there: rows 8 and 9 branch, the Ret of `back` is row 21.
    let mut both = slot(borrow(1));
    both.splice(4..4, [cp(1), jump_if(4)]);
    refused(&bank(&[&both, &back]), 14, 21);
}

#[test]
fn a_helper_that_never_returns() {
    // No walk returns anything; the walk of the caller goes on all the same. 4 to 11, then 12 to 17.
    let never = vec![private(), param(rec_ref(0)), local(R), result(R), mv(0), field(0, 0), st(1), jump(3)];
    let back = [public(), param(rec_ref(0)), result(R), mv(0), call(0), ret()];
    accepted(&bank(&[&never, &back]));
    // Its other way out returns it: the Ret of `back` is row 19.
    let mut returns = never.clone();
    returns.extend([cp(1), ret()]);
    returns[7] = jump(4);
    refused(&bank(&[&returns, &back]), 14, 19);
}

#[test]
fn a_mark_is_dropped_between() {
    // What the helper returns is overwritten with its own number's reference.
    let pass = |codes: &[Row]| [&[private(), param(R), param(N), result(R)][..], codes, &[ret()]].concat();
    let back = [public(), param(rec_ref(0)), result(R), mv(0), field(0, 0), load(1), call(0), ret()];
    accepted(&bank(&[&pass(&[borrow(1), st(0), mv(0)]), &back]));
    accepted(&bank(&[&pass(&[mv(0), pop(), borrow(1), st(0), cp(0)]), &back]));
    // Dropped too late: the copy is marked. `back` begins at row 12, its Ret is row 19.
    refused(&bank(&[&pass(&[cp(0), borrow(1), st(0)]), &back]), 14, 19);
    // In the caller between two calls: local 2 is written over, then given to a public procedure.
    let between = |over: &[Row]| {
        let codes = [mv(0), field(0, 0), load(1), call(0), st(2)];
        let codes = [&codes[..], over, &[mv(2), call(2), ret()]].concat();
        [&[public(), param(rec_ref(0)), param(N), local(R)][..], &codes].concat()
    };
    let straight = pass(&[mv(0)]);
    accepted(&bank(&[&straight, &between(&[borrow(1), st(2)]), &own_public()]));
    refused(&bank(&[&straight, &between(&[]), &own_public()]), 13, 20);
}

#[test]
fn read_only_parameters_are_unmarked() {
    // The helper is given one of each and returns the read-only one.
    let pass = [private(), param(V), param(R), result(V), mv(0), ret()];
    let head = [public(), param(rec_ref(0)), result(V), cp(0), freeze(), field(0, 0)];
    let back = [&head[..], &[mv(0), field(0, 0), call(0), ret()]].concat();
    accepted(&bank(&[&pass, &back]));
    // The writable one beside it is marked: rows 4 to 9, then 10 to 19.
    let pass = [private(), param(V), param(R), result(R), mv(1), ret()];
    let mut writable = back.clone();
    writable[2] = result(R);
    refused(&bank(&[&pass, &writable]), 14, 19);
    // Frozen in the helper.
    let pass = [private(), param(V), param(R), result(V), mv(1), freeze(), ret()];
    accepted(&bank(&[&pass, &back]));
}

#[test]
fn some_walk_of_the_helper_returns_the_mark() {
    // 0 cp 1; 1 jump_if 4; 2 borrow 1; 3 ret; 4 mv 0; 5 ret: the marked walk last, then first.
    let pass = |first: Row, second: Row| {
        let head = [private(), param(R), param(N), result(R), cp(1), jump_if(4)];
        [&head[..], &[first, ret(), second, ret()]].concat()
    };
    // Rows 4 to 13, then 14 to 21.
    let back = [public(), param(rec_ref(0)), result(R), mv(0), field(0, 0), load(1), call(0), ret()];
    refused(&bank(&[&pass(borrow(1), mv(0)), &back]), 14, 21);
    refused(&bank(&[&pass(mv(0), borrow(1)), &back]), 14, 21);
    accepted(&bank(&[&pass(borrow(1), borrow(1)), &back]));
}

#[test]
fn walks_that_meet_before_the_ret() {
    // 0 cp 1; 1 jump_if 5; 2 one; 3 st 2; 4 jump 7; 5 other; 6 st 2; 7 cp 2; 8 ret
    let pass = |one: Row, other: Row| {
        let head = [private(), param(R), param(N), local(R), result(R), cp(1), jump_if(5)];
        [&head[..], &[one, st(2), jump(7), other, st(2), cp(2), ret()]].concat()
    };
    // Rows 4 to 17, then 18 to 25.
    let back = [public(), param(rec_ref(0)), result(R), mv(0), field(0, 0), load(1), call(0), ret()];
    refused(&bank(&[&pass(borrow(1), mv(0)), &back]), 14, 25);
    refused(&bank(&[&pass(mv(0), borrow(1)), &back]), 14, 25);
    accepted(&bank(&[&pass(borrow(1), borrow(1)), &back]));
}

#[test]
fn walks_that_meet_before_the_call() {
    // 0 cp 1; 1 jump_if 6; 2 cp 0; 3 one field; 4 st 2; 5 jump 9; 6 cp 0; 7 other field; 8 st 2; 9 cp 2; 10 call; 11 ret
    let give = |one: u16, other: u16| {
        let head = [public(), param(rec_ref(0)), param(N), local(R), cp(1), jump_if(6)];
        let ways = [cp(0), field(0, one), st(2), jump(9), cp(0), field(0, other), st(2)];
        [&head[..], &ways, &[cp(2), call(1), ret()]].concat()
    };
    // Rows 4 to 19; 20 to 24: the helper, whose Call is row 23.
    let helper = [private(), param(R), mv(0), call(2), ret()];
    refused(&bank(&[&give(0, 1), &helper, &own_public()]), 13, 23);
    refused(&bank(&[&give(1, 0), &helper, &own_public()]), 13, 23);
    accepted(&bank(&[&give(1, 1), &helper, &own_public()]));
}

// Recursion and the order of the table

/// The procedures in another order, with calls by their places in `procedures`. Tells where each one begins.
fn arranged(procedures: &[Vec<Row>], order: &[usize]) -> (Vec<Row>, Vec<usize>) {
    let mut rows = head();
    let mut begins = vec![0; procedures.len()];
    for &one in order {
        begins[one] = rows.len();
        for row in &procedures[one] {
            let mut row = *row;
            if row.kind == kind::INSTRUCTION && row.a == op::CALL {
                let callee = usize::from(row.b);
                row.b = order.iter().position(|&have| have == callee).expect("it is in the table") as u16;
            }
            rows.push(row);
        }
    }
    (rows, begins)
}

fn orders(count: usize) -> Vec<Vec<usize>> {
    if count == 0 {
        return vec![vec![]];
    }
    let mut all = Vec::new();
    for order in orders(count - 1) {
        for at in 0..count {
            let mut longer = order.clone();
            longer.insert(at, count - 1);
            all.push(longer);
        }
    }
    all
}

/// In every order of the table the verdict is the refusal at this row of this procedure, or none.
#[track_caller]
fn in_every_order(procedures: &[Vec<Row>], verdict: Option<(u32, usize, usize)>) {
    for order in orders(procedures.len()) {
        let (rows, begins) = arranged(procedures, &order);
        let expected = match verdict {
            Some((number, procedure, row)) => Err((number, begins[procedure] + row)),
            None => Ok(rows.len()),
        };
        assert_eq!(judge(&rows), expected, "{order:?}");
    }
}

#[test]
fn two_helpers_that_call_each_other() {
    // The first is given the mark in the first round and gives it to the second in the second round. That one leaks.
    let give = |number: u16| vec![public(), param(rec_ref(0)), mv(0), field(0, number), call(1), ret()];
    let first = vec![private(), param(R), mv(0), call(2), ret()];
    let second = vec![private(), param(R), cp(0), call(1), mv(0), call(3), ret()];
    let table = |number| [give(number), first.clone(), second.clone(), own_public()];
    in_every_order(&table(0), Some((13, 2, 5)));
    in_every_order(&table(1), None);
}

#[test]
fn parameters_that_change_places() {
    // Two helpers call each other and give the first of two references as the second, the second as the first.
    let give = vec![public(), param(rec_ref(0)), param(N), mv(0), field(0, 0), borrow(1), call(1), ret()];
    let turn = |other: u16| vec![private(), param(R), param(R), cp(1), cp(0), call(other), ret()];
    let leaks = |other: u16, local: u16| {
        let codes = [cp(1), cp(0), call(other), cp(local), call(3), ret()];
        [&[private(), param(R), param(R)][..], &codes].concat()
    };
    // The first is marked in 0 and the second in 1: the mark changes places twice on its way round.
    in_every_order(&[give.clone(), leaks(2, 0), turn(1), own_public()], Some((13, 1, 7)));
    in_every_order(&[give.clone(), leaks(2, 1), turn(1), own_public()], None);
    in_every_order(&[give.clone(), turn(2), leaks(1, 1), own_public()], Some((13, 2, 7)));
    in_every_order(&[give.clone(), turn(2), leaks(1, 0), own_public()], None);
    // With one that keeps them in place both get to be marked.
    let keep = vec![private(), param(R), param(R), cp(0), cp(1), call(1), ret()];
    in_every_order(&[give, leaks(2, 1), keep, own_public()], Some((13, 1, 7)));
}

#[test]
fn results_through_several_levels() {
    let slot = |number: u16| vec![private(), param(rec_ref(0)), result(R), mv(0), field(0, number), ret()];
    let up = |callee: u16| vec![private(), param(rec_ref(0)), result(R), mv(0), call(callee), ret()];
    let back = vec![public(), param(rec_ref(0)), result(R), mv(0), call(2), ret()];
    in_every_order(&[slot(0), up(0), up(1), back.clone()], Some((14, 3, 5)));
    in_every_order(&[slot(1), up(0), up(1), back], None);
}

#[test]
fn a_recursion_that_returns_what_it_was_given() {
    // 0 cp 1; 1 jump_if 4; 2 mv 0; 3 ret; 4 mv 0; 5 mv 1; 6 call itself; 7 ret
    let head = [private(), param(R), param(N), result(R), cp(1), jump_if(4), mv(0), ret()];
    let round = [&head[..], &[mv(0), mv(1), call(0), ret()]].concat();
    let back = |number| vec![public(), param(rec_ref(0)), result(R), mv(0), field(0, number), load(1), call(0), ret()];
    in_every_order(&[round.clone(), back(0)], Some((14, 1, 7)));
    in_every_order(&[round.clone(), back(1)], None);
    // It never ends but by itself: nothing comes back.
    let endless = vec![private(), param(R), param(N), result(R), mv(0), mv(1), call(0), ret()];
    in_every_order(&[endless, back(0)], None);
}

#[test]
fn a_long_chain_in_both_directions() {
    let count = 20;
    let mut chain = vec![vec![public(), param(rec_ref(0)), mv(0), field(0, 0), call(1), ret()]];
    for number in 1..count {
        chain.push(vec![private(), param(R), mv(0), call(number + 1), ret()]);
    }
    chain.push(own_public());
    let last = usize::from(count) - 1;
    let forwards: Vec<usize> = (0..chain.len()).collect();
    let backwards: Vec<usize> = (0..chain.len()).rev().collect();
    for order in [forwards, backwards] {
        let (rows, begins) = arranged(&chain, &order);
        refused(&rows, 13, begins[last] + 3);
    }
}

#[test]
fn verdicts_come_after_the_last_round() {
    // The leak at the end of the chain stands first in the table and is found last: 4 to 8, then the public one.
    let last = [private(), param(R), mv(0), call(1), ret()];
    let middle = [private(), param(R), mv(0), call(0), ret()];
    // 17 to 25: gives the mark to the middle one, and leaks itself at row 24.
    let head = [public(), param(rec_ref(0)), cp(0), field(0, 0), call(2)];
    let give = [&head[..], &[mv(0), field(0, 0), call(1), ret()]].concat();
    refused(&bank(&[&last, &own_public(), &middle, &give]), 13, 7);
    refused(&bank(&[&[private(), param(R), ret()], &own_public(), &middle, &give]), 13, 22);
}

#[test]
fn locals_are_judged_before_leaks() {
    // The leak of the helper is row 13; the empty local of the procedure below is row 20.
    let give = [public(), param(rec_ref(0)), mv(0), field(0, 0), call(1), ret()];
    let helper = [private(), param(R), mv(0), call(2), ret()];
    let empty = [private(), local(N), cp(0), pop(), ret()];
    refused(&bank(&[&give, &helper, &own_public(), &empty]), 11, 20);
}

#[test]
fn the_smallest_marks() {
    let program = |rows: &[Row]| reference::type_check(&write_rows(rows)).expect("well typed");
    // Gives (marked, number, plain) to the helper, which returns them as (plain, marked).
    let give = [public(), param(rec_ref(0)), cp(0), field(0, 0), load(5), mv(0), field(0, 1), call(1)];
    let give = [&give[..], &[pop(), pop(), ret()]].concat();
    let turn = [private(), param(R), param(N), param(R), result(R), result(R), mv(2), mv(0), ret()];
    let marks = Marks { params: vec![0, 0b001], results: vec![0, 0b10] };
    assert_eq!(smallest(&program(&bank(&[&give, &turn]))), (marks, 2));
    // Calling itself the same way it gets a mark in the third parameter, and then in the first result.
    let mut again = turn.to_vec();
    again.splice(6..6, [cp(2), load(1), cp(0), call(1), pop(), pop()]);
    let marks = Marks { params: vec![0, 0b101], results: vec![0, 0b11] };
    assert_eq!(smallest(&program(&bank(&[&give, &again]))), (marks, 3));
}

// Guests

#[test]
fn helpers_of_guests() {
    // References to its own numbers go to a guest's private procedure and back, and out to others.
    let table = [
        guest(),
        public(),
        param(N),
        result(N),
        borrow(0),
        call(1),
        call(2),
        mv(0),
        ret(),
        private(),
        param(R),
        result(R),
        load(6),
        cp(0),
        write(),
        mv(0),
        ret(),
        public(),
        param(R),
        load(7),
        mv(0),
        write(),
        ret(),
    ];
    accepted(&table);
    prints(&table, &calls(&[(0, &[5])]), &["call 0 done 7"]);
}

// Runs

/// 0 mint (address, value); 1 set (address, value); 2 take (address, value); 3 down (count, address, value);
/// then the helpers 4 slot, 5 lower, 6 sink.
fn till() -> Vec<Row> {
    bank(&[
        // 4 to 12
        &[public(), param(N), param(N), mv(1), load(9), pack(0), mv(0), move_to(0), ret()],
        // 13 to 20
        &[public(), param(N), param(N), mv(1), mv(0), call(4), write(), ret()],
        // 21 to 32: writes 77, then takes.
        &[public(), param(N), param(N), load(77), cp(0), call(4), write(), mv(1), mv(0), call(4), call(5), ret()],
        // 33 to 42
        &[public(), param(N), param(N), param(N), mv(0), mv(1), call(4), mv(2), call(6), ret()],
        // 43 to 49
        &[private(), param(N), result(R), mv(0), global(0), field(0, 0), ret()],
        // 50 to 59: value, reference
        &[private(), param(N), param(R), cp(1), read(), mv(0), arith(SUB), mv(1), write(), ret()],
        // 60 to 76: count, reference, value
        &[private(), param(N), param(R), param(N), cp(0), jump_if(6), mv(2), mv(1), write(), ret()],
        &[mv(0), load(1), arith(SUB), mv(1), mv(2), call(6), ret()],
    ])
}

#[test]
fn a_public_procedure_writes_through_what_a_helper_gave() {
    accepted(&till());
    let list = calls(&[(0, &[7, 500]), (1, &[7, 42]), (1, &[8, 1]), (2, &[7, 70])]);
    let lines = ["call 0 done", "call 1 done", "call 2 stop 34 row 47", "call 3 done", "store 0 7 7 9"];
    prints(&till(), &list, &lines);
}

#[test]
fn a_helper_stops_and_all_is_restored() {
    // 77 was written before the helper found too little, twice.
    let list = calls(&[(0, &[7, 500]), (2, &[7, 78]), (2, &[7, u64::MAX])]);
    prints(&till(), &list, &["call 0 done", "call 1 stop 39 row 56", "call 2 stop 39 row 56", "store 0 7 500 9"]);
    // LoadConst, CpLoc, Call, 4 of the slot, WriteRef, MvLoc, MvLoc, Call, 4 of the slot, Call, then CpLoc of the lower
    // one: 17 done, and ReadRef is the next.
    let list = [&calls(&[(0, &[7, 500])])[..], &[call_of(2, 17), argument(7), argument(1)]].concat();
    prints(&till(), &list, &["call 0 done", "call 1 stop 31 row 54", "store 0 7 500 9"]);
}

#[test]
fn a_reference_goes_down_sixteen_frames() {
    // The first frame and one more for each count: 14 counts to 0 in the sixteenth.
    let list = calls(&[(0, &[7, 500]), (3, &[14, 7, 1]), (3, &[15, 7, 2])]);
    prints(&till(), &list, &["call 0 done", "call 1 done", "call 2 stop 36 row 75", "store 0 7 1 9"]);
}

#[test]
fn a_helper_is_given_a_stale_reference() {
    // 4 to 12: mint. 13 to 26: keeps the slot, breaks the coin up, then has the helper write. 27 to 33: the slot.
    let mint = [public(), param(N), param(N), mv(1), load(9), pack(0), mv(0), move_to(0), ret()];
    let head = [public(), param(N), local(R), cp(0), call(2), st(1), mv(0), move_from(0), unpack(0)];
    let stale = [&head[..], &[pop(), pop(), mv(1), call(3), ret()]].concat();
    let slot = [private(), param(N), result(R), mv(0), global(0), field(0, 0), ret()];
    // 34 to 39: WriteRef is row 38.
    let poke = [private(), param(R), load(3), mv(0), write(), ret()];
    let table = bank(&[&mint, &stale, &slot, &poke]);
    let list = calls(&[(0, &[7, 500]), (1, &[7]), (0, &[7, 1])]);
    let lines = ["call 0 done", "call 1 stop 35 row 38", "call 2 stop 33 row 11", "store 0 7 500 9"];
    prints(&table, &list, &lines);
}

#[test]
fn a_guest_reads_what_a_helper_gave() {
    // 4 to 12: mint. 13 to 20: gives the guest a frozen one. 21 to 27: the slot. 28: the guest.
    let mint = [public(), param(N), param(N), mv(1), load(9), pack(0), mv(0), move_to(0), ret()];
    let slot = [private(), param(N), result(R), mv(0), global(0), field(0, 0), ret()];
    let label = |sort| [guest(), public(), param(sort), result(N), mv(0), read(), ret()];
    let show = [public(), param(N), result(N), mv(0), call(2), freeze(), call(3), ret()];
    let table = bank(&[&mint, &show, &slot, &label(V)]);
    prints(&table, &calls(&[(0, &[7, 500]), (1, &[7])]), &["call 0 done", "call 1 done 500", "store 0 7 500 9"]);
    let show = [public(), param(N), result(N), mv(0), call(2), call(3), ret()];
    refused(&bank(&[&mint, &show, &slot, &label(R)]), 13, 18);
}

// Tables to measure with

#[test]
fn a_ring_needs_a_round_for_each_helper_and_parameter() {
    for (helpers, parameters) in [(57, 16), (1, 1), (1, 5), (4, 1), (6, 4), (16, 16)] {
        let table = rounds::ring(helpers, parameters);
        assert_eq!(reference::judge(&table), Ok(table.len() / 16), "{helpers} and {parameters}");
        let program = reference::type_check(&table).expect("well typed");
        let (marks, rounds) = smallest(&program);
        assert_eq!(rounds, helpers * parameters);
        assert!(marks.params[..helpers].iter().all(|&bits| bits == ((1u32 << parameters) - 1) as u16));
        assert!(marks.results.iter().all(|&bits| bits == 0));
    }
    assert_eq!(rounds::ring(57, 16).len(), 2_020 * 16);
}

#[test]
fn a_chain_needs_rounds_down_and_up() {
    for depth in [1, 2, 15, 127] {
        let table = rounds::chain(depth);
        assert_eq!(reference::judge(&table), Ok(table.len() / 16), "{depth}");
        let (marks, rounds) = smallest(&reference::type_check(&table).expect("well typed"));
        assert_eq!(rounds, 2 * depth);
        assert!(marks.params[1..].iter().chain(&marks.results[1..]).all(|&bits| bits == 0b1111));
    }
    assert_eq!(rounds::chain(127).len(), 1_930 * 16);
}

#[test]
fn a_plain_table_has_no_helpers() {
    for rows in [1, 100, 1_930, 2_020, 2_048] {
        let table = rounds::plain(rows);
        let have = table.len() / 16;
        assert_eq!(reference::judge(&table), Ok(have));
        assert!(rows < 54 || (rows - 1..=rows).contains(&have), "{have} of {rows}");
        let program = reference::type_check(&table).expect("well typed");
        assert!(program.procedures.iter().all(|one| one.public));
        assert_eq!(smallest(&program).1, 0);
    }
}
