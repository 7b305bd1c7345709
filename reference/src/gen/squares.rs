//! The square of all pairs of modules, parted into the rows of rule files.

use super::rng::Rng;
use crate::row::limit;
use crate::rules::Rule;

/// The highest number of a module.
pub const LAST: u8 = limit::MODULES as u8 - 1;

/// A row that allows. Whether it does is mostly chosen later.
pub fn block(callers: (u8, u8), called: (u8, u8)) -> Rule {
    Rule { allows: true, callers, called }
}

pub fn single((caller, called): (u8, u8)) -> Rule {
    block((caller, caller), (called, called))
}

/// All pairs of modules up to `last` under one row.
pub fn whole(last: u8) -> Rule {
    block((0, last), (0, last))
}

/// One row for each pair.
pub fn singles(last: u8) -> Vec<Rule> {
    (0..=last).flat_map(|caller| (0..=last).map(move |called| single((caller, called)))).collect()
}

/// Parts the pairs of modules up to `last` in some way: each stands under one row.
pub fn parted(rng: &mut Rng, last: u8) -> Vec<Rule> {
    match rng.below(12) {
        0..=5 => {
            let mut rules = vec![whole(last)];
            let cuts = rng.pick(&[1, 2, 2, 3, 5, 8, 20]);
            cut(rng, &mut rules, cuts);
            rules
        }
        6..=8 => grown(rng, last),
        9 => (0..=last).map(|caller| block((caller, caller), (0, last))).collect(),
        10 => (0..=last).map(|called| block((0, last), (called, called))).collect(),
        _ if last > 6 && rng.chance(85) => grown(rng, last),
        _ => singles(last),
    }
}

/// Parts them so that this pair stands alone, under the first row.
pub fn around(rng: &mut Rng, last: u8, (caller, called): (u8, u8)) -> Vec<Rule> {
    let all = (0, last);
    let mut rest: Vec<Rule> = if rng.chance(50) {
        let others = beside(caller, last).map(|callers| block(callers, all));
        others.chain(beside(called, last).map(|others| block((caller, caller), others))).collect()
    } else {
        let others = beside(called, last).map(|others| block(all, others));
        others.chain(beside(caller, last).map(|callers| block(callers, (called, called)))).collect()
    };
    let cuts = rng.pick(&[0, 0, 0, 1, 3, 8]);
    cut(rng, &mut rest, cuts);
    rest.insert(0, single((caller, called)));
    rest
}

/// The numbers below this one, and those above it up to `last`.
fn beside(at: u8, last: u8) -> impl Iterator<Item = (u8, u8)> {
    let below = (at > 0).then(|| (0, at - 1));
    let above = (at < last).then(|| (at + 1, last));
    below.into_iter().chain(above)
}

fn is_wide((first, last): (u8, u8)) -> bool {
    first < last
}

/// Cuts rows in two, as often as asked or until each covers one pair.
fn cut(rng: &mut Rng, rules: &mut Vec<Rule>, cuts: usize) {
    for _ in 0..cuts {
        let fits = |&at: &usize| is_wide(rules[at].callers) || is_wide(rules[at].called);
        let fitting: Vec<usize> = (0..rules.len()).filter(fits).collect();
        if fitting.is_empty() {
            return;
        }
        let at = rng.pick(&fitting);
        let mut other = rules[at];
        let one = &mut rules[at];
        if is_wide(one.callers) && (!is_wide(one.called) || rng.chance(50)) {
            cut_range(rng, &mut one.callers, &mut other.callers);
        } else {
            cut_range(rng, &mut one.called, &mut other.called);
        }
        rules.push(other);
    }
}

/// Two ranges that are the same and wide become its lower and its upper part.
fn cut_range(rng: &mut Rng, lower: &mut (u8, u8), upper: &mut (u8, u8)) {
    lower.1 = rng.within(lower.0.into(), usize::from(lower.1) - 1) as u8;
    upper.0 = lower.1 + 1;
}

/// Rows that grow from the lowest pair that has none, as far as there is room or less far.
fn grown(rng: &mut Rng, last: u8) -> Vec<Rule> {
    let most = if last < 6 { rng.pick(&[2, 3, limit::MODULES]) } else { rng.pick(&[4, 6, limit::MODULES]) };
    let mut rules: Vec<Rule> = Vec::new();
    for caller in 0..=last {
        for called in 0..=last {
            let is_free = |called: u8| !rules.iter().any(|rule| rule.covers(caller, called));
            // What is free here is free for the callers below too: no row begins there yet.
            let wide = (called..=last).take_while(|&called| is_free(called)).count();
            let high = usize::from(last - caller) + 1;
            if wide > 0 {
                let callers = (caller, caller + rng.below(high.min(most)) as u8);
                rules.push(block(callers, (called, called + rng.below(wide.min(most)) as u8)));
            }
        }
    }
    rules
}

/// Lets rows that end with the number `last` reach further.
pub fn stretch(rng: &mut Rng, rules: &mut [Rule], last: u8) {
    for rule in rules {
        for range in [&mut rule.callers, &mut rule.called] {
            if range.1 == last && rng.chance(40) {
                range.1 = rng.within(last.into(), LAST.into()) as u8;
            }
        }
    }
}

/// A row past so many modules, of which there are fewer than 16.
pub fn past(rng: &mut Rng, modules: u8) -> Rule {
    let (outside, any) = (some_range(rng, modules), some_range(rng, 0));
    let mut rule = if rng.chance(50) { block(outside, any) } else { block(any, outside) };
    rule.allows = rng.chance(50);
    rule
}

fn some_range(rng: &mut Rng, least: u8) -> (u8, u8) {
    let first = rng.within(least.into(), LAST.into());
    (first as u8, rng.within(first, LAST.into()) as u8)
}
