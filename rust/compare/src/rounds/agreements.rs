//! Whether two rule tables agree: random pairs, pairs that differ in one entry, tables with their states renamed or doubled,
//! and refusals. A separating plan that is small enough is also put to the library's fresh run.

use super::merges::{table, Check, CHECKS};
use crate::calls;
use crate::counts::Counts;
use crate::faults::shorter;
use crate::inputs::{lasting_rules, random_rules, rules};
use crate::random::Random;
use crate::trace;
use reference::agree::{plan, Line, MAX_LINES};
use reference::formats::read_rules;

/// 6 to 9 of the first table, 6 to 9 of the second, 23.
pub fn table_checks() -> &'static [Check] {
    &CHECKS[..9]
}

pub fn round(random: &mut Random, counts: &mut Counts) {
    let (s1, s2, k) = counts_of(random);
    let (first, second) = (any_rules(s1, k, random), any_rules(s2, k, random));
    compare("random", &first, &second, random, counts);
    let other = one_entry(&first, random);
    compare("one entry", &first, &other, random, counts);
    compare("renamed", &first, &renamed(&first, random), random, counts);
    compare("doubled", &doubled(&renamed(&first, random), random), &other, random, counts);
    for pair in table_checks().windows(2) {
        refused(pair, random, counts);
    }
}

/// Few states mostly, so that tables agree or differ late; seldom 16 and 16 with 64 labels.
fn counts_of(random: &mut Random) -> (usize, usize, usize) {
    match random.below(150) {
        0 => (16, 16, 64),
        1..=10 => (random.between(1, 16), random.between(1, 16), random.between(1, 8)),
        _ => (random.between(1, 4), random.between(1, 4), random.between(1, 3)),
    }
}

/// With entries of any kind, or lasting ones; few marks.
fn any_rules(s: usize, k: usize, random: &mut Random) -> Vec<u8> {
    let mut table = if random.below(2) == 0 { random_rules(s, k, random) } else { lasting_rules(s, k, random) };
    let marks = table.len() - s;
    if random.below(2) == 0 {
        table[marks..].fill(0);
        table[marks + random.below(s)] = 1;
    }
    table
}

/// The lines that are shown, with room for all; then with one number less.
pub fn compare(what: &str, first: &[u8], second: &[u8], random: &mut Random, counts: &mut Counts) -> Option<Vec<Line>> {
    trace::say(format!("{}: {:?} and {:?}", what, first.get(..84), second.get(..84)));
    let room = 4 * MAX_LINES + random.below(5);
    let lines = calls::agree(first, second, room, random).expect("accepted");
    match &lines {
        None => {
            assert_eq!(calls::agree(first, second, 0, random), Ok(None), "no room is needed");
            counts.add(format!("{}: agree", what));
        }
        Some(shown) => {
            assert_eq!(calls::agree(first, second, 4 * shown.len(), random), Ok(lines.clone()));
            assert_eq!(calls::agree(first, second, shorter(4 * shown.len(), random), random), Err(11));
            let taken = fresh_runs(first, second, shown);
            counts.add(format!("{}: separated, fresh runs {}", what, if taken { "too" } else { "not" }));
        }
    }
    lines
}

/// A separating plan that is not too large is cleared by one of the tables alone, as the library's fresh run says.
fn fresh_runs(first: &[u8], second: &[u8], lines: &[Line]) -> bool {
    let plan = match plan(lines) {
        Some(plan) => plan,
        None => return false,
    };
    let yes = |rules: &[u8]| whatif::fresh_run(&plan, rules, &[], &[]).expect("accepted").yes;
    assert_ne!(yes(first), yes(second), "the fresh runs of a separating plan");
    true
}

/// The table with one entry another: a state or a mark.
fn one_entry(table: &[u8], random: &mut Random) -> Vec<u8> {
    let s = table[0] as usize;
    let (at, marks) = (random.between(20, table.len() - 1), table.len() - s);
    let mut other = table.to_vec();
    other[at] = if at >= marks { 1 - other[at] } else { (other[at] as usize + random.below(s)) as u8 % s as u8 };
    other
}

/// The table with other numbers for its states: it agrees with the table.
pub fn renamed(table: &[u8], random: &mut Random) -> Vec<u8> {
    let of = read_rules(table).expect("accepted");
    let mut names: Vec<u8> = (0..of.states as u8).collect();
    random.shuffle(&mut names);
    through(table, of.states, |state| names[state as usize], |name| names.iter().position(|&n| n == name).unwrap())
}

/// The table with every state twice, as far as 16 allows, entries leading to either: it agrees with the table.
pub fn doubled(table: &[u8], random: &mut Random) -> Vec<u8> {
    let s = table[0] as usize;
    if s > 8 {
        return table.to_vec();
    }
    let mut either: Vec<u8> = random.bytes_below(20_000, 2);
    through(table, 2 * s, |state| state + s as u8 * either.pop().unwrap_or(0), |name| name as usize % s)
}

/// A table of s states, each of which stands for one of the table's; entries are named anew.
fn through(table: &[u8], s: usize, mut name: impl FnMut(u8) -> u8, stands_for: impl Fn(u8) -> usize) -> Vec<u8> {
    let of = read_rules(table).expect("accepted");
    let old = |state: usize| stands_for(state as u8) as u8;
    let k = of.labels;
    let leaf: Vec<u8> = (0..k).map(|a| name(of.leaf(a as u8))).collect();
    let mut inner = Vec::new();
    for p in 0..s {
        for a in 0..k {
            for q in 0..s {
                inner.push(name(of.inner(old(p), a as u8, old(q))));
            }
        }
    }
    let marks: Vec<u8> = (0..s).map(|state| of.accepts(old(state)) as u8).collect();
    rules(s, k, &leaf, &inner, &marks)
}

/// Tables with these faults, which stand in the order of the checks: the first is given, whatever room there is.
pub fn refused(faults: &[Check], random: &mut Random, counts: &mut Counts) {
    trace::say(format!("faults {:?}", faults));
    let (s1, s2, k1) = (random.between(1, 5), random.between(1, 5), random.between(1, 64));
    let other = |random: &mut Random| (k1 + random.below(63)) % 64 + 1;
    let k2 = if faults.contains(&Check::Labels) { other(random) } else { k1 };
    let numbers = |of: fn(u32) -> Check| (6..=9).filter(|&number| faults.contains(&of(number))).collect::<Vec<u32>>();
    let first = table(s1, k1, &numbers(Check::First), random);
    let second = table(s2, k2, &numbers(Check::Second), random);
    let len = random.below(4 * MAX_LINES);
    let wanted = faults.first().expect("a fault").number();
    assert_eq!(calls::agree(&first, &second, len, random), Err(wanted), "the agreement with {:?}", faults);
    counts.add(format!("refused {}", wanted));
}
