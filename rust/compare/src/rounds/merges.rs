//! Two rule tables merged: every byte that is written, refusals alone, in pairs or in any set, and on plans the pair of
//! runs.

use crate::calls::{self, longer, Kind};
use crate::counts::Counts;
use crate::faults::{shorter, Input};
use crate::inputs::{random_rules, Case};
use crate::random::Random;
use crate::shapes::{Shape, SHAPES};
use crate::trace;
use whatif::sizes::rules_bytes;

/// A check of the merge: 6 to 9 of the first table, 6 to 9 of the second, 23, 24, 11.
#[derive(Clone, Copy, Debug, PartialEq, Eq)]
pub enum Check {
    First(u32),
    Second(u32),
    Labels,
    Product,
    Output,
}

/// In their order.
pub const CHECKS: [Check; 11] = [
    Check::First(6),
    Check::First(7),
    Check::First(8),
    Check::First(9),
    Check::Second(6),
    Check::Second(7),
    Check::Second(8),
    Check::Second(9),
    Check::Labels,
    Check::Product,
    Check::Output,
];

impl Check {
    pub fn number(self) -> u32 {
        match self {
            Check::First(number) | Check::Second(number) => number,
            Check::Labels => 23,
            Check::Product => 24,
            Check::Output => 11,
        }
    }
}

pub fn round(random: &mut Random, counts: &mut Counts) {
    for _ in 0..3 {
        accepted(random, counts);
    }
    for pair in CHECKS.windows(2) {
        refused(pair, random, counts);
    }
    let any: Vec<Check> = CHECKS.iter().copied().filter(|_| random.below(5) == 0).collect();
    refused(&any, random, counts);
}

/// Counts of states of two tables whose product is at most 16, or above.
fn states(above: bool, random: &mut Random) -> (usize, usize) {
    let s1 = if above { random.between(2, 16) } else { random.between(1, 16) };
    let s2 = if above { random.between(16 / s1 + 1, 16) } else { random.between(1, 16 / s1) };
    (s1, s2)
}

/// A merge of random tables, and a run of all three on a plan.
fn accepted(random: &mut Random, counts: &mut Counts) {
    let ((s1, s2), k) = (states(false, random), random.between(1, 64));
    let merged = of_counts((s1, s2), k, random);
    let (shape, leaves) = (*random.pick(&SHAPES), random.between(1, 40));
    runs(&merged, shape, leaves, random);
    counts.add(format!("merged, {} states", s1 * s2));
}

/// Two tables and the one that they make.
pub struct Merged {
    pub first: Vec<u8>,
    pub second: Vec<u8>,
    pub merged: Vec<u8>,
    pub s2: usize,
    pub k: usize,
}

/// Random tables of these counts, merged into a buffer that is exactly long enough, and into a longer one.
pub fn of_counts((s1, s2): (usize, usize), k: usize, random: &mut Random) -> Merged {
    let (first, second) = (random_rules(s1, k, random), random_rules(s2, k, random));
    trace::say(format!("S1 {}, S2 {}, K {}", s1, s2, k));
    let len = rules_bytes(s1 * s2, k);
    let merged = calls::merge(&first, &second, len, random).expect("accepted");
    assert_eq!(calls::merge(&first, &second, len + random.between(1, 9), random).as_ref(), Ok(&merged));
    Merged { first, second, merged, s2, k }
}

/// On a plan the merged table's states are the pairs, at the root and so, plan by plan, at every node.
pub fn runs(tables: &Merged, shape: Shape, leaves: usize, random: &mut Random) {
    let plan = Case::new(shape, leaves, 1, tables.k, random).plan;
    let run = |rules: &[u8]| whatif::fresh_run(&plan, rules, &[], &[]).expect("accepted");
    let (p, q, both) = (run(&tables.first), run(&tables.second), run(&tables.merged));
    assert_eq!(both.state, p.state * tables.s2 as u8 + q.state, "the pair of states");
    assert_eq!(both.yes, p.yes && q.yes, "cleared by both");
}

/// A merge with these faults, which stand in the order of the checks: the first is given.
pub fn refused(faults: &[Check], random: &mut Random, counts: &mut Counts) {
    trace::say(format!("faults {:?}", faults));
    let (s1, s2) = states(faults.contains(&Check::Product), random);
    let k1 = random.between(1, 64);
    let other = |random: &mut Random| (k1 + random.below(63)) % 64 + 1;
    let k2 = if faults.contains(&Check::Labels) { other(random) } else { k1 };
    let numbers = |of: fn(u32) -> Check| (6..=9).filter(|&number| faults.contains(&of(number))).collect::<Vec<u32>>();
    let first = table(s1, k1, &numbers(Check::First), random);
    let second = table(s2, k2, &numbers(Check::Second), random);
    let enough = rules_bytes(s1 * s2, k1.max(k2));
    let len = if faults.contains(&Check::Output) { shorter(rules_bytes(s1 * s2, k1), random) } else { enough };
    let answer = calls::merge(&first, &second, len, random).err();
    let wanted = faults.first().map(|check| check.number());
    assert_eq!(answer, wanted, "the merge with {:?}", faults);
    counts.add(wanted.map_or("accepted".to_string(), |number| format!("refused {}", number)));
}

/// A random table with these faults of 6 to 9.
pub fn table(s: usize, k: usize, faults: &[u32], random: &mut Random) -> Vec<u8> {
    let mut input = Input::new(&Case::new(Shape::Uniform, 1, s, k, random), Kind::Rules, random);
    input.lay(faults, random);
    input.table
}

/// Random bytes for tables, with small numbers in the headers: as the reference does, whatever comes out.
pub fn any_bytes(random: &mut Random) {
    let mut bytes = || {
        let mut table = random_rules(random.between(1, 4), random.between(1, 3), random);
        let at = random.below(table.len());
        table[at] = *random.pick(&[0, 1, 2, 3, 4, 17, 255]);
        table.truncate(random.between(0, 2 * table.len()));
        let more = random.below(2);
        longer(&table, random.bytes(more))
    };
    let (first, second) = (bytes(), bytes());
    let len = random.below(200);
    let _ = calls::merge(&first, &second, len, random);
}
