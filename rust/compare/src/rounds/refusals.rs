//! Refusals of the builds, the full checks and the fresh run: one fault, two at once, or any set of them. The first one
//! in the order of the checks wins. Nothing lent may change and nothing may be told.

use super::any_case;
use crate::calls::{self, Kind, KINDS};
use crate::counts::Counts;
use crate::faults::{Input, BUILD_CHECKS, FRESH_CHECKS};
use crate::inputs::Case;
use crate::random::Random;

pub fn round(random: &mut Random, counts: &mut Counts) {
    let case = any_case(random);
    for kind in KINDS {
        for faults in neighbours_and_any(&BUILD_CHECKS, random) {
            build_and_check(&case, kind, &faults, random, counts);
        }
    }
    for faults in neighbours_and_any(&FRESH_CHECKS, random) {
        fresh_run(&case, &faults, random, counts);
    }
}

/// Each two checks that are put one after the other; and some sets by chance.
fn neighbours_and_any(checks: &[u32], random: &mut Random) -> Vec<Vec<u32>> {
    let mut sets: Vec<Vec<u32>> = checks.windows(2).map(|pair| pair.to_vec()).collect();
    sets.extend([vec![checks[checks.len() - 1]], any_two(checks, random), any_set(checks, random)]);
    sets
}

/// One check, or two of them.
pub fn any_two(checks: &[u32], random: &mut Random) -> Vec<u32> {
    let first = random.below(checks.len());
    let second = random.between(first, checks.len() - 1);
    [checks[first], checks[second]].to_vec()
}

/// Some of the checks, or none.
pub fn any_set(checks: &[u32], random: &mut Random) -> Vec<u32> {
    checks.iter().copied().filter(|_| random.below(4) == 0).collect()
}

/// A build and a full check with these faults, which stand in the order of the checks: both give the first.
pub fn build_and_check(case: &Case, kind: Kind, faults: &[u32], random: &mut Random, counts: &mut Counts) {
    let mut input = Input::new(case, kind, random);
    input.lay(faults, random);
    let lens = (input.node_table_len, input.state_table_len);
    let wanted = faults.first().copied();
    let built = calls::build(kind, &input.plan, &input.table, lens, random);
    assert_eq!(built.err(), wanted, "the build of {:?} with {:?}", kind, faults);
    let (node_table, state_table) = (random.numbers(lens.0), random.bytes(lens.1));
    let checked = calls::check(kind, &input.plan, &input.table, &node_table, &state_table, random);
    assert_eq!(checked.err(), wanted, "the full check of {:?} with {:?}", kind, faults);
    counts.add(format!("{:?}: build and full check, {}", kind, named(wanted)));
}

pub fn fresh_run(case: &Case, faults: &[u32], random: &mut Random, counts: &mut Counts) {
    let mut input = Input::new(case, Kind::Rules, random);
    input.lay(faults, random);
    let told = calls::fresh_run(&input.plan, &input.table, &input.nodes, &input.labels, random);
    let wanted = faults.first().copied();
    assert_eq!(told.err(), wanted, "the fresh run with {:?}", faults);
    counts.add(format!("fresh run, {}", named(wanted)));
}

fn named(refusal: Option<u32>) -> String {
    refusal.map_or("accepted".to_string(), |number| format!("refused {}", number))
}
