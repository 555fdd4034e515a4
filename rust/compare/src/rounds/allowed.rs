//! Allowed labels and clearing states: every bit against a run of its own where the plan is small, some bits where it is
//! large; both calls against each other and against plain Rust; each refusal.

use super::any_case;
use crate::calls::same;
use crate::counts::Counts;
use crate::inputs::Case;
use crate::random::Random;
use crate::slices;
use crate::trace;
use reference::allowed::{bits, checks, is_allowed, is_clearing};
use reference::formats::{read_plan, read_rules};
use reference::tables::run;

const MARGIN: usize = 9;
/// Runs for each bit of a plan cost this many nodes at most.
const WHOLE: usize = 300_000;

pub fn round(random: &mut Random, counts: &mut Counts) {
    right(any_case(random), random, counts);
    let (s, k) = (random.between(1, 16), random.between(1, 64));
    right(Case::new(*random.pick(&crate::shapes::SHAPES), random.between(1, 12), s, k, random), random, counts);
    refused(Case::random(12, random), random, counts);
}

/// Masks into a buffer of this length that holds random numbers; what is outside must stay, and all of it on a refusal.
pub fn allowed(plan: &[u8], rules: &[u8], len: usize, random: &mut Random) -> Result<Vec<u64>, u32> {
    let before: Vec<u64> = (0..len + 2 * MARGIN).map(|_| random.word()).collect();
    let (mut masks, mut want) = (before.clone(), before);
    let number = slices::allowed(plan, rules, &mut masks[MARGIN..MARGIN + len]);
    let plain = yardstick::allowed(plan, rules, &mut want[MARGIN..MARGIN + len]);
    assert_eq!(number, plain.err().unwrap_or(0), "plain Rust's answer");
    same("masks", &masks, &want);
    let nodes = checks(plan, rules, len).map(|(plan, _)| plan.nodes());
    assert_eq!(number, nodes.as_ref().err().copied().unwrap_or(0), "the answer for allowed labels");
    nodes.map(|n| masks[MARGIN..MARGIN + n].to_vec())
}

/// The same for sets of states.
pub fn clearing(plan: &[u8], rules: &[u8], len: usize, random: &mut Random) -> Result<Vec<u16>, u32> {
    let before = random.numbers(len + 2 * MARGIN);
    let (mut sets, mut want) = (before.clone(), before);
    let number = slices::clearing(plan, rules, &mut sets[MARGIN..MARGIN + len]);
    let plain = yardstick::clearing(plan, rules, &mut want[MARGIN..MARGIN + len]);
    assert_eq!(number, plain.err().unwrap_or(0), "plain Rust's answer");
    same("sets", &sets, &want);
    let nodes = checks(plan, rules, len).map(|(plan, _)| plan.nodes());
    assert_eq!(number, nodes.as_ref().err().copied().unwrap_or(0), "the answer for clearing states");
    nodes.map(|n| sets[MARGIN..MARGIN + n].to_vec())
}

/// A plan and rules as they must be: bits by the definition, and what the two calls say of each other.
pub fn right(case: Case, random: &mut Random, counts: &mut Counts) {
    let len = case.n + random.below(3);
    let masks = allowed(&case.plan, &case.rules, len, random).expect("accepted");
    let sets = clearing(&case.plan, &case.rules, len, random).expect("accepted");
    let (plan, rules) = (read_plan(&case.plan).unwrap(), read_rules(&case.rules).unwrap());
    let (s, k, n) = (rules.states, rules.labels, plan.nodes());
    let states = run(plan.kinds, plan.labels, &rules);
    let cleared = rules.accepts(states[n - 1]);
    for v in 0..n {
        assert_eq!(masks[v] >> plan.labels[v] & 1 == 1, cleared, "the bit of node {}'s own label", v);
        assert_eq!(sets[v] >> states[v] & 1 == 1, cleared, "the bit of node {}'s own state", v);
        assert!(k == 64 || masks[v] >> k == 0, "a bit from K on at node {}", v);
        assert!(s == 16 || sets[v] >> s == 0, "a bit from S on at node {}", v);
    }
    let whole = n * n * (k + s) <= WHOLE;
    let nodes: Vec<usize> = if whole { (0..n).collect() } else { (0..2).map(|_| random.below(n)).collect() };
    for v in nodes {
        trace::say(format!("node {}", v));
        assert_eq!(masks[v], bits(k, |a| is_allowed(&plan, &rules, v, a)), "the labels of node {}", v);
        assert_eq!(u64::from(sets[v]), bits(s, |q| is_clearing(&plan, &rules, v, q)), "the states of node {}", v);
    }
    counts.add(if whole { "every bit" } else { "some nodes" });
    counts.add(if cleared { "cleared" } else { "not cleared" });
    counts.add(if masks.iter().all(|&mask| mask == 0) { "no single label would do" } else { "some label would do" });
}

/// One byte of the plan or the rules altered, or one cut off; a buffer that is too short, alone or besides.
pub fn refused(mut case: Case, random: &mut Random, counts: &mut Counts) {
    let short = random.below(3) == 0;
    let len = if short { random.below(case.n) } else { case.n + random.below(3) };
    match random.below(6) {
        0 => {
            // a label that the rules do not have
            let at = 12 + random.below(case.n);
            case.plan[at] = case.k as u8;
        }
        1 => {
            case.plan.pop();
        }
        2 => {
            case.rules.pop();
        }
        3 => {
            let at = random.below(case.plan.len());
            case.plan[at] = random.word() as u8;
        }
        4 => {
            let at = random.below(case.rules.len());
            case.rules[at] = random.word() as u8;
        }
        _ => (),
    }
    let answer = allowed(&case.plan, &case.rules, len, random).err();
    assert_eq!(clearing(&case.plan, &case.rules, len, random).err(), answer, "both calls refuse alike");
    counts.add(answer.map_or("accepted".to_string(), |number| format!("refused {}", number)));
}
