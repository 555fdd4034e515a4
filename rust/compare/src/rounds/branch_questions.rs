//! Branch questions on tables as built, against the word automaton itself, and their refusals in order.

use super::any_case;
use crate::built::Built;
use crate::calls::{self, Kind};
use crate::counts::Counts;
use crate::faults::shorter;
use crate::inputs::Case;
use crate::random::Random;
use crate::shapes::SHAPES;
use reference::branch::{by_word, READINGS};
use reference::formats::{read_branch, read_plan};
use reference::tree::Tree;

pub fn round(random: &mut Random, counts: &mut Counts) {
    let built = Built::with_excess(Kind::Branch, any_case(random), random);
    let tree = built.tree();
    for _ in 0..20 {
        let (lower, upper) = built.pair(&tree, random);
        let moves = ask(&built, &tree, upper, lower, random).expect("accepted")[2];
        counts.add(format!("answered, moves: {}", ["none", "1", "2", "3 or more"][moves.min(3) as usize]));
        let any = random.below(built.case.n) as u32;
        let _ = ask(&built, &tree, any, lower, random);
        ask(&built, &tree, lower, lower, random).expect("accepted");
    }
    let way = random.below(WRONG_LENGTHS);
    let (shape, leaves) = (*random.pick(&SHAPES), random.between(2, 40));
    let (s, k) = (random.between(1, 16), random.between(1, 64));
    refusals(Case::new(shape, leaves, s, k, random), way, random, counts);
}

/// A question in each reading, whose answer is the word automaton's on its own word; the answer with the upper node's label.
pub fn ask(built: &Built, tree: &Tree, upper: u32, lower: u32, random: &mut Random) -> Result<[u32; 4], u32> {
    let (plan, branch) = (read_plan(&built.case.plan).unwrap(), read_branch(&built.case.branch).unwrap());
    let answers = calls::branches(built.lent(), upper, lower, random);
    for (reading, answer) in READINGS.into_iter().zip(answers) {
        let word = by_word(reading, tree, &plan, &branch, upper, lower);
        let want = word.map(|told| [told.state as u32, told.yes as u32, told.links as u32, told.passed as u32]);
        assert_eq!(answer, want, "the word automaton, {:?}", reading);
    }
    answers[0]
}

/// In how many ways something lent can be cut short, be too long or name a number outside its limits.
pub const WRONG_LENGTHS: usize = 12;

fn wrong_length(built: &Built, way: usize, random: &mut Random) -> Built {
    let case = &built.case;
    let mut wrong = built.clone();
    let header = |bytes: &mut Vec<u8>, at: usize, number: usize| {
        bytes[at..at + 4].copy_from_slice(&(number as u32).to_le_bytes());
    };
    match way {
        0 => wrong.case.plan.truncate(random.below(12)),
        1 => wrong.case.plan.truncate(case.plan.len() - 1),
        2 => wrong.case.plan.push(0),
        3 => header(&mut wrong.case.plan, 0, *random.pick(&[0, 65_536, 65_536 + case.n, u32::MAX as usize])),
        4 => wrong.case.branch.truncate(random.below(16)),
        5 => wrong.case.branch.truncate(case.branch.len() - 1),
        6 => wrong.case.branch.push(0),
        7 => header(&mut wrong.case.branch, 0, *random.pick(&[0, 17, 65_536 + case.s, u32::MAX as usize])),
        8 => header(&mut wrong.case.branch, 4, *random.pick(&[0, 65, 65_536 + case.k, u32::MAX as usize])),
        9 => [0, 4].iter().for_each(|&at| header(&mut wrong.case.branch, at, u32::MAX as usize)),
        10 => wrong.node_table.truncate(shorter(case.node_table_len(), random)),
        _ => wrong.state_table.truncate(shorter(case.state_table_len(), random)),
    }
    wrong
}

/// A node that the plan doesn't have; cut to 16 bits it may be one that it has.
fn no_node(n: usize, random: &mut Random) -> u32 {
    let known = random.below(n) as u32;
    *random.pick(&[n as u32, 65_535, 65_536 + known, (1 << 24) + known, u32::MAX])
}

/// 17, 13, 16 and 18, each alone and each two of them at once, on a plan of more than one node.
pub fn refusals(case: Case, way: usize, random: &mut Random, counts: &mut Counts) {
    let good = Built::with_excess(Kind::Branch, case, random);
    let n = good.case.n;
    // not below: a node and the root, the wrong way round; a lower node whose jump leads outside gets 18
    let (root, v, out) = (n as u32 - 1, random.below(n - 1) as u32, no_node(n, random));
    let mut damaged = good.clone();
    damaged.node_table[4 * v as usize + 1] = u16::MAX;
    let (short, both) = (wrong_length(&good, way, random), wrong_length(&damaged, way, random));
    let lent = Faulty { good: &good, damaged: &damaged, short: &short, both: &both };
    for (built, upper, lower, wanted, what) in faulty_pairs(lent, root, v, out) {
        for answer in calls::branches(built.lent(), upper, lower, random) {
            assert_eq!(answer.err().unwrap_or(0), wanted, "{}, in way {}", what, way);
        }
        counts.add(format!("answer {}: {}", wanted, what));
    }
}

/// What is lent with a branch question: without a fault, with one of 18, with one of 17, with both.
pub struct Faulty<'a, T> {
    pub good: &'a T,
    pub damaged: &'a T,
    pub short: &'a T,
    pub both: &'a T,
}

/// Questions with one fault or two, the number that each gets, and what comes with it: v is not the root, and `out` is no
/// node.
pub fn faulty_pairs<T>(lent: Faulty<'_, T>, root: u32, v: u32, out: u32) -> [(&T, u32, u32, u32, &'static str); 15] {
    let Faulty { good, damaged, short, both } = lent;
    [
        (good, root, v, 0, "no fault"),
        (good, v, root, 16, "alone"),
        (good, out, v, 13, "alone"),
        (good, root, out, 13, "alone"),
        (good, v, out, 13, "alone"),
        (good, out, out, 13, "with 16"),
        (good, out, root, 13, "with 16"),
        (damaged, root, v, 18, "alone"),
        (damaged, out, v, 13, "with 18"),
        (damaged, v, root, 16, "with 18"),
        (short, root, v, 17, "alone"),
        (short, out, v, 17, "with 13"),
        (short, root, out, 17, "with 13"),
        (short, v, root, 17, "with 16"),
        (both, root, v, 17, "with 18"),
    ]
}
