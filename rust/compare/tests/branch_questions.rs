//! Branch questions on tables as built, against the word automaton itself, and their refusals in order.
//! (Tables not as built are in damaged_tables.rs.)

use compare::built::Built;
use compare::calls::{self, Kind};
use compare::counts::Counts;
use compare::inputs::Case;
use compare::random::Random;
use compare::rounds::branch_questions::{ask, refusals, WRONG_LENGTHS};
use compare::shapes::{self, Shape, SHAPES};
use reference::branch::READINGS;

#[test]
fn every_pair_of_nodes_of_small_trees() {
    let random = &mut Random::new(601);
    let mut refused = 0;
    for leaves in 1..=6 {
        for kinds in shapes::all(leaves) {
            let built = Built::with_excess(Kind::Branch, Case::of_kinds(&kinds, 4, 3, random), random);
            let tree = built.tree();
            for upper in 0..built.case.n as u32 + 2 {
                for lower in 0..built.case.n as u32 + 2 {
                    refused += usize::from(ask(&built, &tree, upper, lower, random).is_err());
                }
            }
        }
    }
    assert!(refused > 0);
}

#[test]
fn every_pair_of_nodes_of_deep_trees() {
    let random = &mut Random::new(602);
    for shape in [Shape::LeftComb, Shape::RightComb, Shape::Zigzag, Shape::Bushy] {
        for s in [1, 2, 5, 16] {
            let built = Built::with_excess(Kind::Branch, Case::new(shape, 70, s, 7, random), random);
            let tree = built.tree();
            for upper in 0..built.case.n as u32 {
                for lower in 0..built.case.n as u32 {
                    let _ = ask(&built, &tree, upper, lower, random);
                }
            }
        }
    }
}

#[test]
fn the_largest_plans() {
    let random = &mut Random::new(603);
    for shape in SHAPES {
        for (s, k) in [(1, 1), (3, 64), (16, 64)] {
            let built = Built::with_excess(Kind::Branch, Case::new(shape, 32_768, s, k, random), random);
            let tree = built.tree();
            let mut most = 0;
            for _ in 0..300 {
                let (lower, upper) = built.pair(&tree, random);
                most = most.max(ask(&built, &tree, upper, lower, random).expect("accepted")[2]);
                let _ = ask(&built, &tree, random.below(built.case.n) as u32, lower, random);
            }
            // three times the binary digits of the greatest depth, 15 of them
            assert!(most <= 45);
        }
    }
}

#[test]
fn the_same_node_twice_is_one_letter_and_none_from_below() {
    let random = &mut Random::new(604);
    for _ in 0..200 {
        let built = Built::with_excess(Kind::Branch, Case::random(30, random), random);
        let v = random.below(built.case.n);
        let [answer, empty] =
            READINGS.map(|reading| calls::library_branch(reading, built.lent(), v as u32, v as u32, random));
        let state = built.case.branch[16 + built.case.labels()[v] as usize];
        let yes = built.case.branch[16 + built.case.s * built.case.k + state as usize];
        assert_eq!(answer, Ok([state as u32, yes as u32, 0, 0]));
        let yes = built.case.branch[16 + built.case.s * built.case.k];
        assert_eq!(empty, Ok([0, yes as u32, 0, 0]));
    }
}

#[test]
fn refusals_alone_and_in_pairs() {
    let (random, counts) = (&mut Random::new(605), &mut Counts::default());
    for turn in 0..3_000 {
        let (leaves, s, k) = (random.between(2, 40), random.between(1, 16), random.between(1, 64));
        let case = Case::new(SHAPES[turn % SHAPES.len()], leaves, s, k, random);
        refusals(case, turn % WRONG_LENGTHS, random, counts);
    }
}

/// 17 looks at lengths alone: offsets, kinds and what the tables hold are nothing to it.
#[test]
fn offsets_and_kinds_are_not_looked_at() {
    let random = &mut Random::new(606);
    for _ in 0..300 {
        let mut built = Built::with_excess(Kind::Branch, Case::random(30, random), random);
        let tree = built.tree();
        let (lower, upper) = built.pair(&tree, random);
        let before = READINGS.map(|reading| calls::library_branch(reading, built.lent(), upper, lower, random));
        let n = built.case.n;
        let (offsets, more_offsets, kinds) = (random.bytes(8), random.bytes(8), random.bytes(n));
        built.case.plan[4..12].copy_from_slice(&offsets);
        built.case.plan[12 + n..].copy_from_slice(&kinds);
        built.case.branch[8..16].copy_from_slice(&more_offsets);
        assert_eq!(calls::branches(built.lent(), upper, lower, random), before);
    }
}
