//! Builds of rule tables and of branch tables: every number and byte that is written, for trees of every shape and
//! size. Each build is followed by full checks, which must say yes, also with another excess.

use compare::calls::KINDS;
use compare::counts::Counts;
use compare::inputs::Case;
use compare::random::Random;
use compare::rounds::builds;
use compare::shapes::{self, SHAPES};

/// Builds both tables of a case in buffers a little too long, or not.
fn build_both(case: &Case, random: &mut Random) {
    for kind in KINDS {
        let excess = (random.below(4), random.below(4));
        builds::build(case, kind, excess, random, &mut Counts::default());
    }
}

#[test]
fn every_tree_of_up_to_seven_leaves() {
    let random = &mut Random::new(101);
    let mut trees = 0;
    for leaves in 1..=7 {
        for kinds in shapes::all(leaves) {
            for (s, k) in [(1, 1), (2, 2), (3, 5), (16, 64)] {
                build_both(&Case::of_kinds(&kinds, s, k, random), random);
            }
            trees += 1;
        }
    }
    assert_eq!(trees, 197);
}

#[test]
fn every_count_of_states_and_labels() {
    let random = &mut Random::new(102);
    for s in 1..=16 {
        for k in 1..=64 {
            let shape = *random.pick(&SHAPES);
            let leaves = random.between(1, 40);
            build_both(&Case::new(shape, leaves, s, k, random), random);
        }
    }
}

#[test]
fn every_shape_from_one_leaf_on() {
    let random = &mut Random::new(103);
    for shape in SHAPES {
        for leaves in (1..=260).chain([500, 501, 512, 1_024, 2_047, 4_097]) {
            let (s, k) = (random.between(1, 16), random.between(1, 64));
            build_both(&Case::new(shape, leaves, s, k, random), random);
        }
    }
}

#[test]
fn the_largest_plans_of_every_shape() {
    let random = &mut Random::new(104);
    for shape in SHAPES {
        for (leaves, s, k) in [(32_768, 1, 1), (32_768, 2, 64), (32_768, 16, 64), (32_767, 16, 1), (20_000, 7, 33)] {
            let case = Case::new(shape, leaves, s, k, random);
            assert_eq!(case.n, 2 * leaves - 1);
            build_both(&case, random);
        }
    }
}
