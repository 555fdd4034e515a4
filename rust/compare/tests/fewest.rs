//! The fewest changes that clear a plan, or that take its clearance.

use compare::counts::Counts;
use compare::inputs::{sample, Case};
use compare::random::Random;
use compare::rounds::fewest::{fewest, refused, right, round};
use compare::shapes::{all, SHAPES};

/// Document 01's sample: it is cleared as it is, and one change loses that.
#[test]
fn the_sample() {
    let random = &mut Random::new(4101);
    let (plan, rules) = sample();
    let told = fewest(&plan, &rules, &[], 1, [21, 64, 64], random).expect("accepted");
    assert_eq!((told.least, told.nodes.len()), (0, 0));
    let told = fewest(&plan, &rules, &[], 0, [21, 64, 64], random).expect("accepted");
    assert_eq!((told.least, told.nodes.len()), (1, 1));
    // with node 2 open alone there is no way to lose it
    let told = fewest(&plan, &rules, &[0, 0, 3, 0, 0, 0, 0], 0, [21, 64, 64], random).expect("accepted");
    assert_eq!((told.least, told.nodes.len()), (65_536, 0));
}

/// Every tree of up to four leaves, against all its relabellings.
#[test]
fn small_trees() {
    let (random, counts) = (&mut Random::new(4102), &mut Counts::default());
    for leaves in 1..=4 {
        for kinds in all(leaves) {
            for (s, k) in [(1, 1), (2, 2), (2, 3), (4, 2), (16, 3)] {
                for _ in 0..8 {
                    right(&Case::of_kinds(&kinds, s, k, random), random, counts);
                }
            }
        }
    }
    assert!(counts.of("every relabelling") > 300, "{}", counts);
}

#[test]
fn every_shape_up_to_the_largest() {
    let (random, counts) = (&mut Random::new(4103), &mut Counts::default());
    for shape in SHAPES {
        for leaves in [1, 2, 30, 501, 32_768] {
            let (s, k) = (random.between(1, 5), random.between(1, 12));
            right(&Case::new(shape, leaves, s, k, random), random, counts);
        }
    }
    assert!(counts.of("plain Rust alone") > 0, "{}", counts);
}

/// Numbers of every kind come, and lists of every kind.
#[test]
fn every_kind_of_answer() {
    let (random, counts) = (&mut Random::new(4104), &mut Counts::default());
    for _ in 0..200 {
        round(random, counts);
    }
    let kinds = ["0 changes", "1 changes", "2 changes", "3 changes", "4 changes", "5 to 64 changes"];
    for what in kinds.iter().chain(&["more than 64 changes", "no way", "every relabelling", "plain Rust alone"]) {
        assert!(counts.of(what) > 0, "{}: {}", what, counts);
    }
}

#[test]
fn each_refusal() {
    let (random, counts) = (&mut Random::new(4105), &mut Counts::default());
    for _ in 0..20_000 {
        refused(Case::random(6, random), random, counts);
    }
    for number in [3, 4, 5, 7, 8, 9, 10, 11, 17] {
        assert!(counts.of(&format!("refused {}", number)) > 0, "{}: {}", number, counts);
    }
    assert_eq!(fewest(&[0; 11], &[0; 19], &[], 1, [0; 3], random), Err(2));
    let (plan, _) = sample();
    assert_eq!(fewest(&plan, &[0; 19], &[], 1, [0; 3], random), Err(6));
}
