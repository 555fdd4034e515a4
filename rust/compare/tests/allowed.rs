//! Allowed labels and clearing states of every node.

use compare::counts::Counts;
use compare::inputs::{sample, Case};
use compare::random::Random;
use compare::rounds::allowed::{allowed, clearing, refused, right};
use compare::shapes::{all, SHAPES};

/// Document 01's sample: as it is it is cleared, so every node's own label is allowed.
#[test]
fn the_sample() {
    let random = &mut Random::new(3101);
    let (plan, rules) = sample();
    let masks = allowed(&plan, &rules, 7, random).expect("accepted");
    assert_eq!(masks, [0b10, 0b10, 0b11, 0b11, 0b10, 0b01, 0b11].map(|mask| mask as u64), "{:?}", masks);
    assert_eq!(clearing(&plan, &rules, 7, random).expect("accepted")[6], 0b10, "at the root the marked state");
}

/// Every tree of up to five leaves, with every bit by a run of its own.
#[test]
fn small_trees() {
    let (random, counts) = (&mut Random::new(3102), &mut Counts::default());
    for leaves in 1..=5 {
        for kinds in all(leaves) {
            for (s, k) in [(1, 1), (2, 3), (4, 2), (16, 5)] {
                right(Case::of_kinds(&kinds, s, k, random), random, counts);
            }
        }
    }
    assert!(counts.of("every bit") > 80, "{}", counts);
}

#[test]
fn every_shape_up_to_the_largest() {
    let (random, counts) = (&mut Random::new(3103), &mut Counts::default());
    for shape in SHAPES {
        for leaves in [1, 2, 30, 501, 32_768] {
            let (s, k) = (random.between(1, 16), random.between(1, 64));
            right(Case::new(shape, leaves, s, k, random), random, counts);
        }
    }
    for what in ["every bit", "some nodes", "cleared", "not cleared"] {
        assert!(counts.of(what) > 0, "{}: {}", what, counts);
    }
}

#[test]
fn each_refusal() {
    let (random, counts) = (&mut Random::new(3104), &mut Counts::default());
    for _ in 0..20_000 {
        refused(Case::random(6, random), random, counts);
    }
    for number in [3, 4, 5, 7, 8, 9, 10, 11] {
        assert!(counts.of(&format!("refused {}", number)) > 0, "{}: {}", number, counts);
    }
    assert_eq!(allowed(&[0; 11], &[0; 19], 3, random), Err(2));
    let (plan, _) = sample();
    assert_eq!(allowed(&plan, &[0; 19], 3, random), Err(6));
}
