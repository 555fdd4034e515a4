//! Whole questions outside the session.

use compare::alterations::ALTERATIONS;
use compare::counts::Counts;
use compare::inputs::Case;
use compare::panel::Lent;
use compare::random::Random;
use compare::rounds::asks::{altered, as_the_session, ask, refused, CHECKS};
use compare::shapes::{most_parts, SHAPES};

#[test]
fn every_shape_up_to_the_largest() {
    let (random, counts) = (&mut Random::new(3201), &mut Counts::default());
    for shape in SHAPES {
        for leaves in [1, 2, 30, 501, 32_768] {
            let (s, k) = (random.between(1, 16), random.between(2, 64));
            (0..3).for_each(|_| as_the_session(Case::new(shape, leaves, s, k, random), random, counts));
        }
    }
    assert!(counts.of("links: some") > 3, "{}", counts);
}

/// 64 changes: 254 parts.
#[test]
fn the_most_parts() {
    let random = &mut Random::new(3202);
    let (kinds, nodes) = most_parts();
    let case = Case::of_kinds(&kinds, 16, 64, random);
    let labels = case.other_labels(&nodes, random);
    let lent = Lent::built(&case, random);
    assert_eq!(ask(&lent.inputs(), &nodes, &labels, random).expect("accepted").parts, 254);
}

#[test]
fn each_refusal_alone_and_in_pairs() {
    let (random, counts) = (&mut Random::new(3203), &mut Counts::default());
    for (i, &first) in CHECKS.iter().enumerate() {
        for &second in &CHECKS[i..] {
            let faults = if first == second { vec![first] } else { vec![first, second] };
            (0..40).for_each(|_| refused(&faults, random, counts));
        }
    }
    for number in CHECKS {
        assert!(counts.of(&format!("refused {}", number)) > 0, "{}", counts);
    }
}

#[test]
fn altered_inputs() {
    let (random, counts) = (&mut Random::new(3204), &mut Counts::default());
    for kind in ALTERATIONS {
        for turn in 0..400 {
            let leaves = if turn % 100 == 0 { 1_500 } else { 25 };
            altered(kind, Case::random(leaves, random), random, counts);
        }
    }
    for what in ["Bytes: refused 18", "Numbers: refused 18", "BytesBelow: answered", "Length: refused 17"] {
        assert!(counts.of(what) > 10, "{}: {}", what, counts);
    }
}
