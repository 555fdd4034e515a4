//! Questions by colours (document 02, S-14).

use compare::alterations::ALTERATIONS;
use compare::colour_calls;
use compare::counts::Counts;
use compare::inputs::{sample, Case};
use compare::random::Random;
use compare::rounds::colour_questions::{
    altered, any_case, as_built, ask, build_refused, damaged, refused, wrong_length, Coloured, BUILD_CHECKS, CHECKS,
    WRONG_LENGTHS,
};
use compare::rounds::questions::Asked;
use compare::shapes::{all, most_parts, Shape, DEEPEST, SHAPES};
use reference::colour_rules::{lens, Inputs};
use reference::panel;
use reference::sample::ROWS;

/// The rows of document 01's sample.
#[test]
fn the_sample() {
    let random = &mut Random::new(2501);
    let (plan, rules) = sample();
    let (numbers, bytes) = lens(7, 2);
    assert_eq!((numbers, bytes), (112, 49));
    let (numbers, bytes) = colour_calls::rule_build(&plan, &rules, (numbers, bytes), random).expect("accepted");
    // both begin with the tables of the build
    let tables = panel::Inputs { plan: &plan, rules: &rules, node_table: &numbers, state_table: &bytes };
    let inputs = Inputs { tables, numbers: &numbers, bytes: &bytes };
    for row in &ROWS {
        let told = colour_calls::question(&inputs, row.nodes, row.labels, random);
        let want = row.told.map(|told| (told.state, told.yes as u32, told.parts));
        assert_eq!(told.map(|told| (told[0], told[1], told[4])), want);
    }
}

/// Every tree of up to six leaves, with one change, all nodes changed, and some.
#[test]
fn small_trees() {
    let (random, counts) = (&mut Random::new(2502), &mut Counts::default());
    for leaves in 1..=6 {
        for kinds in all(leaves) {
            for s in 1..=4 {
                let k = random.between(1, 3);
                as_built(Case::of_kinds(&kinds, s, k, random), random, counts);
                let case = Case::of_kinds(&kinds, s, k, random);
                let coloured = Coloured::new(&case, random);
                let mut asked = Asked::new(case, random);
                for v in 0..kinds.len() as u16 {
                    ask(&coloured, &mut asked, &[v], &[random.below(k) as u8], random, counts);
                }
            }
        }
    }
    for what in ["drops: none", "drops: 1", "drops: 2"] {
        assert!(counts.of(what) > 20, "{}: {}", what, counts);
    }
}

#[test]
fn every_shape_up_to_the_largest() {
    let (random, counts) = (&mut Random::new(2503), &mut Counts::default());
    for shape in SHAPES {
        for (leaves, s) in [(1, 1), (2, 4), (30, 2), (501, 3), (32_768, 4)] {
            as_built(Case::new(shape, leaves, s, random.between(1, 64), random), random, counts);
        }
    }
}

/// A change at the bottom of the deepest plans, and others on the way.
#[test]
fn the_greatest_depth() {
    let (random, counts) = (&mut Random::new(2504), &mut Counts::default());
    for shape in DEEPEST {
        let case = Case::new(shape, 32_768, 4, 3, random);
        let coloured = Coloured::new(&case, random);
        let mut asked = Asked::new(case, random);
        let deepest = (0..=asked.tree.root()).max_by_key(|&v| asked.tree.depth[v]).unwrap() as u16;
        let other = asked.case.other_labels(&[deepest], random);
        ask(&coloured, &mut asked, &[deepest], &other, random, counts);
        let (nodes, labels) = asked.case.list(20, random);
        ask(&coloured, &mut asked, &nodes, &labels, random, counts);
    }
}

/// 64 changes and 254 parts.
#[test]
fn the_most_parts() {
    let (random, counts) = (&mut Random::new(2505), &mut Counts::default());
    let (kinds, nodes) = most_parts();
    let case = Case::of_kinds(&kinds, 4, 9, random);
    let coloured = Coloured::new(&case, random);
    let labels = case.other_labels(&nodes, random);
    let mut asked = Asked::new(case, random);
    ask(&coloured, &mut asked, &nodes, &labels, random, counts);
    let told = colour_calls::question(&coloured.inputs(), &nodes, &labels, random).expect("accepted");
    assert_eq!(told[4], 254);
}

#[test]
fn each_refusal_of_the_build_alone_and_in_pairs() {
    let (random, counts) = (&mut Random::new(2506), &mut Counts::default());
    for (i, &first) in BUILD_CHECKS.iter().enumerate() {
        for &second in &BUILD_CHECKS[i..] {
            (0..30).for_each(|_| build_refused(&[first, second], random, counts));
        }
    }
    for number in BUILD_CHECKS {
        assert!(counts.of(&format!("build, refused {}", number)) > 0, "{}", counts);
    }
}

#[test]
fn each_refusal_of_a_question_alone_and_in_pairs() {
    let (random, counts) = (&mut Random::new(2507), &mut Counts::default());
    for (i, &first) in CHECKS.iter().enumerate() {
        for &second in &CHECKS[i..] {
            let faults = if first == second { vec![first] } else { vec![first, second] };
            (0..40).for_each(|_| refused(&faults, random, counts));
        }
    }
    for number in CHECKS {
        assert!(counts.of(&format!("refused {}", number)) > 0, "{}", counts);
    }
    for way in 0..WRONG_LENGTHS {
        for _ in 0..10 {
            let case = any_case(20, random);
            let mut lent = Coloured::new(&case, random);
            wrong_length(&mut lent, &case, way, random);
            assert_eq!(colour_calls::question(&lent.inputs(), &[0], &[0], random), Err(17), "in way {}", way);
        }
    }
}

/// With five states 17 is asked of all but the colour tables, which may be empty; then 27.
#[test]
fn more_than_four_states() {
    let random = &mut Random::new(2508);
    for s in 5..=16 {
        let case = Case::new(Shape::Uniform, random.between(1, 20), s, 4, random);
        let built = compare::panel::Lent::built(&case, random);
        for (numbers, bytes) in [(vec![], vec![]), (random.numbers(40), random.bytes(40))] {
            let mut lent = Coloured { lent: built.clone(), numbers, bytes };
            assert_eq!(colour_calls::question(&lent.inputs(), &[0], &[0], random), Err(27));
            assert_eq!(colour_calls::question(&lent.inputs(), &[0, 65_535], &[0], random), Err(27), "27 before 12");
            lent.lent.state_table.truncate(case.state_table_len() - 1);
            assert_eq!(colour_calls::question(&lent.inputs(), &[0], &[0], random), Err(17), "17 before 27");
        }
    }
}

#[test]
fn damaged_tables() {
    let (random, counts) = (&mut Random::new(2509), &mut Counts::default());
    for turn in 0..3_000 {
        damaged(any_case(if turn % 1_000 == 0 { 1_000 } else { 25 }, random), random, counts);
    }
    for what in ["damaged: answered", "damaged: refused 18"] {
        assert!(counts.of(what) > 500, "{}", counts);
    }
}

#[test]
fn altered_lends() {
    let (random, counts) = (&mut Random::new(2510), &mut Counts::default());
    for kind in ALTERATIONS {
        (0..200).for_each(|_| altered(kind, any_case(25, random), random, counts));
    }
    for what in ["Bytes: refused 18", "Numbers: refused 18", "Rules: refused 18", "Excess: answered"] {
        assert!(counts.of(what) > 10, "{}: {}", what, counts);
    }
}
