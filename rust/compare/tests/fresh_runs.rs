//! Fresh runs with lists of changes, on trees of every shape and size. (Their refusals are in refusals.rs.)

use compare::calls;
use compare::counts::Counts;
use compare::inputs::{self, Case};
use compare::random::Random;
use compare::rounds::fresh_runs::fresh_run;
use compare::shapes::{self, SHAPES};

#[test]
fn no_change_and_every_single_change_of_small_trees() {
    let random = &mut Random::new(501);
    for leaves in 1..=6 {
        for kinds in shapes::all(leaves) {
            let case = Case::of_kinds(&kinds, 3, 3, random);
            calls::fresh_run(&case.plan, &case.rules, &[], &[], random).expect("accepted");
            for v in 0..case.n as u16 {
                for a in 0..3 {
                    calls::fresh_run(&case.plan, &case.rules, &[v], &[a], random).expect("accepted");
                }
            }
        }
    }
}

#[test]
fn lists_of_every_length() {
    let (random, counts) = (&mut Random::new(502), &mut Counts::default());
    for shape in SHAPES {
        for turn in 0..300 {
            let (leaves, s, k) = (random.between(1, 400), random.between(1, 16), random.between(1, 64));
            fresh_run(&Case::new(shape, leaves, s, k, random), turn % 65, random, counts);
        }
    }
    for changes in ["none", "1", "2 to 63", "64"] {
        assert!(counts.of(&format!("changes: {}", changes)) >= 20, "{}", counts);
    }
}

#[test]
fn the_largest_plans_with_64_changes() {
    let random = &mut Random::new(503);
    for shape in SHAPES {
        for (s, k) in [(1, 1), (2, 64), (16, 64), (16, 2)] {
            let case = Case::new(shape, 32_768, s, k, random);
            for m in [0, 1, 64] {
                fresh_run(&case, m, random, &mut Counts::default());
            }
            let root = case.n as u16 - 1;
            calls::fresh_run(&case.plan, &case.rules, &[0, root], &[0, k as u8 - 1], random).expect("accepted");
        }
    }
}

#[test]
fn limits_of_the_list() {
    let random = &mut Random::new(504);
    let case = Case::new(shapes::Shape::Uniform, 100, 4, 4, random);
    let (nodes, labels) = case.list(65, random);
    let run = |nodes: &[u16], labels: &[u8], random: &mut Random| {
        calls::fresh_run(&case.plan, &case.rules, nodes, labels, random).err().unwrap_or(0)
    };
    assert_eq!(run(&nodes[..64], &labels[..64], random), 0);
    assert_eq!(run(&nodes, &labels, random), 12);
    assert_eq!(run(&nodes[..64], &labels[..63], random), 12);
    assert_eq!(run(&nodes[..63], &labels[..64], random), 12);
    assert_eq!(run(&[], &labels[..1], random), 12);
    assert_eq!(run(&nodes[..1], &[], random), 12);
    // 12 counts the entries, not their nodes; 13 is put to the whole list before 14, superseded entries included
    assert_eq!(run(&[0, 1, 2].repeat(22)[..65], &[0; 65], random), 12);
    assert_eq!(run(&[199, 0, 199, 1], &[0, 0, 0, 0], random), 13);
    assert_eq!(run(&[5, 5], &[4, 1], random), 14);
    assert_eq!(run(&[0, 199], &[4, 0], random), 13);
    assert_eq!(run(&[0, 0], &[0, 4], random), 14);
    assert_eq!(run(&[5, 0, 5], &[1, 2, 1], random), 0);
    assert_eq!(run(&[198, 0], &[3, 3], random), 0);
}

#[test]
fn the_sample() {
    let random = &mut Random::new(505);
    let (plan, rules) = inputs::sample();
    assert_eq!((plan.len(), rules.len()), (26, 32));
    for row in reference::sample::ROWS {
        let _ = calls::fresh_run(&plan, &rules, row.nodes, row.labels, random);
        let answer = whatif::fresh_run(&plan, &rules, row.nodes, row.labels);
        assert_eq!(answer.map(|a| (a.state, a.yes)).map_err(|refusal| refusal.number()), row.fresh());
    }
}
