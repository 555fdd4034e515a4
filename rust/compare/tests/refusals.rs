//! Refusals of the builds, the full checks and the fresh run: each alone, each with each, and any set of them at once.
//! The first one in the order of the checks wins. Nothing lent may change and nothing may be told.

use compare::calls::{self, Kind, KINDS};
use compare::counts::Counts;
use compare::faults::{Input, BUILD_CHECKS, FRESH_CHECKS};
use compare::inputs::{self, Case};
use compare::random::Random;
use compare::rounds::refusals::{any_set, build_and_check, fresh_run};

/// Small cases mostly, now and then the largest.
fn case(turn: usize, random: &mut Random) -> Case {
    Case::random(if turn % 400 == 0 { 32_768 } else { 30 }, random)
}

#[test]
fn without_a_fault_all_is_accepted() {
    let (random, counts) = (&mut Random::new(301), &mut Counts::default());
    for turn in 0..500 {
        let case = case(turn, random);
        for kind in KINDS {
            build_and_check(&case, kind, &[], random, counts);
        }
        fresh_run(&case, &[], random, counts);
    }
}

#[test]
fn builds_and_full_checks_each_refusal_alone_and_in_pairs() {
    let (random, counts) = (&mut Random::new(302), &mut Counts::default());
    for kind in KINDS {
        for first in BUILD_CHECKS {
            for second in first..=11 {
                for turn in 1..=100 {
                    build_and_check(&case(turn, random), kind, &[first, second], random, counts);
                }
            }
        }
    }
}

#[test]
fn fresh_run_each_refusal_alone_and_in_pairs() {
    let (random, counts) = (&mut Random::new(303), &mut Counts::default());
    for (i, &first) in FRESH_CHECKS.iter().enumerate() {
        for &second in &FRESH_CHECKS[i..] {
            for turn in 1..=100 {
                fresh_run(&case(turn, random), &[first, second], random, counts);
            }
        }
    }
}

#[test]
fn any_set_of_faults() {
    let (random, counts) = (&mut Random::new(304), &mut Counts::default());
    for turn in 0..4_000 {
        let case = case(turn, random);
        for kind in KINDS {
            let faults = any_set(&BUILD_CHECKS, random);
            build_and_check(&case, kind, &faults, random, counts);
        }
        let faults = any_set(&FRESH_CHECKS, random);
        fresh_run(&case, &faults, random, counts);
    }
}

/// Bytes without any sense, of all lengths: mostly refused, and always as the reference does.
#[test]
fn random_bytes() {
    let random = &mut Random::new(305);
    for _ in 0..20_000 {
        let (plan_len, table_len) = (random.below(40), random.below(60));
        let (mut plan, mut table) = (random.bytes(plan_len), random.bytes(table_len));
        // small numbers in the headers, so that later checks are reached
        for (i, byte) in plan.iter_mut().chain(table.iter_mut()).enumerate() {
            *byte = if i % 4 == 0 { *byte % 8 } else { *byte % 2 * (*byte / 250) };
        }
        let lens = (random.below(40), random.below(40));
        for kind in KINDS {
            let _ = calls::build(kind, &plan, &table, lens, random);
            let (node_table, state_table) = (random.numbers(lens.0), random.bytes(lens.1));
            let _ = calls::check(kind, &plan, &table, &node_table, &state_table, random);
        }
        let _ = calls::fresh_run(&plan, &table, &[0], &[0], random);
    }
}

/// One byte of an accepted input changed to any other value: the same answer as the reference's, byte by byte.
#[test]
fn every_byte_of_a_small_input() {
    let random = &mut Random::new(306);
    for (leaves, s, k) in [(1, 1, 1), (4, 2, 2), (5, 3, 2)] {
        let case = Case::new(compare::shapes::Shape::Uniform, leaves, s, k, random);
        for kind in KINDS {
            let input = Input::new(&case, kind, random);
            for at in 0..input.plan.len() + input.table.len() {
                for add in 1..=255 {
                    let (mut plan, mut table) = (input.plan.clone(), input.table.clone());
                    let byte = plan.iter_mut().chain(table.iter_mut()).nth(at).unwrap();
                    *byte = byte.wrapping_add(add);
                    let lens = (input.node_table_len, input.state_table_len);
                    let _ = calls::build(kind, &plan, &table, lens, random);
                    if kind == Kind::Rules {
                        let _ = calls::fresh_run(&plan, &table, &input.nodes, &input.labels, random);
                    }
                }
            }
        }
    }
}

#[test]
fn limits_of_the_counts() {
    let random = &mut Random::new(307);
    let leaf = |n: usize| inputs::plan(&vec![0; n], &vec![0; n]);
    let rules = inputs::random_rules(2, 2, random);
    let build = |plan: &[u8], rules: &[u8], random: &mut Random| {
        calls::build(Kind::Rules, plan, rules, (4 * 65_535, 17 * 65_535), random).err().unwrap_or(0)
    };
    assert_eq!(build(&leaf(0), &rules, random), 3);
    assert_eq!(build(&leaf(1), &rules, random), 0);
    assert_eq!(build(&leaf(2), &rules, random), 5);
    assert_eq!(build(&leaf(65_535), &rules, random), 5);
    assert_eq!(build(&leaf(65_536), &rules, random), 3);
    for (s, k, number) in [(0, 1, 7), (1, 0, 7), (1, 1, 0)] {
        let table = inputs::rules(s, k, &vec![0; k], &vec![0; s * k * s], &vec![0; s]);
        assert_eq!(build(&leaf(1), &table, random), number, "S {} and K {}", s, k);
        let table = inputs::branch(s, k, &vec![0; s * k], &vec![0; s]);
        let built = calls::build(Kind::Branch, &leaf(1), &table, (4, 17), random);
        assert_eq!(built.err().unwrap_or(0), number, "branch: S {} and K {}", s, k);
    }
}
