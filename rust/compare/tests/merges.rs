//! Two rule tables merged (document 02, S-6): bytes, runs, refusals, and the limits of the counts.

use compare::calls;
use compare::counts::Counts;
use compare::inputs::{random_rules, rules, sample};
use compare::random::Random;
use compare::rounds::merges::{any_bytes, of_counts, refused, runs, CHECKS};
use compare::shapes::SHAPES;
use whatif::sizes::rules_bytes;

/// Every pair of counts with a product of at most 16, 1×16, 4×4 and 16×1 among them, and plans of every shape.
#[test]
fn every_pair_of_counts() {
    let random = &mut Random::new(2001);
    let mut pairs = 0;
    for s1 in 1..=16 {
        for s2 in 1..=16 / s1 {
            for k in [1, 2, 33, 64] {
                let merged = of_counts((s1, s2), k, random);
                SHAPES.iter().for_each(|&shape| runs(&merged, shape, random.between(1, 300), random));
            }
            pairs += 1;
        }
    }
    assert_eq!(pairs, 50);
}

#[test]
fn the_largest_plans() {
    let random = &mut Random::new(2002);
    for counts in [(1, 16), (4, 4), (16, 1)] {
        let merged = of_counts(counts, 64, random);
        SHAPES.iter().for_each(|&shape| runs(&merged, shape, 32_768, random));
    }
}

/// Every product above 16 gets 24, from 17 on (which two counts up to 16 never make) to 256; a count of 17 is 7.
#[test]
fn products_above_16() {
    let random = &mut Random::new(2003);
    for s1 in 1..=17 {
        for s2 in 1..=17 {
            let table = |s: usize| rules(s, 1, &[0], &vec![0; s * s], &vec![0; s]);
            let answer = calls::merge(&table(s1), &table(s2), 20_000, random).err();
            let wanted = match (s1, s2) {
                _ if s1 > 16 || s2 > 16 => Some(7),
                _ if s1 * s2 > 16 => Some(24),
                _ => None,
            };
            assert_eq!(answer, wanted, "{} times {}", s1, s2);
        }
    }
}

#[test]
fn each_refusal_alone_and_in_pairs() {
    let (random, counts) = (&mut Random::new(2004), &mut Counts::default());
    for (i, &first) in CHECKS.iter().enumerate() {
        for &second in &CHECKS[i..] {
            (0..60).for_each(|_| refused(&[first, second], random, counts));
        }
    }
    for number in [6, 7, 8, 9, 11, 23, 24] {
        assert!(counts.of(&format!("refused {}", number)) > 0, "{}", counts);
    }
}

#[test]
fn any_set_of_faults() {
    let (random, counts) = (&mut Random::new(2005), &mut Counts::default());
    for _ in 0..3_000 {
        let faults: Vec<_> = CHECKS.iter().copied().filter(|_| random.below(4) == 0).collect();
        refused(&faults, random, counts);
    }
    assert!(counts.of("accepted") > 0, "{}", counts);
}

#[test]
fn bytes_without_any_sense() {
    let random = &mut Random::new(2006);
    (0..20_000).for_each(|_| any_bytes(random));
}

/// One byte of either table changed to any other value: the same answer as the reference's.
#[test]
fn every_byte_of_small_tables() {
    let random = &mut Random::new(2007);
    let (first, second) = (random_rules(2, 2, random), random_rules(3, 2, random));
    let len = rules_bytes(6, 2);
    for at in 0..first.len() + second.len() {
        for add in 1..=255 {
            let (mut first, mut second) = (first.clone(), second.clone());
            let byte = first.iter_mut().chain(second.iter_mut()).nth(at).unwrap();
            *byte = byte.wrapping_add(add);
            let _ = calls::merge(&first, &second, len, random);
        }
    }
}

/// Every length of the output: 11 below what the table has, and nothing beyond it is written.
#[test]
fn every_length_of_the_output() {
    let random = &mut Random::new(2008);
    let (first, second) = (random_rules(3, 2, random), random_rules(2, 2, random));
    let enough = rules_bytes(6, 2);
    for len in 0..enough + 40 {
        let answer = calls::merge(&first, &second, len, random);
        assert_eq!(answer.err(), if len < enough { Some(11) } else { None }, "{} bytes", len);
    }
}

/// The sample's table with itself: the pairs of equal states alone are reached, and they are its own.
#[test]
fn a_table_with_itself() {
    let random = &mut Random::new(2009);
    let (plan, table) = sample();
    let merged = calls::merge(&table, &table, rules_bytes(4, 2), random).expect("accepted");
    for labels in 0..1 << 7u8 {
        let nodes: Vec<u16> = (0..7).collect();
        let labels: Vec<u8> = (0..7).map(|bit| labels >> bit & 1).collect();
        let run = |rules: &[u8]| whatif::fresh_run(&plan, rules, &nodes, &labels).expect("accepted");
        let (one, both) = (run(&table), run(&merged));
        assert_eq!((both.state, both.yes), (3 * one.state, one.yes));
    }
}
