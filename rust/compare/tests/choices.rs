//! How many choices end in each state (document 02, S-10).

use compare::alterations::ALTERATIONS;
use compare::calls;
use compare::counts::Counts;
use compare::inputs::{sample, Case};
use compare::panel::Lent;
use compare::random::Random;
use compare::rounds::choices::{altered, as_built, at_the_limit, most_nodes, refused, tangled, CHECKS};
use compare::shapes::{all, most_parts, Shape, SHAPES};
use reference::count::by_trying;
use reference::formats::{read_plan, read_rules};
use reference::panel::Inputs;

/// Every list of different nodes of the sample, by trying all.
#[test]
fn the_sample() {
    let random = &mut Random::new(2301);
    let (plan, rules) = sample();
    let case = Case { n: 7, s: 2, k: 2, plan: plan.clone(), rules: rules.clone(), branch: Vec::new() };
    let lent = Lent::built(&case, random);
    for set in 0..1u32 << 7 {
        let nodes: Vec<u16> = (0..7).filter(|v| set >> v & 1 == 1).collect();
        let told = calls::count(&lent.inputs(), &nodes, 2, random).expect("accepted");
        assert_eq!(told.0, by_trying(&read_plan(&plan).unwrap(), &read_rules(&rules).unwrap(), &nodes));
    }
    // with no open node the run's own state, 1, has count 1
    assert_eq!(calls::count(&lent.inputs(), &[], 2, random), Ok((vec![0, 1], [1, 0])));
}

/// Every tree of up to five leaves, with every node open and with some.
#[test]
fn small_trees() {
    let (random, counts) = (&mut Random::new(2302), &mut Counts::default());
    for leaves in 1..=5 {
        for kinds in all(leaves) {
            for k in [1, 2, 3] {
                as_built(Case::of_kinds(&kinds, random.between(1, 4), k, random), random, counts);
            }
        }
    }
    assert!(counts.of("counted, and tried") > 40, "{}", counts);
}

#[test]
fn every_shape_up_to_the_largest() {
    let (random, counts) = (&mut Random::new(2303), &mut Counts::default());
    for shape in SHAPES {
        for leaves in [1, 2, 30, 501, 32_768] {
            let (s, k) = (random.between(1, 16), random.between(1, 64));
            as_built(Case::new(shape, leaves, s, k, random), random, counts);
        }
    }
    assert!(counts.of("links: some") > 3, "{}", counts);
}

/// 64 open nodes with one label: 254 parts.
#[test]
fn the_most_parts() {
    let random = &mut Random::new(2304);
    let (kinds, nodes) = most_parts();
    let case = Case::of_kinds(&kinds, 16, 1, random);
    let lent = Lent::built(&case, random);
    let told = calls::count(&lent.inputs(), &nodes, 16, random).expect("accepted");
    assert_eq!((told.1[0], told.0.iter().sum()), (254, 1u64));
}

#[test]
fn each_refusal_alone_and_in_pairs() {
    let (random, counts) = (&mut Random::new(2305), &mut Counts::default());
    for (i, &first) in CHECKS.iter().enumerate() {
        for &second in &CHECKS[i..] {
            let faults = if first == second { vec![first] } else { vec![first, second] };
            (0..40).for_each(|_| refused(&faults, random, counts));
        }
    }
    for number in CHECKS {
        assert!(counts.of(&format!("refused {}", number)) > 0, "{}", counts);
    }
}

#[test]
fn limits() {
    let (random, counts) = (&mut Random::new(2306), &mut Counts::default());
    for k in [1, 10] {
        (0..20).for_each(|_| at_the_limit(k, random, counts));
    }
    assert_eq!([1, 2, 10, 63, 64].map(most_nodes), [64, 59, 18, 10, 9]);
    // a node that is a right one in 16 bits only is told as 16 bits; a header number is read whole
    let case = Case::new(Shape::Balanced, 4, 2, 2, random);
    let mut lent = Lent::built(&case, random);
    lent.plan[2] = 1;
    assert_eq!(calls::count(&lent.inputs(), &[0], 2, random), Err(17), "N is 65,536 and more");
}

#[test]
fn altered_lends() {
    let (random, counts) = (&mut Random::new(2307), &mut Counts::default());
    for kind in ALTERATIONS {
        for turn in 0..400 {
            let leaves = if turn % 100 == 0 { 1_500 } else { 25 };
            altered(kind, Case::random(leaves, random), random, counts);
        }
    }
    assert!(counts.of("Labels: refused 18") > 0, "{}", counts);
    for what in ["Bytes: refused 18", "Numbers: refused 18", "Rules: refused 18"] {
        assert!(counts.of(what) > 10, "{}: {}", what, counts);
    }
    for what in ["BytesBelow: answered", "Numbers: answered", "Kinds: answered", "Length: refused 17"] {
        assert!(counts.of(what) > 10, "{}: {}", what, counts);
    }
}

/// Counts stop at the limit where a part is read twice.
#[test]
fn tangled_tables() {
    let (random, counts) = (&mut Random::new(2308), &mut Counts::default());
    (0..20_000).for_each(|_| tangled(random, counts));
    for what in ["answered", "refused 18"] {
        assert!(counts.of(what) > 500, "{}", counts);
    }
}

/// A header number below `most`, mostly.
fn small_number(bytes: &mut [u8], at: usize, most: usize, random: &mut Random) {
    if bytes.len() >= at + 4 && random.below(8) > 0 {
        bytes[at..at + 4].copy_from_slice(&(random.below(most) as u32).to_le_bytes());
    }
}

/// Bytes of any length and content: the same answer as plain Rust's, and what the reference says.
#[test]
fn any_bytes() {
    let random = &mut Random::new(2309);
    for _ in 0..20_000 {
        let (plan_len, rules_len) = (random.below(40), random.below(60));
        let (mut plan, mut rules) = (random.bytes(plan_len), random.bytes(rules_len));
        small_number(&mut plan, 0, 15, random);
        small_number(&mut rules, 0, 3, random);
        small_number(&mut rules, 4, 3, random);
        let (cells, states) = (random.below(60), random.below(60));
        let (node_table, state_table) = (random.numbers(cells), random.bytes(states));
        let m = random.below(4);
        let nodes: Vec<u16> = (0..m).map(|_| random.below(16) as u16).collect();
        let inputs = Inputs { plan: &plan, rules: &rules, node_table: &node_table, state_table: &state_table };
        let _ = calls::count(&inputs, &nodes, random.below(20), random);
    }
}
