//! "Run only: 64 changes and 65; S 16 and 17; depth 32,767." Each with every call that it concerns.

use compare::built::Built;
use compare::calls::{self, Kind};
use compare::inputs::{self, Case};
use compare::panel::{Lent, Panel};
use compare::random::Random;
use compare::rounds::branch_questions;
use compare::rounds::questions::Asked;
use compare::shapes::{Shape, DEEPEST, SHAPES};
use compare::sides;
use reference::panel::{Answer, Call};
use reference::record::RECORD_BYTES;

/// The fresh run and Start take 64 changes, and refuse 65 with 12.
#[test]
fn changes_64_and_65() {
    let random = &mut Random::new(1801);
    for shape in SHAPES {
        for leaves in [33, 200, if shape == Shape::Uniform { 32_768 } else { 600 }] {
            let mut asked = Asked::new(Case::new(shape, leaves, 16, 64, random), random);
            let case = asked.case.clone();
            let (nodes, labels) = case.list(65, random);
            calls::fresh_run(&case.plan, &case.rules, &nodes[..64], &labels[..64], random).expect("accepted");
            assert_eq!(calls::fresh_run(&case.plan, &case.rules, &nodes, &labels, random), Err(12));
            asked.ask(&nodes[..64], &labels[..64], random);
            assert_eq!(asked.panel.start(&asked.lent, &nodes, &labels, random), Answer::Refused(12));
        }
    }
}

/// Rules and a branch table in which every state stands somewhere.
fn tables(s: usize, k: usize, random: &mut Random) -> (Vec<u8>, Vec<u8>) {
    (inputs::lasting_rules(s, k, random), inputs::lasting_branch(s, k, random))
}

/// The numbers that every call gives: builds, full checks, fresh run, Load; then the branch question, which has 17.
fn every_call(plan: &[u8], rules: &[u8], branch: &[u8], random: &mut Random) -> [u32; 7] {
    let n = (plan.len() - 12) / 2;
    let (node_table, state_table) = (random.numbers(4 * n), random.bytes(18 * n));
    let lens = (node_table.len(), state_table.len());
    let lent = Lent {
        plan: plan.to_vec(),
        rules: rules.to_vec(),
        node_table: node_table.clone(),
        state_table: state_table.clone(),
    };
    let built = calls::build(Kind::Branch, plan, branch, lens, random);
    let question =
        built.as_ref().map_or((&node_table, &state_table), |(node_table, state_table)| (node_table, state_table));
    let question = calls::Lent { plan, branch, node_table: question.0, state_table: question.1 };
    [
        calls::build(Kind::Rules, plan, rules, lens, random).err(),
        calls::check(Kind::Rules, plan, rules, &node_table, &state_table, random).err(),
        calls::fresh_run(plan, rules, &[0], &[0], random).err(),
        refusal(sides::call(&[0; RECORD_BYTES], &Call::Load(lent.inputs()), random).answer),
        built.as_ref().err().copied(),
        calls::check(Kind::Branch, plan, branch, &node_table, &state_table, random).err(),
        calls::branch_with_upper(question, n as u32 - 1, 0, random).err(),
    ]
    .map(|number| number.unwrap_or(0))
}

fn refusal(answer: Answer) -> Option<u32> {
    match answer {
        Answer::Refused(number) => Some(number),
        _ => None,
    }
}

/// S 16 is accepted by every call and S 17 by none; so it is with K 64 and 65.
#[test]
fn states_16_and_17() {
    let random = &mut Random::new(1802);
    for _ in 0..20 {
        let case = Case::new(*random.pick(&SHAPES), random.between(1, 40), 16, 1, random);
        for (s, k, accepted) in [(16, 64, true), (17, 64, false), (16, 65, false), (17, 65, false), (1, 1, true)] {
            let (rules, branch) = tables(s, k, random);
            let wanted = if accepted { [0; 7] } else { [7, 7, 7, 7, 7, 7, 17] };
            assert_eq!(every_call(&case.plan, &rules, &branch, random), wanted, "S {} and K {}", s, k);
        }
        // a session of 16 states is lent 17
        let sixteen = Case { rules: tables(16, 2, random).0, s: 16, k: 2, ..case };
        let good = Lent::built(&sixteen, random);
        let bad = Lent { rules: tables(17, 2, random).0, ..good.clone() };
        let mut panel = Panel::loaded(&good, random);
        assert_eq!(panel.start(&bad, &[], &[], random), Answer::Refused(17));
        panel.start(&good, &[], &[], random);
        assert_eq!(panel.advance(&bad, random), Answer::Refused(17));
        panel.finish(&good, random);
    }
}

/// Left comb, right comb and zigzag of 65,535 nodes.
#[test]
fn depth_32_767() {
    let random = &mut Random::new(1803);
    for shape in DEEPEST {
        let mut asked = Asked::new(Case::new(shape, 32_768, 16, 64, random), random);
        let depths: Vec<u16> = asked.lent.node_table.chunks(4).map(|row| row[2]).collect();
        assert_eq!((asked.case.n, depths.iter().max()), (65_535, Some(&32_767)));
        let deep = depths.iter().position(|&depth| depth == 32_767).unwrap();
        // one climb up to the root's child, of 15 binary digits
        let told = asked.ask(&[deep as u16], &[63], random);
        assert!((1..=45).contains(&told.links), "{} links", told.links);
        let (nodes, labels) = asked.case.list(64, random);
        asked.ask(&nodes, &labels, random);
        let case = asked.case.clone();
        calls::fresh_run(&case.plan, &case.rules, &nodes, &labels, random).expect("accepted");
        let built = Built::with_excess(Kind::Branch, case, random);
        let answer = branch_questions::ask(&built, &asked.tree, 65_534, deep as u32, random).expect("accepted");
        assert!((1..=45).contains(&answer[2]), "{} links", answer[2]);
        assert!(built.says(&built.node_table, &built.state_table, random));
    }
}

/// One node is a plan of 14 bytes, and two are none.
#[test]
fn the_smallest_plans() {
    let random = &mut Random::new(1804);
    let (rules, branch) = tables(3, 2, random);
    let one = Case::new(Shape::Balanced, 1, 3, 2, random);
    assert_eq!(one.plan.len(), 14);
    assert_eq!(every_call(&one.plan, &rules, &branch, random), [0; 7]);
    for kinds in [[0, 0], [0, 1], [1, 0], [1, 1]] {
        let two = inputs::plan(&[0, 1], &kinds);
        let told = every_call(&two, &rules, &branch, random);
        assert_eq!(told[..6], [5; 6], "{:?}", kinds);
    }
}
