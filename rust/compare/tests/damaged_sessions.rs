//! Sessions on inputs that are not as built: node table, state table, labels, kinds, headers and rules with other
//! values. Start gives 18. Between Start and advance every answer and every record is the reference's, which follows the
//! lent values and gives 18 where one leads outside.

use compare::alterations::{wrong_length, Alteration};
use compare::counts::Counts;
use compare::inputs::{self, Case};
use compare::panel::{Lent, Panel};
use compare::random::Random;
use compare::rounds::damaged_inputs;
use compare::shapes::Shape;
use reference::panel::{Answer, Call};

#[test]
fn the_rule_on_any_lends() {
    let (random, counts) = (&mut Random::new(1401), &mut Counts::default());
    for kind in damaged_inputs::of_values() {
        for turn in 0..700 {
            let leaves = if turn % 100 == 0 { 1_500 } else { random.between(1, 30) };
            let (s, k) = (random.between(1, 6), random.between(1, 6));
            let shape = *random.pick(&compare::shapes::SHAPES);
            damaged_inputs::of_one_kind(kind, Case::new(shape, leaves, s, k, random), random, counts);
        }
        let count = |what: &str| counts.of(&format!("{:?}: {}", kind, what));
        assert!(count("finished") > 150, "{}", counts);
        // Start looks at everything but the excess; for an advance headers and bytes below S lead nowhere
        let never = [Alteration::Excess, Alteration::BytesBelow, Alteration::Headers].contains(&kind);
        assert_eq!(count("18 at Start") > 500, kind != Alteration::Excess, "{}", counts);
        assert!(kind != Alteration::Excess || count("18 at Start") == 0, "{}", counts);
        assert_eq!(count("18 at an advance") == 0, never, "{}", counts);
    }
}

/// Several of them at once, and anything at all in the tables.
#[test]
fn everything_damaged() {
    let (random, counts) = (&mut Random::new(1402), &mut Counts::default());
    for _ in 0..1_500 {
        damaged_inputs::everything(random, counts);
    }
    for what in ["18 at Start", "more", "18 at an advance", "finished"] {
        assert!(counts.of(&format!("several: {}", what)) > 100, "{}", counts);
    }
}

/// 17 for each length that is not right, at Start and at an advance, and nothing else for those that are.
#[test]
fn lengths() {
    let random = &mut Random::new(1403);
    for turn in 0..600 {
        let case = Case::random(30, random);
        let good = Lent::built(&case, random);
        let mut bad = good.clone();
        wrong_length(&mut bad, &case, turn % 6, random);
        let mut panel = Panel::loaded(&good, random);
        assert_eq!(panel.start(&bad, &[0], &[0], random), Answer::Refused(17), "way {}", turn % 6);
        assert!(matches!(panel.start(&good, &[0], &[0], random), Answer::Parts(_)));
        assert_eq!(panel.advance(&bad, random), Answer::Refused(17), "way {}", turn % 6);
        let mut long = good.clone();
        Alteration::Excess.lay(&mut long, &case, random);
        panel.finish(&long, random);
    }
}

/// 17 looks at lengths alone: 27 bytes of rules fit S 1 and K 3 as well as S 2 and K 1. Start gives 18, for rules with
/// their own tables too; in an advance the record's S and K hold.
#[test]
fn other_counts_of_the_same_length() {
    let random = &mut Random::new(1404);
    let mut outside = 0;
    for _ in 0..200 {
        let kinds = compare::shapes::kinds(Shape::Uniform, 6, random);
        let case = Case::of_kinds(&kinds, 1, 3, random);
        let lent = Lent::built(&case, random);
        let other = Lent { rules: inputs::random_rules(2, 1, random), ..lent.clone() };
        assert_eq!((lent.rules.len(), other.rules.len()), (27, 27));
        let own = Lent::built(&Case::of_kinds(&kinds, 2, 1, random), random);
        let mut panel = Panel::loaded(&lent, random);
        let (nodes, labels) = case.list(2, random);
        assert_eq!(panel.start(&other, &nodes, &labels, random), Answer::Refused(18));
        assert_eq!(panel.start(&own, &nodes, &labels, random), Answer::Refused(18));
        assert!(matches!(panel.start(&lent, &nodes, &labels, random), Answer::Parts(_)));
        while let Answer::More = panel.advance(&other, random) {}
        outside += usize::from(panel.call(&Call::Read, random) == Answer::Refused(1));
        assert!(panel.left > 0, "left to the program");
    }
    assert!((20..200).contains(&outside), "{} of 200 ended with 18", outside);
}

/// A mark above 1 is no yes, and no refusal.
#[test]
fn marks_above_1() {
    let random = &mut Random::new(1405);
    for mark in [0, 1, 2, 3, 128, 255] {
        let case = Case::new(Shape::Zigzag, 20, 3, 3, random);
        let good = Lent::built(&case, random);
        let mut bad = good.clone();
        let marks = bad.rules.len() - 3;
        bad.rules[marks..].fill(mark);
        let mut panel = Panel::loaded(&good, random);
        assert!(matches!(panel.start(&good, &[0], &[0], random), Answer::Parts(_)));
        let (_, told) = panel.finish(&bad, random);
        assert_eq!(told.yes, mark == 1);
    }
}

/// Every jump leads to the next node and every depth is one less: a link for each node on the way.
#[test]
fn the_longest_climbs() {
    let random = &mut Random::new(1406);
    let case = Case::new(Shape::LeftComb, 32_768, 4, 4, random);
    let good = Lent::built(&case, random);
    let mut bad = good.clone();
    for v in 0..case.n {
        let next = v as u16 + 1;
        bad.node_table[4 * v..4 * v + 3].copy_from_slice(&[next, next, 65_534 - v as u16]);
    }
    let mut panel = Panel::loaded(&good, random);
    assert_eq!(panel.start(&good, &[0], &[0], random), Answer::Parts(2));
    assert_eq!(panel.advance(&bad, random), Answer::More);
    assert_eq!(panel.advance(&bad, random), Answer::Finished);
    match panel.call(&Call::Read, random) {
        Answer::Outcome(told) => assert_eq!((told.links, told.passed), (65_533, 65_533)),
        other => panic!("{:?}", other),
    }
    // a move to the same depth does not rise
    assert_eq!(panel.start(&good, &[0], &[0], random), Answer::Parts(2));
    panel.advance(&good, random);
    bad.node_table[4 * 30_000 + 2] = bad.node_table[4 * 30_001 + 2];
    assert_eq!(panel.advance(&bad, random), Answer::Refused(18));
    assert_eq!(panel.advance(&good, random), Answer::Finished);
}
