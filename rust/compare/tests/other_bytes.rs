//! Run states and maps that are any bytes below S, under plan, rules and node table as built: 18 at Start; "an advance
//! goes on as always and stores and counts what this rule gives on those bytes". The reference model replays the rule on the tree.

use compare::counts::Counts;
use compare::inputs::Case;
use compare::panel::{Lent, Panel};
use compare::random::Random;
use compare::rounds::other_bytes;
use compare::shapes::{Shape, SHAPES};
use reference::model::Settlement;
use reference::panel::Answer;

#[test]
fn the_rule_on_any_bytes_below_s() {
    let (random, counts) = (&mut Random::new(1301), &mut Counts::default());
    for _ in 0..600 {
        other_bytes::round(random, counts);
    }
    assert!(counts.of("another answer") > 200, "{}", counts);
    assert!(counts.of("18 at Start") > 400, "{}", counts);
}

#[test]
fn the_largest_plans() {
    let random = &mut Random::new(1302);
    for shape in [Shape::LeftComb, Shape::Zigzag, Shape::Uniform] {
        let case = Case::new(shape, 32_768, 5, 3, random);
        let lent = Lent::built(&case, random);
        for m in [1, 3, 16] {
            other_bytes::ask(&case, &lent, m, false, random, &mut Counts::default());
        }
    }
}

/// "a jump applies the map": also where jump and parent are the same node, and at the depth asked for. The root's map
/// and the run state of a node with a member below are never read.
#[test]
fn which_bytes_are_read() {
    let random = &mut Random::new(1303);
    // from node 0, at depth 2, to depth 1: one link, by the jump, which is the parent
    let case = Case::new(Shape::LeftComb, 3, 3, 2, random);
    let lent = Lent::built(&case, random);
    for state in 0..3 {
        let mut panel = Panel::loaded(&lent, random);
        let mut other = lent.clone();
        other.state_table[1..4].fill(state);
        let root = 4 * 4;
        other.state_table[root..].fill(2 - state);
        other.state_table[0] = state;
        assert_eq!(panel.start(&lent, &[0], &[1 - case.labels()[0]], random), Answer::Parts(2));
        let (_, told) = panel.finish(&other, random);
        assert_eq!((told.links, told.passed), (1, 1));
        let rule = |p: u8, a: u8, q: u8| case.rules[20 + 2 + (p as usize * 2 + a as usize) * 3 + q as usize];
        // node 2 is the parent of 0 and 1; node 3 is the root's right child
        assert_eq!(told.state as u8, rule(state, case.labels()[4], lent.state_table[4 * 3]));
    }
}

/// A question that begins clean goes on firm once other bytes were lent, and stays so; a refused advance leaves it clean.
#[test]
fn clean_then_firm() {
    let random = &mut Random::new(1304);
    for turn in 0..100 {
        let case = Case::new(SHAPES[turn % 6], 20, 4, 3, random);
        let lent = Lent::built(&case, random);
        let (nodes, _) = case.list(4, random);
        let labels = case.other_labels(&nodes, random);
        let mut panel = Panel::loaded(&lent, random);
        panel.start(&lent, &nodes, &labels, random);
        // as long as only 17 comes between, it is clean
        let mut short = lent.clone();
        short.state_table.pop();
        assert_eq!(panel.advance(&short, random), Answer::Refused(17));
        assert_eq!(panel.advance(&lent, random), Answer::More);
        assert_eq!(panel.model.settlement(), Some(Settlement::Clean));
        let other = Lent { state_table: random.bytes_below(lent.state_table.len(), 4), ..lent.clone() };
        panel.advance(&other, random);
        assert_eq!(panel.model.settlement(), Some(Settlement::ByRule));
        if panel.says().states.len() < panel.says().roots.len() {
            panel.finish(&lent, random);
            assert_eq!(panel.model.settlement(), Some(Settlement::ByRule));
        }
        assert_eq!(panel.left, 0);
    }
}
