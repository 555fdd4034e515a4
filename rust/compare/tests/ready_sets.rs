//! The reference implementation's own ways to the parts of a question, compared with each other: the ready set by closing
//! it literally and by marks. No call of the library is made here.

use compare::inputs::Case;
use compare::panel::Lent;
use compare::random::Random;
use compare::shapes::{self, SHAPES};
use reference::formats::{read_plan, read_rules};
use reference::fresh::changed;
use reference::parts::Given;
use reference::ready::{by_marks, closure};
use reference::tables::run;
use reference::tree::Tree;

/// Both ways; and by the rule each part has the state of its root in the run of the changed plan.
fn compare(case: &Case, lent: &Lent, tree: &Tree, nodes: &[u16], labels: &[u8], literally: bool) {
    let members = by_marks(tree, nodes);
    if literally {
        assert_eq!(closure(tree, nodes), members, "{:?}", nodes);
    }
    let most = if nodes.is_empty() { 1 } else { 4 * nodes.len() - 2 };
    assert!(members.len() <= most && members.last() == Some(&tree.root()));
    let (plan, rules) = (read_plan(&case.plan).unwrap(), read_rules(&case.rules).unwrap());
    let changed = changed(plan.labels, nodes, labels);
    let given = Given { tree, labels: plan.labels, changed: &changed, rules: &rules, state_table: &lent.state_table };
    let states = run(plan.kinds, &changed, &rules);
    for (part, &v) in given.parts(&members).iter().zip(&members) {
        assert_eq!(part.state, states[v], "the state at {}", v);
    }
}

#[test]
fn every_set_of_nodes_of_small_trees() {
    let random = &mut Random::new(1101);
    for leaves in 1..=5 {
        for kinds in shapes::all(leaves) {
            let case = Case::of_kinds(&kinds, 3, 3, random);
            let lent = Lent::built(&case, random);
            let tree = Tree::of(&read_plan(&case.plan).unwrap());
            for set in 0..1 << case.n {
                let nodes: Vec<u16> = (0..case.n as u16).filter(|v| set >> v & 1 == 1).collect();
                let labels = random.bytes_below(nodes.len(), case.k);
                compare(&case, &lent, &tree, &nodes, &labels, true);
            }
        }
    }
}

#[test]
fn lists_on_trees_of_every_shape() {
    let random = &mut Random::new(1102);
    for shape in SHAPES {
        for leaves in (1..60).chain([3_000]) {
            let (s, k) = (random.between(1, 16), random.between(1, 64));
            let case = Case::new(shape, leaves, s, k, random);
            let lent = Lent::built(&case, random);
            let tree = Tree::of(&read_plan(&case.plan).unwrap());
            for _ in 0..20 {
                let m = random.between(0, 64);
                let (nodes, labels) = case.list(m, random);
                compare(&case, &lent, &tree, &nodes, &labels, m < 10 && leaves < 60);
            }
        }
    }
}

/// The bound on the parts is reached, for 64 changes and for fewer.
#[test]
fn as_many_parts_as_there_can_be() {
    let random = &mut Random::new(1103);
    let (kinds, listed) = shapes::most_parts();
    let case = Case::of_kinds(&kinds, 2, 2, random);
    let lent = Lent::built(&case, random);
    let tree = Tree::of(&read_plan(&case.plan).unwrap());
    for m in 1..=64 {
        assert_eq!(by_marks(&tree, &listed[..m]).len(), 4 * m - 2);
        compare(&case, &lent, &tree, &listed[..m], &random.bytes_below(m, 2), m < 12);
    }
}
