//! The reference implementation against the numbers that document 01 itself gives.

use reference::branch::{by_word, Answer, Reading};
use reference::climb::climb;
use reference::formats::{read_branch, read_plan, read_rules};
use reference::fresh::fresh_run;
use reference::sample::{plan_a, table_a, ROWS};
use reference::tree::Tree;
use reference::write;

/// Leaves at the left of a path of inner nodes: the depths are 0, then 1 twice, 2 twice ..
fn comb(leaves: usize) -> Vec<u8> {
    let n = 2 * leaves - 1;
    let kinds = [vec![0; leaves], vec![1; leaves - 1]].concat();
    write::plan(&vec![0; n], &kinds)
}

#[test]
fn sizes() {
    assert_eq!((plan_a().len(), table_a().len()), (26, 32));
}

#[test]
fn sample_clearance() {
    for row in ROWS {
        let answer = fresh_run(&plan_a(), &table_a(), row.nodes, row.labels);
        assert_eq!(answer.map(|a| (a.state, a.yes)), row.fresh(), "{:?} {:?}", row.nodes, row.labels);
    }
}

/// The first node of each depth, on a comb.
fn by_depth(tree: &Tree, depth: usize) -> usize {
    tree.depth.iter().position(|&d| d == depth).unwrap()
}

#[test]
fn jumps_of_depths_1_to_7() {
    let plan = comb(8);
    let tree = Tree::of(&read_plan(&plan).unwrap());
    let jumps: Vec<usize> = (1..=7).map(|d| tree.depth[tree.jump[by_depth(&tree, d)]]).collect();
    assert_eq!(jumps, [0, 1, 0, 3, 4, 3, 0]);
}

#[test]
fn climbs_from_depth_6() {
    let plan = comb(8);
    let tree = Tree::of(&read_plan(&plan).unwrap());
    let links = |t| climb(&tree, by_depth(&tree, 6), t).unwrap().len();
    assert_eq!((links(1), links(0), links(6)), (3, 2, 0));
}

#[test]
fn climbs_stay_below_three_times_the_digits() {
    let plan = comb(300);
    let tree = Tree::of(&read_plan(&plan).unwrap());
    for depth in 0..300 {
        let node = by_depth(&tree, depth);
        for t in 0..=depth {
            // the greatest depth is 299, of 9 binary digits
            assert!(climb(&tree, node, t).unwrap().len() <= 27);
        }
    }
}

#[test]
fn one_node_is_accepted_with_14_bytes() {
    let plan = write::plan(&[0], &[0]);
    assert_eq!(plan.len(), 14);
    assert!(read_plan(&plan).is_ok());
}

#[test]
fn two_nodes_get_5() {
    for first in 0..=255 {
        for second in 0..=255 {
            let plan = write::plan(&[0, 0], &[first, second]);
            assert_eq!(read_plan(&plan).err(), Some(5));
        }
    }
}

#[test]
fn label_0_takes_the_greater_state_and_1_the_lesser() {
    let table = table_a();
    let rules = read_rules(&table).unwrap();
    for p in 0..2 {
        for q in 0..2 {
            assert_eq!((rules.inner(p, 0, q), rules.inner(p, 1, q)), (p.max(q), p.min(q)));
        }
    }
}

#[test]
fn branch_words_run_downward() {
    // three states: 0 until label 1 was read, then 1, and 2 once a 0 came after that; 2 is marked
    let table = write::branch(3, 2, &[0, 1, 2, 1, 2, 2], &[0, 0, 1]);
    let plan = plan_a();
    let (plan, branch) = (read_plan(&plan).unwrap(), read_branch(&table).unwrap());
    let tree = Tree::of(&plan);
    let ask = |upper, lower| by_word(Reading::WithUpper, &tree, &plan, &branch, upper, lower);
    let below = |upper, lower| by_word(Reading::BelowUpper, &tree, &plan, &branch, upper, lower);
    // labels 1 0 0 from the root by node 5 to node 3, label 0 alone at node 3, labels 0 0 from node 5
    assert_eq!(ask(6, 3), Ok(Answer { state: 2, yes: true, links: 2, passed: 2 }));
    assert_eq!(ask(3, 3), Ok(Answer { state: 0, yes: false, links: 0, passed: 0 }));
    assert_eq!(ask(5, 3), Ok(Answer { state: 0, yes: false, links: 1, passed: 1 }));
    // from below: labels 0 0, no label, label 0
    assert_eq!(below(6, 3), Ok(Answer { state: 0, yes: false, links: 2, passed: 2 }));
    assert_eq!(below(3, 3), Ok(Answer { state: 0, yes: false, links: 0, passed: 0 }));
    assert_eq!(below(5, 3), Ok(Answer { state: 0, yes: false, links: 1, passed: 1 }));
    for ask in [&ask as &dyn Fn(u32, u32) -> _, &below] {
        assert_eq!(ask(5, 0), Err(16));
        assert_eq!(ask(3, 5), Err(16));
        assert_eq!(ask(7, 0), Err(13));
    }
}
