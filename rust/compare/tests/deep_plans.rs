//! Plans whose jumps reach over depth 1,024, and as deep as plans can be: combs to either side and zigzags of depth 1,022
//! to 1,026 and 32,767. The reference finds every jump by the rule of two equal distances; the library is held to it in
//! build, full check and questions, for rule tables and for branch tables.

use compare::built::Built;
use compare::calls::{Kind, KINDS};
use compare::counts::Counts;
use compare::inputs::Case;
use compare::random::Random;
use compare::rounds::{branch_questions, builds, questions::Asked};
use compare::shapes::{Shape, DEEPEST};
use reference::tree::Tree;

/// A plan of one of the deepest shapes, whose deepest leaves have this depth.
fn of_depth(shape: Shape, depth: usize, random: &mut Random) -> Case {
    let (s, k) = *random.pick(&[(2, 3), (5, 64), (16, 7)]);
    Case::new(shape, depth + 1, s, k, random)
}

/// Depths around 1,024 and the ends of the plan, each once.
fn near(deepest: usize) -> Vec<usize> {
    let mut depths = vec![0, 1, 2, 511, 512, 1_020, 1_021, 1_022, 1_023, 1_024, 1_025, 1_026, 2_046, 2_047];
    depths.extend([deepest - 1, deepest]);
    depths.retain(|&depth| depth <= deepest);
    depths.sort_unstable();
    depths.dedup();
    depths
}

/// The nodes at these depths.
fn nodes_near(tree: &Tree) -> Vec<usize> {
    let depths = near(*tree.depth.iter().max().unwrap());
    (0..=tree.root()).filter(|&v| depths.contains(&tree.depth[v])).collect()
}

/// Build and full check of both tables, and a full check that says no to any other jump near depth 1,024.
fn builds_and_checks(case: &Case, random: &mut Random) {
    for kind in KINDS {
        builds::build(case, kind, (random.below(3), random.below(3)), random, &mut Counts::default());
        let mut built = Built::new(kind, case.clone(), random);
        let tree = built.tree();
        for v in nodes_near(&tree) {
            // the parent, or the jump's jump: what the rule would give at another depth
            let (parent, jump) = (tree.parent[v], tree.jump[v]);
            for other in [parent, tree.jump[jump], tree.jump[parent]].into_iter().filter(|&other| other != jump) {
                built.node_table[4 * v + 1] = other as u16;
                assert!(!built.says(&built.node_table, &built.state_table, random), "the jump of node {}", v);
                built.node_table[4 * v + 1] = jump as u16;
            }
        }
        assert!(built.says(&built.node_table, &built.state_table, random));
    }
}

/// Branch questions between nodes near depth 1,024 and near the ends.
fn branch_answers(case: &Case, random: &mut Random) {
    let built = Built::new(Kind::Branch, case.clone(), random);
    let tree = built.tree();
    let nodes = nodes_near(&tree);
    for &lower in &nodes {
        for &upper in &nodes {
            let _ = branch_questions::ask(&built, &tree, upper as u32, lower as u32, random);
        }
    }
}

/// Questions with a change at the bottom, near depth 1,024, at several of these at once, and anywhere.
fn answers(case: Case, random: &mut Random) {
    let k = case.k;
    let mut asked = Asked::new(case, random);
    let nodes: Vec<u16> = nodes_near(&asked.tree).into_iter().map(|v| v as u16).collect();
    for &v in &nodes {
        asked.ask(&[v], &[random.below(k) as u8], random);
    }
    asked.ask(&nodes, &random.bytes_below(nodes.len(), k), random);
    asked.both_ways(64, random, &mut Counts::default());
}

#[test]
fn depths_around_1_024() {
    let random = &mut Random::new(1901);
    for shape in DEEPEST {
        for depth in 1_022..=1_026 {
            let case = of_depth(shape, depth, random);
            builds_and_checks(&case, random);
            branch_answers(&case, random);
            answers(case, random);
        }
    }
}

#[test]
fn the_greatest_depth() {
    let random = &mut Random::new(1902);
    for shape in DEEPEST {
        let case = of_depth(shape, 32_767, random);
        assert_eq!(case.n, 65_535);
        builds_and_checks(&case, random);
        branch_answers(&case, random);
        answers(case, random);
    }
}

/// The jump lengths themselves: every node of a comb has the one that the rule gives at its depth, whatever the shape.
#[test]
fn jumps_depend_on_the_depth_alone() {
    let random = &mut Random::new(1903);
    let lengths = lengths_by_rule(32_767);
    assert_eq!(lengths[..8], [0, 1, 1, 3, 1, 1, 3, 7]);
    for shape in DEEPEST {
        let case = of_depth(shape, 32_767, random);
        let built = Built::new(Kind::Rules, case, random);
        for node in built.node_table.chunks_exact(4) {
            let (jump, depth) = (node[1] as usize, node[2] as usize);
            let above = built.node_table[4 * jump + 2] as usize;
            assert_eq!(depth - above, lengths[depth], "{:?}, depth {}", shape, depth);
        }
    }
}

/// Jump lengths by depth, from the rule: where the two last distances are equal, both of them and one more, else 1.
fn lengths_by_rule(deepest: usize) -> Vec<usize> {
    let mut lengths = vec![0];
    for depth in 1..=deepest {
        let parent = depth - 1;
        let first = lengths[parent];
        let second = lengths[parent - first];
        lengths.push(if first == second { first + second + 1 } else { 1 });
    }
    lengths
}
