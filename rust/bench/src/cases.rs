//! What the calls are made on: plans of four shapes and two sizes, with their tables, and lists of changes.

use crate::table::{LARGE, SMALL};
use compare::inputs::Case;
use compare::random::Random;
use compare::shapes::Shape;

/// Nodes of the smaller and of the larger plans, and how many plans make one turn.
pub const NODES: [usize; 2] = [1_001, 65_535];
pub const PLANS: [usize; 2] = [65, 1];

pub const SHAPES: [(Shape, &str); 4] = [
    (Shape::LeftComb, "left comb"),
    (Shape::RightComb, "right comb"),
    (Shape::Balanced, "balanced"),
    (Shape::Uniform, "random"),
];

/// Something of a shape and a count of states, for the smaller plans and for the larger ones.
pub type Both<T> = (&'static str, usize, [T; 2]);

/// For every count of states and every shape, something made of the plans of one turn.
pub fn each<T>(random: &mut Random, mut of: impl FnMut(Vec<Case>, &mut Random) -> T) -> Vec<Both<T>> {
    let mut all = Vec::new();
    for s in [2, 16] {
        for (shape, name) in SHAPES {
            let both = [SMALL, LARGE].map(|at| {
                let case = || Case::new(shape, (NODES[at] + 1) / 2, s, 64, random);
                let cases = std::iter::repeat_with(case).take(PLANS[at]).collect();
                of(cases, random)
            });
            all.push((name, s, both));
        }
    }
    all
}

/// Nodes and their labels.
pub type List = (Vec<u16>, Vec<u8>);

/// Nodes from anywhere, each with a label that it has not, where there is one: so each is a change.
pub fn list(case: &Case, m: usize, random: &mut Random) -> List {
    let mut nodes: Vec<u16> = Vec::new();
    while nodes.len() < m {
        let v = random.below(case.n) as u16;
        if !nodes.contains(&v) {
            nodes.push(v);
        }
    }
    let labels = case.other_labels(&nodes, random);
    (nodes, labels)
}
