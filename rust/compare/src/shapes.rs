//! Kinds in post-order (0 leaf, 1 inner) of trees with a given number of leaves; N is 2 × leaves - 1.

use crate::random::Random;

#[derive(Clone, Copy, Debug, PartialEq, Eq)]
pub enum Shape {
    /// Every right child is a leaf.
    LeftComb,
    /// Every left child is a leaf.
    RightComb,
    /// Down by turns to the left and to the right.
    Zigzag,
    /// Both halves alike, as far as the number of leaves allows.
    Balanced,
    /// All trees of that many leaves alike.
    Uniform,
    /// A deep path to random sides, with a small tree beside each of its nodes.
    Bushy,
}

pub const SHAPES: [Shape; 6] =
    [Shape::LeftComb, Shape::RightComb, Shape::Zigzag, Shape::Balanced, Shape::Uniform, Shape::Bushy];

/// The shapes whose depth is leaves - 1.
pub const DEEPEST: [Shape; 3] = [Shape::LeftComb, Shape::RightComb, Shape::Zigzag];

pub fn kinds(shape: Shape, leaves: usize, random: &mut Random) -> Vec<u8> {
    match shape {
        Shape::LeftComb => path(leaves, |_| (true, 1), random),
        Shape::RightComb => path(leaves, |_| (false, 1), random),
        Shape::Zigzag => {
            let mut left = false;
            let turns = move |_: &mut Random| {
                left = !left;
                (left, 1)
            };
            path(leaves, turns, random)
        }
        Shape::Balanced => balanced(leaves),
        Shape::Uniform => uniform(leaves, random),
        Shape::Bushy => path(leaves, |random| (random.below(2) == 0, random.between(1, 4)), random),
    }
}

/// From the bottom up: is the path the left child, and how many leaves has the tree beside it? What stands before the
/// path is collected from its end.
fn path(leaves: usize, mut side: impl FnMut(&mut Random) -> (bool, usize), random: &mut Random) -> Vec<u8> {
    let mut before = Vec::new();
    let mut after = vec![0];
    let mut left_over = leaves - 1;
    while left_over > 0 {
        let (path_left, size) = side(random);
        let size = size.min(left_over);
        left_over -= size;
        let beside = uniform(size, random);
        if path_left {
            after.extend(beside);
        } else {
            before.extend(beside.into_iter().rev());
        }
        after.push(1);
    }
    before.reverse();
    before.extend(after);
    before
}

fn balanced(leaves: usize) -> Vec<u8> {
    if leaves == 1 {
        return vec![0];
    }
    let mut kinds = balanced(leaves / 2);
    kinds.extend(balanced(leaves - leaves / 2));
    kinds.push(1);
    kinds
}

/// Of all rotations of a shuffled row of kinds exactly one is a tree: the one that begins after the last place where
/// the number of trees waiting is least.
fn uniform(leaves: usize, random: &mut Random) -> Vec<u8> {
    let mut kinds = vec![0; leaves];
    kinds.resize(2 * leaves - 1, 1);
    random.shuffle(&mut kinds);
    let (mut waiting, mut least, mut start) = (0i64, 0, 0);
    for (i, &kind) in kinds.iter().enumerate() {
        waiting += if kind == 0 { 1 } else { -1 };
        if waiting <= least {
            least = waiting;
            start = i + 1;
        }
    }
    kinds.rotate_left(start);
    kinds
}

/// Every tree with that many leaves.
pub fn all(leaves: usize) -> Vec<Vec<u8>> {
    if leaves == 1 {
        return vec![vec![0]];
    }
    let mut trees = Vec::new();
    for on_left in 1..leaves {
        for left in all(on_left) {
            for right in all(leaves - on_left) {
                trees.push([&left[..], &right[..], &[1]].concat());
            }
        }
    }
    trees
}

/// A tree and 64 of its leaves, whose question has 254 parts: 64 leaves, 63 nodes where two of them meet, the 126
/// children of these, and the root, none of them twice.
pub fn most_parts() -> (Vec<u8>, Vec<u16>) {
    let (mut kinds, mut listed) = (vec![0, 0, 1], vec![0]);
    for _ in 0..6 {
        let n = kinds.len();
        listed.extend(listed.clone().iter().map(|v| v + n as u16));
        kinds = [&kinds[..], &kinds[..], &[1, 0, 1]].concat();
    }
    (kinds, listed)
}
