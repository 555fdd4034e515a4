//! The ready set: "the least set that holds W, holds the lowest common ancestor of any two members, and holds both
//! children of a member that has members below both." W is the listed nodes and the root.
//!
//! Twice, each with the members rising: by doing what the sentence says until nothing is added (`closure`, for small
//! trees), and by marks from the leaves up (`by_marks`, for trees of any size). `roots` takes the first where it can.

use crate::tree::Tree;
use std::collections::BTreeSet;

/// The most nodes of a tree whose ready set is found by the sentence itself.
const SMALL: usize = 127;

/// The roots of the parts.
pub fn roots(tree: &Tree, listed: &[u16]) -> Vec<usize> {
    if tree.parent.len() <= SMALL {
        closure(tree, listed)
    } else {
        by_marks(tree, listed)
    }
}

pub fn closure(tree: &Tree, listed: &[u16]) -> Vec<usize> {
    let mut members: BTreeSet<usize> = listed.iter().map(|&v| v as usize).collect();
    members.insert(tree.root());
    loop {
        let more = once_more(tree, &members);
        if more == members {
            return members.into_iter().collect();
        }
        members = more;
    }
}

/// The members, with what they ask for.
fn once_more(tree: &Tree, members: &BTreeSet<usize>) -> BTreeSet<usize> {
    let mut more = members.clone();
    for &u in members {
        let above = ancestors(tree, u);
        more.extend(members.iter().map(|&v| first_common(tree, &above, v)));
        if let Some((left, right)) = tree.children[u] {
            let below = |child| members.iter().any(|&w| tree.at_or_below(w, child));
            if below(left) && below(right) {
                more.extend([left, right]);
            }
        }
    }
    more
}

/// u and the nodes above it, each marked.
fn ancestors(tree: &Tree, u: usize) -> Vec<bool> {
    let mut above = vec![false; tree.parent.len()];
    let mut x = u;
    while !above[x] {
        above[x] = true;
        x = tree.parent[x];
    }
    above
}

/// The lowest common ancestor: the first node on the way up from v that is at or above the other one.
fn first_common(tree: &Tree, above: &[bool], v: usize) -> usize {
    let mut x = v;
    while !above[x] {
        x = tree.parent[x];
    }
    x
}

/// A node forks where listed nodes are below both children. The members are the listed nodes, the root, the nodes that
/// fork and their children.
pub fn by_marks(tree: &Tree, listed: &[u16]) -> Vec<usize> {
    let nodes = tree.parent.len();
    let mut is_listed = vec![false; nodes];
    for &v in listed {
        is_listed[v as usize] = true;
    }
    let mut has_below = is_listed.clone();
    let mut forks = vec![false; nodes];
    for v in 0..nodes {
        if let Some((left, right)) = tree.children[v] {
            has_below[v] |= has_below[left] | has_below[right];
            forks[v] = has_below[left] && has_below[right];
        }
    }
    let beside = |v: usize| forks[tree.parent[v]];
    (0..nodes).filter(|&v| is_listed[v] || v == tree.root() || forks[v] || beside(v)).collect()
}
