//! The tree of a plan: children, parents, depths, sizes and jumps, each by its own sentence of document 01.

use crate::formats::Plan;

/// Nodes are numbered in post-order from 0, so a parent's number is greater than its children's.
pub struct Tree {
    /// Left and right child; none for a leaf.
    pub children: Vec<Option<(usize, usize)>>,
    pub parent: Vec<usize>,
    pub depth: Vec<usize>,
    pub size: Vec<usize>,
    pub jump: Vec<usize>,
}

impl Tree {
    pub fn of(plan: &Plan) -> Tree {
        let children = children(plan.kinds);
        let parent = parents(&children);
        let depth = depths(&parent);
        let size = sizes(&children);
        let jump = jumps(&parent, &depth);
        Tree { children, parent, depth, size, jump }
    }

    pub fn root(&self) -> usize {
        self.parent.len() - 1
    }

    /// Is `lower` in the subtree that `upper` roots? By following parents.
    pub fn at_or_below(&self, lower: usize, upper: usize) -> bool {
        let mut v = lower;
        while v != upper && v != self.root() {
            v = self.parent[v];
        }
        v == upper
    }
}

/// "An inner node takes the two trees last completed, the earlier as left child."
fn children(kinds: &[u8]) -> Vec<Option<(usize, usize)>> {
    let mut completed = Vec::new();
    let mut children = Vec::new();
    for (v, &kind) in kinds.iter().enumerate() {
        if kind == 0 {
            children.push(None);
        } else {
            let right = completed.pop().expect("checked by 5");
            let left = completed.pop().expect("checked by 5");
            children.push(Some((left, right)));
        }
        completed.push(v);
    }
    children
}

/// The root's parent is itself.
fn parents(children: &[Option<(usize, usize)>]) -> Vec<usize> {
    let root = children.len() - 1;
    let mut parent = vec![root; children.len()];
    for (v, pair) in children.iter().enumerate() {
        if let Some((left, right)) = *pair {
            parent[left] = v;
            parent[right] = v;
        }
    }
    parent
}

/// From the root down.
fn depths(parent: &[usize]) -> Vec<usize> {
    let root = parent.len() - 1;
    let mut depth = vec![0; parent.len()];
    for v in (0..root).rev() {
        depth[v] = depth[parent[v]] + 1;
    }
    depth
}

/// From the leaves up.
fn sizes(children: &[Option<(usize, usize)>]) -> Vec<usize> {
    let mut size = vec![1; children.len()];
    for (v, pair) in children.iter().enumerate() {
        if let Some((left, right)) = *pair {
            size[v] = 1 + size[left] + size[right];
        }
    }
    size
}

/// "if depth(p) - depth(jump p) equals depth(jump p) - depth(jump of jump p), its jump is the jump of jump p; else p."
fn jumps(parent: &[usize], depth: &[usize]) -> Vec<usize> {
    let root = parent.len() - 1;
    let mut jump = vec![root; parent.len()];
    for v in (0..root).rev() {
        let p = parent[v];
        let j = jump[p];
        let jj = jump[j];
        let (near, far) = (depth[p] - depth[j], depth[j] - depth[jj]);
        jump[v] = if near == far { jj } else { p };
    }
    jump
}
