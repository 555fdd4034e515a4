//! One part of a question on lent tables, whatever they hold, or 18, where "a value read leads outside the plan, the
//! states or the labels, or a climb doesn't rise". N, S and K are the record's; no header is read.

use crate::climb::{climb, passed, Lent, Links, Move};
use crate::panel::{Inputs, Sizes};
use crate::parts::Part;

/// What is lent, cut by N, S and K.
pub struct View<'a> {
    sizes: Sizes,
    labels: &'a [u8],
    kinds: &'a [u8],
    leaf: &'a [u8],
    inner: &'a [u8],
    marks: &'a [u8],
    tree: Lent<'a>,
    state_table: &'a [u8],
}

impl<'a> View<'a> {
    /// Of inputs that fit.
    pub fn new(sizes: Sizes, inputs: &Inputs<'a>) -> View<'a> {
        let Sizes { n, s, k } = sizes;
        let (labels, kinds) = inputs.plan[12..].split_at(n);
        let (leaf, rest) = inputs.rules[20..].split_at(k);
        let (inner, marks) = rest.split_at(s * k * s);
        let tree = Lent { nodes: n, node_table: &inputs.node_table[..4 * n] };
        View { sizes, labels, kinds, leaf, inner, marks, tree, state_table: &inputs.state_table[..(s + 1) * n] }
    }

    /// By the lent size of c.
    fn is_below(&self, v: usize, c: usize) -> bool {
        v <= c && c < v + self.tree.size(c)
    }

    /// In post-order the right child of x is the node before it, and the left one stands before the right one's nodes.
    fn children(&self, x: usize) -> Result<(usize, usize), u32> {
        let right = x.checked_sub(1).ok_or(18u32)?;
        let left = right.checked_sub(self.tree.size(right)).ok_or(18u32)?;
        Ok((left, right))
    }

    /// The part of root v after the roots and states handled before it, with the list's labels.
    pub fn part(&self, handled: &[(usize, u8)], nodes: &[u16], labels: &[u8], v: usize) -> Result<Part, u32> {
        let a = self.own_label(nodes, labels, v) as usize;
        if self.kinds[v] == 0 {
            let state = self.state(self.leaf[self.label(a)?])?;
            return Ok(Part { state, links: 0, passed: 0 });
        }
        let (left, right) = self.children(v)?;
        let last_below = |c: usize| handled.iter().copied().rfind(|&(w, _)| self.is_below(w, c));
        let depth = self.tree.depth(v) + 1;
        let unmoved = |state: u8| Part { state, links: 0, passed: 0 };
        let (l, r) = match (last_below(left), last_below(right)) {
            (None, None) => (unmoved(self.run(left)?), unmoved(self.run(right)?)),
            (Some(f), None) => (self.climbed(f, depth)?, unmoved(self.run(right)?)),
            (None, Some(g)) => (unmoved(self.run(left)?), self.climbed(g, depth)?),
            (Some(f), Some(g)) => (unmoved(f.1), unmoved(g.1)),
        };
        let state = self.rule(l.state, a, r.state)?;
        Ok(Part { state, links: l.links + r.links, passed: l.passed + r.passed })
    }

    /// "v's own label, as changed": the last entry of a node holds.
    fn own_label(&self, nodes: &[u16], labels: &[u8], v: usize) -> u8 {
        nodes.iter().zip(labels).rfind(|(&w, _)| w as usize == v).map_or(self.labels[v], |(_, &a)| a)
    }

    /// The climb from a root and its state to a depth.
    fn climbed(&self, (w, from): (usize, u8), depth: usize) -> Result<Part, u32> {
        let moves = climb(&self.tree, w, depth)?;
        let mut q = from;
        for &one in &moves {
            q = match one {
                Move::ByJump(v) => self.state(self.state_table[self.row(v) + 1 + q as usize])?,
                Move::ToParent(v) => self.to_parent(v, q)?,
            };
        }
        Ok(Part { state: q, links: moves.len(), passed: passed(&self.tree, w, &moves) })
    }

    /// v is the right child where its parent is the next node.
    fn to_parent(&self, v: usize, q: u8) -> Result<u8, u32> {
        let p = self.tree.parent(v);
        let a = self.labels[p] as usize;
        if p == v + 1 {
            let left = v.checked_sub(self.tree.size(v)).ok_or(18u32)?;
            self.rule(self.run(left)?, a, q)
        } else {
            let right = p.checked_sub(1).ok_or(18u32)?;
            self.rule(q, a, self.run(right)?)
        }
    }

    /// Yes exactly where the mark is 1.
    pub fn accepts(&self, state: u8) -> bool {
        self.marks[state as usize] == 1
    }

    fn rule(&self, p: u8, a: usize, q: u8) -> Result<u8, u32> {
        let at = (p as usize * self.sizes.k + self.label(a)?) * self.sizes.s + q as usize;
        self.state(self.inner[at])
    }

    fn run(&self, v: usize) -> Result<u8, u32> {
        self.state(self.state_table[self.row(v)])
    }

    fn row(&self, v: usize) -> usize {
        (self.sizes.s + 1) * v
    }

    fn state(&self, q: u8) -> Result<u8, u32> {
        if (q as usize) < self.sizes.s {
            Ok(q)
        } else {
            Err(18)
        }
    }

    fn label(&self, a: usize) -> Result<usize, u32> {
        if a < self.sizes.k {
            Ok(a)
        } else {
            Err(18)
        }
    }
}
