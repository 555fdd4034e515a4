//! What an advance's 18 is given for: "a value read leads outside the plan, the states or the labels, or a climb doesn't rise". It is
//! looked for in all that is lent, value by value, and not on the way that a call goes.

use crate::fresh::changed;
use crate::panel::{Inputs, Sizes};

/// The four numbers of each node; 0 past the last node.
struct NodeTable<'a> {
    n: usize,
    node_table: &'a [u16],
}

impl NodeTable<'_> {
    fn cell(&self, v: usize, which: usize) -> usize {
        self.node_table[..4 * self.n].get(4 * v + which).map_or(0, |&number| number as usize)
    }

    fn parent(&self, v: usize) -> usize {
        self.cell(v, 0)
    }

    fn jump(&self, v: usize) -> usize {
        self.cell(v, 1)
    }

    fn depth(&self, v: usize) -> usize {
        self.cell(v, 2)
    }

    fn size(&self, v: usize) -> usize {
        self.cell(v, 3)
    }

    /// By the size of the node before it, a child of x would lie outside the plan.
    fn is_childless(&self, x: usize) -> bool {
        x == 0 || self.size(x - 1) > x - 1
    }

    /// A link of v leads outside the plan, does not rise or leads to a node without children.
    fn strays(&self, v: usize) -> bool {
        let links = [self.parent(v), self.jump(v)];
        let is_flat = |&x: &usize| self.depth(v) <= self.depth(x) || self.is_childless(x);
        links.iter().any(|&x| x >= self.n) || self.depth(v) > 0 && links.iter().any(is_flat)
    }

    /// Node v is at the top, and not above all.
    fn is_apart(&self, v: usize) -> bool {
        self.depth(v) == 0 && (0..self.n).any(|u| u > v || v >= u + self.size(v))
    }
}

/// A cause anywhere in what is lent, with the labels as the list changes them.
pub fn anywhere(sizes: Sizes, inputs: &Inputs, nodes: &[u16], labels: &[u8]) -> bool {
    let Sizes { n, s, k } = sizes;
    let (plan_labels, kinds) = inputs.plan[12..].split_at(n);
    let (states, rules) = (&inputs.state_table[..(s + 1) * n], &inputs.rules[20..20 + k + s * k * s]);
    let node_table = NodeTable { n, node_table: inputs.node_table };
    let no_state = |&q: &u8| q as usize >= s;
    let no_label = |&a: &u8| a as usize >= k;
    let in_node_table = || (0..n).any(|v| node_table.strays(v) || node_table.is_apart(v));
    in_node_table()
        || states.iter().chain(rules).any(no_state)
        || plan_labels.iter().chain(&changed(plan_labels, nodes, labels)).any(no_label)
        || (0..n).any(|v| kinds[v] != 0 && node_table.is_childless(v))
}
