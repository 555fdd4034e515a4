//! What the builds write: "16-bit numbers, four for each node in node order (parent, jump, depth, size of its subtree),
//! and bytes, S+1 for each node (its state in the run, then its map)". Maps go by parents, one node at a time.

use crate::formats::{Branch, Plan, Rules};
use crate::tree::Tree;

/// Both tables, exactly as long as they need to be.
#[derive(Clone, Debug, PartialEq, Eq)]
pub struct Tables {
    pub node_table: Vec<u16>,
    pub state_table: Vec<u8>,
}

impl Tables {
    /// The node table alone.
    pub fn node_table(tree: &Tree) -> Vec<u16> {
        node_table(tree)
    }

    /// Do the lent buffers start with these tables? Their excess is not looked at.
    pub fn starts(&self, node_table: &[u16], state_table: &[u8]) -> bool {
        node_table.starts_with(&self.node_table) && state_table.starts_with(&self.state_table)
    }
}

/// The state of every node in the run, with a stack of the states of the trees that wait.
pub fn run(kinds: &[u8], labels: &[u8], rules: &Rules) -> Vec<u8> {
    let mut waiting = Vec::new();
    let mut states = Vec::new();
    for (&kind, &a) in kinds.iter().zip(labels) {
        let state = if kind == 0 {
            rules.leaf(a)
        } else {
            let q = waiting.pop().expect("checked by 5");
            let p = waiting.pop().expect("checked by 5");
            rules.inner(p, a, q)
        };
        waiting.push(state);
        states.push(state);
    }
    states
}

pub fn rule_tables(plan: &Plan, rules: &Rules) -> Tables {
    let tree = Tree::of(plan);
    let states = run(plan.kinds, plan.labels, rules);
    let mut state_table = Vec::new();
    for (v, &state) in states.iter().enumerate() {
        state_table.push(state);
        for q in 0..rules.states as u8 {
            state_table.push(state_at_jump(&tree, plan.labels, rules, &states, v, q));
        }
    }
    Tables { node_table: node_table(&tree), state_table }
}

pub fn branch_tables(plan: &Plan, branch: &Branch) -> Tables {
    let tree = Tree::of(plan);
    let states = states_from_root(&tree, plan.labels, branch);
    let mut state_table = Vec::new();
    for (v, &state) in states.iter().enumerate() {
        state_table.push(state);
        let word = labels_down(&tree, plan.labels, tree.jump[v], v);
        for q in 0..branch.states as u8 {
            state_table.push(word.iter().fold(q, |s, &a| branch.step(s, a)));
        }
    }
    Tables { node_table: node_table(&tree), state_table }
}

fn node_table(tree: &Tree) -> Vec<u16> {
    let mut node_table = Vec::new();
    for v in 0..=tree.root() {
        for number in [tree.parent[v], tree.jump[v], tree.depth[v], tree.size[v]] {
            node_table.push(u16::try_from(number).expect("a plan has at most 65,535 nodes"));
        }
    }
    node_table
}

/// "The map gives, for each state assumed at the node, the state that follows at its jump, with the plan's labels and
/// the run's states beside the path."
fn state_at_jump(tree: &Tree, labels: &[u8], rules: &Rules, states: &[u8], v: usize, q: u8) -> u8 {
    let (mut node, mut state) = (v, q);
    while node != tree.jump[v] {
        let p = tree.parent[node];
        let (left, right) = tree.children[p].expect("a parent is an inner node");
        state = if node == left {
            rules.inner(state, labels[p], states[right])
        } else {
            rules.inner(states[left], labels[p], state)
        };
        node = p;
    }
    state
}

/// "the state byte is the state after the node's label on the word from the root". State 0 is the start.
fn states_from_root(tree: &Tree, labels: &[u8], branch: &Branch) -> Vec<u8> {
    let root = tree.root();
    let mut states = vec![0; root + 1];
    states[root] = branch.step(0, labels[root]);
    for v in (0..root).rev() {
        states[v] = branch.step(states[tree.parent[v]], labels[v]);
    }
    states
}

/// The labels below `above` down to `v`: `above` not included, `v` included, the upper first.
pub fn labels_down(tree: &Tree, labels: &[u8], above: usize, v: usize) -> Vec<u8> {
    let mut word = Vec::new();
    let mut node = v;
    while node != above {
        word.push(labels[node]);
        node = tree.parent[node];
    }
    word.reverse();
    word
}
