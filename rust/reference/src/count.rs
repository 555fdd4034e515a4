//! How many choices clear the plan (document 02, S-10): "how many ways of labelling a few open passes end in each state".
//!
//! Three times: by trying all assignments (`by_trying`, for small cases), by sums over the states of every node from the
//! leaves up (`by_sums`, for large ones), and by the rule for a part (`by_parts`), on run states and maps as given, those
//! of the run or any bytes below S. The first two have no parts and read no tables.

use crate::climb::{climb, Move};
use crate::formats::{number, read_plan, read_rules, Plan, Rules, MAX_LABELS, MAX_NODES, MAX_STATES};
use crate::fresh::MAX_CHANGES;
use crate::panel::{Inputs, Sizes};
use crate::ready::by_marks;
use crate::tables::{run, Tables};
use crate::tree::Tree;

/// "26 for more than 1,000,000,000,000,000,000 assignments"
pub const MOST_ASSIGNMENTS: u64 = 1_000_000_000_000_000_000;

/// For each of the S states how many assignments end in it, and the parts and links of a question whose W is the listed
/// nodes and the root.
#[derive(Clone, Debug, PartialEq, Eq)]
pub struct Answer {
    pub counts: Vec<u64>,
    pub parts: usize,
    pub links: usize,
}

/// What the documents say of a call.
#[derive(Clone, Debug, PartialEq, Eq)]
pub enum Said {
    Refused(u32),
    Answered(Answer),
    /// The tables are not as built, and some value of theirs is not one below S: 18 with a cause, or an answer of the
    /// program's own.
    Left,
}

/// "17, then 12, 13 and 15 (which is met here) for the node list, then 26 for more than 1,000,000,000,000,000,000
/// assignments": N, S and K are those of the lent headers.
pub fn checks(inputs: &Inputs, nodes: &[u16]) -> Result<Sizes, u32> {
    let sizes = named(inputs).ok_or(17u32)?;
    sizes.fit(inputs)?;
    if nodes.len() > MAX_CHANGES {
        return Err(12);
    }
    let below = nodes.iter().all(|&v| (v as usize) < sizes.n);
    let different = nodes.iter().enumerate().all(|(i, v)| !nodes[..i].contains(v));
    if !below {
        return Err(13);
    }
    if !different {
        return Err(15);
    }
    let all = (0..nodes.len()).try_fold(1u64, |all, _| all.checked_mul(sizes.k as u64));
    let few = |all: u64| all <= MOST_ASSIGNMENTS;
    if !all.map_or(false, few) {
        return Err(26);
    }
    Ok(sizes)
}

/// "N, S and K from the lent headers: 17, also for a header cut short or a number outside its limits".
pub fn named(inputs: &Inputs) -> Option<Sizes> {
    if inputs.plan.len() < 12 || inputs.rules.len() < 20 {
        return None;
    }
    let (n, s, k) = (number(inputs.plan, 0), number(inputs.rules, 0), number(inputs.rules, 4));
    let fit = (1..=MAX_NODES).contains(&n) && (1..=MAX_STATES).contains(&s) && (1..=MAX_LABELS).contains(&k);
    Some(Sizes { n: n as usize, s: s as usize, k: k as usize }).filter(|_| fit)
}

/// What the documents say of a call with these inputs.
pub fn count(inputs: &Inputs, nodes: &[u16]) -> Said {
    let sizes = match checks(inputs, nodes) {
        Err(number) => return Said::Refused(number),
        Ok(sizes) => sizes,
    };
    let (plan, rules) = match (read_plan(inputs.plan), read_rules(inputs.rules)) {
        (Ok(plan), Ok(rules)) if plan.labels_below(rules.labels).is_ok() => (plan, rules),
        _ => return Said::Left,
    };
    let tree = Tree::of(&plan);
    let state_table = &inputs.state_table[..(sizes.s + 1) * sizes.n];
    let node_table = Tables::node_table(&tree);
    if !inputs.node_table.starts_with(&node_table) || state_table.iter().any(|&q| q as usize >= sizes.s) {
        return Said::Left;
    }
    Said::Answered(Given { tree: &tree, labels: plan.labels, rules: &rules, state_table }.by_parts(nodes))
}

/// "the definition by trying all": every assignment of the K labels to the nodes, each by a run over the whole plan.
pub fn by_trying(plan: &Plan, rules: &Rules, nodes: &[u16]) -> Vec<u64> {
    let mut counts = vec![0; rules.states];
    let mut labels = plan.labels.to_vec();
    nodes.iter().for_each(|&v| labels[v as usize] = 0);
    loop {
        let states = run(plan.kinds, &labels, rules);
        counts[states[states.len() - 1] as usize] += 1;
        if !next(&mut labels, rules.labels, nodes) {
            return counts;
        }
    }
}

/// The next assignment, as a number with a digit for each node; none after the last.
fn next(labels: &mut [u8], k: usize, nodes: &[u16]) -> bool {
    for &v in nodes {
        let digit = &mut labels[v as usize];
        *digit += 1;
        if (*digit as usize) < k {
            return true;
        }
        *digit = 0;
    }
    false
}

/// For every node, how many labellings of the open nodes below it end in each state: at a leaf one for each label that it
/// may have, at an inner node the products of its children's, for each label.
pub fn by_sums(tree: &Tree, plan: &Plan, rules: &Rules, nodes: &[u16]) -> Vec<u64> {
    let mut counts: Vec<Vec<u64>> = Vec::new();
    let mut open = vec![false; plan.nodes()];
    nodes.iter().for_each(|&v| open[v as usize] = true);
    for (v, &is_open) in open.iter().enumerate() {
        let labels = if is_open { 0..rules.labels as u8 } else { plan.labels[v]..plan.labels[v] + 1 };
        let mut own = vec![0; rules.states];
        for a in labels {
            match tree.children[v] {
                None => own[rules.leaf(a) as usize] += 1,
                Some((left, right)) => {
                    for (p, x) in some(&counts[left]) {
                        for (q, y) in some(&counts[right]) {
                            own[rules.inner(p, a, q) as usize] += x * y;
                        }
                    }
                }
            }
        }
        counts.push(own);
    }
    counts.pop().expect("a plan has a node")
}

/// The states that have a count, with it.
fn some(counts: &[u64]) -> impl Iterator<Item = (u8, u64)> + '_ {
    counts.iter().enumerate().filter(|(_, &x)| x > 0).map(|(q, &x)| (q as u8, x))
}

/// What the rule reads: a plan and its tree, and run states and maps below S.
pub struct Given<'a> {
    pub tree: &'a Tree,
    pub labels: &'a [u8],
    pub rules: &'a Rules<'a>,
    pub state_table: &'a [u8],
}

impl Given<'_> {
    /// "They are reckoned part by part, and the parts and links told are those of a question whose W is these nodes and the
    /// root."
    pub fn by_parts(&self, nodes: &[u16]) -> Answer {
        let members = by_marks(self.tree, nodes);
        let (mut parts, mut links): (Vec<Vec<u64>>, usize) = (Vec::new(), 0);
        for &v in &members {
            let (counts, moves) = self.part(&members, &parts, nodes.contains(&(v as u16)), v);
            parts.push(counts);
            links += moves;
        }
        Answer { counts: parts.pop().expect("the root is a member"), parts: members.len(), links }
    }

    /// The counts of the part that v roots, and its links; `handled` are those of the members before it.
    fn part(&self, members: &[usize], handled: &[Vec<u64>], open: bool, v: usize) -> (Vec<u64>, usize) {
        let own = self.labels[v]..self.labels[v] + 1;
        let labels = if open { 0..self.rules.labels as u8 } else { own };
        let mut counts = vec![0; self.rules.states];
        let (left, right) = match self.tree.children[v] {
            None => {
                labels.for_each(|a| counts[self.rules.leaf(a) as usize] += 1);
                return (counts, 0);
            }
            Some(children) => children,
        };
        let of = |w: usize| &handled[members.binary_search(&w).expect("a member")][..];
        let depth = self.tree.depth[v] + 1;
        let ((at_left, at_right), links) = match (self.highest(members, left), self.highest(members, right)) {
            (None, None) => ((self.run(left), self.run(right)), 0),
            (Some(_), Some(_)) => ((of(left).to_vec(), of(right).to_vec()), 0),
            (Some(w), None) => {
                let (carried, links) = self.climbed(w, of(w), depth);
                ((carried, self.run(right)), links)
            }
            (None, Some(w)) => {
                let (carried, links) = self.climbed(w, of(w), depth);
                ((self.run(left), carried), links)
            }
        };
        for a in labels {
            for (p, x) in some(&at_left) {
                for (q, y) in some(&at_right) {
                    counts[self.rules.inner(p, a, q) as usize] += x * y;
                }
            }
        }
        (counts, links)
    }

    /// The highest member below a child, the child included.
    fn highest(&self, members: &[usize], child: usize) -> Option<usize> {
        let below = |&&v: &&usize| v <= child && child < v + self.tree.size[child];
        members.iter().filter(below).copied().min_by_key(|&v| self.tree.depth[v])
    }

    /// The run's state has one.
    fn run(&self, v: usize) -> Vec<u64> {
        let mut counts = vec![0; self.rules.states];
        counts[self.run_state(v) as usize] = 1;
        counts
    }

    /// "a jump applies the map, and a move to the parent applies the parent's label and the other child's run state"
    fn climbed(&self, w: usize, from: &[u64], depth: usize) -> (Vec<u64>, usize) {
        let moves = climb(self.tree, w, depth).expect("a climb in a tree");
        let carry = |q: u8| moves.iter().fold(q, |q, &one| self.moved(one, q));
        let mut counts = vec![0; self.rules.states];
        for (q, x) in some(from) {
            counts[carry(q) as usize] += x;
        }
        (counts, moves.len())
    }

    fn moved(&self, one: Move, q: u8) -> u8 {
        match one {
            Move::ByJump(v) => self.state_table[self.row(v) + 1 + q as usize],
            Move::ToParent(v) => {
                let p = self.tree.parent[v];
                let (left, right) = self.tree.children[p].expect("a parent is an inner node");
                if v == left {
                    self.rules.inner(q, self.labels[p], self.run_state(right))
                } else {
                    self.rules.inner(self.run_state(left), self.labels[p], q)
                }
            }
        }
    }

    fn run_state(&self, v: usize) -> u8 {
        self.state_table[self.row(v)]
    }

    fn row(&self, v: usize) -> usize {
        (self.rules.states + 1) * v
    }
}
