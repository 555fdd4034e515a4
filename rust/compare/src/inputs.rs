//! Plans, rule tables and branch tables as bytes.

use crate::calls::Kind;
use crate::random::Random;
use crate::shapes::{kinds, Shape};
use crate::trace;
use reference::formats::read_plan;
use reference::sample::{plan_a, table_a};
use reference::tree::Tree;
pub use reference::write::{branch, plan, rules};

/// Plan A and table A of document 01's sample.
pub fn sample() -> (Vec<u8>, Vec<u8>) {
    (plan_a(), table_a())
}

/// A random rule table: entries without any pattern, so left and right differ.
pub fn random_rules(s: usize, k: usize, random: &mut Random) -> Vec<u8> {
    let (leaf, inner) = (random.bytes_below(k, s), random.bytes_below(s * k * s, s));
    rules(s, k, &leaf, &inner, &random.bytes_below(s, 2))
}

/// A rule table under which the state at a node seldom loses its effect on the root: for each right state and label the
/// left states are permuted, and the other way round. (Entries without any pattern soon forget what was below.)
pub fn lasting_rules(s: usize, k: usize, random: &mut Random) -> Vec<u8> {
    let mut inner = vec![0; s * k * s];
    for a in 0..k {
        let (by_left, by_right, name) = (order(s, random), order(s, random), order(s, random));
        for p in 0..s {
            for q in 0..s {
                inner[(p * k + a) * s + q] = name[(by_left[p] + by_right[q]) % s] as u8;
            }
        }
    }
    rules(s, k, &random.bytes_below(k, s), &inner, &random.bytes_below(s, 2))
}

/// A random branch table.
pub fn random_branch(s: usize, k: usize, random: &mut Random) -> Vec<u8> {
    branch(s, k, &random.bytes_below(s * k, s), &random.bytes_below(s, 2))
}

/// A branch table under which every label permutes the states: no state is ever forgotten, and order matters.
pub fn lasting_branch(s: usize, k: usize, random: &mut Random) -> Vec<u8> {
    let mut steps = vec![0; s * k];
    for a in 0..k {
        for (q, to) in order(s, random).into_iter().enumerate() {
            steps[q * k + a] = to as u8;
        }
    }
    branch(s, k, &steps, &random.bytes_below(s, 2))
}

fn order(s: usize, random: &mut Random) -> Vec<usize> {
    let mut states: Vec<usize> = (0..s).collect();
    random.shuffle(&mut states);
    states
}

/// A plan with its rule table and its branch table, for the same states and labels.
#[derive(Clone)]
pub struct Case {
    pub n: usize,
    pub s: usize,
    pub k: usize,
    pub plan: Vec<u8>,
    pub rules: Vec<u8>,
    pub branch: Vec<u8>,
}

impl Case {
    pub fn of_kinds(kinds: &[u8], s: usize, k: usize, random: &mut Random) -> Case {
        let n = kinds.len();
        let plan = plan(&random.bytes_below(n, k), kinds);
        let (rules, branch) = if random.below(2) == 0 {
            (random_rules(s, k, random), random_branch(s, k, random))
        } else {
            (lasting_rules(s, k, random), lasting_branch(s, k, random))
        };
        let case = Case { n, s, k, plan, rules, branch };
        trace::say_case(&case);
        case
    }

    pub fn new(shape: Shape, leaves: usize, s: usize, k: usize, random: &mut Random) -> Case {
        Case::of_kinds(&kinds(shape, leaves, random), s, k, random)
    }

    /// Of a random shape with at most that many leaves.
    pub fn random(most_leaves: usize, random: &mut Random) -> Case {
        let shape = *random.pick(&crate::shapes::SHAPES);
        let (leaves, s, k) = (random.between(1, most_leaves), random.between(1, 16), random.between(1, 64));
        Case::new(shape, leaves, s, k, random)
    }

    pub fn table(&self, kind: Kind) -> &[u8] {
        match kind {
            Kind::Rules => &self.rules,
            Kind::Branch => &self.branch,
        }
    }

    pub fn node_table_len(&self) -> usize {
        4 * self.n
    }

    pub fn state_table_len(&self) -> usize {
        (self.s + 1) * self.n
    }

    pub fn labels(&self) -> &[u8] {
        &self.plan[12..12 + self.n]
    }

    /// For each node a label that it has not, where the table has another: each is a change.
    pub fn other_labels(&self, nodes: &[u16], random: &mut Random) -> Vec<u8> {
        let mut other = |v: u16| self.labels()[v as usize] as usize + 1 + random.below((self.k - 1).max(1));
        nodes.iter().map(|&v| (other(v) % self.k) as u8).collect()
    }

    /// A list of `m` different nodes, at most N, with a label for each: anywhere, near each other, or on few paths.
    pub fn list(&self, m: usize, random: &mut Random) -> (Vec<u16>, Vec<u8>) {
        let m = m.min(self.n);
        let parents = Tree::of(&read_plan(&self.plan).expect("accepted")).parent;
        let way = random.below(3);
        let around = random.below(self.n);
        let mut nodes: Vec<u16> = Vec::new();
        let mut v = around;
        while nodes.len() < m {
            if !nodes.contains(&(v as u16)) {
                nodes.push(v as u16);
            }
            v = match way {
                1 => (around + random.below(3 * m + 1)) % self.n,
                // a few steps up, now and then from another node on
                2 if v + 1 < self.n && random.below(6) > 0 => (0..random.between(1, 9)).fold(v, |v, _| parents[v]),
                _ => random.below(self.n),
            };
        }
        random.shuffle(&mut nodes);
        let labels = random.bytes_below(m, self.k);
        (nodes, labels)
    }
}
