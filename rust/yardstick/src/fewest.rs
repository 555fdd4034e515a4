//! The fewest changes: for each node and state the least number of changes, up; then the labels that attain the root's,
//! down. A row of the work space has the size of a node's subtree, then its costs. Where every node may take every label,
//! and there are more labels than states, all labels are tried at once: the states that some label leads to.

use crate::checks::{self, Plan, Rules};

/// No way: more than any plan has nodes.
pub const FAR: u32 = 65_536;
const LISTED: usize = 64;

type Row = [u32; 16];

/// What is asked: the states that may be at the root, and the labels that a node may take.
struct Problem<'a> {
    plan: Plan<'a>,
    rules: Rules<'a>,
    may: &'a [u64],
    cleared: bool,
    /// The states that some label leads to, from each pair of states; none where labels are tried one by one.
    images: Vec<u16>,
}

/// The numbers in a set, rising.
#[inline]
fn members(mut set: u64) -> impl Iterator<Item = usize> {
    std::iter::from_fn(move || {
        let number = set.trailing_zeros() as usize;
        set &= set.checked_sub(1)?;
        Some(number)
    })
}

impl<'a> Problem<'a> {
    fn new(plan: Plan<'a>, rules: Rules<'a>, may: &'a [u64], cleared: bool) -> Problem<'a> {
        let (s, k) = (rules.s, rules.k);
        let mut images = vec![0; if may.is_empty() && s < k { s * s } else { 0 }];
        for (pair, image) in images.iter_mut().enumerate() {
            let (p, q) = (pair / s, pair % s);
            *image = (0..k).fold(0, |all, b| all | 1 << rules.inner[(p * k + b) * s + q]);
        }
        Problem { plan, rules, may, cleared, images }
    }

    #[inline]
    fn inner(&self, p: usize, b: usize, q: usize) -> usize {
        self.rules.inner[(p * self.rules.k + b) * self.rules.s + q].into()
    }

    /// The labels that a node may take.
    #[inline]
    fn labels(&self, v: usize) -> u64 {
        let set = self.may.get(v).copied().unwrap_or(u64::MAX);
        if self.rules.k == 64 {
            set
        } else {
            set & ((1 << self.rules.k) - 1)
        }
    }

    fn as_it_is(&self) -> bool {
        let mut waiting = Vec::with_capacity(self.plan.n / 2 + 1);
        for v in 0..self.plan.n {
            let a = usize::from(self.plan.labels[v]);
            let state = if self.plan.kinds[v] == 0 {
                usize::from(self.rules.leaf[a])
            } else {
                let (q, p) = (waiting.pop().expect("a tree"), waiting.pop().expect("a tree"));
                self.inner(p, a, q)
            };
            waiting.push(state);
        }
        (self.rules.marks[waiting[0]] == 1) == self.cleared
    }

    fn leaf_row(&self, v: usize) -> Row {
        let mut row = [FAR; 16];
        members(self.labels(v)).for_each(|b| row[usize::from(self.rules.leaf[b])] = 1);
        row[usize::from(self.rules.leaf[usize::from(self.plan.labels[v])])] = 0;
        row
    }

    fn inner_row(&self, v: usize, left: &[u32], right: &[u32]) -> Row {
        let (s, own) = (self.rules.s, usize::from(self.plan.labels[v]));
        let (mut row, labels) = ([FAR; 16], self.labels(v));
        for (p, &at_left) in left.iter().enumerate().filter(|(_, &cost)| cost < FAR) {
            for (q, &at_right) in right.iter().enumerate().filter(|(_, &cost)| cost < FAR) {
                let below = at_left + at_right;
                let mut lower = |to: usize, cost: u32| row[to & 15] = row[to & 15].min(cost);
                match self.images.get(p * s + q) {
                    Some(&image) => members(image.into()).for_each(|to| lower(to, below + 1)),
                    None => members(labels).for_each(|b| lower(self.inner(p, b, q), below + 1)),
                }
                lower(self.inner(p, own, q), below);
            }
        }
        row
    }

    /// Sizes and costs of every node.
    fn up(&self, work: &mut [u32]) {
        let stride = self.rules.s + 1;
        for v in 0..self.plan.n {
            let (done, here) = work.split_at_mut(v * stride);
            let (size, row) = if self.plan.kinds[v] == 0 {
                (1, self.leaf_row(v))
            } else {
                let right = &done[(v - 1) * stride..];
                let left = &done[(v - 1 - right[0] as usize) * stride..][..stride];
                (1 + left[0] + right[0], self.inner_row(v, &left[1..], &right[1..]))
            };
            here[0] = size;
            here[1..stride].copy_from_slice(&row[..self.rules.s]);
        }
    }

    /// The labels that make a state at a node with its cost: the label, and the states of its children.
    fn found(&self, v: usize, state: usize, cost: u32, left: &[u32], right: &[u32]) -> [usize; 3] {
        let (own, others) = (usize::from(self.plan.labels[v]), self.labels(v));
        for (p, &at_left) in left.iter().enumerate() {
            for (q, &at_right) in right.iter().enumerate() {
                let below = at_left + at_right;
                if below == cost && self.inner(p, own, q) == state {
                    return [own, p, q];
                }
                if below + 1 == cost {
                    if let Some(b) = members(others).find(|&b| self.inner(p, b, q) == state) {
                        return [b, p, q];
                    }
                }
            }
        }
        unreachable!("the cost of a state is attained")
    }

    /// From the root down, last node first. A node's wanted state is written over its size, which its parent has read.
    fn down(&self, root: usize, work: &mut [u32], mut changed: impl FnMut(usize, usize)) {
        let stride = self.rules.s + 1;
        let mut wanted = vec![0u8; self.plan.n];
        wanted[self.plan.n - 1] = root as u8;
        for v in (0..self.plan.n).rev() {
            let (state, own) = (usize::from(wanted[v]), usize::from(self.plan.labels[v]));
            let cost = work[v * stride + 1 + state];
            let label = if self.plan.kinds[v] == 0 {
                let other = || members(self.labels(v)).find(|&b| usize::from(self.rules.leaf[b]) == state);
                if cost == 0 {
                    own
                } else {
                    other().expect("the cost of a state is attained")
                }
            } else {
                let right = &work[(v - 1) * stride..][..stride];
                let at = v - 1 - right[0] as usize;
                let left = &work[at * stride..][..stride];
                let [label, p, q] = self.found(v, state, cost, &left[1..], &right[1..]);
                (wanted[at], wanted[v - 1]) = (p as u8, q as u8);
                label
            };
            if label != own {
                changed(v, label);
            }
        }
    }

    /// The least cost of a state that is wanted at the root, and that state.
    fn at_root(&self, work: &[u32]) -> (u32, usize) {
        let costs = &work[(self.plan.n - 1) * (self.rules.s + 1) + 1..];
        let wanted = (0..self.rules.s).filter(|&q| (self.rules.marks[q] == 1) == self.cleared);
        wanted.map(|q| (costs[q], q)).min().unwrap_or((FAR, 0))
    }
}

/// The least number of changes and how many are listed; 2 to 10, 17 or 11.
pub fn fewest(
    plan: &[u8],
    rules: &[u8],
    may: &[u64],
    cleared: bool,
    work: &mut [u32],
    (nodes, labels): (&mut [u16], &mut [u8]),
) -> Result<(u32, u32), u32> {
    let (plan, rules) = (checks::plan(plan)?, checks::rules(rules)?);
    checks::labels(&plan, rules.k)?;
    if !may.is_empty() && may.len() != plan.n {
        return Err(17);
    }
    if work.len() < plan.n * (rules.s + 1) || nodes.len() < LISTED || labels.len() < LISTED {
        return Err(11);
    }
    let problem = Problem::new(plan, rules, may, cleared);
    if problem.as_it_is() {
        return Ok((0, 0));
    }
    problem.up(work);
    let (least, state) = problem.at_root(work);
    if least as usize > LISTED {
        return Ok((least, 0));
    }
    let mut left = least as usize;
    problem.down(state, work, |v, label| {
        left -= 1;
        (nodes[left], labels[left]) = (v as u16, label as u8);
    });
    Ok((least, least))
}
