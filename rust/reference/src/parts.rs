//! The rule of "Parts of a question", on a plan and its tree, with run states and maps as given: those of the run, or
//! any bytes below S.

use crate::climb::{climb, Move};
use crate::formats::Rules;
use crate::tree::Tree;

/// What the rule reads: `labels` are the plan's, `changed` those with the changes.
pub struct Given<'a> {
    pub tree: &'a Tree,
    pub labels: &'a [u8],
    pub changed: &'a [u8],
    pub rules: &'a Rules<'a>,
    pub state_table: &'a [u8],
}

/// The state of a part, the moves of its climb and the nodes passed over.
#[derive(Clone, Copy, Debug, PartialEq, Eq)]
pub struct Part {
    pub state: u8,
    pub links: usize,
    pub passed: usize,
}

/// The links of all parts, and the nodes passed over.
pub fn totals(parts: &[Part]) -> (u32, u32) {
    let sum = |of: fn(&Part) -> usize| parts.iter().map(of).sum::<usize>() as u32;
    (sum(|part| part.links), sum(|part| part.passed))
}

impl Given<'_> {
    /// All parts, "in rising node number".
    pub fn parts(&self, members: &[usize]) -> Vec<Part> {
        let mut parts: Vec<Part> = Vec::new();
        for &v in members {
            parts.push(self.part(members, &parts, v));
        }
        parts
    }

    /// The part that v roots; `handled` are the parts of the members before it.
    pub fn part(&self, members: &[usize], handled: &[Part], v: usize) -> Part {
        let a = self.changed[v];
        let (left, right) = match self.tree.children[v] {
            None => return Part { state: self.rules.leaf(a), links: 0, passed: 0 },
            Some(children) => children,
        };
        let unmoved = |state: u8| Part { state, links: 0, passed: 0 };
        let (l, r) = match (self.highest(members, left), self.highest(members, right)) {
            (None, None) => (unmoved(self.run(left)), unmoved(self.run(right))),
            // "With members below both children it takes theirs": both children are members
            (Some(_), Some(_)) => (unmoved(state(members, handled, left)), unmoved(state(members, handled, right))),
            (Some(w), None) => {
                (self.climbed(w, state(members, handled, w), self.tree.depth[v] + 1), unmoved(self.run(right)))
            }
            (None, Some(w)) => {
                (unmoved(self.run(left)), self.climbed(w, state(members, handled, w), self.tree.depth[v] + 1))
            }
        };
        let state = self.rules.inner(l.state, a, r.state);
        Part { state, links: l.links + r.links, passed: l.passed + r.passed }
    }

    /// The highest member below a child, the child included; the others are all below it.
    fn highest(&self, members: &[usize], child: usize) -> Option<usize> {
        let below = |v: usize, c: usize| v <= c && c < v + self.tree.size[c];
        let there: Vec<usize> = members.iter().copied().filter(|&v| below(v, child)).collect();
        let w = there.iter().copied().min_by_key(|&v| self.tree.depth[v])?;
        assert!(there.iter().all(|&v| below(v, w)), "no member below {} is above all others", child);
        Some(w)
    }

    /// "a jump applies the map, and a move to the parent applies the parent's label and the other child's run state"
    /// A tree's climb ends at the depth asked for, so that is its end's.
    fn climbed(&self, w: usize, from: u8, depth: usize) -> Part {
        let moves = climb(self.tree, w, depth).expect("a climb in a tree");
        let mut q = from;
        for &one in &moves {
            q = match one {
                Move::ByJump(v) => self.state_table[self.row(v) + 1 + q as usize],
                Move::ToParent(v) => {
                    let p = self.tree.parent[v];
                    let (left, right) = self.tree.children[p].expect("a parent is an inner node");
                    let a = self.labels[p];
                    if v == left {
                        self.rules.inner(q, a, self.run(right))
                    } else {
                        self.rules.inner(self.run(left), a, q)
                    }
                }
            };
        }
        Part { state: q, links: moves.len(), passed: self.tree.depth[w] - depth }
    }

    fn run(&self, v: usize) -> u8 {
        self.state_table[self.row(v)]
    }

    fn row(&self, v: usize) -> usize {
        (self.rules.states + 1) * v
    }
}

fn state(members: &[usize], handled: &[Part], v: usize) -> u8 {
    let at = members.binary_search(&v).expect("a member");
    handled[at].state
}
