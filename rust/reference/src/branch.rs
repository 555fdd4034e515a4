//! Branch questions, twice: by the word itself (`by_word`, what holds on tables as built), and on lent tables, whatever
//! they hold (`on_tables`: it follows the lent links and maps).

use crate::climb::{climb, passed, Lent, Links, Move};
use crate::formats::{number, Branch, Plan, MAX_LABELS, MAX_NODES, MAX_STATES};
use crate::tables::labels_down;
use crate::tree::Tree;

/// Which word is read (document 02, S-9): with the upper node's label, or from below the upper node.
#[derive(Clone, Copy, Debug, PartialEq, Eq)]
pub enum Reading {
    WithUpper,
    BelowUpper,
}

pub const READINGS: [Reading; 2] = [Reading::WithUpper, Reading::BelowUpper];

#[derive(Clone, Copy, Debug, PartialEq, Eq)]
pub struct Answer {
    pub state: u8,
    pub yes: bool,
    pub links: usize,
    pub passed: usize,
}

/// "The word runs from the upper node to the lower, both included"; or "from below the upper node; the same node twice is
/// the empty word". 13, 16 or the answer. The tree is the plan's; plan and branch table passed 2 to 10.
pub fn by_word(
    reading: Reading,
    tree: &Tree,
    plan: &Plan,
    branch: &Branch,
    upper: u32,
    lower: u32,
) -> Result<Answer, u32> {
    let (upper, lower) = (upper as usize, lower as usize);
    if upper >= plan.nodes() || lower >= plan.nodes() {
        return Err(13);
    }
    if !tree.at_or_below(lower, upper) {
        return Err(16);
    }
    let first = match reading {
        Reading::WithUpper => branch.step(0, plan.labels[upper]),
        Reading::BelowUpper => 0,
    };
    let rest = labels_down(tree, plan.labels, upper, lower);
    let state = rest.iter().fold(first, |s, &a| branch.step(s, a));
    let links = climb(tree, lower, tree.depth[upper])?.len();
    Ok(Answer { state, yes: branch.accepts(state), links, passed: tree.depth[lower] - tree.depth[upper] })
}

/// Lent bytes with the counts that the headers name, of the lengths that these need.
struct Question<'a> {
    tree: Lent<'a>,
    labels: &'a [u8],
    state_table: &'a [u8],
    s: usize,
    k: usize,
    steps: &'a [u8],
    marks: &'a [u8],
}

/// "A branch question takes N, S and K from the lent headers: 17, also for a header cut short or a number outside its
/// limits". Offsets and kinds are not looked at.
fn lent<'a>(plan: &'a [u8], branch: &'a [u8], node_table: &'a [u16], state_table: &'a [u8]) -> Option<Question<'a>> {
    if plan.len() < 12 || branch.len() < 16 {
        return None;
    }
    let (n, s, k) = (number(plan, 0), number(branch, 0), number(branch, 4));
    if !(1..=MAX_NODES).contains(&n) || !(1..=MAX_STATES).contains(&s) || !(1..=MAX_LABELS).contains(&k) {
        return None;
    }
    let (n, s, k) = (n as usize, s as usize, k as usize);
    let exact = plan.len() == 12 + 2 * n && branch.len() == 16 + s * k + s;
    if !exact || node_table.len() < 4 * n || state_table.len() < (s + 1) * n {
        return None;
    }
    let (steps, marks) = branch[16..].split_at(s * k);
    Some(Question { tree: Lent { nodes: n, node_table }, labels: &plan[12..12 + n], state_table, s, k, steps, marks })
}

/// 17, 13, 16, 18 or the answer.
pub fn on_tables(
    reading: Reading,
    plan: &[u8],
    branch: &[u8],
    node_table: &[u16],
    state_table: &[u8],
    upper: u32,
    lower: u32,
) -> Result<Answer, u32> {
    let lent = lent(plan, branch, node_table, state_table).ok_or(17u32)?;
    let [upper, lower] = [upper, lower].map(|v| v as usize);
    if upper >= lent.tree.nodes || lower >= lent.tree.nodes {
        return Err(13);
    }
    // by the lent size of the upper node's subtree, which ends at the upper node
    if lower > upper || upper >= lower + lent.tree.size(upper) {
        return Err(16);
    }
    let moves = climb(&lent.tree, lower, lent.tree.depth(upper))?;
    lent.answer(reading, upper, lower, &moves)
}

impl Question<'_> {
    /// The first state goes down through the moves of the climb, from the last to the first: of each map one entry is read,
    /// so what the others hold doesn't matter.
    fn answer(&self, reading: Reading, upper: usize, lower: usize, moves: &[Move]) -> Result<Answer, u32> {
        let first = self.first(reading, upper)?;
        let state = moves.iter().rev().try_fold(first, |q, &one| self.through(one, q))?;
        let yes = self.marks[state] == 1;
        let passed = passed(&self.tree, lower, moves);
        Ok(Answer { state: state as u8, yes, links: moves.len(), passed })
    }

    /// The state that the word below the upper node starts in; from below it the upper node's label is not read, and so can't
    /// lead outside.
    fn first(&self, reading: Reading, upper: usize) -> Result<usize, u32> {
        match reading {
            Reading::WithUpper => self.step(0, upper),
            Reading::BelowUpper => Ok(0),
        }
    }

    /// The state at the lower end of a move, from the state at its upper end.
    fn through(&self, one: Move, state: usize) -> Result<usize, u32> {
        match one {
            Move::ByJump(v) => self.inside(self.state_table[(self.s + 1) * v + 1 + state]),
            Move::ToParent(v) => self.step(state, v),
        }
    }

    fn step(&self, state: usize, v: usize) -> Result<usize, u32> {
        let a = self.labels[v] as usize;
        if a >= self.k {
            return Err(18);
        }
        self.inside(self.steps[state * self.k + a])
    }

    fn inside(&self, state: u8) -> Result<usize, u32> {
        if (state as usize) < self.s {
            Ok(state as usize)
        } else {
            Err(18)
        }
    }
}
