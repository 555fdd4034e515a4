//! Build and full check of branch tables, and the branch question.

use crate::checks::{self, number, Branch, Plan};
use crate::node_tables::{self, DEPTH, JUMP, PARENT, SIZE};

pub fn branch_build(plan: &[u8], branch: &[u8], node_table: &mut [u16], state_table: &mut [u8]) -> Result<(), u32> {
    let plan = checks::plan(plan)?;
    let branch = checks::branch(branch)?;
    checks::labels(&plan, branch.k)?;
    checks::buffers(plan.n, branch.s, node_table.len(), state_table.len())?;
    let row = branch.s + 1;
    let (node_table, state_table) = (&mut node_table[..4 * plan.n], &mut state_table[..row * plan.n]);
    up(&plan, node_table);
    let root = plan.n - 1;
    node_table[4 * root..4 * root + 3].copy_from_slice(&node_tables::root(plan.n));
    state_table[row * root] = branch.steps[plan.labels[root] as usize];
    for q in 0..branch.s {
        state_table[row * root + 1 + q] = q as u8;
    }
    down(&plan, &branch, node_table, state_table);
    Ok(())
}

fn up(plan: &Plan, node_table: &mut [u16]) {
    for v in 0..plan.n {
        if plan.kinds[v] == 0 {
            node_table[4 * v + SIZE] = 1;
        } else {
            let (l, r) = node_tables::children(node_table, v);
            node_table[4 * v + SIZE] = 1 + node_table[4 * l + SIZE] + node_table[4 * r + SIZE];
            node_table[4 * l + PARENT] = v as u16;
            node_table[4 * r + PARENT] = v as u16;
        }
    }
}

fn down(plan: &Plan, branch: &Branch, node_table: &mut [u16], state_table: &mut [u8]) {
    let row = branch.s + 1;
    for v in (0..plan.n - 1).rev() {
        let p = node_table[4 * v + PARENT] as usize;
        let jump = node_tables::jump(node_table, p);
        node_table[4 * v + JUMP] = jump.to;
        node_table[4 * v + DEPTH] = jump.depth;
        let steps = &branch.steps[plan.labels[v] as usize..];
        let (low, high) = state_table.split_at_mut(row * p);
        low[row * v] = steps[high[0] as usize * branch.k];
        let map = &mut low[row * v + 1..row * v + row];
        match jump.over {
            // from the top down: the map of p's jump, then p's, then the step
            Some(j) => {
                let (of_p, of_j) = (&high[1..row], &high[row * (j - p) + 1..row * (j - p) + row]);
                for (to, &at_j) in map.iter_mut().zip(of_j) {
                    *to = steps[of_p[at_j as usize] as usize * branch.k];
                }
            }
            None => {
                for (q, to) in map.iter_mut().enumerate() {
                    *to = steps[q * branch.k];
                }
            }
        }
    }
}

pub fn branch_check(plan: &[u8], branch: &[u8], node_table: &[u16], state_table: &[u8]) -> Result<bool, u32> {
    let plan = checks::plan(plan)?;
    let branch = checks::branch(branch)?;
    checks::labels(&plan, branch.k)?;
    checks::buffers(plan.n, branch.s, node_table.len(), state_table.len())?;
    let row = branch.s + 1;
    let (node_table, state_table) = (&node_table[..4 * plan.n], &state_table[..row * plan.n]);
    Ok(checked_up(&plan, node_table) && checked_down(&plan, &branch, node_table, state_table))
}

fn checked_up(plan: &Plan, node_table: &[u16]) -> bool {
    for v in 0..plan.n {
        let mut size = 1;
        if plan.kinds[v] != 0 {
            let (l, r) = node_tables::children(node_table, v);
            if node_table[4 * l + PARENT] as usize != v || node_table[4 * r + PARENT] as usize != v {
                return false;
            }
            size += node_table[4 * l + SIZE] + node_table[4 * r + SIZE];
        }
        if node_table[4 * v + SIZE] != size {
            return false;
        }
    }
    true
}

fn checked_down(plan: &Plan, branch: &Branch, node_table: &[u16], state_table: &[u8]) -> bool {
    let row = branch.s + 1;
    let root = plan.n - 1;
    if node_table[4 * root..4 * root + 3] != node_tables::root(plan.n)
        || state_table[row * root] != branch.steps[plan.labels[root] as usize]
        || (0..branch.s).any(|q| state_table[row * root + 1 + q] != q as u8)
    {
        return false;
    }
    for v in (0..root).rev() {
        let p = node_table[4 * v + PARENT] as usize;
        let jump = node_tables::jump(node_table, p);
        let state = branch.steps[state_table[row * p] as usize * branch.k + plan.labels[v] as usize];
        if node_table[4 * v + JUMP] != jump.to
            || node_table[4 * v + DEPTH] != jump.depth
            || state_table[row * v] != state
        {
            return false;
        }
        let steps = &branch.steps[plan.labels[v] as usize..];
        let map = &state_table[row * v + 1..row * v + row];
        let same = match jump.over {
            Some(j) => {
                let (of_p, of_j) = (&state_table[row * p + 1..row * p + row], &state_table[row * j + 1..row * j + row]);
                map.iter().zip(of_j).all(|(to, &at_j)| *to == steps[of_p[at_j as usize] as usize * branch.k])
            }
            None => map.iter().enumerate().all(|(q, to)| *to == steps[q * branch.k]),
        };
        if !same {
            return false;
        }
    }
    true
}

#[derive(Clone, Copy, Debug, PartialEq, Eq)]
pub struct Told {
    pub state: u8,
    pub yes: bool,
    pub links: u32,
    pub passed: u32,
}

/// 17: the parts of the lent bytes by the headers' N, S and K.
fn lent<'a>(plan: &'a [u8], branch: &'a [u8], node_table: usize, state_table: usize) -> Option<(&'a [u8], Branch<'a>)> {
    if plan.len() < 12 || branch.len() < 16 {
        return None;
    }
    let (n, s, k) = (number(plan, 0), number(branch, 0), number(branch, 4));
    if !(1..=65_535).contains(&n) || !(1..=16).contains(&s) || !(1..=64).contains(&k) {
        return None;
    }
    if plan.len() != 12 + 2 * n || branch.len() != 16 + s * k + s || node_table < 4 * n || state_table < (s + 1) * n {
        return None;
    }
    let (steps, marks) = branch[16..].split_at(s * k);
    Some((&plan[12..12 + n], Branch { s, k, steps, marks }))
}

/// The branch question: the word from below the upper node.
#[inline(never)]
pub fn ask(
    plan: &[u8],
    branch: &[u8],
    node_table: &[u16],
    state_table: &[u8],
    upper: u32,
    lower: u32,
) -> Result<Told, u32> {
    ask_by::<false>(plan, branch, node_table, state_table, upper, lower)
}

/// The same with the upper node's label.
#[inline(never)]
pub fn ask_with_upper(
    plan: &[u8],
    branch: &[u8],
    node_table: &[u16],
    state_table: &[u8],
    upper: u32,
    lower: u32,
) -> Result<Told, u32> {
    ask_by::<true>(plan, branch, node_table, state_table, upper, lower)
}

/// How many moves are remembered in place: a climb on tables as built has at most 45.
const MOVES: usize = 48;

/// A climb of at most so many links: its links, and the node where it ends. Each move is handed on with its place in
/// the climb, as twice its node, and 1 more where it is by the jump.
#[inline(always)]
fn climb(
    n: usize,
    node_table: &[u16],
    from: usize,
    top: u16,
    most: usize,
    mut keep: impl FnMut(usize, u32),
) -> Result<(usize, usize), u32> {
    let depth = |v: usize| node_table[4 * v + DEPTH];
    let (mut v, mut links) = (from, 0);
    while links < most && depth(v) > top {
        let jump = node_table[4 * v + JUMP] as usize;
        if jump >= n {
            return Err(18);
        }
        let by_jump = depth(jump) >= top;
        let next = if by_jump { jump } else { node_table[4 * v + PARENT] as usize };
        if next >= n || depth(next) >= depth(v) {
            return Err(18);
        }
        keep(links, 2 * v as u32 + by_jump as u32);
        v = next;
        links += 1;
    }
    Ok((links, v))
}

/// What the moves make of a state, from the last to the first.
#[inline(always)]
fn replay(moves: &[u32], labels: &[u8], branch: &Branch, state_table: &[u8], mut state: usize) -> Result<usize, u32> {
    let (s, k, row) = (branch.s, branch.k, branch.s + 1);
    for step in moves.iter().rev() {
        let v = (step / 2) as usize;
        state = if step % 2 == 1 {
            state_table[row * v + 1 + state] as usize
        } else {
            let a = labels[v] as usize;
            if a >= k {
                return Err(18);
            }
            branch.steps[state * k + a] as usize
        };
        if state >= s {
            return Err(18);
        }
    }
    Ok(state)
}

/// A climb of more moves than are remembered in place, which tables as built never have.
#[cold]
#[inline(never)]
fn long(
    labels: &[u8],
    branch: &Branch,
    node_table: &[u16],
    state_table: &[u8],
    lower: usize,
    top: u16,
    state: usize,
) -> Result<(usize, usize, usize), u32> {
    let mut moves = Vec::new();
    let (links, end) = climb(labels.len(), node_table, lower, top, usize::MAX, |_, step| moves.push(step))?;
    let state = replay(&moves, labels, branch, state_table, state)?;
    Ok((state, links, end))
}

/// The moves of the climb are remembered, each with whether it is by the jump, and one state goes down through them
/// from the last to the first.
#[inline(always)]
fn ask_by<const WITH_UPPER: bool>(
    plan: &[u8],
    branch: &[u8],
    node_table: &[u16],
    state_table: &[u8],
    upper: u32,
    lower: u32,
) -> Result<Told, u32> {
    let (labels, branch) = lent(plan, branch, node_table.len(), state_table.len()).ok_or(17u32)?;
    let (n, s, k) = (labels.len(), branch.s, branch.k);
    let (upper, lower) = (upper as usize, lower as usize);
    if upper >= n || lower >= n {
        return Err(13);
    }
    if lower > upper || upper >= lower + node_table[4 * upper + SIZE] as usize {
        return Err(16);
    }
    let depth = |v: usize| node_table[4 * v + DEPTH];
    let top = depth(upper);
    let mut state = 0;
    if WITH_UPPER {
        let a = labels[upper] as usize;
        if a >= k {
            return Err(18);
        }
        state = branch.steps[a] as usize;
        if state >= s {
            return Err(18);
        }
    }
    let mut moves = [0u32; MOVES];
    let (mut links, mut end) = climb(n, node_table, lower, top, MOVES, |at, step| moves[at] = step)?;
    if depth(end) > top {
        (state, links, end) = long(labels, &branch, node_table, state_table, lower, top, state)?;
    } else {
        state = replay(&moves[..links], labels, &branch, state_table, state)?;
    }
    let state = state as u8;
    let passed = u32::from(depth(lower) - depth(end));
    Ok(Told { state, yes: branch.marks[state as usize] == 1, links: links as u32, passed })
}
