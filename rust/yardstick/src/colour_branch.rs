//! Branch questions by colours: the build of their tables and the question, in both readings.

use crate::checks::{self, number};
use crate::colours::{self, descend, node};
use crate::node_tables::{PARENT, SIZE};

pub fn colour_branch_build(plan: &[u8], branch: &[u8], numbers: &mut [u16], bytes: &mut [u8]) -> Result<(), u32> {
    let plan = checks::plan(plan)?;
    let branch = checks::branch(branch)?;
    checks::labels(&plan, branch.k)?;
    let (n, s, k) = (plan.n, branch.s, branch.k);
    if numbers.len() < 4 * n * s || bytes.len() < n * s {
        return Err(11);
    }
    let (numbers, bytes) = (&mut numbers[..4 * n * s], &mut bytes[..n * s]);
    colours::node_table(plan.kinds, numbers);
    // for each label, the state that each state leads to
    let mut steps = [[0; 16]; 64];
    for (q, row) in branch.steps.chunks_exact(k).enumerate() {
        steps.iter_mut().zip(row).for_each(|(step, &to)| step[q] = to);
    }
    let each: [u8; 16] = std::array::from_fn(|q| q as u8);
    let top = &steps[plan.labels[n - 1] as usize];
    node(top, &each[..s], &mut bytes[(n - 1) * s..], numbers, n, n - 1, None);
    for v in (0..n - 1).rev() {
        let p = numbers[4 * v + PARENT] as usize;
        let (before, own_on) = bytes.split_at_mut(p * s);
        let step = &steps[plan.labels[v] as usize];
        node(step, &own_on[..s], &mut before[v * s..(v + 1) * s], numbers, n, v, Some(p));
    }
    Ok(())
}

/// What a branch question by colours tells.
#[derive(Clone, Copy, Debug, PartialEq, Eq)]
pub struct ColourTold {
    pub state: u8,
    pub yes: bool,
    pub drops: u32,
    pub links: u32,
}

/// The branch question by colours: the word from below the upper node.
#[inline(never)]
pub fn ask_colours(
    plan: &[u8],
    branch: &[u8],
    node_table: &[u16],
    numbers: &[u16],
    bytes: &[u8],
    upper: u32,
    lower: u32,
) -> Result<ColourTold, u32> {
    ask_by::<false>(plan, branch, node_table, numbers, bytes, upper, lower)
}

/// The same with the upper node's label.
#[inline(never)]
pub fn ask_colours_with_upper(
    plan: &[u8],
    branch: &[u8],
    node_table: &[u16],
    numbers: &[u16],
    bytes: &[u8],
    upper: u32,
    lower: u32,
) -> Result<ColourTold, u32> {
    ask_by::<true>(plan, branch, node_table, numbers, bytes, upper, lower)
}

#[inline(always)]
fn ask_by<const WITH_UPPER: bool>(
    plan: &[u8],
    branch: &[u8],
    node_table: &[u16],
    numbers: &[u16],
    bytes: &[u8],
    upper: u32,
    lower: u32,
) -> Result<ColourTold, u32> {
    if plan.len() < 12 || branch.len() < 16 {
        return Err(17);
    }
    let (n, s, k) = (number(plan, 0), number(branch, 0), number(branch, 4));
    if !(1..=65_535).contains(&n) || !(1..=16).contains(&s) || !(1..=64).contains(&k) {
        return Err(17);
    }
    let exact = plan.len() == 12 + 2 * n && branch.len() == 16 + s * k + s;
    if !exact || node_table.len() < 4 * n || numbers.len() < 4 * n * s || bytes.len() < n * s {
        return Err(17);
    }
    let (upper, lower) = (upper as usize, lower as usize);
    if upper >= n || lower >= n {
        return Err(13);
    }
    if lower > upper || upper >= lower + node_table[4 * upper + SIZE] as usize {
        return Err(16);
    }
    let from = match (WITH_UPPER, upper + 1 == n) {
        (false, _) => Some(upper),
        (true, true) => None,
        (true, false) => Some(node_table[4 * upper + PARENT] as usize),
    };
    let start = match from {
        None => 0,
        Some(z) if z >= n => return Err(18),
        Some(z) => bytes[z * s..(z + 1) * s].iter().position(|&q| q == 0).ok_or(18u32)?,
    };
    let way = descend(numbers, n, from, lower, start)?;
    let state = bytes[lower * s + way.colour];
    if state as usize >= s {
        return Err(18);
    }
    let yes = branch[16 + s * k + state as usize] == 1;
    Ok(ColourTold { state, yes, drops: way.drops, links: way.links })
}
