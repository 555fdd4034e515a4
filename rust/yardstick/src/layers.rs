//! The roots of a question and one part alone, on whatever is lent.

use crate::question::{Lent, Part};

/// How many roots there are, and the roots with zeros behind them; 0 and zeros where they are refused.
pub fn roots(n: usize, node_table: &[u16], nodes: &[u16], out: &mut [u16; 254]) -> usize {
    out.fill(0);
    let fits = (1..=65_535).contains(&n) && node_table.len() >= 4 * n && nodes.len() <= 64;
    if !fits || nodes.iter().any(|&v| v as usize >= n) {
        return 0;
    }
    let found = match Lent::node_table_only(n, &node_table[..4 * n]).roots(nodes) {
        Ok(found) => found,
        Err(_) => return 0,
    };
    let found = found.as_slice();
    out[..found.len()].copy_from_slice(found);
    found.len()
}

/// N, S and K.
pub type Sizes = (usize, usize, usize);

/// State, links and nodes passed over of the part that comes next after those whose states are given.
#[allow(clippy::too_many_arguments)]
pub fn part(
    (n, s, k): Sizes,
    plan: &[u8],
    rules: &[u8],
    node_table: &[u16],
    state_table: &[u8],
    roots: &[u16],
    states: &[u8],
    nodes: &[u16],
    labels: &[u8],
) -> Option<Part> {
    if !(1..=65_535).contains(&n) || !(1..=16).contains(&s) || !(1..=64).contains(&k) || nodes.len() != labels.len() {
        return None;
    }
    let lent = Lent::new((n, s, k), plan, rules, node_table, state_table).ok()?;
    let v = *roots.get(states.len())? as usize;
    if v >= n {
        return None;
    }
    let a = lent.label(v, nodes, labels);
    lent.part(v, a, &roots[..states.len()], states).ok()
}
