//! Which labels may each node take, and with which states of its subtree is the plan cleared: by the definition, a whole
//! run for each.

use crate::formats::{read_plan, read_rules, Plan, Rules};
use crate::tables::run;

/// Checks 2 to 10, then 11: room for a number for each node.
pub fn checks<'a>(plan: &'a [u8], rules: &'a [u8], room: usize) -> Result<(Plan<'a>, Rules<'a>), u32> {
    let plan = read_plan(plan)?;
    let rules = read_rules(rules)?;
    plan.labels_below(rules.labels)?;
    if room < plan.nodes() {
        return Err(11);
    }
    Ok((plan, rules))
}

/// Is the plan with node v alone relabelled to a cleared?
pub fn is_allowed(plan: &Plan, rules: &Rules, v: usize, a: u8) -> bool {
    let mut labels = plan.labels.to_vec();
    labels[v] = a;
    let states = run(plan.kinds, &labels, rules);
    rules.accepts(states[states.len() - 1])
}

/// Is the plan cleared with state q in the place of the subtree at v?
pub fn is_clearing(plan: &Plan, rules: &Rules, v: usize, q: u8) -> bool {
    let mut waiting: Vec<u8> = Vec::new();
    for (u, (&kind, &a)) in plan.kinds.iter().zip(plan.labels).enumerate() {
        let state = if kind == 0 {
            rules.leaf(a)
        } else {
            let right = waiting.pop().expect("a tree in post-order");
            let left = waiting.pop().expect("a tree in post-order");
            rules.inner(left, a, right)
        };
        waiting.push(if u == v { q } else { state });
    }
    rules.accepts(waiting[0])
}

/// Bit a where `holds(a)`, for every a below `count`.
pub fn bits(count: usize, holds: impl Fn(u8) -> bool) -> u64 {
    (0..count).filter(|&a| holds(a as u8)).fold(0, |bits, a| bits | 1 << a)
}
