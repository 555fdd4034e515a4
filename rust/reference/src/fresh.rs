//! The fresh run: "a fresh run without tables (it tells state, yes or no)". Checks 2 to 10, then 12 to 14.

use crate::formats::{read_plan, read_rules};
use crate::tables::run;

pub const MAX_CHANGES: usize = 64;

#[derive(Clone, Copy, Debug, PartialEq, Eq)]
pub struct Answer {
    pub state: u8,
    pub yes: bool,
}

pub fn fresh_run(plan: &[u8], rules: &[u8], nodes: &[u16], labels: &[u8]) -> Result<Answer, u32> {
    let plan = read_plan(plan)?;
    let rules = read_rules(rules)?;
    plan.labels_below(rules.labels)?;
    check_list(nodes, labels, plan.nodes(), rules.labels)?;
    let states = run(plan.kinds, &changed(plan.labels, nodes, labels), &rules);
    let state = states[states.len() - 1];
    Ok(Answer { state, yes: rules.accepts(state) })
}

/// The plan's labels with the listed ones changed; of two entries for a node the last holds.
pub fn changed(labels: &[u8], nodes: &[u16], new: &[u8]) -> Vec<u8> {
    let mut changed = labels.to_vec();
    for (&v, &a) in nodes.iter().zip(new) {
        changed[v as usize] = a;
    }
    changed
}

/// "node and label lists of one length, at most 64? 12; nodes below N? 13; labels below K? 14", of every entry as listed. A
/// node may be listed several times (document 02, S-4): the last entry holds.
pub fn check_list(nodes: &[u16], labels: &[u8], n: usize, k: usize) -> Result<(), u32> {
    if nodes.len() != labels.len() || nodes.len() > MAX_CHANGES {
        return Err(12);
    }
    if nodes.iter().any(|&v| v as usize >= n) {
        return Err(13);
    }
    if labels.iter().any(|&a| a as usize >= k) {
        return Err(14);
    }
    Ok(())
}
