//! The fewest changes that clear a plan, or that take its clearance: by trying every relabelling.

use crate::formats::{read_plan, read_rules, Plan, Rules};
use crate::tables::run;

/// The most changes that are listed.
pub const MOST_LISTED: usize = 64;

/// Of the buffers only the lengths matter: sets of labels, work space, nodes and labels of the list.
#[derive(Clone, Copy, Debug)]
pub struct Lengths {
    pub may: usize,
    pub work: usize,
    pub nodes: usize,
    pub labels: usize,
}

/// Checks 2 to 10, then 17: sets for all nodes or for none; then 11: room for N × (S + 1) numbers and for 64 changes.
pub fn checks<'a>(plan: &'a [u8], rules: &'a [u8], lengths: Lengths) -> Result<(Plan<'a>, Rules<'a>), u32> {
    let plan = read_plan(plan)?;
    let rules = read_rules(rules)?;
    plan.labels_below(rules.labels)?;
    let Lengths { may, work, nodes, labels } = lengths;
    if may != 0 && may != plan.nodes() {
        return Err(17);
    }
    if work < plan.nodes() * (rules.states + 1) || nodes < MOST_LISTED || labels < MOST_LISTED {
        return Err(11);
    }
    Ok((plan, rules))
}

/// May node v take label b? It may always keep its own; with no sets at all it may take every label.
pub fn may_take(plan: &Plan, may: &[u64], v: usize, b: u8) -> bool {
    plan.labels[v] == b || may.is_empty() || may[v] >> b & 1 == 1
}

/// The labels that each node may have.
pub fn choices(plan: &Plan, rules: &Rules, may: &[u64]) -> Vec<Vec<u8>> {
    let of_node = |v| (0..rules.labels as u8).filter(|&b| may_take(plan, may, v, b)).collect();
    (0..plan.nodes()).map(of_node).collect()
}

/// At how many places do two lists of labels differ?
pub fn differences(first: &[u8], second: &[u8]) -> usize {
    first.iter().zip(second).filter(|(a, b)| a != b).count()
}

/// Is the plan with these labels as wanted?
pub fn as_wanted(plan: &Plan, rules: &Rules, labels: &[u8], cleared: bool) -> bool {
    let states = run(plan.kinds, labels, rules);
    rules.accepts(states[states.len() - 1]) == cleared
}

/// The least number of differences over all relabellings that are as wanted; none where there is none.
pub fn least(plan: &Plan, rules: &Rules, may: &[u64], cleared: bool) -> Option<usize> {
    let choices = choices(plan, rules, may);
    let mut at = vec![0; choices.len()];
    let mut least: Option<usize> = None;
    loop {
        let labels: Vec<u8> = choices.iter().zip(&at).map(|(labels, &i)| labels[i]).collect();
        if as_wanted(plan, rules, &labels, cleared) {
            let changed = differences(plan.labels, &labels);
            least = Some(least.map_or(changed, |so_far| so_far.min(changed)));
        }
        // the next relabelling, as a counter goes on
        match (0..at.len()).find(|&v| at[v] + 1 < choices[v].len()) {
            None => return least,
            Some(v) => {
                at[v] += 1;
                at[..v].fill(0);
            }
        }
    }
}
