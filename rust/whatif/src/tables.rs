//! The tables of a plan and a rule table, and the fresh run, which needs none.

use crate::{accepted, slices, Refusal};

/// What a fresh run answers.
#[derive(Clone, Copy, Debug, PartialEq, Eq, Hash)]
#[must_use]
pub struct Verdict {
    /// The root's state.
    pub state: u8,
    /// Is that state marked?
    pub yes: bool,
}

/// Writes the tables of a plan and a rule table into the first `4N` numbers and `(S+1)N` bytes of the two buffers
/// ([`sizes`](crate::sizes) has the lengths). The rest of a longer buffer stays.
///
/// # Errors
/// The first of 2 to 11; both buffers are unchanged then.
///
/// ```
/// # use whatif::{Kind::Leaf, Plan, Rules};
/// let plan = Plan::new(&[1], &[Leaf])?;
/// let rules = Rules::new(&[0, 1], &[0; 8], &[false, true])?;
/// let (mut node_table, mut state_table) = ([7u16; 5], [7u8; 3]);
/// whatif::build(plan.as_bytes(), rules.as_bytes(), &mut node_table, &mut state_table)?;
/// assert_eq!((node_table, state_table), ([0, 0, 0, 1, 7], [1, 0, 1]));
/// # Ok::<(), whatif::Refusal>(())
/// ```
pub fn build(plan: &[u8], rules: &[u8], node_table: &mut [u16], state_table: &mut [u8]) -> Result<(), Refusal> {
    accepted(slices::build(plan, rules, node_table, state_table))
}

/// Are these the tables that [`build`] writes for this plan and rule table? The rest of a longer table is not read.
///
/// # Errors
/// The first of 2 to 11. A table that is too short is 11, never a no.
pub fn check(plan: &[u8], rules: &[u8], node_table: &[u16], state_table: &[u8]) -> Result<bool, Refusal> {
    let mut yes = 0;
    accepted(slices::check(plan, rules, node_table, state_table, &mut yes))?;
    Ok(yes == 1)
}

/// Runs the rule table over the whole plan with the listed labels changed: node `nodes[i]` takes `labels[i]`.
/// A node may be listed several times: its last entry holds. [`Panel::fresh_run`](crate::Panel::fresh_run) takes pairs.
///
/// # Errors
/// The first of 2 to 10, 12, 13, 14.
///
/// ```
/// # use whatif::{Kind::Leaf, Plan, Rules};
/// let plan = Plan::new(&[1], &[Leaf])?;
/// let rules = Rules::new(&[0, 1], &[0; 8], &[false, true])?;
/// assert!(whatif::fresh_run(plan.as_bytes(), rules.as_bytes(), &[], &[])?.yes);
/// assert!(!whatif::fresh_run(plan.as_bytes(), rules.as_bytes(), &[0], &[0])?.yes);
/// # Ok::<(), whatif::Refusal>(())
/// ```
pub fn fresh_run(plan: &[u8], rules: &[u8], nodes: &[u16], labels: &[u8]) -> Result<Verdict, Refusal> {
    let mut out = [0; 2];
    accepted(slices::fresh_run(plan, rules, nodes, labels, &mut out))?;
    let [state, yes] = out;
    Ok(Verdict { state: state as u8, yes: yes == 1 })
}
