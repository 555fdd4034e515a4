//! Branch questions: what a branch table makes of the labels on the way from an upper node down to a lower.

use crate::{accepted, slices, Refusal};

/// What a branch question answers.
#[derive(Clone, Copy, Debug, PartialEq, Eq, Hash)]
#[must_use]
pub struct BranchVerdict {
    /// The state after the lower node's label.
    pub state: u8,
    /// Is that state marked?
    pub yes: bool,
    /// The moves of the climb from the lower node to the upper's depth.
    pub links: u32,
    /// The nodes that it passed over: the depth of its start less the depth of its end.
    pub passed: u32,
}

/// Writes the tables of a plan and a branch table, as [`build`](crate::build) does for a rule table.
///
/// # Errors
/// The first of 2 to 11; both buffers are unchanged then.
pub fn branch_build(plan: &[u8], branch: &[u8], node_table: &mut [u16], state_table: &mut [u8]) -> Result<(), Refusal> {
    accepted(slices::branch_build(plan, branch, node_table, state_table))
}

/// Are these the tables that [`branch_build`] writes for this plan and branch table?
///
/// # Errors
/// The first of 2 to 11. A table that is too short is 11, never a no.
pub fn branch_check(plan: &[u8], branch: &[u8], node_table: &[u16], state_table: &[u8]) -> Result<bool, Refusal> {
    let mut yes = 0;
    accepted(slices::branch_check(plan, branch, node_table, state_table, &mut yes))?;
    Ok(yes == 1)
}

/// What the branch table makes of the labels from below node `upper` down to node `lower`, from state 0 on. The same
/// node twice is the empty word: state 0. [`Branches`](crate::Branches) has the tables of its own.
///
/// # Errors
/// The first of 17, 13, 16, 18; never 18 on tables that [`branch_build`] wrote for this plan and branch table.
pub fn branch(
    plan: &[u8],
    branch: &[u8],
    node_table: &[u16],
    state_table: &[u8],
    upper: u32,
    lower: u32,
) -> Result<BranchVerdict, Refusal> {
    let mut out = [0; 4];
    accepted(slices::branch(plan, branch, node_table, state_table, [upper, lower], &mut out))?;
    Ok(verdict(out))
}

/// The same with the upper node's label: the labels from node `upper` down to node `lower`, both included. The same
/// node twice is a word of one letter. Links and nodes passed over are those of [`branch`].
///
/// # Errors
/// Those of [`branch`].
pub fn branch_with_upper(
    plan: &[u8],
    branch: &[u8],
    node_table: &[u16],
    state_table: &[u8],
    upper: u32,
    lower: u32,
) -> Result<BranchVerdict, Refusal> {
    let mut out = [0; 4];
    accepted(slices::branch_with_upper(plan, branch, node_table, state_table, [upper, lower], &mut out))?;
    Ok(verdict(out))
}

fn verdict([state, yes, links, passed]: [u32; 4]) -> BranchVerdict {
    BranchVerdict { state: state as u8, yes: yes == 1, links, passed }
}
