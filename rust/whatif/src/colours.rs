//! Branch questions and questions by colours: at a cost that does not grow with the plan's depth, on tables of their
//! own.

use crate::{accepted, slices, Refusal};

/// What a branch question by colours answers.
#[derive(Clone, Copy, Debug, PartialEq, Eq, Hash)]
#[must_use]
pub struct ColourVerdict {
    /// The state after the lower node's label: that of the climb.
    pub state: u8,
    /// Is that state marked?
    pub yes: bool,
    /// The places on the path where the colour falls: at most S - 1.
    pub drops: u32,
    /// The moves of the searches for them: at most 45 for each.
    pub links: u32,
}

/// What a question by colours answers.
#[derive(Clone, Copy, Debug, PartialEq, Eq, Hash)]
#[must_use]
pub struct ColourAnswer {
    /// The root's state: the fresh run's.
    pub state: u8,
    /// Is that state marked: is the plan cleared?
    pub yes: bool,
    /// The drops of all target states that were tried: at most 60 for each part with changes below one child only.
    pub drops: u32,
    /// The moves of the searches for them: at most 45 for each.
    pub links: u32,
    /// The number of parts, as of a question in the session.
    pub parts: u32,
}

/// Writes the colour tables of a plan and a branch table into the first `4NS` numbers and `NS` bytes of the two buffers
/// ([`colour_branch_numbers`](crate::sizes::colour_branch_numbers),
/// [`colour_branch_bytes`](crate::sizes::colour_branch_bytes)); the rest stays. [`BranchColours`](crate::BranchColours)
/// has buffers of its own.
///
/// # Errors
/// The first of 2 to 11; both buffers are unchanged then.
pub fn colour_branch_build(plan: &[u8], branch: &[u8], numbers: &mut [u16], bytes: &mut [u8]) -> Result<(), Refusal> {
    accepted(slices::colour_branch_build(plan, branch, numbers, bytes))
}

/// The answer of [`branch`](crate::branch) by colours: what the branch table makes of the labels from below node
/// `upper` down to node `lower`. `node_table` is that of [`branch_build`](crate::branch_build); `numbers` and `bytes`
/// are the tables of [`colour_branch_build`], and `numbers` may be passed as `node_table` too: it begins with it.
///
/// # Errors
/// The first of 17, 13, 16, 18; never 18 on tables as built for this plan and branch table.
#[inline]
pub fn colour_branch(
    plan: &[u8],
    branch: &[u8],
    node_table: &[u16],
    numbers: &[u16],
    bytes: &[u8],
    upper: u32,
    lower: u32,
) -> Result<ColourVerdict, Refusal> {
    let mut out = [0; 4];
    accepted(slices::colour_branch(plan, branch, node_table, numbers, bytes, [upper, lower], &mut out))?;
    Ok(verdict(out))
}

/// The same with the upper node's label: the answer of [`branch_with_upper`](crate::branch_with_upper) by colours.
///
/// # Errors
/// Those of [`colour_branch`].
#[inline]
pub fn colour_branch_with_upper(
    plan: &[u8],
    branch: &[u8],
    node_table: &[u16],
    numbers: &[u16],
    bytes: &[u8],
    upper: u32,
    lower: u32,
) -> Result<ColourVerdict, Refusal> {
    let mut out = [0; 4];
    accepted(slices::colour_branch_with_upper(plan, branch, node_table, numbers, bytes, [upper, lower], &mut out))?;
    Ok(verdict(out))
}

#[inline]
fn verdict([state, yes, drops, links]: [u32; 4]) -> ColourVerdict {
    ColourVerdict { state: state as u8, yes: yes == 1, drops, links }
}

/// Writes the colour tables of a plan and a rule table of at most four states into the first numbers and bytes of the
/// two buffers ([`colour_numbers`](crate::sizes::colour_numbers), [`colour_bytes`](crate::sizes::colour_bytes)); the
/// rest stays. [`RuleColours`](crate::RuleColours) has buffers of its own.
///
/// # Errors
/// The first of 2 to 9, 27, 10, 11; both buffers are unchanged then.
pub fn colour_build(plan: &[u8], rules: &[u8], numbers: &mut [u16], bytes: &mut [u8]) -> Result<(), Refusal> {
    accepted(slices::colour_build(plan, rules, numbers, bytes))
}

/// A question by colours, whole and outside the session: what would the plan's state be if node `nodes[i]` took
/// `labels[i]`, for every i? A node may be listed several times: its last entry holds. `node_table` and `state_table`
/// are those of [`build`](crate::build); `numbers` and `bytes` are the tables of [`colour_build`], which begin with
/// them and may be passed for them too.
///
/// # Errors
/// The first of 17, 27, 12, 13, 14, 18; never 18 on tables as built for this plan and rule table.
#[allow(clippy::too_many_arguments)] // those of the call
pub fn colour_ask(
    plan: &[u8],
    rules: &[u8],
    node_table: &[u16],
    state_table: &[u8],
    numbers: &[u16],
    bytes: &[u8],
    nodes: &[u16],
    labels: &[u8],
) -> Result<ColourAnswer, Refusal> {
    let mut out = [0; 5];
    accepted(slices::colour_ask(plan, rules, node_table, state_table, numbers, bytes, nodes, labels, &mut out))?;
    let [state, yes, drops, links, parts] = out;
    Ok(ColourAnswer { state: state as u8, yes: yes == 1, drops, links, parts })
}
