//! How many choices of labels end in each state.

use crate::sizes::MAX_STATES;
use crate::{accepted, slices, Refusal};
use core::fmt;

/// How many choices end in each state, and the parts and links of a question about the nodes listed.
#[derive(Clone, Copy, PartialEq, Eq)]
#[must_use]
pub struct Counts {
    counts: [u64; MAX_STATES],
    /// Of the rule table, as it was passed in.
    marks: [bool; MAX_STATES],
    states: usize,
    /// The parts of the question.
    pub parts: u32,
    /// The moves of their climbs.
    pub links: u32,
}

impl Counts {
    /// A number for each of the S states.
    #[must_use]
    pub fn by_state(&self) -> &[u64] {
        &self.counts[..self.states]
    }

    /// How many choices clear the plan: those that end in a marked state.
    #[must_use]
    pub fn clearing(&self) -> u64 {
        self.by_state().iter().zip(self.marks).filter(|&(_, mark)| mark).map(|(&count, _)| count).sum()
    }

    /// All choices: K to the power of the nodes listed.
    #[must_use]
    pub fn all(&self) -> u64 {
        self.by_state().iter().sum()
    }
}

impl fmt::Debug for Counts {
    fn fmt(&self, f: &mut fmt::Formatter<'_>) -> fmt::Result {
        f.debug_struct("Counts")
            .field("by_state", &self.by_state())
            .field("clearing", &self.clearing())
            .field("parts", &self.parts)
            .field("links", &self.links)
            .finish()
    }
}

/// How many choices of labels for the nodes listed end in each state of the root? Every assignment of the K labels to
/// these nodes, each listed once, is one choice; the other nodes keep their labels. With no node listed the run's own
/// state has 1. [`Panel::count`](crate::Panel::count) has the tables of its own.
///
/// # Errors
/// The first of 17, 12, 13, 15, 26, 18; never 18 on tables that [`build`](crate::build) wrote for this plan and rule
/// table.
pub fn count(
    plan: &[u8],
    rules: &[u8],
    node_table: &[u16],
    state_table: &[u8],
    nodes: &[u16],
) -> Result<Counts, Refusal> {
    let mut counts = [0; MAX_STATES];
    let mut out = [0; 2];
    accepted(slices::count(plan, rules, node_table, state_table, nodes, &mut counts, &mut out))?;
    let [parts, links] = out;
    // the count that the header names and the call took; the marks are the table's last bytes
    let states = usize::from(rules[0]);
    let mut marks = [false; MAX_STATES];
    marks.iter_mut().zip(&rules[rules.len() - states..]).for_each(|(to, &mark)| *to = mark == 1);
    Ok(Counts { counts, marks, states, parts, links })
}
