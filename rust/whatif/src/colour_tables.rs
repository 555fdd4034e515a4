//! Plans with a branch table or a rule table and their colour tables.

use crate::confirm::confirmed;
use crate::lists::Split;
use crate::sizes::{colour_branch_bytes, colour_branch_numbers, colour_bytes, colour_numbers, MAX_COLOUR_STATES};
use crate::{colour_ask, colour_branch, colour_branch_build, colour_branch_with_upper, colour_build, fresh_run};
use crate::{BranchTable, Change, ColourAnswer, ColourVerdict, Plan, Refusal, Rules, Unconfirmed, Verdict};
use alloc::vec;
use alloc::vec::Vec;
use core::fmt;

/// A plan and a branch table with their colour tables, which this owns: 9 S bytes a node, 144 for 16 states. The
/// answers are those of [`Branches`](crate::Branches), at a cost that does not grow with the plan's depth.
///
/// ```
/// use whatif::{BranchColours, BranchTable, Kind::{Inner, Leaf}, Plan, Refusal};
/// let plan = Plan::new(&[1, 1, 0], &[Leaf, Leaf, Inner])?;
/// let table = BranchTable::from_fn(2, 2, |state, label| state.max(label), |state| state == 1)?;
/// let colours = BranchColours::build(plan, table)?;
/// assert!(colours.ask(2, 0)?.yes && !colours.ask(0, 0)?.yes);
/// assert_eq!(colours.ask(0, 2), Err(Refusal::NotBelow));
/// # Ok::<(), Refusal>(())
/// ```
#[derive(Clone)]
pub struct BranchColours {
    plan: Plan,
    table: BranchTable,
    numbers: Vec<u16>,
    bytes: Vec<u8>,
}

impl BranchColours {
    /// Builds the colour tables.
    ///
    /// # Errors
    /// 10 where the plan has a label that the branch table does not have.
    pub fn build(plan: Plan, table: BranchTable) -> Result<BranchColours, Refusal> {
        let (n, s) = (plan.nodes(), table.states());
        let (mut numbers, mut bytes) = (vec![0; colour_branch_numbers(n, s)], vec![0; colour_branch_bytes(n, s)]);
        colour_branch_build(plan.as_bytes(), table.as_bytes(), &mut numbers, &mut bytes)?;
        Ok(BranchColours { plan, table, numbers, bytes })
    }

    /// The word from below node `upper` down to node `lower`. The same node twice is the empty word: state 0.
    ///
    /// # Errors
    /// 13 for a node that the plan does not have, 16 where `lower` is not at or below `upper`.
    pub fn ask(&self, upper: u32, lower: u32) -> Result<ColourVerdict, Refusal> {
        let (plan, table) = (self.plan.as_bytes(), self.table.as_bytes());
        colour_branch(plan, table, &self.numbers, &self.numbers, &self.bytes, upper, lower)
    }

    /// The word from node `upper` down to node `lower`, both included. The same node twice is a word of one letter.
    ///
    /// # Errors
    /// 13 for a node that the plan does not have, 16 where `lower` is not at or below `upper`.
    pub fn ask_with_upper(&self, upper: u32, lower: u32) -> Result<ColourVerdict, Refusal> {
        let (plan, table) = (self.plan.as_bytes(), self.table.as_bytes());
        colour_branch_with_upper(plan, table, &self.numbers, &self.numbers, &self.bytes, upper, lower)
    }

    /// The plan.
    #[must_use]
    pub fn plan(&self) -> &Plan {
        &self.plan
    }

    /// The branch table.
    #[must_use]
    pub fn table(&self) -> &BranchTable {
        &self.table
    }

    /// The colour tables' numbers; the first `4N` of them are the plan's node table.
    #[must_use]
    pub fn numbers(&self) -> &[u16] {
        &self.numbers
    }

    /// The colour tables' bytes.
    #[must_use]
    pub fn bytes(&self) -> &[u8] {
        &self.bytes
    }
}

/// A plan and a rule table of at most four states with their colour tables, which this owns: 149 bytes a node for four
/// states. A question is answered whole, at a cost that does not grow with the plan's depth.
///
/// ```
/// use whatif::{Kind::{Inner, Leaf}, Plan, Refusal, RuleColours, Rules};
/// let plan = Plan::new(&[1, 1, 0], &[Leaf, Leaf, Inner])?;
/// let rules = Rules::from_fn(2, 2, |a| a, |p, _, q| p.min(q), |state| state == 1)?;
/// let colours = RuleColours::build(plan.clone(), rules)?;
/// assert!(!colours.ask(&[(0, 0)])?.yes && colours.ask(&[(2, 1)])?.yes);
/// assert_eq!(colours.ask(&[(3, 0)]), Err(Refusal::Node));
///
/// // five states are too many
/// let five = Rules::from_fn(5, 2, |_| 0, |_, _, _| 0, |_| true)?;
/// assert_eq!(RuleColours::build(plan, five).err(), Some(Refusal::ColourStates));
/// # Ok::<(), Refusal>(())
/// ```
#[derive(Clone)]
pub struct RuleColours {
    plan: Plan,
    rules: Rules,
    numbers: Vec<u16>,
    bytes: Vec<u8>,
}

impl RuleColours {
    /// Builds the colour tables.
    ///
    /// # Errors
    /// 27 for more than four states, 10 where the plan has a label that the rules do not have.
    pub fn build(plan: Plan, rules: Rules) -> Result<RuleColours, Refusal> {
        // with more states the build is refused before it asks for buffers
        let (n, s) = (plan.nodes(), rules.states().min(MAX_COLOUR_STATES));
        let (mut numbers, mut bytes) = (vec![0; colour_numbers(n, s)], vec![0; colour_bytes(n, s)]);
        colour_build(plan.as_bytes(), rules.as_bytes(), &mut numbers, &mut bytes)?;
        Ok(RuleColours { plan, rules, numbers, bytes })
    }

    /// What would the plan's state be with these changes?
    ///
    /// # Errors
    /// 12 for more than 64 changes, 13 for a node that the plan does not have, 14 for a label that the rules do not
    /// have.
    pub fn ask(&self, changes: &[Change]) -> Result<ColourAnswer, Refusal> {
        let list = Split::of(changes);
        let (plan, rules) = (self.plan.as_bytes(), self.rules.as_bytes());
        let (numbers, bytes) = (&self.numbers, &self.bytes);
        colour_ask(plan, rules, numbers, bytes, numbers, bytes, list.nodes(), list.labels())
    }

    /// Confirms a yes before a blank is cut: asks with the list that goes to the mill. It is confirmed only where the
    /// answer is a yes and a fresh run of the plan with the list says the same.
    ///
    /// # Errors
    /// [`Unconfirmed`] says what is wrong; a no is not confirmed either.
    ///
    /// ```
    /// # use whatif::{Kind::Leaf, Plan, RuleColours, Rules};
    /// # let rules = Rules::new(&[0, 1], &[0; 8], &[false, true])?;
    /// # let colours = RuleColours::build(Plan::new(&[0], &[Leaf])?, rules)?;
    /// colours.confirm(&[(0, 1)])?; // and cut
    /// assert!(colours.confirm(&[(0, 0)]).is_err());
    /// # Ok::<(), Box<dyn std::error::Error>>(())
    /// ```
    pub fn confirm(&self, changes: &[Change]) -> Result<(), Unconfirmed> {
        let (answer, list) = (self.ask(changes)?, Split::of(changes));
        let fresh = fresh_run(self.plan.as_bytes(), self.rules.as_bytes(), list.nodes(), list.labels())?;
        confirmed(Verdict { state: answer.state, yes: answer.yes }, fresh)
    }

    /// The plan.
    #[must_use]
    pub fn plan(&self) -> &Plan {
        &self.plan
    }

    /// The rules.
    #[must_use]
    pub fn rules(&self) -> &Rules {
        &self.rules
    }

    /// The colour tables' numbers; the first `4N` of them are the plan's node table.
    #[must_use]
    pub fn numbers(&self) -> &[u16] {
        &self.numbers
    }

    /// The colour tables' bytes; the first `(S+1)N` of them are the state table of [`build`](crate::build).
    #[must_use]
    pub fn bytes(&self) -> &[u8] {
        &self.bytes
    }
}

/// Without the colour tables.
impl fmt::Debug for BranchColours {
    fn fmt(&self, f: &mut fmt::Formatter<'_>) -> fmt::Result {
        f.debug_struct("BranchColours").field("plan", &self.plan).field("table", &self.table).finish_non_exhaustive()
    }
}

/// Without the colour tables.
impl fmt::Debug for RuleColours {
    fn fmt(&self, f: &mut fmt::Formatter<'_>) -> fmt::Result {
        f.debug_struct("RuleColours").field("plan", &self.plan).field("rules", &self.rules).finish_non_exhaustive()
    }
}
