//! A plan and a branch table with their tables.

use crate::sizes::{node_table_len, state_table_len};
use crate::{branch, branch_build, branch_with_upper, BranchTable, BranchVerdict, Plan, Refusal};
use alloc::vec;
use alloc::vec::Vec;
use core::fmt;

/// A plan and a branch table with the tables of both, for branch questions: what does the table make of the labels on
/// the way from an upper node down to a lower?
///
/// ```
/// use whatif::{BranchTable, Branches, Kind::{Inner, Leaf}, Plan, Refusal};
/// let plan = Plan::new(&[1, 1, 0], &[Leaf, Leaf, Inner])?;
/// let table = BranchTable::from_fn(2, 2, |state, label| state.max(label), |state| state == 1)?;
/// let branches = Branches::build(plan, table)?;
///
/// // from below the root 2 down to leaf 0 the word is 1; from below leaf 0 down to leaf 0 it is empty
/// assert!(branches.ask(2, 0)?.yes && !branches.ask(0, 0)?.yes);
/// // with the upper node's label it is 0 1, and 1
/// assert!(branches.ask_with_upper(2, 0)?.yes && branches.ask_with_upper(0, 0)?.yes);
/// assert_eq!(branches.ask(0, 2), Err(Refusal::NotBelow));
/// # Ok::<(), Refusal>(())
/// ```
#[derive(Clone)]
pub struct Branches {
    plan: Plan,
    table: BranchTable,
    node_table: Vec<u16>,
    state_table: Vec<u8>,
}

impl Branches {
    /// Builds the tables.
    ///
    /// # Errors
    /// 10 where the plan has a label that the branch table does not have.
    pub fn build(plan: Plan, table: BranchTable) -> Result<Branches, Refusal> {
        let (n, s) = (plan.nodes(), table.states());
        let (mut node_table, mut state_table) = (vec![0; node_table_len(n)], vec![0; state_table_len(n, s)]);
        branch_build(plan.as_bytes(), table.as_bytes(), &mut node_table, &mut state_table)?;
        Ok(Branches { plan, table, node_table, state_table })
    }

    /// The word from below node `upper` down to node `lower`. The same node twice is the empty word: state 0.
    ///
    /// # Errors
    /// 13 for a node that the plan does not have, 16 where `lower` is not at or below `upper`.
    pub fn ask(&self, upper: u32, lower: u32) -> Result<BranchVerdict, Refusal> {
        let (plan, table) = (self.plan.as_bytes(), self.table.as_bytes());
        branch(plan, table, &self.node_table, &self.state_table, upper, lower)
    }

    /// The word from node `upper` down to node `lower`, both included. The same node twice is a word of one letter.
    ///
    /// # Errors
    /// 13 for a node that the plan does not have, 16 where `lower` is not at or below `upper`.
    pub fn ask_with_upper(&self, upper: u32, lower: u32) -> Result<BranchVerdict, Refusal> {
        let (plan, table) = (self.plan.as_bytes(), self.table.as_bytes());
        branch_with_upper(plan, table, &self.node_table, &self.state_table, upper, lower)
    }

    /// The nodes on the way from `upper` down to `lower`, both included.
    ///
    /// # Errors
    /// 13 for a node that the plan does not have, 16 where `lower` is not at or below `upper`.
    ///
    /// ```
    /// # use whatif::{BranchTable, Branches, Kind::{Inner, Leaf}, Plan};
    /// # let plan = Plan::new(&[0, 0, 0], &[Leaf, Leaf, Inner])?;
    /// # let branches = Branches::build(plan, BranchTable::new(1, &[0], &[true])?)?;
    /// assert_eq!(branches.path(2, 1)?, [2, 1]);
    /// # Ok::<(), whatif::Refusal>(())
    /// ```
    pub fn path(&self, upper: u32, lower: u32) -> Result<Vec<u16>, Refusal> {
        let _ = self.ask(upper, lower)?;
        let mut path = vec![lower as u16];
        while let Some(&v) = path.last().filter(|&&v| u32::from(v) != upper) {
            path.push(self.node_table[node_table_len(v.into())]);
        }
        path.reverse();
        Ok(path)
    }

    /// The plan.
    #[must_use]
    pub fn plan(&self) -> &Plan {
        &self.plan
    }

    /// The branch table.
    #[must_use]
    pub fn table(&self) -> &BranchTable {
        &self.table
    }
}

/// Without the tables that were built.
impl fmt::Debug for Branches {
    fn fmt(&self, f: &mut fmt::Formatter<'_>) -> fmt::Result {
        f.debug_struct("Branches").field("plan", &self.plan).field("table", &self.table).finish_non_exhaustive()
    }
}
