//! A planner's file with our plan of it.

use crate::sizes::{planner_bytes, planner_plan_bytes, MAX_PLANNER_NODES};
use crate::{layout, plan_of_planner, planner_of_plan, Plan, Refusal};
use alloc::vec;
use alloc::vec::Vec;
use core::fmt;

/// A node of a planner's file.
#[derive(Clone, Copy, Debug, PartialEq, Eq, Hash)]
pub struct PlannerNode {
    /// Its label, below 63.
    pub label: u8,
    /// How many children it has.
    pub children: u8,
}

/// A planner's file with our plan of it, and the place of each of its nodes there.
///
/// In our plan a planner's node is an inner node with its label, whose left child is the list of its children and whose
/// right child is the list of its later siblings. An empty list is a leaf with label 63, so that rules for such plans
/// have 64 labels. A question names a planner's node by its place.
///
/// ```
/// use whatif::{Planned, PlannerNode};
/// // a node with label 5 over two with labels 6 and 7, top first
/// let nodes = [(5, 2), (6, 0), (7, 0)].map(|(label, children)| PlannerNode { label, children });
/// let planned = Planned::new(&nodes)?;
/// assert_eq!(planned.plan().labels(), [63, 63, 63, 7, 6, 63, 5]);
/// assert_eq!(planned.places(), [6, 4, 3]);
/// // and home again
/// assert_eq!(Planned::home(planned.plan())?, planned);
/// # Ok::<(), whatif::Refusal>(())
/// ```
#[derive(Clone, PartialEq, Eq)]
pub struct Planned {
    file: Vec<u8>,
    plan: Plan,
    places: Vec<u16>,
}

impl Planned {
    /// Of these nodes, top first: after a node all that is below it, child by child, then its next sibling.
    ///
    /// # Errors
    /// 19 for nodes that are not those of one tree, 20 for a label of 63 or more, 21 for more than 32,767 nodes.
    pub fn new(nodes: &[PlannerNode]) -> Result<Planned, Refusal> {
        let (labels, children): (Vec<u8>, Vec<u8>) = nodes.iter().map(|node| (node.label, node.children)).unzip();
        Planned::out(layout::planner_file(&labels, &children))
    }

    /// Out: of a planner's file, as docs/LAYOUT.md has it.
    ///
    /// # Errors
    /// 19 for a malformed file, 20 for a label of 63 or more, 21 for more than 32,767 nodes.
    pub fn out(file: impl Into<Vec<u8>>) -> Result<Planned, Refusal> {
        let file = file.into();
        let most = (file.len().saturating_sub(planner_bytes(0)) / 2).min(MAX_PLANNER_NODES);
        let (mut plan, mut places) = (vec![0; planner_plan_bytes(most)], vec![0; most]);
        plan_of_planner(&file, &mut plan, &mut places)?;
        Ok(Planned { file, plan: Plan::from_bytes(plan)?, places })
    }

    /// Home: of a plan that came from a planner's file, a [`Plan`] or its bytes.
    ///
    /// # Errors
    /// 19 for every other plan, and for bytes that are none.
    pub fn home(plan: impl AsRef<[u8]>) -> Result<Planned, Refusal> {
        let plan = plan.as_ref();
        let mut file = vec![0; plan.len()];
        let n = planner_of_plan(plan, &mut file)?;
        file.truncate(planner_bytes(n));
        Planned::out(file)
    }

    /// The planner's file.
    #[must_use]
    pub fn file(&self) -> &[u8] {
        &self.file
    }

    /// Our plan of it.
    #[must_use]
    pub fn plan(&self) -> &Plan {
        &self.plan
    }

    /// For each of the planner's nodes its node in our plan.
    #[must_use]
    pub fn places(&self) -> &[u16] {
        &self.places
    }

    /// The planner's nodes, top first.
    #[must_use]
    pub fn nodes(&self) -> impl ExactSizeIterator<Item = PlannerNode> + '_ {
        let (labels, children) = self.file[planner_bytes(0)..].split_at(self.places.len());
        labels.iter().zip(children).map(|(&label, &children)| PlannerNode { label, children })
    }
}

impl fmt::Debug for Planned {
    fn fmt(&self, f: &mut fmt::Formatter<'_>) -> fmt::Result {
        f.debug_struct("Planned").field("nodes", &self.places.len()).field("plan", &self.plan).finish_non_exhaustive()
    }
}
