//! What may change: which nodes are open, and which labels each of them may take.

use crate::{LabelSet, Refusal};
use alloc::vec;
use alloc::vec::Vec;
use core::fmt;

/// Which labels each node may take. A node may always keep the label that it has. It begins with every label at every
/// node; each function below takes something away, [`at`](MayChange::at) aside, which says all of a node.
///
/// ```
/// # use whatif::{Kind::{Inner, Leaf}, LabelSet, Panel, Plan, Rules, Want};
/// # let plan = Plan::new(&[0, 0, 0], &[Leaf, Leaf, Inner])?;
/// # let panel = Panel::new(plan, Rules::from_fn(3, 3, |a| a, |p, _, q| p.min(q), |state| state > 0)?)?;
/// let at_hand: LabelSet = [0, 2].iter().copied().collect();
/// let may = panel.may_change().labels(at_hand).keep(&[2])?; // burs 0 and 2 are at hand, the root keeps its own
/// let fewest = panel.fewest(Want::Cleared, &may)?;
/// assert_eq!(fewest.changes(), Some(&[(0, 2), (1, 2)][..]));
/// # Ok::<(), whatif::Refusal>(())
/// ```
#[derive(Clone, PartialEq, Eq)]
#[must_use]
pub struct MayChange {
    nodes: usize,
    /// A set for each node; none where every node may take every label.
    sets: Vec<u64>,
}

impl MayChange {
    /// Every node may take every label, in a plan of `nodes` nodes.
    pub fn new(nodes: usize) -> MayChange {
        MayChange { nodes, sets: Vec::new() }
    }

    /// These nodes keep their labels.
    ///
    /// # Errors
    /// 13 where one is not a node of the plan.
    pub fn keep(mut self, nodes: &[u16]) -> Result<MayChange, Refusal> {
        self.known(nodes)?;
        let sets = self.sets();
        nodes.iter().for_each(|&v| sets[usize::from(v)] = 0);
        Ok(self)
    }

    /// These nodes alone are open: all others keep their labels.
    ///
    /// # Errors
    /// 13 where one is not a node of the plan.
    pub fn open(mut self, nodes: &[u16]) -> Result<MayChange, Refusal> {
        self.known(nodes)?;
        let mut kept = vec![0; self.nodes];
        let sets = self.sets();
        nodes.iter().for_each(|&v| kept[usize::from(v)] = sets[usize::from(v)]);
        self.sets = kept;
        Ok(self)
    }

    /// The labels at hand: no node may take another.
    pub fn labels(mut self, at_hand: LabelSet) -> MayChange {
        self.sets().iter_mut().for_each(|set| *set &= at_hand.bits());
        self
    }

    /// The labels that this node may take, whatever was said of it before.
    ///
    /// # Errors
    /// 13 where it is not a node of the plan.
    pub fn at(mut self, node: u16, labels: LabelSet) -> Result<MayChange, Refusal> {
        self.known(&[node])?;
        self.sets()[usize::from(node)] = labels.bits();
        Ok(self)
    }

    /// The labels that a node may take; none above N - 1.
    #[must_use]
    pub fn labels_of(&self, node: u16) -> Option<LabelSet> {
        let set = self.sets.get(usize::from(node)).copied().unwrap_or(u64::MAX);
        (usize::from(node) < self.nodes).then(|| LabelSet::from_bits(set))
    }

    /// The nodes of the plan.
    #[must_use]
    pub fn nodes(&self) -> usize {
        self.nodes
    }

    /// As [`fewest`](crate::fewest) takes them: a set of bits for each node, or none.
    #[must_use]
    pub fn as_bits(&self) -> &[u64] {
        &self.sets
    }

    fn sets(&mut self) -> &mut [u64] {
        if self.sets.is_empty() {
            self.sets = vec![u64::MAX; self.nodes];
        }
        &mut self.sets
    }

    fn known(&self, nodes: &[u16]) -> Result<(), Refusal> {
        match nodes.iter().all(|&v| usize::from(v) < self.nodes) {
            true => Ok(()),
            false => Err(Refusal::Node),
        }
    }
}

/// Every node may take every label, or the sets of the nodes that are open.
impl fmt::Debug for MayChange {
    fn fmt(&self, f: &mut fmt::Formatter<'_>) -> fmt::Result {
        if self.sets.is_empty() {
            return f.debug_tuple("MayChange").field(&"every label at every node").finish();
        }
        let open = self.sets.iter().enumerate().filter(|(_, &set)| set != 0);
        f.debug_map().entries(open.map(|(v, &set)| (v, LabelSet::from_bits(set)))).finish()
    }
}

#[cfg(test)]
mod tests {
    use super::MayChange;
    use crate::{LabelSet, Refusal};
    use std::format;

    fn set(labels: &[u8]) -> LabelSet {
        labels.iter().copied().collect()
    }

    #[test]
    fn nodes_and_labels_are_taken_away() {
        let all = MayChange::new(3);
        let every = LabelSet::from_bits(u64::MAX);
        assert_eq!((all.as_bits(), all.labels_of(2), all.labels_of(3)), (&[][..], Some(every), None));
        let may = all.clone().keep(&[1]).unwrap().labels(set(&[0, 2]));
        assert_eq!(may.as_bits(), [0b101, 0, 0b101]);
        assert_eq!(may.clone().open(&[1, 2]).unwrap().as_bits(), [0, 0, 0b101]);
        assert_eq!(may.clone().at(1, set(&[63])).unwrap().as_bits(), [0b101, 1 << 63, 0b101]);
        assert_eq!(may.labels_of(0), Some(set(&[0, 2])));
        assert_eq!(format!("{:?}", may), "{0: {0, 2}, 2: {0, 2}}");
        assert_eq!(format!("{:?}", all), "MayChange(\"every label at every node\")");
        assert_eq!(all.open(&[]).unwrap().as_bits(), [0, 0, 0]);
    }

    #[test]
    fn a_node_that_the_plan_does_not_have() {
        let may = || MayChange::new(3);
        assert_eq!(may().keep(&[0, 3]).err(), Some(Refusal::Node));
        assert_eq!(may().open(&[3]).err(), Some(Refusal::Node));
        assert_eq!(may().at(3, set(&[])).err(), Some(Refusal::Node));
    }
}
