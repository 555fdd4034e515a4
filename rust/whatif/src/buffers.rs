//! A plan and rules with the tables that a Load wrote for them: what a panel and a mill own besides their sessions.

use crate::lists::Split;
use crate::sizes::{fewest_work, node_table_len, state_table_len};
use crate::{allowed, ask, clearing, count, fewest, fresh_run};
use crate::{Answer, Change, Counts, Fewest, Kind, LabelSet, Lent, MayChange, Plan, Refusal, Rules, StateSet};
use crate::{Verdict, Want};
use alloc::vec;
use alloc::vec::Vec;

/// A node of a loaded plan, as the plan and the tables have it.
#[derive(Clone, Copy, Debug, PartialEq, Eq, Hash)]
pub struct Node {
    /// Leaf or inner.
    pub kind: Kind,
    /// Its label.
    pub label: u8,
    /// Its state in the run of the plan as it is.
    pub state: u8,
    /// Its parent; the root's is the root.
    pub parent: u16,
    /// Where its jump leads; the root's leads to the root.
    pub jump: u16,
    /// Its depth; the root's is 0.
    pub depth: u16,
    /// The nodes of its subtree, itself included.
    pub size: u16,
}

/// Both tables are exactly as long as they need to be.
#[derive(Clone)]
pub(crate) struct Buffers {
    pub(crate) plan: Plan,
    pub(crate) rules: Rules,
    node_table: Vec<u16>,
    state_table: Vec<u8>,
}

impl Buffers {
    /// A Load: `load` is passed the plan, the rules and the two tables to write.
    pub(crate) fn load(
        plan: Plan,
        rules: Rules,
        load: impl FnOnce(&[u8], &[u8], &mut [u16], &mut [u8]) -> Result<(), Refusal>,
    ) -> Result<Buffers, Refusal> {
        let (n, s) = (plan.nodes(), rules.states());
        let (mut node_table, mut state_table) = (vec![0; node_table_len(n)], vec![0; state_table_len(n, s)]);
        load(plan.as_bytes(), rules.as_bytes(), &mut node_table, &mut state_table)?;
        Ok(Buffers { plan, rules, node_table, state_table })
    }

    pub(crate) fn lent(&self) -> Lent<'_> {
        Lent {
            plan: self.plan.as_bytes(),
            rules: self.rules.as_bytes(),
            node_table: &self.node_table,
            state_table: &self.state_table,
        }
    }

    pub(crate) fn node(&self, v: u16) -> Option<Node> {
        let at = usize::from(v);
        let (kind, label) = (self.plan.kind(v)?, self.plan.labels()[at]);
        let state = self.state_table[state_table_len(at, self.rules.states())];
        let [parent, jump, depth, size] = [0, 1, 2, 3].map(|i| self.node_table[node_table_len(at) + i]);
        Some(Node { kind, label, state, parent, jump, depth, size })
    }

    pub(crate) fn fresh_run(&self, changes: &[Change]) -> Result<Verdict, Refusal> {
        let list = Split::of(changes);
        fresh_run(self.plan.as_bytes(), self.rules.as_bytes(), list.nodes(), list.labels())
    }

    pub(crate) fn what_if(&self, changes: &[Change]) -> Result<Answer, Refusal> {
        let list = Split::of(changes);
        ask(&self.lent(), list.nodes(), list.labels())
    }

    pub(crate) fn allowed(&self) -> Result<Vec<LabelSet>, Refusal> {
        let mut masks = vec![0; self.plan.nodes()];
        allowed(self.plan.as_bytes(), self.rules.as_bytes(), &mut masks)?;
        Ok(masks.into_iter().map(LabelSet::from_bits).collect())
    }

    pub(crate) fn clearing(&self) -> Result<Vec<StateSet>, Refusal> {
        let mut sets = vec![0; self.plan.nodes()];
        clearing(self.plan.as_bytes(), self.rules.as_bytes(), &mut sets)?;
        Ok(sets.into_iter().map(StateSet::from_bits).collect())
    }

    /// 17 is the library's where sets are given, and given here where every label is permitted.
    pub(crate) fn fewest(&self, want: Want, may: &MayChange) -> Result<Fewest, Refusal> {
        if may.nodes() != self.plan.nodes() {
            return Err(Refusal::LentLength);
        }
        let mut work = vec![0; fewest_work(self.plan.nodes(), self.rules.states())];
        fewest(self.plan.as_bytes(), self.rules.as_bytes(), may.as_bits(), want, &mut work)
    }

    pub(crate) fn count(&self, nodes: &[u16]) -> Result<Counts, Refusal> {
        let Lent { plan, rules, node_table, state_table } = self.lent();
        count(plan, rules, node_table, state_table, nodes)
    }

    /// The plan with these changes made. A fresh run asks 12, 13 and 14 of the list.
    pub(crate) fn changed_plan(&self, changes: &[Change]) -> Result<Plan, Refusal> {
        let _ = self.fresh_run(changes)?;
        let list = Split::of(changes);
        Ok(self.plan.with_labels(list.nodes(), list.labels()))
    }
}
