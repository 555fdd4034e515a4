//! Plans that the library has checked.

use crate::sizes::plan_bytes;
use crate::{fresh_run, layout, Refusal};
use alloc::vec::Vec;
use core::fmt;

/// The kind of a node.
#[derive(Clone, Copy, Debug, PartialEq, Eq, Hash)]
pub enum Kind {
    /// It has no children.
    Leaf,
    /// It has two children: the two trees last completed, the earlier as left child.
    Inner,
}

impl Kind {
    /// As a plan's bytes have it: 0 leaf, 1 inner.
    const fn byte(self) -> u8 {
        match self {
            Kind::Leaf => 0,
            Kind::Inner => 1,
        }
    }

    /// Of a checked plan's byte.
    const fn of(byte: u8) -> Kind {
        match byte {
            0 => Kind::Leaf,
            _ => Kind::Inner,
        }
    }
}

/// A plan: the nodes of a binary tree in post-order, each with a label. Its bytes pass the library's checks 2 to 5;
/// whether a table has its labels, check 10, is asked where the two meet.
///
/// ```
/// use whatif::{Kind::{Inner, Leaf}, Plan, Refusal};
/// // two leaves with labels 1 and 0, and the root above them with label 2
/// let plan = Plan::new(&[1, 0, 2], &[Leaf, Leaf, Inner])?;
/// assert_eq!((plan.nodes(), plan.labels(), plan.children()[2]), (3, &[1, 0, 2][..], Some((0, 1))));
/// assert_eq!(Plan::new(&[1, 0], &[Leaf, Leaf]), Err(Refusal::PlanTree));
/// # Ok::<(), Refusal>(())
/// ```
///
/// Labels and kinds can't be exchanged:
///
/// ```compile_fail,E0308
/// # use whatif::{Kind::{Inner, Leaf}, Plan};
/// let plan = Plan::new(&[Leaf, Leaf, Inner], &[1, 0, 2]);
/// ```
#[derive(Clone, PartialEq, Eq, Hash)]
pub struct Plan {
    bytes: Vec<u8>,
}

impl Plan {
    /// The plan of these labels and kinds, in post-order.
    ///
    /// # Errors
    /// 3 for no node or more than 65,535, 4 for lists of different lengths, 5 for kinds that are not those of one tree.
    pub fn new(labels: &[u8], kinds: &[Kind]) -> Result<Plan, Refusal> {
        let kinds: Vec<u8> = kinds.iter().map(|kind| kind.byte()).collect();
        Plan::checked(layout::plan(labels, &kinds))
    }

    /// The plan whose node `v` has the kind and the label that `node(v)` returns, for `v` from 0 on, in post-order.
    ///
    /// # Errors
    /// 3 for no node or more than 65,535, before `node` is called; 5 for kinds that are not those of one tree.
    ///
    /// ```
    /// use whatif::{Kind::{Inner, Leaf}, Plan};
    /// // a comb: a leaf, then again and again a leaf and the node above
    /// let comb = Plan::from_fn(7, |v| if v > 0 && v % 2 == 0 { (Inner, 1) } else { (Leaf, 0) })?;
    /// assert_eq!(comb.labels(), [0, 0, 1, 0, 1, 0, 1]);
    /// # Ok::<(), whatif::Refusal>(())
    /// ```
    pub fn from_fn(nodes: usize, node: impl FnMut(usize) -> (Kind, u8)) -> Result<Plan, Refusal> {
        // a header alone: where N is in its limits the library answers that the length is not exact
        let header = layout::with_header(&[nodes, 12, nodes.saturating_add(12)], &[]);
        match checked(&header) {
            Err(Refusal::PlanLayout) => (),
            refused => refused?,
        }
        let (kinds, labels): (Vec<Kind>, Vec<u8>) = (0..nodes).map(node).unzip();
        Plan::new(&labels, &kinds)
    }

    /// The plan of these bytes, as docs/LAYOUT.md has them.
    ///
    /// # Errors
    /// The first of 2 to 5.
    pub fn from_bytes(bytes: impl Into<Vec<u8>>) -> Result<Plan, Refusal> {
        Plan::checked(bytes.into())
    }

    fn checked(bytes: Vec<u8>) -> Result<Plan, Refusal> {
        checked(&bytes)?;
        Ok(Plan { bytes })
    }

    /// The plan's bytes.
    #[must_use]
    pub fn as_bytes(&self) -> &[u8] {
        &self.bytes
    }

    /// The plan's bytes, by value.
    #[must_use]
    pub fn into_bytes(self) -> Vec<u8> {
        self.bytes
    }

    /// N, the number of nodes: 1 to 65,535. They are numbered from 0, and the root is N - 1.
    #[must_use]
    pub fn nodes(&self) -> usize {
        (self.bytes.len() - plan_bytes(0)) / 2
    }

    /// The label of each node.
    #[must_use]
    pub fn labels(&self) -> &[u8] {
        &self.bytes[plan_bytes(0)..plan_bytes(0) + self.nodes()]
    }

    /// The kind of each node.
    #[must_use]
    pub fn kinds(&self) -> impl ExactSizeIterator<Item = Kind> + '_ {
        self.bytes[plan_bytes(0) + self.nodes()..].iter().map(|&byte| Kind::of(byte))
    }

    /// The kind of a node; none where the plan has no such node.
    #[must_use]
    pub fn kind(&self, v: u16) -> Option<Kind> {
        self.bytes[plan_bytes(0) + self.nodes()..].get(usize::from(v)).map(|&byte| Kind::of(byte))
    }

    /// The left and the right child of each node; none for a leaf.
    #[must_use]
    pub fn children(&self) -> Vec<Option<(u16, u16)>> {
        let mut completed: Vec<u16> = Vec::new();
        let mut children = Vec::with_capacity(self.nodes());
        for (v, kind) in (0..=u16::MAX).zip(self.kinds()) {
            children.push(match kind {
                Kind::Leaf => None,
                Kind::Inner => completed.pop().and_then(|right| completed.pop().map(|left| (left, right))),
            });
            completed.push(v);
        }
        children
    }

    /// The same plan with other labels at some nodes, which are nodes of it.
    pub(crate) fn with_labels(&self, nodes: &[u16], labels: &[u8]) -> Plan {
        let mut bytes = self.bytes.clone();
        for (&node, &label) in nodes.iter().zip(labels) {
            bytes[plan_bytes(0) + usize::from(node)] = label;
        }
        Plan { bytes }
    }
}

/// 2 to 5. The library has no call for a plan alone: a fresh run asks 2 to 5 of the plan, then 6 of the rule table, so
/// with no rule table it answers 6 exactly where the plan passes.
fn checked(plan: &[u8]) -> Result<(), Refusal> {
    match fresh_run(plan, &[], &[], &[]) {
        Err(Refusal::TableShort) => Ok(()),
        other => other.map(|_| ()),
    }
}

impl AsRef<[u8]> for Plan {
    fn as_ref(&self) -> &[u8] {
        self.as_bytes()
    }
}

/// The nodes in post-order; of a long plan the first ones.
impl fmt::Debug for Plan {
    fn fmt(&self, f: &mut fmt::Formatter<'_>) -> fmt::Result {
        const SHOWN: usize = 15;
        let nodes = if self.nodes() == 1 { "node" } else { "nodes" };
        write!(f, "Plan of {} {} [", self.nodes(), nodes)?;
        for (v, (kind, label)) in self.kinds().zip(self.labels()).take(SHOWN).enumerate() {
            let between = if v == 0 { "" } else { ", " };
            let name = if kind == Kind::Leaf { "leaf" } else { "inner" };
            write!(f, "{}{} {}", between, name, label)?;
        }
        f.write_str(if self.nodes() > SHOWN { ", ..]" } else { "]" })
    }
}

#[cfg(test)]
mod tests {
    use super::Kind::{Inner, Leaf};
    use super::{layout, Plan};
    use crate::sizes::MAX_NODES;
    use crate::Refusal;
    use std::vec::Vec;
    use std::{format, vec};

    /// Plan A of document 01's sample.
    fn plan_a() -> Plan {
        Plan::new(&[1, 1, 1, 0, 1, 0, 1], &[Leaf, Leaf, Inner, Leaf, Leaf, Inner, Inner]).unwrap()
    }

    #[test]
    fn plan_a_s_bytes() {
        let bytes = [7, 0, 0, 0, 12, 0, 0, 0, 19, 0, 0, 0, 1, 1, 1, 0, 1, 0, 1, 0, 0, 1, 0, 0, 1, 1];
        assert_eq!(plan_a().as_bytes(), bytes);
        assert_eq!(plan_a().into_bytes(), bytes);
        assert_eq!(plan_a().as_ref(), bytes);
        assert_eq!(Plan::from_bytes(bytes), Ok(plan_a()));
        assert_eq!(Plan::from_bytes(&bytes[..]), Ok(plan_a()));
        assert_eq!(Plan::from_bytes(bytes.to_vec()), Ok(plan_a()));
    }

    #[test]
    fn what_a_plan_knows() {
        let plan = plan_a();
        assert_eq!((plan.nodes(), plan.labels()), (7, &[1, 1, 1, 0, 1, 0, 1][..]));
        assert!(plan.kinds().eq([Leaf, Leaf, Inner, Leaf, Leaf, Inner, Inner]));
        assert_eq!([plan.kind(0), plan.kind(6), plan.kind(7)], [Some(Leaf), Some(Inner), None]);
        assert_eq!(plan.children(), [None, None, Some((0, 1)), None, None, Some((3, 4)), Some((2, 5))]);
    }

    #[test]
    fn each_refusal() {
        assert_eq!(Plan::from_bytes([0; 11]), Err(Refusal::PlanShort));
        assert_eq!(Plan::new(&[], &[]), Err(Refusal::NodeCount));
        assert_eq!(Plan::new(&vec![0; MAX_NODES + 1], &vec![Leaf; MAX_NODES + 1]), Err(Refusal::NodeCount));
        assert_eq!(Plan::new(&[0, 0], &[Leaf]), Err(Refusal::PlanLayout));
        assert_eq!(Plan::new(&[0], &[Leaf, Leaf]), Err(Refusal::PlanLayout));
        assert_eq!(Plan::new(&[0, 0, 0], &[Leaf, Inner, Leaf]), Err(Refusal::PlanTree));
        let kind_2 = layout::plan(&[0], &[2]);
        assert_eq!(Plan::from_bytes(kind_2), Err(Refusal::PlanTree));
    }

    /// Labels are any: a table decides.
    #[test]
    fn any_label() {
        assert_eq!(Plan::new(&[255], &[Leaf]).unwrap().labels(), [255]);
    }

    #[test]
    fn a_function_is_asked_in_order_and_not_for_too_many_nodes() {
        let mut asked = Vec::new();
        let plan = Plan::from_fn(3, |v| {
            asked.push(v);
            (if v == 2 { Inner } else { Leaf }, v as u8)
        });
        assert_eq!((plan, asked), (Plan::new(&[0, 1, 2], &[Leaf, Leaf, Inner]), vec![0, 1, 2]));
        for nodes in [0, MAX_NODES + 1, 1 << 32, (1 << 32) + 7, usize::MAX] {
            assert_eq!(Plan::from_fn(nodes, |_| panic!("asked for {}", nodes)), Err(Refusal::NodeCount));
        }
        assert_eq!(Plan::from_fn(2, |_| (Leaf, 0)), Err(Refusal::PlanTree));
    }

    #[test]
    fn the_largest_plan() {
        let comb = |v: usize| (if v > 0 && v % 2 == 0 { Inner } else { Leaf }, 0);
        let plan = Plan::from_fn(MAX_NODES, comb).unwrap();
        assert_eq!((plan.nodes(), plan.children()[MAX_NODES - 1]), (MAX_NODES, Some((65_532, 65_533))));
    }

    #[test]
    fn shown() {
        assert_eq!(
            format!("{:?}", Plan::new(&[1, 0, 2], &[Leaf, Leaf, Inner]).unwrap()),
            "Plan of 3 nodes [leaf 1, leaf 0, inner 2]"
        );
        let comb = Plan::from_fn(MAX_NODES, |v| (if v > 0 && v % 2 == 0 { Inner } else { Leaf }, 7)).unwrap();
        let shown = format!("{:?}", comb);
        assert!(shown.starts_with("Plan of 65535 nodes [leaf 7, leaf 7, inner 7, ") && shown.ends_with(", ..]"));
        assert!(shown.len() < 200, "{}", shown);
    }
}
