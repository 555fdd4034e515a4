//! The fewest changes that clear a plan, or that make it no longer cleared.

use crate::sizes::{MAX_CHANGES, NO_WAY};
use crate::{accepted, slices, Change, Refusal};
use core::fmt;
use core::ops::Deref;

/// What the changed plan is to be.
#[derive(Clone, Copy, Debug, PartialEq, Eq, Hash)]
pub enum Want {
    /// Cleared.
    Cleared,
    /// Not cleared: the least number is then how many wrong labels a cleared plan is away from losing its clearance.
    NotCleared,
}

/// The fewest changes, over all relabellings that are permitted, however many nodes they change.
#[derive(Clone, Debug, PartialEq, Eq)]
#[allow(clippy::large_enum_variant)] // it is returned once, and there may be no allocator
#[must_use]
pub enum Fewest {
    /// The plan is as wanted already: no change is needed.
    AsItIs,
    /// These changes do it, and no fewer do. Of several least lists it is any one.
    Changes(Changes),
    /// That many changes do it, and no fewer. They are more than 64, so they are not listed.
    Number(u32),
    /// No permitted relabelling does it.
    NoWay,
}

impl Fewest {
    /// The least number of nodes that must be relabelled; none where there is no way.
    #[must_use]
    pub fn least(&self) -> Option<u32> {
        match self {
            Fewest::AsItIs => Some(0),
            Fewest::Changes(list) => Some(list.len() as u32),
            Fewest::Number(number) => Some(*number),
            Fewest::NoWay => None,
        }
    }

    /// The changes; none where they are more than 64, or where there is no way.
    #[must_use]
    pub fn changes(&self) -> Option<&[Change]> {
        match self {
            Fewest::AsItIs => Some(&[]),
            Fewest::Changes(list) => Some(list),
            Fewest::Number(_) | Fewest::NoWay => None,
        }
    }
}

/// 1 to 64 changes of different nodes, rising: a slice of them.
#[derive(Clone, Copy)]
pub struct Changes {
    list: [Change; MAX_CHANGES],
    count: usize,
}

impl Changes {
    fn new(nodes: &[u16], labels: &[u8]) -> Changes {
        let mut list = [(0, 0); MAX_CHANGES];
        list.iter_mut().zip(nodes.iter().zip(labels)).for_each(|(to, (&node, &label))| *to = (node, label));
        Changes { list, count: nodes.len() }
    }
}

impl Deref for Changes {
    type Target = [Change];
    fn deref(&self) -> &[Change] {
        &self.list[..self.count]
    }
}

impl PartialEq for Changes {
    fn eq(&self, other: &Changes) -> bool {
        self[..] == other[..]
    }
}

impl Eq for Changes {}

impl fmt::Debug for Changes {
    fn fmt(&self, f: &mut fmt::Formatter<'_>) -> fmt::Result {
        f.debug_list().entries(self.iter()).finish()
    }
}

/// How many nodes must be relabelled at least so that the plan is cleared, or no longer is? Node `v` may take label `a`
/// where bit `a` of `may[v]` is 1, and may always keep its label; an empty `may` permits every label at every node.
/// `work` is work space of at least [`fewest_work`](crate::sizes::fewest_work) numbers; its excess stays.
/// [`Panel::fewest`](crate::Panel::fewest) has the work space of its own.
///
/// # Errors
/// The first of 2 to 10, then 17 where `may` is neither empty nor N long, then 11 where `work` is too short; it is
/// unchanged then.
///
/// ```
/// # use whatif::{Fewest, Kind::{Inner, Leaf}, Plan, Rules, Want};
/// let plan = Plan::new(&[0, 0, 0], &[Leaf, Leaf, Inner])?; // the root takes the lesser state: 0, which is not cleared
/// let rules = Rules::from_fn(2, 2, |a| a, |p, _, q| p.min(q), |state| state == 1)?;
/// let mut work = [0; whatif::sizes::fewest_work(3, 2)];
/// let fewest = whatif::fewest(plan.as_bytes(), rules.as_bytes(), &[], Want::Cleared, &mut work)?;
/// assert_eq!(fewest.changes(), Some(&[(0, 1), (1, 1)][..]));
/// // where node 1 must keep its label, there is no way
/// let fewest = whatif::fewest(plan.as_bytes(), rules.as_bytes(), &[0b11, 0b00, 0b11], Want::Cleared, &mut work)?;
/// assert_eq!(fewest, Fewest::NoWay);
/// # Ok::<(), whatif::Refusal>(())
/// ```
pub fn fewest(plan: &[u8], rules: &[u8], may: &[u64], want: Want, work: &mut [u32]) -> Result<Fewest, Refusal> {
    let (mut nodes, mut labels, mut out) = ([0; MAX_CHANGES], [0; MAX_CHANGES], [0; 2]);
    let want = u32::from(want == Want::Cleared);
    accepted(slices::fewest(plan, rules, may, want, work, (&mut nodes, &mut labels), &mut out))?;
    let [least, count] = out.map(|number| number as usize);
    Ok(match least {
        0 => Fewest::AsItIs,
        NO_WAY => Fewest::NoWay,
        _ if count == 0 => Fewest::Number(least as u32),
        _ => Fewest::Changes(Changes::new(&nodes[..count], &labels[..count])),
    })
}

#[cfg(test)]
mod tests {
    use super::{Changes, Fewest};
    use std::format;
    use std::vec::Vec;

    #[test]
    fn a_list_is_a_slice_of_changes() {
        let list = Changes::new(&[3, 9], &[1, 0]);
        assert_eq!((&list[..], list.len()), (&[(3, 1), (9, 0)][..], 2));
        assert_eq!(list.iter().map(|&(node, _)| node).collect::<Vec<_>>(), [3, 9]);
        assert_eq!(format!("{:?}", list), "[(3, 1), (9, 0)]");
        assert!(list == Changes::new(&[3, 9], &[1, 0]) && list != Changes::new(&[3], &[1]));
    }

    #[test]
    fn numbers_and_lists_of_each_answer() {
        let list = Changes::new(&[5], &[2]);
        let answers = [Fewest::AsItIs, Fewest::Changes(list), Fewest::Number(65), Fewest::NoWay];
        assert_eq!(answers.iter().map(Fewest::least).collect::<Vec<_>>(), [Some(0), Some(1), Some(65), None]);
        let lists: Vec<_> = answers.iter().map(Fewest::changes).collect();
        assert_eq!(lists, [Some(&[][..]), Some(&[(5, 2)][..]), None, None]);
    }
}
