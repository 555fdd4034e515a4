//! Whether two rule tables agree, and a plan on which they do not.

use crate::sizes::MAX_LINES;
use crate::{accepted, slices, Refusal};
use core::fmt;

/// A line of a separating plan.
#[derive(Clone, Copy, Debug, PartialEq, Eq, Hash)]
pub enum Line {
    /// A leaf.
    Leaf {
        /// Its label.
        label: u8,
    },
    /// An inner node over two earlier lines.
    Inner {
        /// Its label.
        label: u8,
        /// The line of the left child.
        left: usize,
        /// The line of the right child.
        right: usize,
    },
}

/// A plan that one of two rule tables clears and the other does not, as 1 to 256 lines; the last is the root. It has
/// the least height of all such plans. A line may serve several times, or not at all: written out as a tree, the lines
/// may have more nodes than a plan can have.
#[derive(Clone)]
pub struct SeparatingPlan {
    numbers: [u16; 4 * MAX_LINES],
    count: usize,
}

impl SeparatingPlan {
    /// The lines, numbered from 0.
    #[must_use]
    pub fn lines(&self) -> impl ExactSizeIterator<Item = Line> + '_ {
        self.numbers[..4 * self.count].chunks_exact(4).map(|line| match line[0] {
            0 => Line::Leaf { label: line[1] as u8 },
            _ => Line::Inner { label: line[1] as u8, left: usize::from(line[2]), right: usize::from(line[3]) },
        })
    }
}

impl fmt::Debug for SeparatingPlan {
    fn fmt(&self, f: &mut fmt::Formatter<'_>) -> fmt::Result {
        f.debug_list().entries(self.lines()).finish()
    }
}

impl PartialEq for SeparatingPlan {
    fn eq(&self, other: &SeparatingPlan) -> bool {
        self.lines().eq(other.lines())
    }
}

impl Eq for SeparatingPlan {}

/// Do two rule tables agree, that is, does every plan, of any size, get yes from both or no from both? None where they
/// do, else a plan on which they differ. [`Rules::differs_from`](crate::Rules::differs_from) takes tables that are
/// checked.
///
/// # Errors
/// The first of 6 to 9 for the first table, 6 to 9 for the second, 23.
///
/// ```
/// # use whatif::{Line, Rules};
/// // one label; state 1 is marked, and is that of every inner node, or of a leaf alone
/// let (some_inner, a_leaf) = (Rules::new(&[0], &[1; 4], &[false, true])?, Rules::new(&[1], &[0; 4], &[false, true])?);
/// assert_eq!(whatif::agree(some_inner.as_bytes(), some_inner.as_bytes())?, None);
/// let separating = whatif::agree(some_inner.as_bytes(), a_leaf.as_bytes())?.expect("they differ");
/// assert!(separating.lines().eq([Line::Leaf { label: 0 }]));
/// # Ok::<(), whatif::Refusal>(())
/// ```
pub fn agree(first: &[u8], second: &[u8]) -> Result<Option<SeparatingPlan>, Refusal> {
    let mut numbers = [0; 4 * MAX_LINES];
    let mut out = [0; 2];
    accepted(slices::agree(first, second, &mut numbers, &mut out))?;
    let [agree, count] = out;
    Ok(if agree == 1 { None } else { Some(SeparatingPlan { numbers, count: count as usize }) })
}

#[cfg(feature = "alloc")]
mod written_out {
    use super::{Line, SeparatingPlan};
    use crate::sizes::MAX_NODES;
    use crate::{Kind, Plan};
    use alloc::vec;
    use alloc::vec::Vec;

    impl SeparatingPlan {
        /// The lines written out as a tree; none where it would have more nodes than a plan can have.
        #[must_use]
        pub fn to_plan(&self) -> Option<Plan> {
            let lines: Vec<Line> = self.lines().collect();
            let root = lines.len().checked_sub(1)?;
            if *sizes(&lines)?.last()? > MAX_NODES {
                return None;
            }
            let mut nodes = root_first(&lines, root)?;
            nodes.reverse();
            Plan::from_fn(nodes.len(), |v| nodes[v]).ok()
        }
    }

    /// How many nodes each line's tree has, up to one more than a plan can have.
    fn sizes(lines: &[Line]) -> Option<Vec<usize>> {
        let mut sizes: Vec<usize> = Vec::new();
        for line in lines {
            let size = match *line {
                Line::Leaf { .. } => 1,
                Line::Inner { left, right, .. } => 1 + sizes.get(left)? + sizes.get(right)?,
            };
            sizes.push(size.min(MAX_NODES + 1));
        }
        Some(sizes)
    }

    /// The nodes of a line's tree: each before its right subtree, and that before its left one. This is post-order,
    /// turned round.
    fn root_first(lines: &[Line], root: usize) -> Option<Vec<(Kind, u8)>> {
        let (mut nodes, mut left_to_do) = (Vec::new(), vec![root]);
        while let Some(at) = left_to_do.pop() {
            nodes.push(match *lines.get(at)? {
                Line::Leaf { label } => (Kind::Leaf, label),
                Line::Inner { label, left, right } => {
                    left_to_do.extend([left, right]);
                    (Kind::Inner, label)
                }
            });
        }
        Some(nodes)
    }

    #[cfg(test)]
    mod tests {
        use super::SeparatingPlan;
        use crate::sizes::MAX_LINES;
        use crate::{fresh_run, Rules};

        /// One label; the state is how often both children have the same, modulo `states`.
        fn balanced(states: u8, marked: impl FnMut(u8) -> bool) -> Rules {
            let rises = move |p: u8, _: u8, q: u8| if p == q { (p + 1) % states } else { 0 };
            Rules::from_fn(states.into(), 1, |_| 0, rises, marked).unwrap()
        }

        #[test]
        fn tables_differ_on_the_plan() {
            let (first, second) = (balanced(4, |state| state == 3), balanced(4, |_| false));
            let plan = first.differs_from(&second).unwrap().unwrap().to_plan().unwrap();
            let yes = |rules: &Rules| fresh_run(plan.as_bytes(), rules.as_bytes(), &[], &[]).unwrap().yes;
            assert_eq!((plan.nodes(), yes(&first), yes(&second)), (15, true, false));
        }

        /// Left and right are kept apart.
        #[test]
        fn sides() {
            let left_alone = |p: u8, a: u8, q: u8| u8::from(a == 2 && (p, q) == (1, 0));
            let first = Rules::from_fn(3, 3, |a| a.min(1), left_alone, |_| false).unwrap();
            let second = Rules::from_fn(3, 3, |a| a.min(1), |p, a, q| 2 * left_alone(p, a, q), |s| s == 2).unwrap();
            let plan = first.differs_from(&second).unwrap().unwrap().to_plan().unwrap();
            assert_eq!(plan.labels(), [1, 0, 2]);
        }

        /// Each line is over the one before it, twice: as a tree they would have 2^256 - 1 nodes.
        #[test]
        fn lines_that_double() {
            let mut numbers = [0; 4 * MAX_LINES];
            for line in 1..MAX_LINES {
                numbers[4 * line..4 * line + 4].copy_from_slice(&[1, 0, line as u16 - 1, line as u16 - 1]);
            }
            let nodes = |count| SeparatingPlan { numbers, count }.to_plan().map(|plan| plan.nodes());
            assert_eq!([1, 2, 16, 17, MAX_LINES].map(nodes), [Some(1), Some(3), Some(65_535), None, None]);
        }

        /// All states but 14 are marked, of 15 states and of 16.
        #[test]
        fn a_plan_that_is_too_large() {
            let separating =
                balanced(15, |state| state != 14).differs_from(&balanced(16, |state| state != 14)).unwrap();
            assert_eq!(separating.unwrap().to_plan(), None);
        }
    }
}
