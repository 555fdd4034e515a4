//! Lists of changes.

use crate::{accepted, slices, Refusal};

/// A change: a node, and the label that it takes.
pub type Change = (u16, u8);

/// Lays one list of changes over another, each its nodes and its labels: all nodes of both, with the upper list's label
/// where both name one; of two entries for a node in a list the last. Writes the nodes that remain, rising, and their
/// labels, and returns their number; the rest of the buffers stays.
///
/// # Errors
/// 12 for the lower list, 12 for the upper, 22, 11 (in this order); both buffers are unchanged then.
///
/// ```
/// let (mut nodes, mut labels) = ([0; whatif::sizes::MAX_CHANGES], [0; whatif::sizes::MAX_CHANGES]);
/// let count = whatif::lay_over((&[5, 2, 5], &[1, 2, 3]), (&[9, 2], &[4, 6]), &mut nodes, &mut labels)?;
/// assert_eq!((&nodes[..count], &labels[..count]), (&[2, 5, 9][..], &[6, 3, 4][..]));
/// # Ok::<(), whatif::Refusal>(())
/// ```
pub fn lay_over(
    lower: (&[u16], &[u8]),
    upper: (&[u16], &[u8]),
    nodes: &mut [u16],
    labels: &mut [u8],
) -> Result<usize, Refusal> {
    let mut count = 0;
    accepted(slices::lay_over(lower, upper, nodes, labels, &mut count))?;
    Ok(count as usize)
}

#[cfg(feature = "alloc")]
pub(crate) use split::Split;

#[cfg(feature = "alloc")]
mod split {
    use super::Change;
    use crate::sizes::MAX_CHANGES;

    /// One more than the longest list that a call takes.
    const ROOM: usize = MAX_CHANGES + 1;

    /// The nodes and the labels of a list of changes, apart, as the calls take them. Of a list that is too long one
    /// entry too many is kept, so that the call refuses it as too long.
    pub(crate) struct Split {
        nodes: [u16; ROOM],
        labels: [u8; ROOM],
        count: usize,
    }

    impl Split {
        pub(crate) fn of(changes: &[Change]) -> Split {
            let mut split = Split { nodes: [0; ROOM], labels: [0; ROOM], count: changes.len().min(ROOM) };
            for (i, &(node, label)) in changes.iter().take(ROOM).enumerate() {
                split.nodes[i] = node;
                split.labels[i] = label;
            }
            split
        }

        pub(crate) fn nodes(&self) -> &[u16] {
            &self.nodes[..self.count]
        }

        pub(crate) fn labels(&self) -> &[u8] {
            &self.labels[..self.count]
        }
    }

    #[cfg(test)]
    mod tests {
        use super::{Split, ROOM};
        use std::vec;

        #[test]
        fn a_list_is_kept_up_to_one_entry_too_many() {
            let split = Split::of(&[(5, 1), (9, 0)]);
            assert_eq!((split.nodes(), split.labels()), (&[5, 9][..], &[1, 0][..]));
            assert_eq!(Split::of(&[]).nodes(), []);
            for count in [64, 65, 66, 1_000] {
                let split = Split::of(&vec![(3, 2); count]);
                assert_eq!((split.nodes().len(), split.labels().len()), (count.min(ROOM), count.min(ROOM)));
            }
        }
    }
}
