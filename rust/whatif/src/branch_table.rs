//! Branch tables that the library has checked.

use crate::rules::{counts, ONE_LEAF};
use crate::sizes::{node_table_len, state_table_len, MAX_STATES};
use crate::{branch_build, layout, Refusal};
use alloc::vec::Vec;
use core::fmt;

/// A branch table: an automaton of S states that reads the labels on the way down to a node, from state 0 on. Its bytes
/// pass the library's checks 6 to 9.
///
/// ```
/// use whatif::{BranchTable, Refusal};
/// // two states, two labels: label 1 leads to state 1, which is marked, and state 1 stays
/// let table = BranchTable::from_fn(2, 2, |state, label| state.max(label), |state| state == 1)?;
/// assert_eq!((table.states(), table.labels(), table.step(0, 1)), (2, 2, Some(1)));
/// assert_eq!(BranchTable::from_fn(2, 2, |_, _| 2, |_| true), Err(Refusal::TableEntry));
/// # Ok::<(), Refusal>(())
/// ```
#[derive(Clone, PartialEq, Eq, Hash)]
pub struct BranchTable {
    bytes: Vec<u8>,
}

impl BranchTable {
    /// The branch table of `labels` labels and these lists: the state after state s reads label a, at s × K + a; and
    /// which states are marked. S is the number of marks.
    ///
    /// # Errors
    /// 7 where S is not 1 to 16 or `labels` not 1 to 64, 8 where there are not S × K steps, 9 for a state not below S.
    pub fn new(labels: usize, steps: &[u8], marks: &[bool]) -> Result<BranchTable, Refusal> {
        let marks: Vec<u8> = marks.iter().map(|&mark| u8::from(mark)).collect();
        BranchTable::checked(layout::branch_table(marks.len(), labels, steps, &marks))
    }

    /// The branch table of these functions: the state after a state reads a label, and whether a state is marked.
    ///
    /// # Errors
    /// 7 where `states` is not 1 to 16 or `labels` not 1 to 64, before a function is called; 9 for a state not below
    /// `states`.
    pub fn from_fn(
        states: usize,
        labels: usize,
        mut step: impl FnMut(u8, u8) -> u8,
        marked: impl FnMut(u8) -> bool,
    ) -> Result<BranchTable, Refusal> {
        let (s, k) = counts(states, labels)?;
        let mut steps = Vec::with_capacity(states * labels);
        for state in 0..s {
            steps.extend((0..k).map(|label| step(state, label)));
        }
        BranchTable::new(labels, &steps, &(0..s).map(marked).collect::<Vec<bool>>())
    }

    /// The branch table of these bytes, as docs/LAYOUT.md has them.
    ///
    /// # Errors
    /// The first of 6 to 9.
    pub fn from_bytes(bytes: impl Into<Vec<u8>>) -> Result<BranchTable, Refusal> {
        BranchTable::checked(bytes.into())
    }

    fn checked(bytes: Vec<u8>) -> Result<BranchTable, Refusal> {
        checked(&bytes)?;
        Ok(BranchTable { bytes })
    }

    /// The table's bytes.
    #[must_use]
    pub fn as_bytes(&self) -> &[u8] {
        &self.bytes
    }

    /// The table's bytes, by value.
    #[must_use]
    pub fn into_bytes(self) -> Vec<u8> {
        self.bytes
    }

    /// S, the number of states: 1 to 16.
    #[must_use]
    pub fn states(&self) -> usize {
        self.bytes[0].into()
    }

    /// K, the number of labels: 1 to 64.
    #[must_use]
    pub fn labels(&self) -> usize {
        self.bytes[4].into()
    }

    /// The state after a state reads a label; none where the table has no such state or label.
    #[must_use]
    pub fn step(&self, state: u8, label: u8) -> Option<u8> {
        let (s, a) = (usize::from(state), usize::from(label));
        let there = s < self.states() && a < self.labels();
        there.then(|| self.bytes[16 + s * self.labels() + a])
    }

    /// Is this state marked? No where the table has no such state.
    #[must_use]
    pub fn accepts(&self, state: u8) -> bool {
        let marks = &self.bytes[self.bytes.len() - self.states()..];
        marks.get(usize::from(state)) == Some(&1)
    }
}

/// 6 to 9. The library has no call for a branch table alone: a build for a plan of one leaf with label 0 asks 6 to 9 of
/// it, and nothing else can be wrong.
fn checked(table: &[u8]) -> Result<(), Refusal> {
    branch_build(&ONE_LEAF, table, &mut [0; node_table_len(1)], &mut [0; state_table_len(1, MAX_STATES)])
}

impl AsRef<[u8]> for BranchTable {
    fn as_ref(&self) -> &[u8] {
        self.as_bytes()
    }
}

impl fmt::Debug for BranchTable {
    fn fmt(&self, f: &mut fmt::Formatter<'_>) -> fmt::Result {
        let marked: Vec<u8> = (0..self.bytes[0]).filter(|&state| self.accepts(state)).collect();
        f.debug_struct("BranchTable")
            .field("states", &self.states())
            .field("labels", &self.labels())
            .field("marked", &marked)
            .finish_non_exhaustive()
    }
}

#[cfg(test)]
mod tests {
    use super::{layout, BranchTable};
    use crate::Refusal;
    use std::format;

    #[test]
    fn bytes() {
        let table = BranchTable::from_fn(3, 2, |s, a| (s + a) % 3, |state| state == 2).unwrap();
        let header = [3, 0, 0, 0, 2, 0, 0, 0, 16, 0, 0, 0, 22, 0, 0, 0];
        let bytes = [&header[..], &[0, 1, 1, 2, 2, 0], &[0, 0, 1]].concat();
        assert_eq!(table.as_bytes(), bytes);
        assert_eq!(table.as_ref(), bytes);
        assert_eq!(BranchTable::from_bytes(&bytes[..]), Ok(table.clone()));
        assert_eq!(BranchTable::new(2, &[0, 1, 1, 2, 2, 0], &[false, false, true]), Ok(table.clone()));
        assert_eq!(table.into_bytes(), bytes);
    }

    #[test]
    fn entries() {
        let table = BranchTable::from_fn(3, 4, |s, a| (s + 2 * a) % 3, |state| state != 1).unwrap();
        assert_eq!((table.states(), table.labels()), (3, 4));
        for s in 0..=255 {
            for a in [0, 1, 3, 4, 255] {
                assert_eq!(table.step(s, a), (s < 3 && a < 4).then(|| (s + 2 * a) % 3));
            }
        }
        assert_eq!([0, 1, 2, 3, 255].map(|state| table.accepts(state)), [true, false, true, false, false]);
    }

    #[test]
    fn each_refusal() {
        assert_eq!(BranchTable::from_bytes([0; 15]), Err(Refusal::TableShort));
        assert_eq!(BranchTable::new(0, &[], &[true]), Err(Refusal::TableCounts));
        assert_eq!(BranchTable::new(1, &[], &[]), Err(Refusal::TableCounts));
        assert_eq!(BranchTable::new(65, &[0; 65], &[true]), Err(Refusal::TableCounts));
        assert_eq!(BranchTable::new(1, &[0; 17], &[true; 17]), Err(Refusal::TableCounts));
        assert_eq!(BranchTable::new(usize::MAX, &[0; 2], &[true; 2]), Err(Refusal::TableCounts));
        assert_eq!(BranchTable::new(2, &[0; 3], &[true; 2]), Err(Refusal::TableLayout));
        assert_eq!(BranchTable::new(1, &[0, 2], &[true; 2]), Err(Refusal::TableEntry));
        assert_eq!(BranchTable::from_bytes(layout::branch_table(1, 1, &[0], &[2])), Err(Refusal::TableEntry));
        for (states, labels) in [(0, 1), (1, 0), (17, 1), (1, 65), (usize::MAX, 1), (1, 1 << 32)] {
            let refused = BranchTable::from_fn(states, labels, |_, _| panic!("a step"), |_| panic!("a mark"));
            assert_eq!(refused, Err(Refusal::TableCounts), "{} {}", states, labels);
        }
        assert!(BranchTable::from_fn(16, 64, |_, _| 15, |_| true).is_ok());
    }

    #[test]
    fn shown() {
        let table = BranchTable::new(1, &[1, 0], &[true, false]).unwrap();
        assert_eq!(format!("{:?}", table), "BranchTable { states: 2, labels: 1, marked: [0], .. }");
    }
}
