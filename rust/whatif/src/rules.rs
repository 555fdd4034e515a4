//! Rule tables that the library has checked.

use crate::sizes::{rules_bytes, MAX_LABELS, MAX_STATES};
use crate::{agree, fresh_run, layout, merge, Refusal, SeparatingPlan};
use alloc::vec;
use alloc::vec::Vec;
use core::fmt;

/// A rule table: a bottom-up tree automaton of S states on K labels, with a mark on each state. A plan is cleared where
/// the state at its root is marked. Its bytes pass the library's checks 6 to 9.
///
/// ```
/// use whatif::{Refusal, Rules};
/// // two states, two labels: label 0 takes the greater state of the children, label 1 the lesser
/// let lesser_or_greater = |p: u8, a: u8, q: u8| if a == 0 { p.max(q) } else { p.min(q) };
/// let rules = Rules::from_fn(2, 2, |a| a, lesser_or_greater, |state| state == 1)?;
/// assert_eq!((rules.states(), rules.labels(), rules.inner(0, 0, 1)), (2, 2, Some(1)));
/// assert_eq!(Rules::from_fn(2, 2, |_| 2, lesser_or_greater, |_| true), Err(Refusal::TableEntry));
/// # Ok::<(), Refusal>(())
/// ```
#[derive(Clone, PartialEq, Eq, Hash)]
pub struct Rules {
    bytes: Vec<u8>,
}

impl Rules {
    /// The rule table of these lists: the state of a leaf by its label; the state of an inner node for left state p,
    /// label a and right state q, at (p × K + a) × S + q; and which states are marked. S is the number of marks, K that
    /// of the leaf states.
    ///
    /// # Errors
    /// 7 where S is not 1 to 16 or K not 1 to 64, 8 where there are not S × K × S inner states, 9 for a state not below
    /// S.
    ///
    /// ```
    /// use whatif::Rules;
    /// // two states, two labels; an inner node is in state 1 where both children are
    /// let rules = Rules::new(&[0, 1], &[0, 0, 0, 0, 0, 1, 0, 1], &[false, true])?;
    /// assert_eq!((rules.inner(1, 0, 1), rules.inner(1, 0, 0), rules.accepts(1)), (Some(1), Some(0), true));
    /// # Ok::<(), whatif::Refusal>(())
    /// ```
    pub fn new(leaf: &[u8], inner: &[u8], marks: &[bool]) -> Result<Rules, Refusal> {
        let marks: Vec<u8> = marks.iter().map(|&mark| u8::from(mark)).collect();
        Rules::checked(layout::rules(marks.len(), leaf.len(), leaf, inner, &marks))
    }

    /// The rule table of these functions: the state of a leaf by its label; the state of an inner node by its left
    /// state, its label and its right state; and whether a state is marked.
    ///
    /// # Errors
    /// 7 where `states` is not 1 to 16 or `labels` not 1 to 64, before a function is called; 9 for a state not below
    /// `states`.
    pub fn from_fn(
        states: usize,
        labels: usize,
        leaf: impl FnMut(u8) -> u8,
        mut inner: impl FnMut(u8, u8, u8) -> u8,
        marked: impl FnMut(u8) -> bool,
    ) -> Result<Rules, Refusal> {
        let (s, k) = counts(states, labels)?;
        let leaf: Vec<u8> = (0..k).map(leaf).collect();
        let mut inner_states = Vec::with_capacity(states * labels * states);
        for p in 0..s {
            for a in 0..k {
                inner_states.extend((0..s).map(|q| inner(p, a, q)));
            }
        }
        Rules::new(&leaf, &inner_states, &(0..s).map(marked).collect::<Vec<bool>>())
    }

    /// The rule table of these bytes, as docs/LAYOUT.md has them.
    ///
    /// # Errors
    /// The first of 6 to 9.
    pub fn from_bytes(bytes: impl Into<Vec<u8>>) -> Result<Rules, Refusal> {
        Rules::checked(bytes.into())
    }

    fn checked(bytes: Vec<u8>) -> Result<Rules, Refusal> {
        checked(&bytes)?;
        Ok(Rules { bytes })
    }

    /// The table's bytes.
    #[must_use]
    pub fn as_bytes(&self) -> &[u8] {
        &self.bytes
    }

    /// The table's bytes, by value.
    #[must_use]
    pub fn into_bytes(self) -> Vec<u8> {
        self.bytes
    }

    /// S, the number of states: 1 to 16.
    #[must_use]
    pub fn states(&self) -> usize {
        self.bytes[0].into()
    }

    /// K, the number of labels: 1 to 64.
    #[must_use]
    pub fn labels(&self) -> usize {
        self.bytes[4].into()
    }

    /// The state of a leaf by its label; none where the table has no such label.
    #[must_use]
    pub fn leaf(&self, label: u8) -> Option<u8> {
        self.bytes[20..20 + self.labels()].get(usize::from(label)).copied()
    }

    /// The state of an inner node by its left state, its label and its right state; none where the table has no such
    /// label or state.
    #[must_use]
    pub fn inner(&self, left: u8, label: u8, right: u8) -> Option<u8> {
        let (s, k) = (self.states(), self.labels());
        let (p, a, q) = (usize::from(left), usize::from(label), usize::from(right));
        let there = p < s && a < k && q < s;
        there.then(|| self.bytes[20 + k + (p * k + a) * s + q])
    }

    /// Is this state marked? No where the table has no such state.
    #[must_use]
    pub fn accepts(&self, state: u8) -> bool {
        let marks = &self.bytes[self.bytes.len() - self.states()..];
        marks.get(usize::from(state)) == Some(&1)
    }

    /// One rule table that clears exactly the plans that both clear: state p of this table and q of the other become
    /// p × S2 + q, S2 being the other's number of states.
    ///
    /// # Errors
    /// 23 where the tables have different numbers of labels, 24 where the product of their states is above 16.
    ///
    /// ```
    /// use whatif::Rules;
    /// let odd = Rules::new(&[0, 1], &[0, 1, 0, 1, 1, 0, 1, 0], &[false, true])?;
    /// let any = Rules::new(&[0, 0], &[0, 0], &[true])?;
    /// assert_eq!(odd.merge(&any)?, odd);
    /// # Ok::<(), whatif::Refusal>(())
    /// ```
    pub fn merge(&self, other: &Rules) -> Result<Rules, Refusal> {
        let mut bytes = vec![0; rules_bytes(MAX_STATES, MAX_LABELS)];
        let len = merge(&self.bytes, &other.bytes, &mut bytes)?;
        bytes.truncate(len);
        Ok(Rules { bytes })
    }

    /// A plan that one of two tables clears and the other does not; none where they judge every plan alike.
    ///
    /// # Errors
    /// 23 where the tables have different numbers of labels.
    ///
    /// ```
    /// use whatif::Rules;
    /// let (all, none) = (Rules::new(&[0], &[0], &[true])?, Rules::new(&[0], &[0], &[false])?);
    /// assert_eq!(all.differs_from(&all)?, None);
    /// let plan = all.differs_from(&none)?.expect("a leaf").to_plan().expect("it is small");
    /// assert_eq!(plan.nodes(), 1);
    /// # Ok::<(), whatif::Refusal>(())
    /// ```
    pub fn differs_from(&self, other: &Rules) -> Result<Option<SeparatingPlan>, Refusal> {
        agree(&self.bytes, &other.bytes)
    }
}

/// A plan of one leaf with label 0, which every table has.
pub(crate) const ONE_LEAF: [u8; 14] = [1, 0, 0, 0, 12, 0, 0, 0, 13, 0, 0, 0, 0, 0];

/// 6 to 9. The library has no call for a rule table alone: a fresh run over a plan of one leaf with label 0 asks 6 to 9
/// of it, and nothing else can be wrong.
fn checked(rules: &[u8]) -> Result<(), Refusal> {
    fresh_run(&ONE_LEAF, rules, &[], &[]).map(|_| ())
}

/// S and K as numbers of a byte, where they are in their limits; else 7.
pub(crate) fn counts(states: usize, labels: usize) -> Result<(u8, u8), Refusal> {
    // a header alone: where the counts are in their limits the library answers that the length is not exact
    match checked(&layout::with_header(&[states, labels, 0, 0, 0], &[])) {
        Err(Refusal::TableLayout) => Ok((states as u8, labels as u8)),
        other => other.and(Err(Refusal::TableCounts)),
    }
}

impl AsRef<[u8]> for Rules {
    fn as_ref(&self) -> &[u8] {
        self.as_bytes()
    }
}

impl fmt::Debug for Rules {
    fn fmt(&self, f: &mut fmt::Formatter<'_>) -> fmt::Result {
        let marked: Vec<u8> = (0..self.bytes[0]).filter(|&state| self.accepts(state)).collect();
        f.debug_struct("Rules")
            .field("states", &self.states())
            .field("labels", &self.labels())
            .field("marked", &marked)
            .finish_non_exhaustive()
    }
}

#[cfg(test)]
mod tests {
    use super::{layout, Rules};
    use crate::Refusal;
    use std::format;

    /// Table A of document 01's sample.
    fn table_a() -> Rules {
        let by_label = |p: u8, a: u8, q: u8| if a == 0 { p.max(q) } else { p.min(q) };
        Rules::from_fn(2, 2, |a| a, by_label, |state| state == 1).unwrap()
    }

    #[test]
    fn table_a_s_bytes() {
        let header = [2, 0, 0, 0, 2, 0, 0, 0, 20, 0, 0, 0, 22, 0, 0, 0, 30, 0, 0, 0];
        let bytes = [&header[..], &[0, 1], &[0, 1, 0, 0, 1, 1, 0, 1], &[0, 1]].concat();
        assert_eq!(table_a().as_bytes(), bytes);
        assert_eq!(table_a().as_ref(), bytes);
        assert_eq!(Rules::from_bytes(&bytes[..]), Ok(table_a()));
        assert_eq!(Rules::new(&[0, 1], &[0, 1, 0, 0, 1, 1, 0, 1], &[false, true]), Ok(table_a()));
        assert_eq!(table_a().into_bytes(), bytes);
    }

    /// Every entry, and what is beside them.
    #[test]
    fn entries() {
        let rules = Rules::from_fn(3, 5, |a| a % 3, |p, a, q| (p + 2 * a + q) % 3, |state| state != 1).unwrap();
        assert_eq!((rules.states(), rules.labels()), (3, 5));
        for a in 0..=255 {
            assert_eq!(rules.leaf(a), Some(a % 3).filter(|_| a < 5));
        }
        for (p, a, q) in [(0, 0, 0), (2, 4, 1), (1, 3, 2), (2, 4, 2)] {
            assert_eq!(rules.inner(p, a, q), Some((p + 2 * a + q) % 3));
        }
        assert_eq!([rules.inner(3, 0, 0), rules.inner(0, 5, 0), rules.inner(0, 0, 3)], [None; 3]);
        assert_eq!([0, 1, 2, 3, 255].map(|state| rules.accepts(state)), [true, false, true, false, false]);
    }

    #[test]
    fn each_refusal() {
        assert_eq!(Rules::from_bytes([0; 19]), Err(Refusal::TableShort));
        assert_eq!(Rules::new(&[], &[], &[true]), Err(Refusal::TableCounts));
        assert_eq!(Rules::new(&[0], &[], &[]), Err(Refusal::TableCounts));
        assert_eq!(Rules::new(&[0; 65], &[0; 65], &[true]), Err(Refusal::TableCounts));
        assert_eq!(Rules::new(&[0], &[0; 289], &[true; 17]), Err(Refusal::TableCounts));
        assert_eq!(Rules::new(&[0], &[0; 3], &[true; 2]), Err(Refusal::TableLayout));
        assert_eq!(Rules::new(&[2], &[0; 4], &[true; 2]), Err(Refusal::TableEntry));
        assert_eq!(Rules::from_bytes(layout::rules(1, 1, &[0], &[0], &[2])), Err(Refusal::TableEntry));
    }

    /// Leaf states and inner states exchanged do not pass, whatever the counts.
    #[test]
    fn exchanged_lists() {
        for (s, k) in [(2, 2), (2, 1), (3, 5), (16, 64)] {
            let (leaf, inner, marks) = (&[0; 64][..k], &[0; 16 * 64 * 16][..s * k * s], &[true; 16][..s]);
            assert!(Rules::new(leaf, inner, marks).is_ok());
            assert!(Rules::new(inner, leaf, marks).is_err());
        }
    }

    #[test]
    fn functions_are_not_called_for_wrong_counts() {
        for (states, labels) in [(0, 1), (1, 0), (17, 1), (1, 65), (usize::MAX, 1), (1, 1 << 32), ((1 << 32) + 2, 2)] {
            let refused = Rules::from_fn(
                states,
                labels,
                |_| panic!("a leaf"),
                |_, _, _| panic!("an inner node"),
                |_| panic!("a mark"),
            );
            assert_eq!(refused, Err(Refusal::TableCounts), "{} {}", states, labels);
        }
        assert!(Rules::from_fn(16, 64, |_| 15, |_, _, _| 15, |_| true).is_ok());
    }

    #[test]
    fn merged() {
        let all = Rules::from_fn(8, 2, |_| 7, |_, _, _| 7, |_| true).unwrap();
        let merged = all.merge(&table_a()).unwrap();
        assert_eq!(
            (merged.states(), merged.leaf(1), merged.accepts(15), merged.accepts(14)),
            (16, Some(15), true, false)
        );
        assert_eq!(Rules::from_bytes(merged.as_bytes()), Ok(merged));
        let nine = Rules::from_fn(9, 2, |_| 0, |_, _, _| 0, |_| true).unwrap();
        assert_eq!(nine.merge(&table_a()), Err(Refusal::StateProduct));
        let other = Rules::from_fn(1, 3, |_| 0, |_, _, _| 0, |_| true).unwrap();
        assert_eq!(other.merge(&table_a()), Err(Refusal::LabelCounts));
        assert_eq!(other.differs_from(&table_a()), Err(Refusal::LabelCounts));
    }

    #[test]
    fn shown() {
        assert_eq!(format!("{:?}", table_a()), "Rules { states: 2, labels: 2, marked: [1], .. }");
    }
}
