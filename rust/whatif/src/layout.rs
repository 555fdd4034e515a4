//! Plans, tables and planner's files as bytes, as docs/LAYOUT.md has them: for whoever writes files, or bytes that are
//! to be refused. Nothing is checked here; [`Plan`](crate::Plan), [`Rules`](crate::Rules),
//! [`BranchTable`](crate::BranchTable) and [`Planned`](crate::Planned) have the library check them.

use alloc::vec::Vec;

/// Little-endian 32-bit numbers, then the parts one after the other. A number that 32 bits can't hold becomes the
/// greatest that they can: it is above every limit.
#[must_use]
pub fn with_header(numbers: &[usize], parts: &[&[u8]]) -> Vec<u8> {
    let number = |&n: &usize| u32::try_from(n).unwrap_or(u32::MAX).to_le_bytes();
    numbers.iter().flat_map(number).chain(parts.concat()).collect()
}

/// The 32-bit number at a place of a header; none where the bytes end before.
///
/// ```
/// let plan = whatif::layout::plan(&[5], &[0]);
/// assert_eq!((whatif::layout::number(&plan, 0), whatif::layout::number(&plan, 11)), (Some(1), None));
/// ```
#[must_use]
pub fn number(bytes: &[u8], at: usize) -> Option<u32> {
    let four = bytes.get(at..at.checked_add(4)?)?;
    four.try_into().ok().map(u32::from_le_bytes)
}

/// A plan: a label and a kind, 0 leaf or 1 inner, for each node in post-order.
#[must_use]
pub fn plan(labels: &[u8], kinds: &[u8]) -> Vec<u8> {
    let n = labels.len();
    with_header(&[n, 12, 12 + n], &[labels, kinds])
}

/// A rule table of `s` states and `k` labels.
#[must_use]
pub fn rules(s: usize, k: usize, leaf: &[u8], inner: &[u8], marks: &[u8]) -> Vec<u8> {
    let after_inner = s.saturating_mul(k).saturating_mul(s).saturating_add(20 + k);
    with_header(&[s, k, 20, 20 + k, after_inner], &[leaf, inner, marks])
}

/// A branch table of `s` states and `k` labels.
#[must_use]
pub fn branch_table(s: usize, k: usize, steps: &[u8], marks: &[u8]) -> Vec<u8> {
    with_header(&[s, k, 16, s.saturating_mul(k).saturating_add(16)], &[steps, marks])
}

/// A planner's file: a label and a count of children for each node, top first. Its header is that of a plan.
#[must_use]
pub fn planner_file(labels: &[u8], children: &[u8]) -> Vec<u8> {
    plan(labels, children)
}
