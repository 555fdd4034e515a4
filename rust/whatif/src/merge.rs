//! Two rule tables merged into one.

use crate::{accepted, sizes, slices, Refusal};

/// Writes one rule table that clears exactly the plans that both clear, and returns how many bytes of `merged` it has;
/// the rest stays. State p of the first table and q of the second become p × S2 + q.
/// [`Rules::merge`](crate::Rules::merge) has a table of its own.
///
/// # Errors
/// The first of 6 to 9 for the first table, 6 to 9 for the second, 23, 24, 11; `merged` is unchanged then.
///
/// ```
/// # use whatif::{sizes::rules_bytes, Refusal, Rules};
/// let first = Rules::new(&[0, 1], &[0; 8], &[false, true])?;
/// let second = Rules::new(&[1, 1], &[1; 8], &[true, false])?;
/// let mut merged = [7; rules_bytes(4, 2) + 1];
/// let len = whatif::merge(first.as_bytes(), second.as_bytes(), &mut merged)?;
/// assert_eq!((len, merged[len]), (rules_bytes(4, 2), 7));
/// assert_eq!(whatif::merge(first.as_bytes(), second.as_bytes(), &mut []), Err(Refusal::BufferShort));
/// # Ok::<(), Refusal>(())
/// ```
pub fn merge(first: &[u8], second: &[u8], merged: &mut [u8]) -> Result<usize, Refusal> {
    accepted(slices::merge(first, second, merged))?;
    // the counts that its header names now
    Ok(sizes::rules_bytes(usize::from(merged[0]), usize::from(merged[4])))
}
