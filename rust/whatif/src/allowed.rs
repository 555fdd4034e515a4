//! Which labels may each node take, and with which states of its subtree is the plan cleared?

use crate::{accepted, slices, Refusal};
use core::fmt;
use core::iter::FusedIterator;

/// A set of small numbers as the library writes it: bit `i` is 1 where `i` is in the set.
macro_rules! bit_set {
    ($(#[$doc:meta])* $name:ident, $bits:ty) => {
        $(#[$doc])*
        #[derive(Clone, Copy, Default, PartialEq, Eq, Hash)]
        #[must_use]
        pub struct $name($bits);

        impl $name {
            /// The set with these bits.
            pub const fn from_bits(bits: $bits) -> $name {
                $name(bits)
            }

            /// The bits.
            #[must_use]
            pub const fn bits(self) -> $bits {
                self.0
            }

            /// Is this number in the set?
            #[must_use]
            pub fn contains(self, number: u8) -> bool {
                self.0.checked_shr(u32::from(number)).map_or(false, |rest| rest & 1 == 1)
            }

            /// How many numbers are in the set?
            #[must_use]
            pub const fn len(self) -> usize {
                self.0.count_ones() as usize
            }

            /// Is no number in the set?
            #[must_use]
            pub const fn is_empty(self) -> bool {
                self.0 == 0
            }

            /// The numbers in the set, rising.
            pub fn iter(self) -> Members {
                Members(self.0.into())
            }
        }

        impl IntoIterator for $name {
            type Item = u8;
            type IntoIter = Members;
            fn into_iter(self) -> Members {
                self.iter()
            }
        }

        /// Numbers that the set can't have are left out.
        impl FromIterator<u8> for $name {
            fn from_iter<I: IntoIterator<Item = u8>>(numbers: I) -> $name {
                let bit = |number: u8| <$bits>::from(1u8).checked_shl(number.into()).unwrap_or(0);
                $name(numbers.into_iter().fold(0, |bits, number| bits | bit(number)))
            }
        }

        impl fmt::Debug for $name {
            fn fmt(&self, f: &mut fmt::Formatter<'_>) -> fmt::Result {
                f.debug_set().entries(*self).finish()
            }
        }
    };
}

bit_set!(
    /// A set of labels, 0 to 63.
    LabelSet,
    u64
);
bit_set!(
    /// A set of states, 0 to 15.
    StateSet,
    u16
);

/// The members of a set, rising.
#[derive(Clone, Debug)]
pub struct Members(u64);

impl Iterator for Members {
    type Item = u8;
    fn next(&mut self) -> Option<u8> {
        let number = self.0.trailing_zeros() as u8;
        self.0 &= self.0.checked_sub(1)?;
        Some(number)
    }
    fn size_hint(&self) -> (usize, Option<usize>) {
        let left = self.0.count_ones() as usize;
        (left, Some(left))
    }
}

impl ExactSizeIterator for Members {}
impl FusedIterator for Members {}

/// Which labels may each node take, all other nodes as they are, so that the plan is cleared? Writes the first N numbers
/// of `masks`: bit `a` of `masks[v]` is 1 where the plan with node `v` alone relabelled to `a` is cleared. The rest of a
/// longer buffer stays. [`Panel::allowed`](crate::Panel::allowed) returns sets.
///
/// # Errors
/// The first of 2 to 10, then 11 where `masks` is shorter than N; it is unchanged then.
///
/// ```
/// # use whatif::{Kind::{Inner, Leaf}, Plan, Rules};
/// let plan = Plan::new(&[1, 0, 0], &[Leaf, Leaf, Inner])?; // the root takes the lesser state: 0, which is not cleared
/// let rules = Rules::from_fn(2, 2, |a| a, |p, _, q| p.min(q), |state| state == 1)?;
/// let mut masks = [0; 3];
/// whatif::allowed(plan.as_bytes(), rules.as_bytes(), &mut masks)?;
/// assert_eq!(masks, [0b00, 0b10, 0b00]); // only node 1 may be mended, by label 1
/// # Ok::<(), whatif::Refusal>(())
/// ```
pub fn allowed(plan: &[u8], rules: &[u8], masks: &mut [u64]) -> Result<(), Refusal> {
    accepted(slices::allowed(plan, rules, masks))
}

/// With which states of each node's subtree is the plan cleared, all else as it is? Writes the first N numbers of `sets`:
/// bit `q` of `sets[v]` is 1 where the plan would be cleared if the subtree at node `v` had state `q`. The rest of a
/// longer buffer stays. [`Panel::clearing`](crate::Panel::clearing) returns sets.
///
/// # Errors
/// The first of 2 to 10, then 11 where `sets` is shorter than N; it is unchanged then.
pub fn clearing(plan: &[u8], rules: &[u8], sets: &mut [u16]) -> Result<(), Refusal> {
    accepted(slices::clearing(plan, rules, sets))
}

#[cfg(test)]
mod tests {
    use super::{LabelSet, StateSet};
    use std::format;
    use std::vec::Vec;

    #[test]
    fn a_set_has_its_bits_as_members() {
        let ends = LabelSet::from_bits(1 << 63 | 1);
        assert_eq!((ends.iter().collect::<Vec<_>>(), ends.len(), ends.is_empty()), (Vec::from([0, 63]), 2, false));
        assert!(ends.contains(63) && ends.contains(0) && !ends.contains(1) && !ends.contains(64));
        let none = StateSet::default();
        assert!(none.is_empty() && none.iter().next().is_none() && !none.contains(16));
        assert_eq!(format!("{:?}", StateSet::from_bits(0b1010)), "{1, 3}");
        assert_eq!(StateSet::from_bits(u16::MAX).iter().len(), 16);
        assert_eq!(Vec::from([63, 0, 0, 64, 255]).into_iter().collect::<LabelSet>(), ends);
        assert_eq!(Vec::from([15, 16]).into_iter().collect::<StateSet>(), StateSet::from_bits(1 << 15));
    }
}
