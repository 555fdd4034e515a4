//! The advances of a question as an iterator.

use crate::{Lent, Progress, Refusal, Session};
use core::iter::FusedIterator;

/// A part of a question that an advance handled.
#[derive(Clone, Copy, Debug, PartialEq, Eq, Hash)]
pub struct Part {
    /// Which part it is, from 1 on.
    pub number: u32,
    /// How many parts the question has.
    pub of: u32,
    /// The part's root node.
    pub root: u16,
    /// The state there, with the changes made.
    pub state: u8,
}

/// The advances of a question: each asked for handles one part. It ends after the last part, and after a refusal; where
/// no question is running the first one is refused with 1. What is not asked for stays to be done.
#[derive(Debug)]
#[must_use = "no part is handled before the iterator is asked for it"]
pub struct Advances<'a> {
    session: &'a mut Session,
    lent: Lent<'a>,
    ended: bool,
}

impl<'a> Advances<'a> {
    pub(crate) fn new(session: &'a mut Session, lent: Lent<'a>) -> Advances<'a> {
        Advances { session, lent, ended: false }
    }

    fn left(&self) -> usize {
        self.session.parts().saturating_sub(self.session.parts_done()) as usize
    }
}

impl Iterator for Advances<'_> {
    type Item = Result<Part, Refusal>;

    fn next(&mut self) -> Option<Result<Part, Refusal>> {
        if self.ended {
            return None;
        }
        let advanced = self.session.advance(&self.lent);
        self.ended = advanced != Ok(Progress::More);
        let newest = self.session.parts_done().saturating_sub(1) as usize;
        Some(advanced.map(|_| self.session.part(newest)))
    }

    /// At least one, and at most one for each part that is left.
    fn size_hint(&self) -> (usize, Option<usize>) {
        if self.ended {
            (0, Some(0))
        } else {
            (1, Some(self.left().max(1)))
        }
    }
}

impl FusedIterator for Advances<'_> {}
