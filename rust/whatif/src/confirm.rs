//! A yes confirmed before something is cut: by a fresh run, which reads the plan and the rules and nothing else.

use crate::sizes::plan_bytes;
use crate::{fresh_run, record, Lent, Refusal, Session, Verdict};
use core::fmt;

/// Why a yes is not confirmed. Nothing is to be cut then.
#[derive(Clone, Copy, Debug, PartialEq, Eq, Hash)]
#[non_exhaustive]
pub enum Unconfirmed {
    /// There is no answer of a present question (1), or the fresh run was refused (2 to 14).
    Refused(Refusal),
    /// The plan or the rules name other counts than the session's: they are not those that were asked about.
    OtherCounts,
    /// The list is not the one that was asked: the answer is another question's.
    OtherList,
    /// The fresh run ends otherwise: the plan, the rules, a table or the record was altered since the question was
    /// asked.
    Differs {
        /// The answer that was to be confirmed.
        answer: Verdict,
        /// The fresh run's.
        fresh: Verdict,
    },
    /// Both say no: the plan with these changes is not cleared.
    NotCleared(Verdict),
}

impl Unconfirmed {
    /// One sentence.
    #[must_use]
    pub const fn sentence(&self) -> &'static str {
        match self {
            Unconfirmed::Refused(refusal) => refusal.sentence(),
            Unconfirmed::OtherCounts => "The plan or the rules name other counts than the session.",
            Unconfirmed::OtherList => "This is not the list that the session answered, entry by entry.",
            Unconfirmed::Differs { .. } => {
                "A fresh run ends otherwise: the plan, the rules, a table or the record was altered."
            }
            Unconfirmed::NotCleared(_) => "Not cleared: the answer and a fresh run both say no to this list.",
        }
    }
}

impl From<Refusal> for Unconfirmed {
    fn from(refusal: Refusal) -> Unconfirmed {
        Unconfirmed::Refused(refusal)
    }
}

impl fmt::Display for Unconfirmed {
    fn fmt(&self, f: &mut fmt::Formatter<'_>) -> fmt::Result {
        match self {
            Unconfirmed::Refused(refusal) => write!(f, "not confirmed, {}", refusal),
            other => write!(f, "not confirmed: {}", other.sentence()),
        }
    }
}

#[cfg(feature = "std")]
impl std::error::Error for Unconfirmed {}

/// A yes that a fresh run says too.
pub(crate) fn confirmed(answer: Verdict, fresh: Verdict) -> Result<(), Unconfirmed> {
    if fresh != answer {
        return Err(Unconfirmed::Differs { answer, fresh });
    }
    if fresh.yes {
        Ok(())
    } else {
        Err(Unconfirmed::NotCleared(fresh))
    }
}

/// N, S and K of a plan and rules that a fresh run took.
fn counts(lent: &Lent<'_>) -> [usize; 3] {
    [(lent.plan.len() - plan_bytes(0)) / 2, lent.rules[0].into(), lent.rules[4].into()]
}

impl Session {
    /// Confirms a yes before a blank is cut: pass in the plan, the rules and the list that will be cut. It is confirmed
    /// only where the question is answered, this was its list, and a fresh run of the plan with the list says the same
    /// yes. After that the blank depends on no table and no record.
    ///
    /// The lists are compared entry by entry, in order. The tables of `lent` are not read.
    /// [`Panel::confirm`](crate::Panel::confirm) takes the list as pairs.
    ///
    /// # Errors
    /// [`Unconfirmed`] says what is wrong; a no is not confirmed either.
    pub fn confirm(&self, lent: &Lent<'_>, nodes: &[u16], labels: &[u8]) -> Result<(), Unconfirmed> {
        let answer = self.current()?;
        let fresh = fresh_run(lent.plan, lent.rules, nodes, labels)?;
        if counts(lent) != record::counts(self.as_bytes()) {
            return Err(Unconfirmed::OtherCounts);
        }
        if !self.changes().eq(nodes.iter().copied().zip(labels.iter().copied())) {
            return Err(Unconfirmed::OtherList);
        }
        confirmed(Verdict { state: answer.state, yes: answer.yes }, fresh)
    }
}
