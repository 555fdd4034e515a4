//! Why a call of the session is refused with 1, as a sentence, and whether a record is damaged.

use crate::{slices, Refusal, Session, State};

/// A call of the session, for [`Session::why_not`].
#[derive(Clone, Copy, Debug, PartialEq, Eq, Hash)]
pub enum Call {
    /// [`Session::load`].
    Load,
    /// [`Session::start`].
    Start,
    /// [`Session::advance`].
    Advance,
    /// [`Session::cancel`].
    Cancel,
    /// [`Session::current`].
    Current,
    /// [`Session::read`].
    Read,
}

const DAMAGED: &str = "The record is damaged: put a loaded one in its place, or a fresh one and call Load.";

impl Session {
    /// Why this call would be refused with [`Refusal::SessionState`], and what to do; none where it would not be.
    ///
    /// ```
    /// use whatif::{Call, Session};
    /// let session = Session::new();
    /// assert_eq!(session.why_not(Call::Load), None);
    /// assert_eq!(session.why_not(Call::Start), Some("No plan is loaded: call Load first."));
    /// ```
    #[must_use]
    pub fn why_not(&self, call: Call) -> Option<&'static str> {
        match self.state() {
            Some(state) if !self.is_damaged() => match call {
                Call::Read if self.read().is_ok() => None,
                _ => refused_in(state, call),
            },
            _ => Some(DAMAGED),
        }
    }

    /// Does the record break its layout, so that every call is refused with 1? The library decides, on a copy: a
    /// running session can be cancelled, and any other takes a Load as far as its plan, here none.
    ///
    /// A bit that was flipped may also leave a record that keeps its layout: [`confirm`](Session::confirm) a yes.
    #[must_use]
    pub fn is_damaged(&self) -> bool {
        let mut copy = *self.as_bytes();
        match self.state() {
            Some(State::Running) => slices::cancel(&mut copy) != 0,
            _ => slices::load(&mut copy, &[], &[], &mut [], &mut []) != Refusal::PlanShort.number(),
        }
    }
}

/// What a call meets in a state that is not for it; of a Read where no answer is kept. The sentences are those of
/// whatif_why_state in include/whatif.h, which the gate compares.
fn refused_in(state: State, call: Call) -> Option<&'static str> {
    use State::{Answered, Empty, Loaded, Running};
    match (call, state) {
        (Call::Load, Running) => Some("A question is running: Load waits until it is finished or cancelled."),
        (Call::Start, Empty) => Some("No plan is loaded: call Load first."),
        (Call::Start, Running) => Some("A question is running already: finish it or cancel it before the next Start."),
        (Call::Advance, Empty) => Some("No plan is loaded: call Load, then Start."),
        (Call::Advance, Loaded) => Some("No question is running: call Start first."),
        (Call::Advance, Answered) => Some("The question is finished: read its answer."),
        (Call::Cancel, Empty) => Some("Nothing to cancel: no plan is loaded."),
        (Call::Cancel, Loaded) => Some("Nothing to cancel: no question is running."),
        (Call::Cancel, Answered) => Some("Nothing to cancel: the question is finished."),
        (Call::Read, Empty) => Some("No plan is loaded: there is no answer."),
        (Call::Read, Loaded) => Some("No question was finished since the last Load: there is no answer."),
        (Call::Read, Running) => Some("No question was finished since the last Load: this one is still running."),
        (Call::Current, Empty) => Some("No plan is loaded: there is no answer."),
        (Call::Current, Loaded) => Some("No question is asked now: an earlier answer is not this one's."),
        (Call::Current, Running) => Some("The question is still running: an earlier answer is not this one's."),
        (Call::Load, Empty | Loaded | Answered)
        | (Call::Start, Loaded | Answered)
        | (Call::Advance | Call::Cancel, Running)
        | (Call::Current | Call::Read, Answered) => None,
    }
}
