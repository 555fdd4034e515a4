//! The panel session: Load a plan, Start a question, advance part by part, read the answer.

use crate::sizes::RECORD_BYTES;
use crate::{accepted, record, slices, Advances, Change, Part, Refusal};
use core::fmt;

/// A panel session: its record of 983 bytes, and nothing else. Plan, rule table and tables are passed in with each
/// call, as [`Lent`]; [`Panel`](crate::Panel) owns all of them and is the shorter way.
///
/// The states are empty, loaded, running and answered. `load` may be called unless running, `start` in loaded or
/// answered, `advance` and `cancel` in running, `current` in answered, `read` once a question was finished since the
/// last accepted `load`; else the call is refused with [`Refusal::SessionState`], and [`why_not`](Session::why_not)
/// says why.
///
/// ```
/// use whatif::{sizes, Kind::{Inner, Leaf}, Lent, Plan, Refusal, Rules, Session};
/// let plan = Plan::new(&[1, 1, 0], &[Leaf, Leaf, Inner])?;
/// let rules = Rules::from_fn(2, 2, |a| a, |p, _, q| p.min(q), |state| state == 1)?;
/// let (mut node_table, mut state_table) = ([0; sizes::node_table_len(3)], [0; sizes::state_table_len(3, 2)]);
/// let mut session = Session::new();
/// session.load(plan.as_bytes(), rules.as_bytes(), &mut node_table, &mut state_table)?;
///
/// // what if node 0 took label 0?
/// let (plan, rules) = (plan.as_bytes(), rules.as_bytes());
/// let lent = Lent { plan, rules, node_table: &node_table, state_table: &state_table };
/// session.start(&lent, &[0], &[0])?;
/// assert_eq!(session.current(), Err(Refusal::SessionState)); // not yet
/// for part in session.advances(&lent) {
///     println!("{:?}", part?);
/// }
/// assert!(!session.current()?.yes);
/// # Ok::<(), Refusal>(())
/// ```
#[derive(Clone, PartialEq, Eq)]
pub struct Session {
    record: record::Record,
}

/// What is passed in with each [`start`](Session::start) and [`advance`](Session::advance), by name: a plan and rules
/// are both bytes, and easily exchanged.
#[derive(Clone, Copy, PartialEq, Eq)]
pub struct Lent<'a> {
    /// The plan.
    pub plan: &'a [u8],
    /// The rule table.
    pub rules: &'a [u8],
    /// The node table that `load` wrote.
    pub node_table: &'a [u16],
    /// The state table that `load` wrote.
    pub state_table: &'a [u8],
}

/// The state of a session.
#[derive(Clone, Copy, Debug, PartialEq, Eq, Hash)]
pub enum State {
    /// No plan is loaded.
    Empty,
    /// A plan is loaded, and no question is asked.
    Loaded,
    /// A question has parts left.
    Running,
    /// A question is answered.
    Answered,
}

/// What an advance answers.
#[derive(Clone, Copy, Debug, PartialEq, Eq, Hash)]
pub enum Progress {
    /// Parts are left.
    More,
    /// That was the last part: the question is answered.
    Finished,
}

/// The answer of a question.
#[derive(Clone, Copy, Debug, PartialEq, Eq, Hash)]
#[must_use]
pub struct Answer {
    /// The root's state.
    pub state: u8,
    /// Is that state marked: is the plan cleared?
    pub yes: bool,
    /// The parts of the question.
    pub parts: u32,
    /// The moves of its climbs.
    pub links: u32,
    /// The nodes that its climbs passed over: of each, the depth of its start less the depth of its end.
    pub passed: u32,
}

impl Answer {
    pub(crate) fn of([state, yes, parts, links, passed]: [u32; 5]) -> Answer {
        Answer { state: state as u8, yes: yes == 1, parts, links, passed }
    }
}

impl Session {
    /// A fresh session, in state empty.
    #[must_use]
    pub const fn new() -> Session {
        Session { record: [0; RECORD_BYTES] }
    }

    /// The session of a record that was kept. Bytes that break the layout of docs/LAYOUT.md are refused with
    /// [`Refusal::SessionState`] by every call; [`is_damaged`](Session::is_damaged) finds them.
    ///
    /// ```
    /// let mut broken = whatif::Session::from_bytes([9; 983]);
    /// assert!(broken.is_damaged());
    /// assert_eq!(broken.cancel(), Err(whatif::Refusal::SessionState));
    /// ```
    #[must_use]
    pub const fn from_bytes(record: [u8; RECORD_BYTES]) -> Session {
        Session { record }
    }

    /// The record's bytes.
    #[must_use]
    pub const fn as_bytes(&self) -> &[u8; RECORD_BYTES] {
        &self.record
    }

    /// Writes the tables as [`build`](crate::build) does. The session is loaded then, as after a first Load, and has no
    /// answer.
    ///
    /// # Errors
    /// The first of 1, 2 to 11; the session and both buffers are unchanged then.
    pub fn load(
        &mut self,
        plan: &[u8],
        rules: &[u8],
        node_table: &mut [u16],
        state_table: &mut [u8],
    ) -> Result<(), Refusal> {
        accepted(slices::load(&mut self.record, plan, rules, node_table, state_table))
    }

    /// Asks a question: node `nodes[i]` takes `labels[i]`. Returns the number of its parts; the session is running
    /// then, and keeps an earlier question's answer.
    ///
    /// Of two entries for a node the last holds; a node that ends with the label it has in the plan is no change.
    ///
    /// # Errors
    /// The first of 1, 17, 12, 13, 14, 18; 18 exactly where plan and rules do not pass 2 to 10 or name other counts
    /// than those loaded, or the tables are not what `load` writes from them.
    pub fn start(&mut self, lent: &Lent<'_>, nodes: &[u16], labels: &[u8]) -> Result<u32, Refusal> {
        let Lent { plan, rules, node_table, state_table } = *lent;
        let mut parts = 0;
        accepted(slices::start(&mut self.record, plan, rules, node_table, state_table, nodes, labels, &mut parts))?;
        Ok(parts)
    }

    /// Handles the next part. The session is answered after the last one, with this answer in the place of an earlier
    /// one.
    ///
    /// # Errors
    /// The first of 1, 17, 18; the question goes on where it was with the right tables.
    pub fn advance(&mut self, lent: &Lent<'_>) -> Result<Progress, Refusal> {
        let Lent { plan, rules, node_table, state_table } = *lent;
        let mut finished = 0;
        accepted(slices::advance(&mut self.record, plan, rules, node_table, state_table, &mut finished))?;
        Ok(if finished == 1 { Progress::Finished } else { Progress::More })
    }

    /// The advances that are left, as an iterator: each handles one part and returns it.
    pub fn advances<'a>(&'a mut self, lent: &Lent<'a>) -> Advances<'a> {
        Advances::new(self, *lent)
    }

    /// Drops the question. The session is loaded then, as after a first Load, but for an earlier question's answer,
    /// which stays.
    ///
    /// # Errors
    /// 1 unless a question is running.
    pub fn cancel(&mut self) -> Result<(), Refusal> {
        accepted(slices::cancel(&mut self.record))
    }

    /// The answer of the question that was asked last: what a panel shows.
    ///
    /// # Errors
    /// 1 unless the session is answered. So an earlier question's answer, which [`read`](Session::read) returns in
    /// every state, is not taken for this one's. A refused `start` is no question: the session stays answered with the
    /// earlier one.
    pub fn current(&self) -> Result<Answer, Refusal> {
        match self.state() {
            Some(State::Answered) => self.read(),
            _ => Err(Refusal::SessionState),
        }
    }

    /// The last finished answer, in every state. It may be an earlier question's: after a `start`, after a `cancel`. To
    /// show what the present question came to use [`current`](Session::current).
    ///
    /// # Errors
    /// 1 where no question was finished since the last accepted `load`.
    pub fn read(&self) -> Result<Answer, Refusal> {
        let mut out = [0; 5];
        accepted(slices::read(&self.record, &mut out))?;
        Ok(Answer::of(out))
    }
}

/// What the record's bytes say: nothing else is tested. A record without a state has no parts and no changes.
impl Session {
    /// The state; none where the record's first byte is not one of a state.
    ///
    /// ```
    /// use whatif::{Session, State};
    /// assert_eq!(Session::new().state(), Some(State::Empty));
    /// assert_eq!(Session::from_bytes([9; 983]).state(), None);
    /// ```
    #[must_use]
    pub const fn state(&self) -> Option<State> {
        match record::state(&self.record) {
            0 => Some(State::Empty),
            1 => Some(State::Loaded),
            2 => Some(State::Running),
            3 => Some(State::Answered),
            _ => None,
        }
    }

    /// The parts of a question that is running or answered, else 0.
    #[must_use]
    pub const fn parts(&self) -> u32 {
        self.counted(record::parts(&self.record)) as u32
    }

    /// How many of them are handled.
    #[must_use]
    pub const fn parts_done(&self) -> u32 {
        self.counted(record::parts_done(&self.record)) as u32
    }

    const fn counted(&self, count: usize) -> usize {
        match self.state() {
            None => 0,
            Some(_) => count,
        }
    }

    /// The changes of a question that is running or answered, as they were listed.
    #[must_use]
    pub fn changes(&self) -> impl ExactSizeIterator<Item = Change> + '_ {
        let count = self.counted(record::changes(&self.record));
        (0..count).map(move |i| (record::node(&self.record, i), record::label(&self.record, i)))
    }

    /// The root nodes of its parts, rising: a part is handled with each advance, in this order.
    ///
    /// ```
    /// # use whatif::{Kind::{Inner, Leaf}, Panel, Plan, Rules};
    /// # let plan = Plan::new(&[1, 1, 0], &[Leaf, Leaf, Inner])?;
    /// # let rules = Rules::from_fn(2, 2, |a| a, |p, _, q| p.min(q), |state| state == 1)?;
    /// let mut panel = Panel::new(plan, rules)?;
    /// panel.start(&[(0, 0)])?;
    /// assert!(panel.session().roots().eq([0, 2]));
    /// # Ok::<(), whatif::Refusal>(())
    /// ```
    #[must_use]
    pub fn roots(&self) -> impl ExactSizeIterator<Item = u16> + '_ {
        (0..self.parts() as usize).map(move |i| record::root(&self.record, i))
    }

    /// The parts that are handled, in order.
    #[must_use]
    pub fn handled(&self) -> impl ExactSizeIterator<Item = Part> + '_ {
        (0..self.parts_done() as usize).map(move |i| self.part(i))
    }

    /// A part by its place in the list of roots.
    pub(crate) fn part(&self, i: usize) -> Part {
        let (root, state) = (record::root(&self.record, i), record::part_state(&self.record, i));
        Part { number: i as u32 + 1, of: self.parts(), root, state }
    }
}

impl Default for Session {
    fn default() -> Session {
        Session::new()
    }
}

/// What the record says, in place of its bytes.
impl fmt::Debug for Session {
    fn fmt(&self, f: &mut fmt::Formatter<'_>) -> fmt::Result {
        if self.is_damaged() {
            return f.debug_struct("Session").field("damaged", &true).finish_non_exhaustive();
        }
        let mut shown = f.debug_struct("Session");
        if let Some(state) = self.state() {
            shown.field("state", &state);
        }
        if self.parts() > 0 {
            shown.field("changes", &Listed(self));
            shown.field("parts_done", &self.parts_done()).field("parts", &self.parts());
        }
        shown.field("last", &self.read().ok()).finish()
    }
}

struct Listed<'a>(&'a Session);

impl fmt::Debug for Listed<'_> {
    fn fmt(&self, f: &mut fmt::Formatter<'_>) -> fmt::Result {
        f.debug_list().entries(self.0.changes()).finish()
    }
}

/// The lengths, in place of what is in the buffers.
impl fmt::Debug for Lent<'_> {
    fn fmt(&self, f: &mut fmt::Formatter<'_>) -> fmt::Result {
        f.debug_struct("Lent")
            .field("plan", &format_args!("{} bytes", self.plan.len()))
            .field("rules", &format_args!("{} bytes", self.rules.len()))
            .field("node_table", &format_args!("{} numbers", self.node_table.len()))
            .field("state_table", &format_args!("{} bytes", self.state_table.len()))
            .finish()
    }
}
