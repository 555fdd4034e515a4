//! Eight screens on one mill: one plan loaded, up to eight questions running, served in turn.

use crate::sizes::{RECORD_BYTES, SCREENS, SCREENS_BYTES};
use crate::{accepted, slices, Answer, Call, Lent, Progress, Refusal, Session, State, Unconfirmed};
use core::fmt;

/// Eight screens, numbered 0 to 7: the run of their records, and the screen that the next deal tries first, which is
/// handed on by itself. Plan, rule table and tables are passed in with each call; [`Mill`](crate::Mill) owns all of
/// them and is the shorter way.
///
/// `load` is for all eight, and refused while one of them runs. `start`, `cancel`, `current` and `read` name a screen
/// and do with it what [`Session`]'s calls do. `deal` makes one advance for the next running screen after the one
/// served last, going from 7 back to 0: a screen that stays running is served within eight accepted deals, and no other
/// twice between two of its turns in one question. What a screen answers does not depend on the other seven. A screen
/// above 7 is refused with [`Refusal::Screen`], before anything else.
///
/// # If a record is damaged
/// One flipped bit in one record can stop all eight: at that screen's turn every deal is refused with 1, and so is a
/// Load. Where the record still keeps its layout the turn may be refused with 17 or 18. So a deal's 1 means that
/// nothing runs only where [`next`](Screens::next) is none; else the damaged record is that screen's.
/// [`damaged`](Screens::damaged) finds records that break their layout. [`replace`](Screens::replace) puts a loaded one
/// in the place of a damaged one: the others go on, and a new question can be started there. Keep a loaded record aside
/// for that: `screens.session(0)` after a Load.
///
/// ```
/// # use whatif::{sizes, Kind::{Inner, Leaf}, Lent, Plan, Refusal, Rules, Screens};
/// # let plan = Plan::new(&[1, 1, 0], &[Leaf, Leaf, Inner])?.into_bytes();
/// # let rules = Rules::from_fn(2, 2, |a| a, |p, _, q| p.min(q), |state| state == 1)?.into_bytes();
/// # let (mut node_table, mut state_table) = ([0; sizes::node_table_len(3)], [0; sizes::state_table_len(3, 2)]);
/// let mut screens = Screens::new();
/// screens.load(&plan, &rules, &mut node_table, &mut state_table)?;
/// let lent = Lent { plan: &plan, rules: &rules, node_table: &node_table, state_table: &state_table };
///
/// // a question of two parts on screen 2, one of one part on screen 5: they are served in turn
/// assert_eq!((screens.start(2, &lent, &[0], &[0])?, screens.start(5, &lent, &[], &[])?), (2, 1));
/// assert_eq!([screens.deal(&lent)?.screen, screens.deal(&lent)?.screen, screens.deal(&lent)?.screen], [2, 5, 2]);
/// assert!(!screens.current(2)?.yes && screens.current(5)?.yes);
/// assert_eq!((screens.deal(&lent), screens.read(8)), (Err(Refusal::SessionState), Err(Refusal::Screen)));
/// # Ok::<(), Refusal>(())
/// ```
#[derive(Clone, PartialEq, Eq)]
pub struct Screens {
    records: [u8; SCREENS_BYTES],
    first: u32,
}

/// What a deal answers.
#[derive(Clone, Copy, Debug, PartialEq, Eq, Hash)]
pub struct Deal {
    /// The screen that was served.
    pub screen: u32,
    /// What its advance answers.
    pub progress: Progress,
}

/// The numbers of the screens.
pub(crate) const ALL: core::ops::Range<u32> = 0..SCREENS as u32;

impl Screens {
    /// Eight fresh sessions.
    #[must_use]
    pub const fn new() -> Screens {
        Screens { records: [0; SCREENS_BYTES], first: 0 }
    }

    /// The screens of a run that was kept, with the screen to try first. A number above 7 is refused with
    /// [`Refusal::Screen`] by every deal. Bytes that break the layout of docs/LAYOUT.md are refused with
    /// [`Refusal::SessionState`] by every call on their screen, and by `load`.
    ///
    /// ```
    /// use whatif::{sizes::SCREENS_BYTES, Refusal, Screens};
    /// let mut broken = Screens::from_bytes([9; SCREENS_BYTES], 0);
    /// assert_eq!(broken.cancel(3), Err(Refusal::SessionState));
    /// assert!(broken.damaged().eq(0..8));
    /// ```
    #[must_use]
    pub const fn from_bytes(records: [u8; SCREENS_BYTES], first: u32) -> Screens {
        Screens { records, first }
    }

    /// The run's bytes: eight records, one after the other.
    #[must_use]
    pub const fn as_bytes(&self) -> &[u8; SCREENS_BYTES] {
        &self.records
    }

    /// The screen that the next deal tries first: 0 after a `load`, else the one after the screen served last, 0 after
    /// 7.
    #[must_use]
    pub const fn first(&self) -> u32 {
        self.first
    }

    /// Writes the tables as [`build`](crate::build) does. All eight sessions are loaded then, as after a first Load,
    /// and have no answer.
    ///
    /// # Errors
    /// 1 where a screen is running or a record is damaged, then 2 to 11; nothing is changed then.
    pub fn load(
        &mut self,
        plan: &[u8],
        rules: &[u8],
        node_table: &mut [u16],
        state_table: &mut [u8],
    ) -> Result<(), Refusal> {
        accepted(slices::screens_load(&mut self.records, plan, rules, node_table, state_table, &mut self.first))
    }

    /// Asks a question on a screen, as [`Session::start`] does.
    ///
    /// # Errors
    /// The first of 25, 1, 17, 12, 13, 14, 18.
    pub fn start(&mut self, screen: u32, lent: &Lent<'_>, nodes: &[u16], labels: &[u8]) -> Result<u32, Refusal> {
        let Lent { plan, rules, node_table, state_table } = *lent;
        let mut parts = 0;
        let records = &mut self.records;
        accepted(slices::screens_start(
            records,
            screen,
            plan,
            rules,
            node_table,
            state_table,
            nodes,
            labels,
            &mut parts,
        ))?;
        Ok(parts)
    }

    /// One advance for the next running screen, as [`Session::advance`] makes it.
    ///
    /// # Errors
    /// 1 where no screen is running, or the record of the [`next`](Screens::next) one is damaged; then 17, 18: that was
    /// the screen's turn, nobody else is served, and the next deal tries the same one.
    /// [`why_no_deal`](Screens::why_no_deal) says what a 1 was.
    pub fn deal(&mut self, lent: &Lent<'_>) -> Result<Deal, Refusal> {
        let Lent { plan, rules, node_table, state_table } = *lent;
        let mut out = [0; 2];
        accepted(slices::screens_deal(&mut self.records, self.first, plan, rules, node_table, state_table, &mut out))?;
        let [next, finished] = out;
        self.first = next;
        let progress = if finished == 1 { Progress::Finished } else { Progress::More };
        Ok(Deal { screen: (next + ALL.end - 1) % ALL.end, progress })
    }

    /// Drops a screen's question, as [`Session::cancel`] does.
    ///
    /// # Errors
    /// 25, then 1.
    ///
    /// ```
    /// use whatif::{Refusal, Screens};
    /// assert_eq!(Screens::new().cancel(7), Err(Refusal::SessionState));
    /// assert_eq!(Screens::new().cancel(u32::MAX), Err(Refusal::Screen));
    /// ```
    pub fn cancel(&mut self, screen: u32) -> Result<(), Refusal> {
        accepted(slices::screens_cancel(&mut self.records, screen))
    }

    /// The answer of the question that was asked last on a screen, as [`Session::current`] returns it.
    ///
    /// # Errors
    /// 25, then 1 unless the screen is answered.
    pub fn current(&self, screen: u32) -> Result<Answer, Refusal> {
        self.session(screen).ok_or(Refusal::Screen)?.current()
    }

    /// A screen's last finished answer, as [`Session::read`] returns it: it may be an earlier question's.
    ///
    /// # Errors
    /// 25, then 1.
    pub fn read(&self, screen: u32) -> Result<Answer, Refusal> {
        let mut out = [0; 5];
        accepted(slices::screens_read(&self.records, screen, &mut out))?;
        Ok(Answer::of(out))
    }

    /// Confirms a screen's yes before a blank is cut, as [`Session::confirm`] does.
    ///
    /// # Errors
    /// 25, then what [`Session::confirm`] has.
    pub fn confirm(&self, screen: u32, lent: &Lent<'_>, nodes: &[u16], labels: &[u8]) -> Result<(), Unconfirmed> {
        self.session(screen).ok_or(Refusal::Screen)?.confirm(lent, nodes, labels)
    }

    /// Puts a session in the place of a screen's, whatever was there, and returns what was. A loaded record in the
    /// place of a damaged one frees the other screens at once, and a question can be started there.
    ///
    /// # Errors
    /// 25 for a screen above 7, 1 where the new session is damaged or running; nothing is changed then.
    ///
    /// ```
    /// use whatif::{sizes::SCREENS_BYTES, Screens, Session};
    /// let mut screens = Screens::from_bytes([9; SCREENS_BYTES], 0);
    /// screens.replace(3, &Session::new())?;
    /// assert!(screens.damaged().eq([0, 1, 2, 4, 5, 6, 7]));
    /// # Ok::<(), whatif::Refusal>(())
    /// ```
    pub fn replace(&mut self, screen: u32, session: &Session) -> Result<Session, Refusal> {
        let before = self.session(screen).ok_or(Refusal::Screen)?;
        if session.is_damaged() || session.state() == Some(State::Running) {
            return Err(Refusal::SessionState);
        }
        let at = RECORD_BYTES * screen as usize;
        self.records[at..at + RECORD_BYTES].copy_from_slice(session.as_bytes());
        Ok(before)
    }
}

/// What the records say.
impl Screens {
    /// A copy of a screen's session; none of a screen above 7.
    ///
    /// ```
    /// use whatif::{Screens, Session};
    /// assert_eq!(Screens::new().session(7), Some(Session::new()));
    /// assert_eq!(Screens::new().session(8), None);
    /// ```
    #[must_use]
    pub fn session(&self, screen: u32) -> Option<Session> {
        let record = self.records.chunks_exact(RECORD_BYTES).nth(screen as usize)?;
        Some(Session::from_bytes(record.try_into().ok()?))
    }

    /// The state of a screen; none where its record has no state, and of a screen above 7.
    #[must_use]
    pub fn state(&self, screen: u32) -> Option<State> {
        self.session(screen)?.state()
    }

    /// The parts of a screen's question that is running or answered, else 0.
    #[must_use]
    pub fn parts(&self, screen: u32) -> u32 {
        self.session(screen).map_or(0, |session| session.parts())
    }

    /// How many of them are handled.
    #[must_use]
    pub fn parts_done(&self, screen: u32) -> u32 {
        self.session(screen).map_or(0, |session| session.parts_done())
    }

    /// The screens that are running, by their state bytes, rising.
    pub fn running(&self) -> impl Iterator<Item = u32> + '_ {
        ALL.filter(move |&screen| self.state(screen) == Some(State::Running))
    }

    /// Is a screen running?
    #[must_use]
    pub fn is_running(&self) -> bool {
        self.running().next().is_some()
    }

    /// The screen that the next deal serves: the first running one from [`first`](Screens::first) on, with 0 after 7.
    /// None where no screen is running, or the screen to try first is above 7. A deal that is refused with 1 although
    /// there is a next screen met its damaged record.
    ///
    /// ```
    /// assert_eq!(whatif::Screens::new().next(), None);
    /// ```
    #[must_use]
    pub fn next(&self) -> Option<u32> {
        let first = Some(self.first).filter(|first| ALL.contains(first))?;
        self.running().min_by_key(|screen| (screen + ALL.end - first) % ALL.end)
    }

    /// The screens whose record is damaged, as [`Session::is_damaged`] finds them, rising.
    pub fn damaged(&self) -> impl Iterator<Item = u32> + '_ {
        ALL.filter(move |&screen| self.session(screen).map_or(false, |session| session.is_damaged()))
    }

    /// Why this call on a screen would be refused with 25 or 1, as [`Session::why_not`] says it; none where it would
    /// not be.
    #[must_use]
    pub fn why_not(&self, screen: u32, call: Call) -> Option<&'static str> {
        self.session(screen).map_or(Some(Refusal::Screen.sentence()), |session| session.why_not(call))
    }

    /// Why a deal would be refused with 25 or 1; none where it would not be.
    #[must_use]
    pub fn why_no_deal(&self) -> Option<&'static str> {
        match self.next() {
            Some(screen) => self.why_not(screen, Call::Advance),
            None if !ALL.contains(&self.first) => Some(Refusal::Screen.sentence()),
            None => Some("No screen is running: there is nothing to deal."),
        }
    }

    /// Why a Load of all eight would be refused with 1; none where it would not be.
    #[must_use]
    pub fn why_no_load(&self) -> Option<&'static str> {
        if self.damaged().next().is_some() {
            return Some("A screen's record is damaged: replace it.");
        }
        self.is_running().then_some("A screen is running: Load waits until all are finished or cancelled.")
    }
}

impl Default for Screens {
    fn default() -> Screens {
        Screens::new()
    }
}

/// A session for each screen, in place of their bytes.
impl fmt::Debug for Screens {
    fn fmt(&self, f: &mut fmt::Formatter<'_>) -> fmt::Result {
        let mut shown = f.debug_map();
        shown.entry(&"first", &self.first);
        shown.entries(ALL.filter_map(|screen| Some((screen, self.session(screen)?)))).finish()
    }
}
