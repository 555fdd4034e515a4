//! A mill with eight screens: their sessions with the plan, the rules and the tables that they work on.

use crate::buffers::Buffers;
use crate::lists::Split;
use crate::{Answer, Change, Deal, Lent, Plan, Refusal, Rules, Screens, Session, Unconfirmed};
use core::fmt;
use core::iter::FusedIterator;

/// A mill with a plan loaded and up to eight questions running, one on each screen: it owns the plan, the rules, their
/// tables and the screens. So nothing can be exchanged or altered between the calls.
///
/// A [`deal`](Mill::deal) handles one part for the next running screen, in turn. One that finds no screen running
/// returns none. So a refusal means that the record of that screen is damaged: [`repair`](Mill::repair) it.
///
/// ```
/// use whatif::{Kind::{Inner, Leaf}, Mill, Plan, Refusal, Rules};
/// let plan = Plan::new(&[1, 1, 0], &[Leaf, Leaf, Inner])?;
/// let rules = Rules::from_fn(2, 2, |a| a, |p, _, q| p.min(q), |state| state == 1)?;
/// let mut mill = Mill::new(plan, rules)?;
/// mill.start(2, &[(0, 0)])?;
/// mill.start(5, &[(2, 1)])?;
/// for deal in mill.deals() {
///     println!("screen {} was served", deal?.screen);
/// }
/// assert!(!mill.current(2)?.yes && mill.current(5)?.yes);
/// assert_eq!(mill.start(8, &[]), Err(Refusal::Screen));
/// # Ok::<(), Refusal>(())
/// ```
#[derive(Clone)]
pub struct Mill {
    buffers: Buffers,
    screens: Screens,
    /// As every screen's was after the Load.
    loaded: Session,
}

impl Mill {
    /// A mill with this plan and these rules loaded on all eight screens.
    ///
    /// # Errors
    /// 10 where the plan has a label that the rules do not have.
    pub fn new(plan: Plan, rules: Rules) -> Result<Mill, Refusal> {
        let mut screens = Screens::new();
        let buffers =
            Buffers::load(plan, rules, |plan, rules, nodes, states| screens.load(plan, rules, nodes, states))?;
        let loaded = screens.session(0).unwrap_or_default();
        Ok(Mill { buffers, screens, loaded })
    }

    /// Another plan, or other rules, in the place of the first, on all eight screens. No answer is kept.
    ///
    /// # Errors
    /// 1 while a screen is running or a record is damaged, then 10; the mill is unchanged then.
    pub fn load(&mut self, plan: Plan, rules: Rules) -> Result<(), Refusal> {
        let screens = &mut self.screens;
        self.buffers =
            Buffers::load(plan, rules, |plan, rules, nodes, states| screens.load(plan, rules, nodes, states))?;
        self.loaded = self.screens.session(0).unwrap_or_default();
        Ok(())
    }

    /// Asks a question on a screen, and returns the number of its parts: as many turns of the screen answer it.
    ///
    /// # Errors
    /// 25 for a screen above 7, 1 while a question is running there, 12 for more than 64 changes, 13 for a node that
    /// the plan does not have, 14 for a label that the rules do not have.
    pub fn start(&mut self, screen: u32, changes: &[Change]) -> Result<u32, Refusal> {
        let list = Split::of(changes);
        self.screens.start(screen, &self.buffers.lent(), list.nodes(), list.labels())
    }

    /// Handles one part for the next running screen; none where no screen is running.
    ///
    /// # Errors
    /// 1, or 17 or 18 where it still keeps its layout, where the record of the next screen is damaged.
    /// [`Screens::next`] has its number.
    pub fn deal(&mut self) -> Result<Option<Deal>, Refusal> {
        match self.screens.next() {
            None => Ok(None),
            Some(_) => self.screens.deal(&self.buffers.lent()).map(Some),
        }
    }

    /// Deals until no screen is running, as an iterator. It ends after a refusal too. It may be left early.
    pub fn deals(&mut self) -> Deals<'_> {
        Deals { mill: self, ended: false }
    }

    /// Drops a screen's question. Its last finished answer stays.
    ///
    /// # Errors
    /// 25, then 1 unless a question is running there.
    pub fn cancel(&mut self, screen: u32) -> Result<(), Refusal> {
        self.screens.cancel(screen)
    }

    /// The answer of the question that was asked last on a screen: what it shows.
    ///
    /// # Errors
    /// 25, then 1 unless it is answered.
    pub fn current(&self, screen: u32) -> Result<Answer, Refusal> {
        self.screens.current(screen)
    }

    /// A screen's last finished answer. It may be an earlier question's.
    ///
    /// # Errors
    /// 25, then 1 where no question was finished there since the last load.
    pub fn last(&self, screen: u32) -> Result<Answer, Refusal> {
        self.screens.read(screen)
    }

    /// Confirms a screen's yes before a blank is cut, as [`Panel::confirm`](crate::Panel::confirm) does.
    ///
    /// # Errors
    /// 25, then what [`Unconfirmed`] says.
    pub fn confirm(&self, screen: u32, changes: &[Change]) -> Result<(), Unconfirmed> {
        let list = Split::of(changes);
        self.screens.confirm(screen, &self.buffers.lent(), list.nodes(), list.labels())
    }

    /// Puts the loaded record in the place of a screen's, whatever was there, and returns what was: its question and
    /// its answer are gone, the other screens go on, and a question can be started there at once.
    ///
    /// # Errors
    /// 25 for a screen above 7.
    ///
    /// ```
    /// # use whatif::{Kind::Leaf, Mill, Plan, Rules};
    /// # let mut mill = Mill::new(Plan::new(&[0], &[Leaf])?, Rules::new(&[0], &[0], &[true])?)?;
    /// # mill.start(3, &[])?;
    /// while mill.screens().is_running() {
    ///     if let (Err(_), Some(screen)) = (mill.deal(), mill.screens().next()) {
    ///         mill.repair(screen)?;
    ///     }
    /// }
    /// # assert!(mill.current(3)?.yes);
    /// # Ok::<(), whatif::Refusal>(())
    /// ```
    pub fn repair(&mut self, screen: u32) -> Result<Session, Refusal> {
        self.screens.replace(screen, &self.loaded)
    }

    /// The plan.
    #[must_use]
    pub fn plan(&self) -> &Plan {
        &self.buffers.plan
    }

    /// The rules.
    #[must_use]
    pub fn rules(&self) -> &Rules {
        &self.buffers.rules
    }

    /// The screens: their states and parts, which are running, which is next, which are damaged.
    #[must_use]
    pub fn screens(&self) -> &Screens {
        &self.screens
    }

    /// Plan, rules and tables, for the calls on bytes.
    #[must_use]
    pub fn lent(&self) -> Lent<'_> {
        self.buffers.lent()
    }
}

/// The deals of a mill, until no screen is running: each asked for handles one part. It ends after a refusal too.
#[derive(Debug)]
#[must_use = "no part is handled before the iterator is asked for it"]
pub struct Deals<'a> {
    mill: &'a mut Mill,
    ended: bool,
}

impl Iterator for Deals<'_> {
    type Item = Result<Deal, Refusal>;

    fn next(&mut self) -> Option<Result<Deal, Refusal>> {
        if self.ended {
            return None;
        }
        let dealt = self.mill.deal().transpose();
        self.ended = !matches!(dealt, Some(Ok(_)));
        dealt
    }
}

impl FusedIterator for Deals<'_> {}

/// Without the tables.
impl fmt::Debug for Mill {
    fn fmt(&self, f: &mut fmt::Formatter<'_>) -> fmt::Result {
        f.debug_struct("Mill")
            .field("plan", self.plan())
            .field("rules", self.rules())
            .field("screens", &self.screens)
            .finish_non_exhaustive()
    }
}

#[cfg(test)]
mod tests {
    use super::{Mill, Screens};
    use crate::sizes::RECORD_BYTES;
    use crate::Kind::{Inner, Leaf};
    use crate::{Plan, Refusal, Rules, State};
    use std::vec::Vec;

    fn mill() -> Mill {
        let plan = Plan::new(&[1, 1, 0], &[Leaf, Leaf, Inner]).unwrap();
        let rules = Rules::from_fn(2, 2, |a| a, |p, _, q| p.min(q), |state| state == 1).unwrap();
        Mill::new(plan, rules).unwrap()
    }

    /// With a bit of a screen's record flipped.
    fn flip(mill: &mut Mill, screen: usize, bit: usize) {
        let mut records = *mill.screens.as_bytes();
        records[RECORD_BYTES * screen + bit / 8] ^= 1 << (bit % 8);
        mill.screens = Screens::from_bytes(records, mill.screens.first());
    }

    /// Every bit of a running screen's record: a refused deal names it as the next screen, a repair frees the other.
    #[test]
    fn a_damaged_record_is_repaired() {
        let (mut refused, mut whole) = (Vec::new(), 0);
        for bit in 0..8 * RECORD_BYTES {
            let mut mill = mill();
            mill.start(1, &[(0, 0)]).unwrap();
            mill.start(4, &[(1, 0)]).unwrap();
            flip(&mut mill, 1, bit);
            match mill.deal() {
                Err(refusal) => {
                    refused.push(refusal);
                    assert_eq!((mill.deal(), mill.screens().next()), (Err(refusal), Some(1)));
                    assert_eq!(mill.deals().take(9).collect::<Vec<_>>(), [Err(refusal)], "bit {}", bit);
                    mill.repair(1).unwrap();
                    assert_eq!(mill.screens().state(1), Some(State::Loaded));
                }
                Ok(_) => whole += 1,
            }
            for _ in 0..9 {
                if let (Err(_), Some(screen)) = (mill.deal(), mill.screens().next()) {
                    mill.repair(screen).unwrap();
                }
            }
            assert_eq!(mill.deal(), Ok(None), "bit {}", bit);
            assert_eq!(mill.current(4).map(|answer| answer.yes), Ok(false), "bit {}", bit);
        }
        let number = |wanted| refused.iter().filter(|&&refusal| refusal == wanted).count();
        let [broken, lengths] = [Refusal::SessionState, Refusal::LentLength].map(number);
        assert!(broken > 7_000 && lengths > 0 && whole > 10, "{} {} {}", broken, lengths, whole);
    }
}
