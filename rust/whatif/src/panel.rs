//! A panel: a session with the plan, the rules and the tables that it works on.

use crate::buffers::{Buffers, Node};
use crate::lists::Split;
use crate::{Advances, Answer, Change, Counts, Fewest, LabelSet, Lent, MayChange, Plan, Progress, Refusal, Rules};
use crate::{Session, StateSet, Unconfirmed, Verdict, Want};
use alloc::vec::Vec;
use core::fmt;

/// A panel with a plan loaded: it owns the plan, the rules, their tables and the session. So nothing can be exchanged
/// or altered between the calls, and the refusals 2 to 9, 11, 17 and 18 do not come unless the memory itself is
/// damaged.
///
/// A question is a list of changes, each a node and the label it takes. [`ask`](Panel::ask) answers it at once;
/// [`start`](Panel::start) and [`advances`](Panel::advances) answer it part by part, and [`cancel`](Panel::cancel)
/// drops it in between. [`confirm`](Panel::confirm) a yes before a blank is cut.
///
/// ```
/// use whatif::{Kind::{Inner, Leaf}, Panel, Plan, Refusal, Rules};
/// let plan = Plan::new(&[1, 1, 0], &[Leaf, Leaf, Inner])?;
/// let rules = Rules::from_fn(2, 2, |a| a, |p, _, q| p.min(q), |state| state == 1)?;
/// let mut panel = Panel::new(plan, rules)?;
///
/// // what if node 0 took label 0? and what if it took label 0 and then again label 1?
/// assert!(!panel.ask(&[(0, 0)])?.yes);
/// assert!(panel.ask(&[(0, 0), (0, 1)])?.yes);
///
/// // part by part
/// let parts = panel.start(&[(0, 0), (1, 0)])?;
/// for part in panel.advances() {
///     let part = part?;
///     println!("part {} of {}: node {} is in state {}", part.number, parts, part.root, part.state);
/// }
/// assert!(!panel.current()?.yes);
/// assert_eq!(panel.ask(&[(3, 0)]), Err(Refusal::Node));
/// # Ok::<(), Refusal>(())
/// ```
///
/// What a panel owns can't be altered while it works:
///
/// ```compile_fail,E0502
/// # fn example(panel: &mut whatif::Panel) {
/// let tables = panel.lent();
/// panel.advance(); // while `tables` is in use
/// println!("{:?}", tables);
/// # }
/// ```
///
/// Nor can an answer be passed over:
///
/// ```compile_fail
/// # #![deny(unused_must_use)]
/// # fn example(panel: &mut whatif::Panel) -> Result<(), whatif::Refusal> {
/// panel.ask(&[(0, 0)])?; // cleared or not?
/// # Ok(())
/// # }
/// ```
#[derive(Clone)]
pub struct Panel {
    buffers: Buffers,
    session: Session,
}

impl Panel {
    /// A panel with this plan and these rules loaded.
    ///
    /// # Errors
    /// 10 where the plan has a label that the rules do not have.
    pub fn new(plan: Plan, rules: Rules) -> Result<Panel, Refusal> {
        let mut session = Session::new();
        let buffers =
            Buffers::load(plan, rules, |plan, rules, nodes, states| session.load(plan, rules, nodes, states))?;
        Ok(Panel { buffers, session })
    }

    /// Another plan, or other rules, in the place of the first. No answer is kept.
    ///
    /// # Errors
    /// 1 while a question is running, then 10; the panel is unchanged then.
    pub fn load(&mut self, plan: Plan, rules: Rules) -> Result<(), Refusal> {
        let session = &mut self.session;
        self.buffers =
            Buffers::load(plan, rules, |plan, rules, nodes, states| session.load(plan, rules, nodes, states))?;
        Ok(())
    }

    /// Asks a question and answers it: a Start, every advance, and the answer.
    ///
    /// # Errors
    /// Those of [`start`](Panel::start).
    pub fn ask(&mut self, changes: &[Change]) -> Result<Answer, Refusal> {
        self.start(changes)?;
        for part in self.advances() {
            part?;
        }
        self.current()
    }

    /// Asks a question, and returns the number of its parts: as many advances answer it. An earlier question's answer
    /// is kept as the [`last`](Panel::last) one.
    ///
    /// # Errors
    /// 1 while a question is running, 12 for more than 64 changes, 13 for a node that the plan does not have, 14 for a
    /// label that the rules do not have.
    pub fn start(&mut self, changes: &[Change]) -> Result<u32, Refusal> {
        let list = Split::of(changes);
        self.session.start(&self.buffers.lent(), list.nodes(), list.labels())
    }

    /// Handles the next part of the question.
    ///
    /// # Errors
    /// 1 unless a question is running.
    pub fn advance(&mut self) -> Result<Progress, Refusal> {
        self.session.advance(&self.buffers.lent())
    }

    /// The advances that are left, as an iterator: each handles one part and returns it. It may be left early, and the
    /// question goes on with the next advance.
    pub fn advances(&mut self) -> Advances<'_> {
        self.session.advances(&self.buffers.lent())
    }

    /// Drops the question. The last finished answer stays.
    ///
    /// # Errors
    /// 1 unless a question is running.
    pub fn cancel(&mut self) -> Result<(), Refusal> {
        self.session.cancel()
    }

    /// The answer of the question that was asked last: what the panel shows.
    ///
    /// # Errors
    /// 1 unless it is answered. A refused `start` is no question: the earlier one stays answered.
    pub fn current(&self) -> Result<Answer, Refusal> {
        self.session.current()
    }

    /// The last finished answer. It may be an earlier question's: after a `start`, after a `cancel`. So it is no answer
    /// to what is asked now.
    ///
    /// # Errors
    /// 1 where no question was finished since the last load.
    pub fn last(&self) -> Result<Answer, Refusal> {
        self.session.read()
    }

    /// Confirms a yes before a blank is cut: pass in the list that goes to the mill. It is confirmed only where the
    /// question is answered, this was its list, and a fresh run of the plan with the list says the same yes.
    ///
    /// # Errors
    /// [`Unconfirmed`] says what is wrong; a no is not confirmed either.
    ///
    /// ```
    /// # use whatif::{Kind::Leaf, Panel, Plan, Rules, Unconfirmed};
    /// # let mut panel = Panel::new(Plan::new(&[0], &[Leaf])?, Rules::new(&[0, 1, 1], &[0; 12], &[false, true])?)?;
    /// let changes = [(0, 1)];
    /// if panel.ask(&changes)?.yes {
    ///     panel.confirm(&changes)?; // and cut
    /// }
    /// assert_eq!(panel.confirm(&[(0, 2)]), Err(Unconfirmed::OtherList));
    /// # Ok::<(), Box<dyn std::error::Error>>(())
    /// ```
    pub fn confirm(&self, changes: &[Change]) -> Result<(), Unconfirmed> {
        let list = Split::of(changes);
        self.session.confirm(&self.buffers.lent(), list.nodes(), list.labels())
    }
}

/// Outside the session: nothing of it changes.
impl Panel {
    /// One verdict on the plan with these changes, by a run over the whole plan without tables.
    ///
    /// # Errors
    /// 12, 13, 14.
    pub fn fresh_run(&self, changes: &[Change]) -> Result<Verdict, Refusal> {
        self.buffers.fresh_run(changes)
    }

    /// A whole question at once on the tables, outside the session: the answer that [`ask`](Panel::ask) gives. It does
    /// not check the tables first, so that it takes microseconds. [`confirm`](Panel::confirm) knows nothing of it: before
    /// a blank is cut, ask in the session.
    ///
    /// # Errors
    /// 12, 13, 14.
    ///
    /// ```
    /// # use whatif::{Kind::Leaf, Panel, Plan, Rules};
    /// # let mut panel = Panel::new(Plan::new(&[0], &[Leaf])?, Rules::new(&[0, 1, 1], &[0; 12], &[false, true])?)?;
    /// for label in 0..3 {
    ///     assert_eq!(panel.what_if(&[(0, label)])?.yes, label > 0);
    /// }
    /// assert_eq!(panel.what_if(&[(0, 1)])?, panel.ask(&[(0, 1)])?);
    /// # Ok::<(), whatif::Refusal>(())
    /// ```
    pub fn what_if(&self, changes: &[Change]) -> Result<Answer, Refusal> {
        self.buffers.what_if(changes)
    }

    /// Which labels may each node take, all other nodes as they are, so that the plan is cleared? A set for each node,
    /// by one run up the plan and one down. A node's own label is in its set exactly where the plan is cleared as it is.
    ///
    /// # Errors
    /// None comes unless the memory itself is damaged.
    ///
    /// ```
    /// # use whatif::{Kind::{Inner, Leaf}, Panel, Plan, Rules};
    /// let plan = Plan::new(&[1, 0, 0], &[Leaf, Leaf, Inner])?;
    /// let panel = Panel::new(plan, Rules::from_fn(2, 2, |a| a, |p, _, q| p.min(q), |state| state == 1)?)?;
    /// for (node, labels) in panel.allowed()?.into_iter().enumerate() {
    ///     for label in labels {
    ///         println!("node {} may take label {}", node, label); // node 1 may take label 1
    ///         assert!(panel.what_if(&[(node as u16, label)])?.yes);
    ///     }
    /// }
    /// # Ok::<(), whatif::Refusal>(())
    /// ```
    pub fn allowed(&self) -> Result<Vec<LabelSet>, Refusal> {
        self.buffers.allowed()
    }

    /// With which states of each node's subtree is the plan cleared, all else as it is? A set for each node: why a
    /// change is enough where it is.
    ///
    /// # Errors
    /// None comes unless the memory itself is damaged.
    pub fn clearing(&self) -> Result<Vec<StateSet>, Refusal> {
        self.buffers.clearing()
    }

    /// What is the least that must change so that the plan is cleared, or no longer is? The number is the minimum over
    /// all relabellings that `may` permits, however many nodes they change. It takes milliseconds to a second, by N, S
    /// and K: [`allowed`](Panel::allowed) answers sooner where a single change is enough.
    ///
    /// # Errors
    /// 17 where `may` was made for a plan with another number of nodes.
    ///
    /// ```
    /// # use whatif::{Fewest, Kind::{Inner, Leaf}, Panel, Plan, Rules, Want};
    /// let plan = Plan::new(&[0, 0, 0], &[Leaf, Leaf, Inner])?;
    /// let panel = Panel::new(plan, Rules::from_fn(2, 2, |a| a, |p, _, q| p.min(q), |state| state == 1)?)?;
    /// match panel.fewest(Want::Cleared, &panel.may_change())? {
    ///     Fewest::AsItIs => println!("it is cleared already"),
    ///     Fewest::Changes(list) => {
    ///         println!("these changes clear it: {:?}", list); // [(0, 1), (1, 1)]
    ///         assert!(panel.what_if(&list)?.yes);
    ///     }
    ///     Fewest::Number(least) => println!("{} changes clear it", least),
    ///     Fewest::NoWay => println!("nothing clears it"),
    /// }
    /// let may = panel.may_change().keep(&[0])?; // node 0 keeps its bur
    /// assert_eq!(panel.fewest(Want::Cleared, &may)?, Fewest::NoWay);
    /// # Ok::<(), whatif::Refusal>(())
    /// ```
    pub fn fewest(&self, want: Want, may: &MayChange) -> Result<Fewest, Refusal> {
        self.buffers.fewest(want, may)
    }

    /// What may change in this plan, to be restricted: every node may take every label.
    pub fn may_change(&self) -> MayChange {
        MayChange::new(self.plan().nodes())
    }

    /// How many choices of labels for these nodes, each listed once, end in each state?
    ///
    /// # Errors
    /// 12 for more than 64 nodes, 13 for a node that the plan does not have, 15 for a node listed twice, 26 for more
    /// than 10^18 choices.
    ///
    /// ```
    /// # use whatif::{Kind::Leaf, Panel, Plan, Rules};
    /// // one leaf; label 0 leads to state 0, labels 1 and 2 to state 1, which alone is marked
    /// let panel = Panel::new(Plan::new(&[0], &[Leaf])?, Rules::new(&[0, 1, 1], &[0; 12], &[false, true])?)?;
    /// let counts = panel.count(&[0])?;
    /// assert_eq!((counts.by_state(), counts.clearing(), counts.all()), (&[1, 2][..], 2, 3));
    /// # Ok::<(), whatif::Refusal>(())
    /// ```
    pub fn count(&self, nodes: &[u16]) -> Result<Counts, Refusal> {
        self.buffers.count(nodes)
    }

    /// The plan with these changes made.
    ///
    /// # Errors
    /// 12, 13, 14.
    pub fn changed_plan(&self, changes: &[Change]) -> Result<Plan, Refusal> {
        self.buffers.changed_plan(changes)
    }

    /// The plan.
    #[must_use]
    pub fn plan(&self) -> &Plan {
        &self.buffers.plan
    }

    /// The rules.
    #[must_use]
    pub fn rules(&self) -> &Rules {
        &self.buffers.rules
    }

    /// A node of the plan, with what the tables say of it; none above N - 1.
    ///
    /// ```
    /// # use whatif::{Kind::Leaf, Panel, Plan, Rules};
    /// # let panel = Panel::new(Plan::new(&[0], &[Leaf])?, Rules::new(&[0, 1, 1], &[0; 12], &[false, true])?)?;
    /// let root = panel.node(0).expect("every plan has a node");
    /// assert_eq!((root.label, root.state, root.parent, root.depth, root.size), (0, 0, 0, 0, 1));
    /// assert_eq!(panel.node(1), None);
    /// # Ok::<(), whatif::Refusal>(())
    /// ```
    #[must_use]
    pub fn node(&self, v: u16) -> Option<Node> {
        self.buffers.node(v)
    }

    /// The session: its state, its parts and their roots, why a call is refused.
    #[must_use]
    pub fn session(&self) -> &Session {
        &self.session
    }

    /// Plan, rules and tables, for the calls on bytes.
    #[must_use]
    pub fn lent(&self) -> Lent<'_> {
        self.buffers.lent()
    }
}

/// Without the tables.
impl fmt::Debug for Panel {
    fn fmt(&self, f: &mut fmt::Formatter<'_>) -> fmt::Result {
        f.debug_struct("Panel")
            .field("plan", self.plan())
            .field("rules", self.rules())
            .field("session", &self.session)
            .finish_non_exhaustive()
    }
}
