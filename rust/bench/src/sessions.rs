//! The session through the record's bytes: Start, one advance, whole questions.
//!
//! A question is Start, as many advances as there are parts, and Read, on tables as built. Its lists are nodes from
//! anywhere. A Start begins with a copy of a loaded record and reads all that is lent, so of large plans fewer are made; an
//! advance is one of all those that a question has.

use crate::cases::{each, list, List};
use crate::measure::{by_turns, Pair};
use crate::table::{Row, ADVANCES_BESIDE, START_BESIDE};
use compare::inputs::Case;
use compare::random::Random;
use whatif::sizes::RECORD_BYTES;
use whatif::{Lent, Progress, Session};
use yardstick::session;

const QUESTIONS: usize = 130;

/// Of plans of more nodes than this, a tenth of the questions is put where a Start is among the work.
const LARGE_PLAN: usize = 10_000;

/// A case with its tables, and a session that has loaded it.
pub struct One {
    pub case: Case,
    pub node_table: Vec<u16>,
    pub state_table: Vec<u8>,
    loaded: Session,
}

impl One {
    pub fn new(case: Case) -> One {
        let (mut node_table, mut state_table) = (vec![0; case.node_table_len()], vec![0; case.state_table_len()]);
        let mut loaded = Session::new();
        loaded.load(&case.plan, &case.rules, &mut node_table, &mut state_table).expect("accepted");
        One { case, node_table, state_table, loaded }
    }

    #[cfg(feature = "probes")]
    pub fn sizes(&self) -> crate::probes::Sizes {
        crate::probes::Sizes { n: self.case.n as u16, s: self.case.s as u8, k: self.case.k as u8 }
    }

    pub fn lent(&self) -> Lent<'_> {
        let Case { plan, rules, .. } = &self.case;
        Lent { plan, rules, node_table: &self.node_table, state_table: &self.state_table }
    }

    fn start(&self, session: &mut Session, list: &List) -> u32 {
        session.start(&self.lent(), &list.0, &list.1).expect("accepted")
    }

    /// The loaded session after a Start.
    pub fn started(&self, list: &List) -> Session {
        let mut session = self.loaded.clone();
        self.start(&mut session, list);
        session
    }

    /// A Start of the loaded session; its parts.
    pub fn start_alone(&self, list: &List) -> u32 {
        self.start(&mut self.loaded.clone(), list)
    }

    fn finish(&self, session: &mut Session) {
        while session.advance(&self.lent()) == Ok(Progress::More) {}
    }

    pub fn ask(&self, list: &List) -> u32 {
        let mut session = self.loaded.clone();
        self.start(&mut session, list);
        self.finish(&mut session);
        let told = session.read().expect("accepted");
        u32::from(told.state) + 16 * told.links + told.parts
    }

    pub fn fresh_run(&self, list: &List) -> u32 {
        let told = whatif::fresh_run(&self.case.plan, &self.case.rules, &list.0, &list.1).expect("accepted");
        u32::from(told.state)
    }

    fn yardstick_start(&self, record: &mut [u8; RECORD_BYTES], list: &List) -> u32 {
        let case = &self.case;
        session::start(record, &case.plan, &case.rules, &self.node_table, &self.state_table, &list.0, &list.1)
            .expect("accepted")
    }

    fn yardstick_finish(&self, record: &mut [u8; RECORD_BYTES]) {
        let case = &self.case;
        while session::advance(record, &case.plan, &case.rules, &self.node_table, &self.state_table) == Ok(false) {}
    }

    pub fn yardstick_ask(&self, list: &List) -> u32 {
        let mut record = *self.loaded.as_bytes();
        self.yardstick_start(&mut record, list);
        self.yardstick_finish(&mut record);
        let told = session::read(&record).expect("accepted");
        u32::from(told.state) + 16 * told.links + told.parts
    }
}

/// Plans of one shape and size, and the questions of one turn, each with the place of its plan.
pub struct Set {
    pub plans: Vec<One>,
    pub lists: Vec<(usize, List)>,
}

impl Set {
    pub fn new(cases: Vec<Case>) -> Set {
        Set { plans: cases.into_iter().map(One::new).collect(), lists: Vec::new() }
    }

    /// Other questions.
    pub fn with_changes(&mut self, m: usize, random: &mut Random) {
        let plans = &self.plans;
        let at = |i: usize| i % plans.len();
        self.lists = (0..QUESTIONS).map(|i| (at(i), list(&plans[at(i)].case, m, random))).collect();
    }

    /// Both sides by turns on every question; both must tell the same.
    #[cfg(feature = "probes")]
    pub fn told(&self, library: impl Fn(&One, &List) -> u32, yardstick: impl Fn(&One, &List) -> u32) -> Pair {
        self.told_of(&self.lists, library, yardstick)
    }

    /// The same on as many questions as there is time for where each has a Start.
    pub fn told_by_few(&self, library: impl Fn(&One, &List) -> u32, yardstick: impl Fn(&One, &List) -> u32) -> Pair {
        self.told_of(self.few(), library, yardstick)
    }

    fn told_of(
        &self,
        lists: &[(usize, List)],
        library: impl Fn(&One, &List) -> u32,
        yardstick: impl Fn(&One, &List) -> u32,
    ) -> Pair {
        let (mut by_library, mut by_yardstick) = (0, 0);
        let times = by_turns(
            lists.len(),
            || by_library = self.sum(lists, &library),
            || by_yardstick = self.sum(lists, &yardstick),
        );
        assert_eq!(by_library, by_yardstick, "both tell the same");
        times
    }

    pub fn sum(&self, lists: &[(usize, List)], f: impl Fn(&One, &List) -> u32) -> u32 {
        lists.iter().fold(0, |sum, (at, list)| sum.wrapping_add(f(&self.plans[*at], list)))
    }

    pub fn few(&self) -> &[(usize, List)] {
        let parts_of = if self.plans[0].case.n > LARGE_PLAN { 10 } else { 1 };
        &self.lists[..self.lists.len() / parts_of]
    }

    /// A session for each of these questions, after its Start, with the place of its plan.
    pub fn started(&self, lists: &[(usize, List)]) -> Vec<(usize, Session)> {
        let start = |(at, list): &(usize, List)| {
            let mut session = self.plans[*at].loaded.clone();
            self.plans[*at].start(&mut session, list);
            (*at, session)
        };
        lists.iter().map(start).collect()
    }

    /// All advances of copies of these sessions.
    pub fn finish(&self, started: &[(usize, Session)]) {
        started.iter().for_each(|(at, session)| self.plans[*at].finish(&mut session.clone()));
    }

    fn start(&self) -> Pair {
        self.told_by_few(One::start_alone, |one, list| one.yardstick_start(&mut one.loaded.as_bytes().clone(), list))
    }

    fn advance(&self) -> Pair {
        let parts = self.sum(&self.lists, One::start_alone) as usize;
        let started = self.started(&self.lists);
        let yardstick = |(at, session): &(usize, Session)| {
            self.plans[*at].yardstick_finish(&mut session.as_bytes().clone());
        };
        by_turns(parts, || self.finish(&started), || started.iter().for_each(yardstick))
    }

    fn question(&self) -> Pair {
        self.told_by_few(One::ask, One::yardstick_ask)
    }

    fn fresh_runs(&self, lists: &[(usize, List)]) {
        assert!(self.sum(lists, One::fresh_run) < u32::MAX);
    }

    fn start_beside_fresh_run(&self) -> Pair {
        let few = self.few();
        by_turns(few.len(), || assert!(self.sum(few, One::start_alone) > 0), || self.fresh_runs(few))
    }

    fn advances_beside_fresh_run(&self) -> Pair {
        let few = self.few();
        let started = self.started(few);
        by_turns(few.len(), || self.finish(&started), || self.fresh_runs(few))
    }
}

/// What is measured, and how.
pub type Work = (&'static str, fn(&Set) -> Pair);

/// Rows whose work has this text in its name, each handed on when it is measured.
pub fn rows(wanted: &str, keep: &mut dyn FnMut(Row)) {
    let random = &mut Random::new(3);
    let mut sets = each(random, |cases, _| Set::new(cases));
    let works: [Work; 5] = [
        ("Start", Set::start),
        ("advance", Set::advance),
        ("question", Set::question),
        (START_BESIDE, Set::start_beside_fresh_run),
        (ADVANCES_BESIDE, Set::advances_beside_fresh_run),
    ];
    #[cfg(feature = "probes")]
    let works: Vec<Work> = works.into_iter().chain(crate::places::WORKS).collect();
    for m in [0, 1, 8, 64] {
        for (shape, s, both) in &mut sets {
            both.iter_mut().for_each(|set| set.with_changes(m, random));
            for (work, measured) in works.iter().filter(|(work, _)| work.contains(wanted)) {
                let times = [measured(&both[0]), measured(&both[1])];
                keep(Row { work, m: Some(m), shape, s: *s, times });
            }
        }
    }
}
