//! Whole lists of calls, as chance has them, from fresh records: refused calls, exchanged plans, altered and restored
//! inputs, short and long buffers, broken record bytes. Every answer is held to the reference implementation on the
//! record's bytes, and to the reference model, which never sees the record.
//!
//! Two sessions go on by turns, over the same plans; now and then one goes back to where the other is.

use super::damaged_records;
use super::refusals::any_two;
use crate::alterations::lay_some;
use crate::calls::Kind;
use crate::counts::Counts;
use crate::faults::{lay_on_list, repeat_nodes, Input, BUILD_CHECKS};
use crate::inputs::Case;
use crate::panel::{Lent, Panel};
use crate::random::Random;
use crate::shapes::SHAPES;
use crate::sides;
use reference::model::Settlement;
use reference::panel::{Answer, Call, Phase};
use reference::record::Record;

pub fn round(random: &mut Random, counts: &mut Counts) {
    let most_leaves = if random.below(100) == 0 { 1_000 } else { 20 };
    list(60, most_leaves, random, counts);
}

/// A list of so many calls on plans of at most so many leaves.
pub fn list(calls: usize, most_leaves: usize, random: &mut Random, counts: &mut Counts) {
    let mut world = World { at_hand: plans(most_leaves, random), counts };
    let first = Session { panel: Panel::default(), now: 0, usual: world.at_hand[0].1.clone(), refused: false };
    let mut sessions = [first.clone(), first];
    let mut at = 0;
    for _ in 0..calls {
        match random.below(200) {
            0 => {
                sessions[1 - at] = sessions[at].clone();
                world.counts.add("a session goes back to where the other is");
            }
            1..=30 => at = 1 - at,
            _ => (),
        }
        world.turn(&mut sessions[at], random);
    }
}

/// Three plans with the same N, S and K, one with the same lengths as these, where there are such, and one more.
pub fn plans(most_leaves: usize, random: &mut Random) -> Vec<(Case, Lent)> {
    let (leaves, s, k) = (random.between(1, most_leaves), random.between(1, 5), random.between(1, 5));
    let (s, k) = if random.below(4) == 0 { (1, 3) } else { (s, k) };
    let mut cases: Vec<Case> = (0..3).map(|_| same_sizes(leaves, s, k, random)).collect();
    if (s, k) == (1, 3) {
        // 27 bytes of rules, too
        cases.push(same_sizes(leaves, 2, 1, random));
    }
    let other = random.between(1, most_leaves);
    cases.push(same_sizes(other, random.between(1, 16), random.between(1, 64), random));
    cases.into_iter().map(|case| (case.clone(), Lent::built(&case, random))).collect()
}

pub fn same_sizes(leaves: usize, s: usize, k: usize, random: &mut Random) -> Case {
    let shape = *random.pick(&SHAPES);
    Case::new(shape, leaves, s, k, random)
}

/// A session; which of the plans its last Load or Start was about, and what is lent usually since then.
#[derive(Clone)]
struct Session {
    panel: Panel,
    now: usize,
    usual: Lent,
    /// Was the last advance refused with 18?
    refused: bool,
}

/// What a panel has at hand: some plans with their tables.
struct World<'a> {
    at_hand: Vec<(Case, Lent)>,
    counts: &'a mut Counts,
}

impl World<'_> {
    /// A call, mostly one that the state allows.
    fn turn(&mut self, session: &mut Session, random: &mut Random) {
        let usual = match session.panel.model.phase() {
            Phase::Empty => 0,
            Phase::Loaded => *random.pick(&[1, 1, 1, 4]),
            Phase::Running => *random.pick(&[2, 2, 2, 2, 2, 2, 2, 4]),
            Phase::Answered => *random.pick(&[4, 1]),
        };
        match if random.below(8) == 0 { random.below(6) } else { usual } {
            0 => self.load(session, random),
            1 => self.start(session, random),
            2 => self.advance(session, random),
            3 => {
                let answer = session.panel.call(&Call::Cancel, random);
                self.counts.add(format!("Cancel {}", name(answer)));
            }
            4 => {
                let answer = session.panel.call(&Call::Read, random);
                let model = &session.panel.model;
                let settlement = model.last_settlement();
                self.counts.add(format!("Read {} {:?}", name(answer), settlement));
                self.counts.add(format!("Read {} in {:?}", name(answer), model.phase()));
                if model.phase() == Phase::Running && settlement.is_some() && settlement != model.settlement() {
                    self.counts.add("Read beside a question that stands otherwise");
                }
            }
            _ => self.on_a_broken_record(session, random),
        }
    }

    /// What is lent with a Start or an advance: mostly what was lent before, now and then another plan, or altered.
    fn lent(&self, session: &Session, random: &mut Random) -> (usize, Lent) {
        let exchanged = random.below(12) == 0;
        let at = if exchanged { random.below(self.at_hand.len()) } else { session.now };
        let (case, built) = &self.at_hand[at];
        let mut lent = if exchanged { built.clone() } else { session.usual.clone() };
        lay_some(&mut lent, case, 5, random);
        (at, lent)
    }

    /// A list, now and then with nodes listed again, or with one or two faults of 12 to 14.
    fn changes(&self, at: usize, random: &mut Random) -> (Vec<u16>, Vec<u8>) {
        let case = &self.at_hand[at].0;
        let m = *random.pick(&[0, 1, 2, 3, 5, 9]);
        let (mut nodes, mut labels) = case.list(m, random);
        if random.below(3) == 0 {
            repeat_nodes(&mut nodes, &mut labels, case.k, random);
        }
        if random.below(4) == 0 && !nodes.is_empty() {
            let faults = any_two(&[12, 13, 14], random);
            // the last check first, so that its fault still shows
            for &check in faults.iter().rev() {
                lay_on_list(check, &mut nodes, &mut labels, (case.n, case.k), random);
            }
        }
        (nodes, labels)
    }

    fn load(&mut self, session: &mut Session, random: &mut Random) {
        let at = random.below(self.at_hand.len());
        let (case, built) = &self.at_hand[at];
        let mut input = Input::new(case, Kind::Rules, random);
        if random.below(3) == 0 {
            let faults = [*random.pick(&BUILD_CHECKS), *random.pick(&BUILD_CHECKS)];
            input.lay(&faults[random.below(2)..], random);
        }
        let (node_table, state_table) = (random.numbers(input.node_table_len), random.bytes(input.state_table_len));
        let lent = Lent { plan: input.plan, rules: input.table, node_table, state_table };
        let answer = session.panel.call(&Call::Load(lent.inputs()), random);
        if answer == Answer::Accepted {
            // what Load wrote
            session.usual = built.clone();
            session.now = at;
        }
        self.counts.add(format!("Load {}", name(answer)));
    }

    fn start(&mut self, session: &mut Session, random: &mut Random) {
        let (at, lent) = self.lent(session, random);
        let (nodes, labels) = self.changes(at, random);
        let answer = session.panel.start(&lent, &nodes, &labels, random);
        if let Answer::Parts(_) = answer {
            session.now = at;
            session.usual = if random.below(4) > 0 { lent } else { self.at_hand[at].1.clone() };
        }
        self.counts.add(format!("Start {}", name(answer)));
    }

    fn advance(&mut self, session: &mut Session, random: &mut Random) {
        let (before, kept) = (session.panel.model.settlement(), session.panel.model.last_settlement());
        let (_, lent) = self.lent(session, random);
        let answer = session.panel.advance(&lent, random);
        let after = session.panel.model.settlement();
        self.counts.add(format!("advance {}", name(answer)));
        if (before, answer) == (Some(Settlement::Clean), Answer::Refused(18)) {
            assert_eq!(after, before);
            self.counts.add("18 in a clean question");
        }
        let accepted = matches!(answer, Answer::More | Answer::Finished);
        if accepted && before != after {
            self.counts.add(format!("{:?} to {:?}", before.unwrap(), after.unwrap()));
        }
        if answer == Answer::Finished && kept == Some(Settlement::Clean) && after != kept {
            self.counts.add("an unclean finish replaces a clean answer");
        }
        if accepted && session.refused && after == Some(Settlement::Clean) {
            self.counts.add("18, then restored and still clean");
        }
        session.refused = answer == Answer::Refused(18);
    }

    /// A call on an altered copy of the record: it gets 1 where the bytes break the layout. The session goes on without.
    fn on_a_broken_record(&mut self, session: &Session, random: &mut Random) {
        let record = damaged_records::altered(&session.panel.record, random);
        let (at, lent) = self.lent(session, random);
        let (nodes, labels) = self.changes(at, random);
        let inputs = lent.inputs();
        let start = Call::Start(inputs, &nodes, &labels);
        let call = *random.pick(&[Call::Load(inputs), start, Call::Advance(inputs), Call::Cancel, Call::Read]);
        let done = sides::call(&record, &call, random);
        if Record::of(&record).is_some() {
            self.counts.add("altered record, still a session's");
            return;
        }
        assert_eq!(done.answer, Answer::Refused(1));
        self.counts.add("broken record refused 1");
    }
}

pub fn name(answer: Answer) -> String {
    match answer {
        Answer::Refused(number) => format!("refused {}", number),
        Answer::Parts(_) => "parts".to_string(),
        Answer::Outcome(_) => "told".to_string(),
        other => format!("{:?}", other),
    }
}
