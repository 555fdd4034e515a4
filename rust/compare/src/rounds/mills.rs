//! `whatif::Mill`, which owns its plan, rules, tables and eight screens, against the reference's screens on a run of
//! records. After every call the two runs and the two numbers to try first are the same.

use crate::counts::Counts;
use crate::inputs::Case;
use crate::random::Random;
use crate::trace;
use reference::formats::{read_plan, read_rules};
use reference::panel::{Answer, Inputs, Phase};
use reference::record::{Record, RECORD_BYTES};
use reference::screens::{self, Done, ScreenAnswer, ScreenCall, RUN_BYTES, SCREENS};
use reference::tables::{rule_tables, Tables};
use whatif::{Change, Mill, Plan, Progress, Refusal, Rules, Unconfirmed};

pub fn round(random: &mut Random, counts: &mut Counts) {
    let most_leaves = if random.below(60) == 0 { 300 } else { 15 };
    let mut beside = Beside::new(Case::random(most_leaves, random));
    for _ in 0..40 {
        beside.turn(random, counts);
    }
}

/// A mill, and the run and the number to try first that the reference has.
struct Beside {
    case: Case,
    tables: Tables,
    mill: Mill,
    run: Vec<u8>,
    first: u32,
}

impl Beside {
    fn new(case: Case) -> Beside {
        let tables = tables(&case);
        let (plan, rules) = checked(&case);
        let mill = Mill::new(plan, rules).expect("accepted");
        let mut beside = Beside { case, tables, mill, run: vec![0; RUN_BYTES], first: 0 };
        let done = screens::call(&beside.run, &ScreenCall::Load(beside.inputs()));
        beside.keep(done);
        beside.same();
        beside
    }

    fn inputs(&self) -> Inputs<'_> {
        let Tables { node_table, state_table } = &self.tables;
        Inputs { plan: &self.case.plan, rules: &self.case.rules, node_table, state_table }
    }

    fn keep(&mut self, done: Done) -> ScreenAnswer {
        self.run = done.run;
        self.first = done.answer.number().unwrap_or(self.first);
        done.answer
    }

    /// A call, mostly on a screen that allows it.
    fn turn(&mut self, random: &mut Random, counts: &mut Counts) {
        let name = match random.below(12) {
            0..=2 => self.start(random),
            3..=5 => self.deal(),
            6 => self.deals(random),
            7 => self.cancel(random),
            8 => self.answers(random),
            9 => self.confirm(random),
            10 => self.repair(random),
            _ => self.load(random),
        };
        counts.add(name);
        self.same();
    }

    fn record(&self, screen: usize) -> Record {
        Record::of(&self.run[RECORD_BYTES * screen..RECORD_BYTES * (screen + 1)]).expect("a record")
    }

    fn running(&self) -> Vec<u32> {
        (0..SCREENS).filter(|&i| self.record(i).phase == Phase::Running).map(|i| i as u32).collect()
    }

    /// The screen that a deal serves: trying one after the other.
    fn next(&self) -> Option<u32> {
        (0..8).map(|i| (self.first + i) % 8).find(|screen| self.running().contains(screen))
    }

    fn same(&self) {
        let screens = self.mill.screens();
        assert!(screens.as_bytes()[..] == self.run[..], "the mill's run");
        assert_eq!(screens.first(), self.first, "the screen to try first");
        assert_eq!(screens.running().collect::<Vec<_>>(), self.running(), "the screens that are running");
        assert_eq!(screens.next(), self.next(), "the next screen");
        assert_eq!(screens.why_no_deal().is_none(), self.next().is_some(), "why there is no deal");
        assert_eq!(screens.why_no_load().is_some(), !self.running().is_empty(), "why there is no load");
        assert_eq!(screens.damaged().next(), None, "no record is damaged");
    }

    /// Mostly one that there is.
    fn screen(&self, random: &mut Random) -> u32 {
        *random.pick(&[0, 1, 2, 3, 4, 5, 6, 7, 0, 1, 2, 3, 4, 5, 6, 7, 8, 259, u32::MAX])
    }

    fn start(&mut self, random: &mut Random) -> String {
        let (screen, list) = (self.screen(random), self.list(random));
        let (nodes, labels): (Vec<u16>, Vec<u8>) = list.iter().copied().unzip();
        trace::say(format!("screen {}: start {:?}", screen, list));
        let got = self.mill.start(screen, &list).map_err(Refusal::number);
        let done = screens::call(&self.run, &ScreenCall::Start(screen, self.inputs(), &nodes, &labels));
        let want = match self.keep(done) {
            ScreenAnswer::One(Answer::Parts(parts)) => Ok(parts),
            other => Err(refused(other)),
        };
        assert_eq!(got, want, "the answer of the start");
        outcome("start", got.map(|_| ()))
    }

    /// None exactly where no screen is running, which the reference refuses with 1.
    fn deal(&mut self) -> String {
        trace::say("deal".into());
        let got = self.mill.deal().expect("no record is damaged");
        let done = screens::call(&self.run, &ScreenCall::Deal(self.first, self.inputs()));
        let want = match self.keep(done) {
            ScreenAnswer::Dealt(next, answer) => Some(((next + 7) % 8, answer == Answer::Finished)),
            other => {
                assert_eq!(refused(other), 1, "the reference's deal");
                None
            }
        };
        let got = got.map(|deal| (deal.screen, deal.progress == Progress::Finished));
        assert_eq!(got, want, "the answer of the deal");
        format!("deal {}", want.map_or("none", |(_, finished)| if finished { "finished" } else { "more" }))
    }

    /// Some deals by the iterator, or all.
    fn deals(&mut self, random: &mut Random) -> String {
        trace::say("deals".into());
        let most = *random.pick(&[1, 2, 5, 3_000]);
        let served: Vec<u32> =
            self.mill.deals().take(most).map(|deal| deal.expect("no record is damaged").screen).collect();
        for &screen in &served {
            assert_eq!(self.next(), Some(screen), "whose turn it is");
            let done = screens::call(&self.run, &ScreenCall::Deal(self.first, self.inputs()));
            self.keep(done);
        }
        assert!(served.len() == most || self.running().is_empty(), "the iterator goes on to the end");
        format!("deals{}", if self.running().is_empty() { ", to the end" } else { "" })
    }

    fn cancel(&mut self, random: &mut Random) -> String {
        let screen = self.screen(random);
        trace::say(format!("screen {}: cancel", screen));
        let got = self.mill.cancel(screen).map_err(Refusal::number);
        let want = match self.keep(screens::call(&self.run, &ScreenCall::Cancel(screen))) {
            ScreenAnswer::One(Answer::Accepted) => Ok(()),
            other => Err(refused(other)),
        };
        assert_eq!(got, want, "the answer of the cancel");
        outcome("cancel", want)
    }

    fn answers(&self, random: &mut Random) -> String {
        let screen = self.screen(random);
        trace::say(format!("screen {}: answers", screen));
        let last = match screens::call(&self.run, &ScreenCall::Read(screen)).answer {
            ScreenAnswer::One(Answer::Outcome(told)) => Ok((told.state, told.yes, told.parts, told.links, told.passed)),
            other => Err(refused(other)),
        };
        let answered = screen < 8 && self.record(screen as usize).phase == Phase::Answered;
        let current = if answered || screen > 7 { last } else { Err(1) };
        let told = |a: whatif::Answer| (a.state.into(), a.yes, a.parts, a.links, a.passed);
        assert_eq!(self.mill.last(screen).map(told).map_err(Refusal::number), last, "the last answer");
        assert_eq!(self.mill.current(screen).map(told).map_err(Refusal::number), current, "the current answer");
        format!("{}, last {}", outcome("current", current.map(|_| ())), last.is_ok())
    }

    /// With the list that was asked.
    fn confirm(&self, random: &mut Random) -> String {
        let screen = self.screen(random);
        trace::say(format!("screen {}: confirm", screen));
        if screen > 7 {
            assert_eq!(self.mill.confirm(screen, &[]), Err(Unconfirmed::Refused(Refusal::Screen)));
            return "confirm refused 25".into();
        }
        let record = self.record(screen as usize);
        let list: Vec<Change> = record.nodes.iter().copied().zip(record.labels.iter().copied()).collect();
        let fresh = reference::fresh::fresh_run(&self.case.plan, &self.case.rules, &record.nodes, &record.labels);
        let want = record.phase == Phase::Answered && fresh.expect("a list that was asked").yes;
        assert_eq!(self.mill.confirm(screen, &list).is_ok(), want, "what is confirmed");
        format!("confirm {}", want)
    }

    /// As after a first Load.
    fn repair(&mut self, random: &mut Random) -> String {
        let screen = self.screen(random);
        trace::say(format!("screen {}: repair", screen));
        let before = self.mill.screens().session(screen);
        let got = self.mill.repair(screen);
        assert_eq!(got.map_err(Refusal::number), before.ok_or(25), "what was there");
        if screen < 8 {
            let at = RECORD_BYTES * screen as usize;
            let loaded = Record::loaded(self.record(screen as usize).sizes).bytes();
            self.run[at..at + RECORD_BYTES].copy_from_slice(&loaded);
        }
        format!("repair{}", if screen < 8 { "" } else { " refused 25" })
    }

    /// Another plan, refused while a screen is running.
    fn load(&mut self, random: &mut Random) -> String {
        trace::say("load".into());
        let other = Case::random(15, random);
        let own = tables(&other);
        let (plan, rules) = checked(&other);
        let got = self.mill.load(plan, rules).map_err(Refusal::number);
        let Tables { node_table, state_table } = &own;
        let inputs = Inputs { plan: &other.plan, rules: &other.rules, node_table, state_table };
        let want = match self.keep(screens::call(&self.run, &ScreenCall::Load(inputs))) {
            ScreenAnswer::Loaded(_) => Ok(()),
            other => Err(refused(other)),
        };
        assert_eq!(got, want, "the answer of the load");
        if want.is_ok() {
            (self.case, self.tables) = (other, own);
        }
        let (lent, own) = (self.mill.lent(), self.inputs());
        assert!(lent.plan == own.plan && lent.rules == own.rules, "the plan and the rules that are loaded");
        assert!(lent.node_table == own.node_table && lent.state_table == own.state_table, "the mill's tables");
        outcome("load", want)
    }

    /// At most nine changes, now and then one of a node or a label that there is not.
    fn list(&self, random: &mut Random) -> Vec<Change> {
        let (mut nodes, mut labels) = self.case.list(*random.pick(&[0, 1, 2, 3, 9]), random);
        if random.below(10) == 0 {
            nodes.push(random.word() as u16);
            labels.push(random.byte());
        }
        nodes.into_iter().zip(labels).collect()
    }
}

fn refused(answer: ScreenAnswer) -> u32 {
    match answer {
        ScreenAnswer::One(Answer::Refused(number)) => number,
        other => panic!("the reference answered {:?}", other),
    }
}

fn outcome(call: &str, answer: Result<(), u32>) -> String {
    answer.map_or_else(|number| format!("{} refused {}", call, number), |()| format!("{} accepted", call))
}

fn checked(case: &Case) -> (Plan, Rules) {
    let plan = Plan::from_bytes(&case.plan[..]).expect("a plan");
    (plan, Rules::from_bytes(&case.rules[..]).expect("rules"))
}

fn tables(case: &Case) -> Tables {
    rule_tables(&read_plan(&case.plan).expect("a plan"), &read_rules(&case.rules).expect("rules"))
}
