//! `whatif::Panel`, which owns its plan, rules, tables and session, against the reference's session on record bytes and
//! against the same calls on a plain `whatif::Session`. After every call the three records are the same.

use super::refusals::any_two;
use crate::counts::Counts;
use crate::faults::{lay_on_list, repeat_nodes};
use crate::inputs::Case;
use crate::random::Random;
use crate::trace;
use reference::count::Said;
use reference::formats::{read_plan, read_rules};
use reference::fresh::{changed, check_list};
use reference::panel::{Answer, Call, Inputs, Outcome, Phase};
use reference::record::Record;
use reference::session::{self, Done};
use reference::tables::{rule_tables, run, Tables};
use reference::tree::Tree;
use whatif::{Change, Lent, Panel, Part, Plan, Progress, Refusal, Rules, Session, Unconfirmed, Verdict};

pub fn round(random: &mut Random, counts: &mut Counts) {
    let most_leaves = if random.below(60) == 0 { 700 } else { 20 };
    let mut beside = Beside::new(Case::random(most_leaves, random));
    for _ in 0..30 {
        beside.turn(random, counts);
    }
}

/// A plan and rules with the reference's tables.
#[derive(Clone)]
struct Given {
    case: Case,
    tables: Tables,
}

impl Given {
    fn new(case: Case) -> Given {
        let tables = rule_tables(&read_plan(&case.plan).expect("a plan"), &read_rules(&case.rules).expect("rules"));
        Given { case, tables }
    }

    fn inputs(&self) -> Inputs<'_> {
        let (case, Tables { node_table, state_table }) = (&self.case, &self.tables);
        Inputs { plan: &case.plan, rules: &case.rules, node_table, state_table }
    }

    fn lent(&self) -> Lent<'_> {
        let Inputs { plan, rules, node_table, state_table } = self.inputs();
        Lent { plan, rules, node_table, state_table }
    }
}

/// A panel, a plain session, and the record that the reference has.
pub struct Beside {
    given: Given,
    panel: Panel,
    plain: Session,
    record: Vec<u8>,
}

impl Beside {
    pub fn new(case: Case) -> Beside {
        let (plan, rules) = checked(&case);
        let panel = Panel::new(plan, rules).expect("accepted");
        let (plain, record) = (Session::new(), Session::new().as_bytes().to_vec());
        let mut beside = Beside { given: Given::new(case.clone()), panel, plain, record };
        beside.load_plain(&case).expect("accepted");
        beside.same();
        beside
    }

    /// A call, mostly one that the state allows.
    fn turn(&mut self, random: &mut Random, counts: &mut Counts) {
        let running = self.phase() == Phase::Running;
        let usual =
            if running { *random.pick(&[2, 2, 2, 3, 4, 5, 6]) } else { *random.pick(&[0, 1, 1, 5, 6, 7, 8, 9]) };
        let name = match if random.below(6) == 0 { random.below(10) } else { usual } {
            0 => self.ask(random),
            1 => self.start(random),
            2 => self.advance(),
            3 => self.advances(),
            4 => self.cancel(),
            5 => self.current(),
            6 => self.confirm(random),
            7 => self.outside(random),
            8 => self.count(random),
            _ => self.load(random),
        };
        counts.add(name);
        self.same();
    }

    fn phase(&self) -> Phase {
        Record::of(&self.record).expect("a record").phase
    }

    /// What the reference's call leaves is kept.
    fn keep(&mut self, done: Done) -> Answer {
        self.record = done.record;
        done.answer
    }

    /// The three records.
    fn same(&self) {
        assert!(self.panel.session().as_bytes()[..] == self.record[..], "the panel's record");
        assert!(self.plain.as_bytes()[..] == self.record[..], "the plain session's record");
        let record = Record::of(&self.record).expect("a record");
        let session = self.panel.session();
        assert!(session.roots().eq(record.roots.iter().copied()), "the roots of the parts");
        let listed = record.nodes.iter().copied().zip(record.labels.iter().copied());
        assert!(session.changes().eq(listed), "the changes as listed");
        let handled = record.roots.iter().copied().zip(record.states.iter().copied());
        assert!(session.handled().map(|part| (part.root, part.state)).eq(handled), "the parts handled");
    }

    fn ask(&mut self, random: &mut Random) -> String {
        let list = self.list(random);
        let (nodes, labels): (Vec<u16>, Vec<u8>) = list.iter().copied().unzip();
        trace::say(format!("ask {:?}", list));
        let got = self.panel.ask(&list).map(told).map_err(Refusal::number);
        let plain = self.plain_question(&nodes, &labels).map(told).map_err(Refusal::number);
        let want = match self.keep(session::call(&self.record, &Call::Start(self.given.inputs(), &nodes, &labels))) {
            Answer::Refused(number) => Err(number),
            _ => {
                while self.keep(session::call(&self.record, &Call::Advance(self.given.inputs()))) == Answer::More {}
                self.read()
            }
        };
        assert_eq!(plain, want, "the plain session's answer");
        assert_eq!(got, want, "the panel's answer");
        outcome("ask", got.map(|_| ()))
    }

    fn plain_question(&mut self, nodes: &[u16], labels: &[u8]) -> Result<whatif::Answer, Refusal> {
        let lent = self.given.lent();
        self.plain.start(&lent, nodes, labels)?;
        while self.plain.advance(&lent)? == Progress::More {}
        self.plain.read()
    }

    fn start(&mut self, random: &mut Random) -> String {
        let list = self.list(random);
        let (nodes, labels): (Vec<u16>, Vec<u8>) = list.iter().copied().unzip();
        trace::say(format!("start {:?}", list));
        let got = self.panel.start(&list).map_err(Refusal::number);
        let plain = self.plain.start(&self.given.lent(), &nodes, &labels).map_err(Refusal::number);
        let want = match self.keep(session::call(&self.record, &Call::Start(self.given.inputs(), &nodes, &labels))) {
            Answer::Parts(parts) => Ok(parts),
            Answer::Refused(number) => Err(number),
            other => panic!("a Start answered {:?}", other),
        };
        assert_eq!((got, plain), (want, want), "the answer of the start");
        outcome("start", got.map(|_| ()))
    }

    /// By the plain session and by the reference.
    fn plain_advance(&mut self) -> Result<Progress, u32> {
        let plain = self.plain.advance(&self.given.lent()).map_err(Refusal::number);
        let want = match self.keep(session::call(&self.record, &Call::Advance(self.given.inputs()))) {
            Answer::More => Ok(Progress::More),
            Answer::Finished => Ok(Progress::Finished),
            Answer::Refused(number) => Err(number),
            other => panic!("an advance answered {:?}", other),
        };
        assert_eq!(plain, want, "the plain session's advance");
        want
    }

    fn advance(&mut self) -> String {
        trace::say("advance".into());
        let got = self.panel.advance().map_err(Refusal::number);
        assert_eq!(got, self.plain_advance(), "the answer of the advance");
        outcome("advance", got.map(|_| ()))
    }

    /// All that are left, by the iterator, each as the reference's advance has it.
    fn advances(&mut self) -> String {
        trace::say("advances".into());
        let parts: Vec<_> = self.panel.advances().take(300).map(|part| part.map_err(Refusal::number)).collect();
        for part in &parts {
            let advanced = self.plain_advance();
            let record = Record::of(&self.record).expect("a record");
            let handled = record.states.len();
            let want = advanced.map(|_| Part {
                number: handled as u32,
                of: record.roots.len() as u32,
                root: record.roots[handled - 1],
                state: record.states[handled - 1],
            });
            assert_eq!(*part, want, "the part of an advance");
        }
        assert_ne!(self.phase(), Phase::Running, "the iterator goes on to the end");
        let last = parts.last().copied().expect("one at least");
        outcome("advances", last.map(|_| ()))
    }

    fn cancel(&mut self) -> String {
        trace::say("cancel".into());
        let got = (self.panel.cancel(), self.plain.cancel());
        let want = match self.keep(session::call(&self.record, &Call::Cancel)) {
            Answer::Refused(number) => Err(number),
            _ => Ok(()),
        };
        assert_eq!((got.0.map_err(Refusal::number), got.1.map_err(Refusal::number)), (want, want), "the cancel");
        outcome("cancel", want)
    }

    fn read(&self) -> Result<Outcome, u32> {
        match session::call(&self.record, &Call::Read).answer {
            Answer::Outcome(told) => Ok(told),
            Answer::Refused(number) => Err(number),
            other => panic!("a Read answered {:?}", other),
        }
    }

    /// `current` has an answer in the state answered alone, `last` what a Read has.
    fn current(&self) -> String {
        let last = self.read();
        let current = if self.phase() == Phase::Answered { last } else { Err(1) };
        let got = [self.panel.current(), self.plain.current()].map(|answer| answer.map(told).map_err(Refusal::number));
        assert_eq!(got, [current, current], "the current answer");
        assert_eq!(self.panel.last().map(told).map_err(Refusal::number), last, "the last answer");
        format!("{}, last {}", outcome("current", current.map(|_| ())), last.is_ok())
    }

    /// The list that was asked, or another one.
    fn confirm(&self, random: &mut Random) -> String {
        let record = Record::of(&self.record).expect("a record");
        let own: Vec<Change> = record.nodes.iter().copied().zip(record.labels.iter().copied()).collect();
        let list = if random.below(3) > 0 { own.clone() } else { self.list(random) };
        let (nodes, labels): (Vec<u16>, Vec<u8>) = list.iter().copied().unzip();
        trace::say(format!("confirm {:?}", list));
        let fresh = reference::fresh::fresh_run(&self.given.case.plan, &self.given.case.rules, &nodes, &labels);
        let refused = |number: u32| Unconfirmed::Refused(Refusal::from_number(number).expect("not 0"));
        let want = match (self.phase(), fresh) {
            (Phase::Answered, Ok(_)) if list != own => Err(Unconfirmed::OtherList),
            (Phase::Answered, Ok(fresh)) if fresh.yes => Ok(()),
            (Phase::Answered, Ok(fresh)) => Err(Unconfirmed::NotCleared(Verdict { state: fresh.state, yes: false })),
            (Phase::Answered, Err(number)) => Err(refused(number)),
            _ => Err(refused(1)),
        };
        assert_eq!(self.panel.confirm(&list), want, "what is confirmed");
        assert_eq!(self.plain.confirm(&self.given.lent(), &nodes, &labels), want, "what the plain session confirms");
        match want {
            Err(Unconfirmed::Refused(refusal)) => format!("confirm refused {}", refusal.number()),
            Err(Unconfirmed::NotCleared(_)) => "confirm: not cleared".into(),
            other => format!("confirm: {:?}", other),
        }
    }

    /// A fresh run, the changed plan and a node of it.
    fn outside(&self, random: &mut Random) -> String {
        let list = self.list(random);
        let (nodes, labels): (Vec<u16>, Vec<u8>) = list.iter().copied().unzip();
        trace::say(format!("outside the session, {:?}", list));
        let (plan, rules) =
            (read_plan(&self.given.case.plan).expect("a plan"), read_rules(&self.given.case.rules).expect("rules"));
        let want = reference::fresh::fresh_run(&self.given.case.plan, &self.given.case.rules, &nodes, &labels);
        let got = self.panel.fresh_run(&list).map_err(Refusal::number);
        assert_eq!(got.map(|told| (told.state, told.yes)), want.map(|told| (told.state, told.yes)), "the fresh run");
        let checked = check_list(&nodes, &labels, plan.nodes(), rules.labels);
        let then = checked.map(|()| changed(plan.labels, &nodes, &labels));
        let got = self.panel.changed_plan(&list);
        assert_eq!(got.as_ref().map(|plan| plan.labels().to_vec()).map_err(|refusal| refusal.number()), then);
        assert!(got.map_or(true, |changed| changed.kinds().eq(self.panel.plan().kinds())), "the kinds stay");
        self.a_node(random.below(plan.nodes()));
        outcome("fresh run", want.map(|_| ()))
    }

    fn a_node(&self, v: usize) {
        let plan = read_plan(&self.given.case.plan).expect("a plan");
        let (tree, states) =
            (Tree::of(&plan), run(plan.kinds, plan.labels, &read_rules(&self.given.case.rules).expect("rules")));
        let node = self.panel.node(v as u16).expect("a node of the plan");
        let got = [node.parent, node.jump, node.depth, node.size].map(usize::from);
        assert_eq!(got, [tree.parent[v], tree.jump[v], tree.depth[v], tree.size[v]], "node {}", v);
        let children = self.panel.plan().children()[v].map(|(left, right)| (left.into(), right.into()));
        assert_eq!((node.label, node.state, children), (plan.labels[v], states[v], tree.children[v]), "node {}", v);
        let inner = node.kind == whatif::Kind::Inner;
        assert_eq!(inner, tree.children[v].is_some(), "the kind of node {}", v);
    }

    fn count(&self, random: &mut Random) -> String {
        let (mut nodes, _) = self.given.case.list(*random.pick(&[0, 1, 2, 3, 10, 64]), random);
        if random.below(6) == 0 {
            nodes.push(*random.pick(&[0, self.given.case.n as u16, u16::MAX]));
        }
        trace::say(format!("count {:?}", nodes));
        let got = self.panel.count(&nodes);
        match reference::count::count(&self.given.inputs(), &nodes) {
            Said::Refused(number) => {
                assert_eq!(got.map_err(Refusal::number), Err(number), "the count");
                format!("count refused {}", number)
            }
            Said::Answered(want) => {
                let got = got.expect("accepted");
                let rules = read_rules(&self.given.case.rules).expect("rules");
                let clearing = want.counts.iter().enumerate().filter(|&(state, _)| rules.accepts(state as u8));
                assert_eq!(got.by_state(), want.counts, "the counts");
                assert_eq!(got.clearing(), clearing.map(|(_, count)| count).sum::<u64>(), "those that clear the plan");
                assert_eq!((got.parts as usize, got.links as usize), (want.parts, want.links), "parts and links");
                "count".into()
            }
            Said::Left => panic!("tables as built are settled"),
        }
    }

    /// Another plan, refused while a question is running, and with 10 where the rules have too few labels.
    fn load(&mut self, random: &mut Random) -> String {
        let mut other = Case::random(20, random);
        if random.below(4) == 0 {
            let at = 12 + random.below(other.n);
            other.plan[at] = random.between(other.k, 255) as u8;
        }
        trace::say("load".into());
        let (plan, rules) = checked(&other);
        let got = self.panel.load(plan, rules).map_err(Refusal::number);
        let want = self.load_plain(&other);
        assert_eq!(got, want, "the answer of the load");
        if want.is_ok() {
            self.given = Given::new(other);
        }
        let (lent, own) = (self.panel.lent(), self.given.lent());
        assert!((lent.plan, lent.rules) == (own.plan, own.rules), "the plan and the rules that are loaded");
        assert!(lent == own, "the panel's tables");
        outcome("load", want)
    }

    /// By the plain session and by the reference, into buffers that hold anything.
    fn load_plain(&mut self, case: &Case) -> Result<(), u32> {
        let (mut nodes, mut states) = (vec![7; case.node_table_len()], vec![7; case.state_table_len()]);
        let got = self.plain.load(&case.plan, &case.rules, &mut nodes, &mut states).map_err(Refusal::number);
        let inputs = Inputs { plan: &case.plan, rules: &case.rules, node_table: &nodes, state_table: &states };
        let want = match self.keep(session::call(&self.record, &Call::Load(inputs))) {
            Answer::Refused(number) => Err(number),
            _ => Ok(()),
        };
        assert_eq!(got, want, "the plain session's load");
        want
    }

    /// At most 64 changes; now and then with nodes listed again, or with one or two faults of 12 to 14.
    fn list(&self, random: &mut Random) -> Vec<Change> {
        let (mut nodes, mut labels) = self.given.case.list(*random.pick(&[0, 1, 2, 3, 5, 9, 64]), random);
        if random.below(3) == 0 {
            repeat_nodes(&mut nodes, &mut labels, self.given.case.k, random);
        }
        if random.below(5) == 0 && !nodes.is_empty() {
            for &check in any_two(&[12, 13, 14], random).iter().rev() {
                lay_on_list(check, &mut nodes, &mut labels, (self.given.case.n, self.given.case.k), random);
            }
        }
        // pairs can't differ in length: what is too long for 12 stays so
        nodes.into_iter().zip(labels).collect()
    }
}

fn told(answer: whatif::Answer) -> Outcome {
    let whatif::Answer { state, yes, parts, links, passed } = answer;
    Outcome { state: state.into(), yes, parts, links, passed }
}

fn outcome(call: &str, answer: Result<(), u32>) -> String {
    answer.map_or_else(|number| format!("{} refused {}", call, number), |()| format!("{} accepted", call))
}

fn checked(case: &Case) -> (Plan, Rules) {
    let plan = Plan::from_bytes(&case.plan[..]).expect("a plan");
    (plan, Rules::from_bytes(&case.rules[..]).expect("rules"))
}
