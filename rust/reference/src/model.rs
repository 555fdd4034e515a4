//! The reference model, document 01's panel book. It "is fed the calls with their lists of changes and what the panel lends beside the
//! record, never the record, and an answer only where a line below says so": a settled answer is there before the
//! program's is known.
//!
//! "Nothing about Start is left to the program": it is accepted on sound inputs alone. What advances leave to it, "save
//! what Parts of a question and the closing words on 18 below settle": where plan, rules and node table are as at Start,
//! a question is `ByRule` while the bytes lent with each accepted advance are below S. The rule settles it then, and never
//! with 18. Elsewhere 18 is allowed where what is lent gives a cause for it.
//!
//! "The session record, and the panel book of demand 3 with it, gains the last finished answer": the reference model keeps the
//! finished question, whole, so that "whether its question was clean at its finish" is kept with it.

use crate::causes;
use crate::formats::{read_plan, read_rules};
use crate::fresh::{changed, check_list, fresh_run};
use crate::panel::{Answer, Call, Inputs, Outcome, Phase, Sizes};
use crate::parts::{totals, Given, Part};
use crate::ready::by_marks;
use crate::session::named;
use crate::tables::rule_tables;
use crate::tree::Tree;
use std::rc::Rc;

/// "It starts empty and holds the session's state, N, S and K of the last accepted Load, and of the question its list,
/// what its Start lent, a count, and whether it is clean"; and the last finished question.
#[derive(Clone)]
pub struct Reference {
    phase: Phase,
    sizes: Sizes,
    /// The question that is running.
    question: Option<Question>,
    last: Option<Question>,
}

#[derive(Clone, Copy, Debug, PartialEq, Eq)]
pub enum Settlement {
    /// "sound at Start and left alone, every accepted advance lent the same, excess aside"
    Clean,
    ByRule,
    ByProgram,
}

/// What a Start gave, without excess; it is sound. Of its plan the tree, the labels as changed, and the roots of the
/// parts.
struct Start {
    nodes: Vec<u16>,
    labels: Vec<u8>,
    plan: Vec<u8>,
    rules: Vec<u8>,
    node_table: Vec<u16>,
    state_table: Vec<u8>,
    tree: Tree,
    changed: Vec<u8>,
    roots: Vec<usize>,
}

#[derive(Clone)]
struct Question {
    start: Rc<Start>,
    count: usize,
    settlement: Settlement,
    /// The parts by the rule, while the question is clean or firm.
    parts: Vec<Part>,
}

/// The reference model's reply to a call.
pub enum Reply {
    /// The answer, and the reference model then.
    Settled(Answer, Reference),
    /// Left to the program: the reference model after its answer; none where that answer is not allowed.
    Unsettled(Box<dyn Fn(Answer) -> Option<Reference>>),
}

impl Default for Reference {
    fn default() -> Reference {
        Reference { phase: Phase::Empty, sizes: Sizes::NONE, question: None, last: None }
    }
}

impl Reference {
    pub fn phase(&self) -> Phase {
        self.phase
    }

    pub fn sizes(&self) -> Sizes {
        self.sizes
    }

    /// How the question stands, if there is one: the running one, or, in answered, the one that is answered.
    pub fn settlement(&self) -> Option<Settlement> {
        let answered = self.last.as_ref().filter(|_| self.phase == Phase::Answered);
        self.question.as_ref().or(answered).map(|question| question.settlement)
    }

    /// How the last finished question stood at its finish, if there is one.
    pub fn last_settlement(&self) -> Option<Settlement> {
        self.last.as_ref().map(|question| question.settlement)
    }

    pub fn reply(&self, call: &Call) -> Reply {
        if let Err(number) = self.first_no(call) {
            return Reply::Settled(Answer::Refused(number), self.clone());
        }
        match *call {
            Call::Load(inputs) => Reply::Settled(Answer::Accepted, Reference::loaded(named(&inputs), None)),
            Call::Cancel => Reply::Settled(Answer::Accepted, Reference::loaded(self.sizes, self.last.clone())),
            Call::Start(inputs, nodes, labels) => self.start(inputs, nodes, labels),
            Call::Advance(inputs) => self.advance(&inputs),
            Call::Read => self.read(),
        }
    }

    /// "One of the next section's checks, 18 apart, says no: the first such number; the book stays." Start's 18 is one
    /// of them, and comes last: `start`.
    fn first_no(&self, call: &Call) -> Result<(), u32> {
        self.phase.allows(call, self.last.is_some())?;
        match *call {
            Call::Load(inputs) => {
                crate::build_checks(inputs.plan, inputs.rules, inputs.node_table.len(), inputs.state_table.len())
            }
            Call::Start(inputs, nodes, labels) => {
                self.sizes.fit(&inputs)?;
                check_list(nodes, labels, self.sizes.n, self.sizes.k)
            }
            Call::Advance(inputs) => self.sizes.fit(&inputs),
            Call::Cancel | Call::Read => Ok(()),
        }
    }

    /// "Load, Cancel: loaded, no question." The finished one is "emptied by an accepted Load".
    fn loaded(sizes: Sizes, last: Option<Question>) -> Reference {
        Reference { phase: Phase::Loaded, sizes, question: None, last }
    }

    fn running(&self, question: Question) -> Reference {
        Reference { phase: Phase::Running, sizes: self.sizes, question: Some(question), last: self.last.clone() }
    }

    /// "Filled by the advance that finishes", whatever was there.
    fn answered(&self, question: Question) -> Reference {
        Reference { phase: Phase::Answered, sizes: self.sizes, question: None, last: Some(question) }
    }

    /// "Start: running, count 0, clean if sound; clean, it tells the number of parts." 18 exactly where it is not sound.
    fn start(&self, inputs: Inputs, nodes: &[u16], labels: &[u8]) -> Reply {
        let start = match Start::new(self.sizes, &inputs, nodes, labels) {
            Some(start) => start,
            None => return Reply::Settled(Answer::Refused(18), self.clone()),
        };
        let parts = start.roots.len() as u32;
        let question = Question { start: Rc::new(start), count: 0, settlement: Settlement::Clean, parts: vec![] };
        Reply::Settled(Answer::Parts(parts), self.running(question))
    }

    fn advance(&self, inputs: &Inputs) -> Reply {
        let question = self.question.as_ref().expect("running");
        let (same, usable) = (question.start.same(inputs), question.start.usable(self.sizes, inputs));
        let settlement = match question.settlement {
            Settlement::Clean if same => Settlement::Clean,
            Settlement::Clean | Settlement::ByRule if usable => Settlement::ByRule,
            _ => return self.advance_left(question, inputs, usable),
        };
        // "the count rises by one. At the number of parts it tells finished and the state is answered; until then it
        // tells more."
        let mut question = question.clone();
        question.count += 1;
        question.settlement = settlement;
        let roots = &question.start.roots;
        let (v, last) = (roots[question.parts.len()], question.count == roots.len());
        let part = question.start.on(inputs.state_table, |given| given.part(roots, &question.parts, v));
        question.parts.push(part);
        if last {
            Reply::Settled(Answer::Finished, self.answered(question))
        } else {
            Reply::Settled(Answer::More, self.running(question))
        }
    }

    /// "18 leaves the book as it is; an accepted advance makes the question unclean, and its more or finished gives the
    /// state." No 18 without a cause, nor where the tables lent are usable.
    fn advance_left(&self, question: &Question, inputs: &Inputs, usable: bool) -> Reply {
        let after = Question {
            settlement: Settlement::ByProgram,
            count: question.count + 1,
            parts: vec![],
            ..question.clone()
        };
        let (more, finished) = (self.running(after.clone()), self.answered(after));
        let start = &question.start;
        let caused = !usable && causes::anywhere(self.sizes, inputs, &start.nodes, &start.labels);
        let as_is = self.clone();
        Reply::Unsettled(Box::new(move |answer| match answer {
            Answer::Refused(18) if caused => Some(as_is.clone()),
            Answer::More => Some(more.clone()),
            Answer::Finished => Some(finished.clone()),
            _ => None,
        }))
    }

    /// "If so, Read tells in every state what 01 has for that question, whatever was started or cancelled since; if not,
    /// what Read tells is left to the program as far as 01 leaves it."
    fn read(&self) -> Reply {
        let question = self.last.as_ref().expect("finished");
        let told = match question.settlement {
            Settlement::Clean => question.start.fresh_answer(),
            Settlement::ByRule => question.start.rule_answer(&question.parts),
            Settlement::ByProgram => {
                let as_is = self.clone();
                let told = move |answer| if let Answer::Outcome(_) = answer { Some(as_is.clone()) } else { None };
                return Reply::Unsettled(Box::new(told));
            }
        };
        Reply::Settled(Answer::Outcome(told), self.clone())
    }
}

/// "A listed node whose label equals the plan's is left out of W .., after superseding": by the labels before and after.
fn left(before: &[u8], after: &[u8], nodes: &[u16]) -> Vec<u16> {
    let differs = |&&v: &&u16| before[v as usize] != after[v as usize];
    nodes.iter().filter(|v| differs(v)).copied().collect()
}

impl Start {
    /// Inputs that fit; none where they are not sound. "Sound means that plan and rules pass 2 to 10 with that N, S and K
    /// and the tables, excess aside, are what Load writes from them." Nothing asks whether it is the plan of the Load.
    fn new(sizes: Sizes, inputs: &Inputs, nodes: &[u16], labels: &[u8]) -> Option<Start> {
        let node_table = inputs.node_table[..4 * sizes.n].to_vec();
        let state_table = inputs.state_table[..(sizes.s + 1) * sizes.n].to_vec();
        crate::build_checks(inputs.plan, inputs.rules, usize::MAX, usize::MAX).ok()?;
        let (plan, rules) = (read_plan(inputs.plan).unwrap(), read_rules(inputs.rules).unwrap());
        let written = rule_tables(&plan, &rules);
        if named(inputs) != sizes || node_table != written.node_table || state_table != written.state_table {
            return None;
        }
        let tree = Tree::of(&plan);
        let changed = changed(plan.labels, nodes, labels);
        let roots = by_marks(&tree, &left(plan.labels, &changed, nodes));
        let (nodes, labels) = (nodes.to_vec(), labels.to_vec());
        let (plan, rules) = (inputs.plan.to_vec(), inputs.rules.to_vec());
        Some(Start { nodes, labels, plan, rules, node_table, state_table, tree, changed, roots })
    }

    fn same_but_states(&self, inputs: &Inputs) -> bool {
        inputs.plan == self.plan && inputs.rules == self.rules && inputs.node_table.starts_with(&self.node_table)
    }

    /// "lent the same, excess aside"
    fn same(&self, inputs: &Inputs) -> bool {
        self.same_but_states(inputs) && inputs.state_table.starts_with(&self.state_table)
    }

    /// "Where plan and rules name the record's N, S and K and, like the 16-bit numbers, are as at Start and as built,
    /// but run states and maps are any bytes below S": what Start was given is as built.
    fn usable(&self, sizes: Sizes, inputs: &Inputs) -> bool {
        let used = &inputs.state_table[..self.state_table.len()];
        self.same_but_states(inputs) && used.iter().all(|&q| (q as usize) < sizes.s)
    }

    /// The rule on Start's plan and rules and some bytes.
    fn on<T>(&self, state_table: &[u8], f: impl FnOnce(&Given) -> T) -> T {
        let (plan, rules) = (read_plan(&self.plan).unwrap(), read_rules(&self.rules).unwrap());
        f(&Given { tree: &self.tree, labels: plan.labels, changed: &self.changed, rules: &rules, state_table })
    }

    /// "the root state, and its yes or no, of a fresh run (.. on Start's plan with the listed labels changed), the
    /// parts, and as links the moves of its parts' climbs", and the nodes that these pass over
    fn fresh_answer(&self) -> Outcome {
        let fresh = fresh_run(&self.plan, &self.rules, &self.nodes, &self.labels).expect("sound");
        let roots = &self.roots;
        let (links, passed) = totals(&self.on(&self.state_table, |given| given.parts(roots)));
        Outcome { state: fresh.state as u32, yes: fresh.yes, parts: roots.len() as u32, links, passed }
    }

    /// What the rule gave on the bytes that were lent.
    fn rule_answer(&self, parts: &[Part]) -> Outcome {
        let rules = read_rules(&self.rules).expect("firm");
        let state = parts[parts.len() - 1].state;
        let (links, passed) = totals(parts);
        Outcome { state: state as u32, yes: rules.accepts(state), parts: parts.len() as u32, links, passed }
    }
}
