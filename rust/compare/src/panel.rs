//! A panel at work: a record that passes from call to call, with the reference model beside it, and what is lent.

use crate::built::Built;
use crate::calls::Kind;
use crate::inputs::Case;
use crate::random::Random;
use crate::sides;
use crate::trace;
use reference::model::{Reference, Reply};
use reference::panel::{Answer, Call, Inputs, Outcome};
use reference::record::Record;

/// Plan, rule table, node table and state table.
#[derive(Clone)]
pub struct Lent {
    pub plan: Vec<u8>,
    pub rules: Vec<u8>,
    pub node_table: Vec<u16>,
    pub state_table: Vec<u8>,
}

impl Lent {
    /// With the tables that Load writes.
    pub fn built(case: &Case, random: &mut Random) -> Lent {
        let built = Built::new(Kind::Rules, case.clone(), random);
        Lent {
            plan: case.plan.clone(),
            rules: case.rules.clone(),
            node_table: built.node_table,
            state_table: built.state_table,
        }
    }

    pub fn inputs(&self) -> Inputs<'_> {
        Inputs { plan: &self.plan, rules: &self.rules, node_table: &self.node_table, state_table: &self.state_table }
    }
}

#[derive(Clone)]
pub struct Panel {
    pub record: Vec<u8>,
    pub model: Reference,
    /// How many answers the reference model settled, and how many it left to the program.
    pub settled: usize,
    pub left: usize,
}

impl Default for Panel {
    /// "It starts empty": the fresh record is all zero.
    fn default() -> Panel {
        let record = Record::fresh().bytes();
        assert!(record.iter().all(|&byte| byte == 0));
        Panel { record, model: Reference::default(), settled: 0, left: 0 }
    }
}

impl Panel {
    /// Loaded with a case.
    pub fn loaded(lent: &Lent, random: &mut Random) -> Panel {
        let mut panel = Panel::default();
        assert_eq!(panel.call(&Call::Load(lent.inputs()), random), Answer::Accepted);
        panel
    }

    /// A call, held to the reference implementation and to the reference model.
    pub fn call(&mut self, call: &Call, random: &mut Random) -> Answer {
        trace::say(told(call));
        let reply = self.model.reply(call);
        let done = sides::call(&self.record, call, random);
        self.record = done.record;
        self.model = match reply {
            Reply::Settled(answer, model) => {
                self.settled += 1;
                assert_eq!(done.answer, answer, "settled by the reference model");
                model
            }
            Reply::Unsettled(after) => {
                self.left += 1;
                after(done.answer).unwrap_or_else(|| panic!("the reference model does not allow {:?}", done.answer))
            }
        };
        done.answer
    }

    pub fn start(&mut self, lent: &Lent, nodes: &[u16], labels: &[u8], random: &mut Random) -> Answer {
        self.call(&Call::Start(lent.inputs(), nodes, labels), random)
    }

    pub fn advance(&mut self, lent: &Lent, random: &mut Random) -> Answer {
        self.call(&Call::Advance(lent.inputs()), random)
    }

    /// Advances to the end. How many they were, and what Read tells.
    pub fn finish(&mut self, lent: &Lent, random: &mut Random) -> (u32, Outcome) {
        let mut advances = 1;
        loop {
            match self.advance(lent, random) {
                Answer::More => advances += 1,
                Answer::Finished => break,
                other => panic!("an advance answered {:?}", other),
            }
        }
        match self.call(&Call::Read, random) {
            Answer::Outcome(told) => (advances, told),
            other => panic!("the Read answered {:?}", other),
        }
    }

    /// What the record's bytes say.
    pub fn says(&self) -> Record {
        Record::of(&self.record).expect("a valid record")
    }
}

/// A call in short.
pub fn told(call: &Call) -> String {
    match call {
        Call::Load(_) => "Load".to_string(),
        Call::Start(_, nodes, labels) => format!("Start, nodes {:?}, labels {:?}", nodes, labels),
        Call::Advance(_) => "advance".to_string(),
        Call::Cancel => "Cancel".to_string(),
        Call::Read => "Read".to_string(),
    }
}
