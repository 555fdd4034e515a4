//! The five calls of the panel session, on the record's bytes.

use crate::formats::{number, read_plan};
use crate::fresh::check_list;
use crate::lent::View;
use crate::lists::differing;
use crate::panel::{Answer, Call, Inputs, Phase, Sizes};
use crate::ready;
use crate::record::Record;
use crate::tables::Tables;
use crate::tree::Tree;
use crate::{build, check};

/// What a call leaves: the answer, the record's bytes, and the tables that an accepted Load writes.
pub struct Done {
    pub answer: Answer,
    pub record: Vec<u8>,
    pub tables: Option<Tables>,
}

/// "The first no gives its number; nothing else is returned and nothing is altered." Bytes that break the record's
/// layout get 1.
pub fn call(bytes: &[u8], call: &Call) -> Done {
    let record = match Record::of(bytes) {
        Some(record) => record,
        None => return refused(bytes, 1),
    };
    match record.after(call) {
        Ok((answer, record, tables)) => Done { answer, record: record.bytes(), tables },
        Err(number) => refused(bytes, number),
    }
}

fn refused(bytes: &[u8], number: u32) -> Done {
    Done { answer: Answer::Refused(number), record: bytes.to_vec(), tables: None }
}

type After = (Answer, Record, Option<Tables>);

impl Record {
    fn after(self, call: &Call) -> Result<After, u32> {
        self.phase.allows(call, self.last.is_some())?;
        match *call {
            Call::Load(inputs) => self.load(inputs),
            Call::Start(inputs, nodes, labels) => self.start(inputs, nodes, labels),
            Call::Advance(inputs) => self.advance(inputs),
            Call::Cancel => Ok((Answer::Accepted, Record::loaded_with(self.sizes, self.last), None)),
            Call::Read => Ok((Answer::Outcome(self.last.expect("it is there")), self, None)),
        }
    }

    /// 2 to 11. "Emptied by an accepted Load."
    fn load(self, inputs: Inputs) -> Result<After, u32> {
        let tables = build(inputs.plan, inputs.rules, inputs.node_table.len(), inputs.state_table.len())?;
        Ok((Answer::Accepted, Record::loaded(named(&inputs)), Some(tables)))
    }

    /// 17, 12 to 14, 18. It tells the number of parts; of earlier questions the last finished answer alone stays. The list is
    /// kept whole; the roots are those of the nodes that change.
    fn start(self, inputs: Inputs, nodes: &[u16], labels: &[u8]) -> Result<After, u32> {
        self.sizes.fit(&inputs)?;
        check_list(nodes, labels, self.sizes.n, self.sizes.k)?;
        if !sound(self.sizes, &inputs) {
            return Err(18);
        }
        let left = differing(&inputs.plan[12..12 + self.sizes.n], nodes, labels);
        let roots = ready::roots(&Tree::of(&read_plan(inputs.plan)?), &left);
        let answer = Answer::Parts(roots.len() as u32);
        let record = Record {
            phase: Phase::Running,
            nodes: nodes.to_vec(),
            labels: labels.to_vec(),
            roots: roots.iter().map(|&v| v as u16).collect(),
            ..Record::loaded_with(self.sizes, self.last)
        };
        Ok((answer, record, None))
    }

    /// 17, 18. One more state, its links and the nodes passed over. "Filled by the advance that finishes."
    fn advance(mut self, inputs: Inputs) -> Result<After, u32> {
        self.sizes.fit(&inputs)?;
        let view = View::new(self.sizes, &inputs);
        let handled: Vec<(usize, u8)> = self.roots.iter().map(|&v| v as usize).zip(self.states.clone()).collect();
        let v = self.roots[handled.len()] as usize;
        let part = view.part(&handled, &self.nodes, &self.labels, v)?;
        self.states.push(part.state);
        self.links += part.links as u32;
        self.passed += part.passed as u32;
        if self.states.len() < self.roots.len() {
            return Ok((Answer::More, self, None));
        }
        self.phase = Phase::Answered;
        self.yes = view.accepts(part.state);
        self.last = self.answer();
        Ok((Answer::Finished, self, None))
    }
}

/// "Start shall make the full check of what is lent", with the record's N, S and K. Nothing asks whether it is the plan
/// of the Load.
fn sound(sizes: Sizes, inputs: &Inputs) -> bool {
    named(inputs) == sizes && check(inputs.plan, inputs.rules, inputs.node_table, inputs.state_table) == Ok(true)
}

/// N, S and K as the headers name them.
pub fn named(inputs: &Inputs) -> Sizes {
    let [n, s, k] = [number(inputs.plan, 0), number(inputs.rules, 0), number(inputs.rules, 4)];
    Sizes { n: n as usize, s: s as usize, k: k as usize }
}
