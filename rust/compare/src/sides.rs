//! The session's calls, made by every side: the library and plain Rust. Everything lent is held to account, and each
//! answer and each record is compared with the reference implementation.
//!
//! What is written stands inside longer buffers: what is outside must stay. Out values start at random numbers, and
//! those that a call does not tell must stay, all of them on a refusal.

use crate::calls::same;
use crate::random::Random;
use reference::panel::{Answer, Call, Inputs, Outcome};
use reference::session::Done;
use reference::tables::Tables;

/// A call on a record, the buffers of a Load and the places of what is told, five of them. The answer's number.
type Side = fn(&Call, &mut [u8], &mut [u16], &mut [u8], &mut [u32; 5]) -> u32;

const SIDES: &[(&str, Side)] = &[("the library", library::call), ("plain Rust", by_yardstick)];

pub const MARGIN: usize = 9;

/// The answer of a call and the record after it, compared; and the tables that an accepted Load writes.
pub fn call(record: &[u8], call: &Call, random: &mut Random) -> Done {
    let done = reference::session::call(record, call);
    for &(name, side) in SIDES {
        compare(name, side, record, call, &done, random);
    }
    done
}

fn compare(name: &str, side: Side, record: &[u8], call: &Call, done: &Done, random: &mut Random) {
    let mut own = Margins::new(record, random.bytes(2 * MARGIN));
    let (mut node_table, mut state_table) = match call {
        Call::Load(inputs) => (
            Margins::new(inputs.node_table, random.numbers(2 * MARGIN)),
            Margins::new(inputs.state_table, random.bytes(2 * MARGIN)),
        ),
        _ => (Margins::new(&[], vec![]), Margins::new(&[], vec![])),
    };
    let unset = [0; 5].map(|_: u32| random.word() as u32 | 1 << 20);
    let mut out = unset;
    let before = lent(call).map(Copies::of);
    let number = side(call, own.lent(), node_table.lent(), state_table.lent(), &mut out);
    assert_eq!(answer(call, number, &out, &unset), done.answer, "{}: the answer", name);
    let what = |written: &str| format!("{}: the {}", name, written);
    own.is(&what("record"), &done.record);
    if let (Call::Load(_), Some(Tables { node_table: n, state_table: b })) = (call, &done.tables) {
        node_table.starts(&what("node table"), n);
        state_table.starts(&what("state table"), b);
    } else if let Call::Load(inputs) = call {
        node_table.is(&what("node table"), inputs.node_table);
        state_table.is(&what("state table"), inputs.state_table);
    }
    assert!(before.map_or(true, |before| before.are(call)), "{}: something lent was written", name);
}

/// What is lent with a call.
pub fn lent<'a>(call: &Call<'a>) -> Option<Inputs<'a>> {
    match *call {
        Call::Load(inputs) | Call::Start(inputs, ..) | Call::Advance(inputs) => Some(inputs),
        Call::Cancel | Call::Read => None,
    }
}

/// What was lent before a call, to see whether it stays.
pub struct Copies {
    plan: Vec<u8>,
    rules: Vec<u8>,
    node_table: Vec<u16>,
    state_table: Vec<u8>,
}

impl Copies {
    pub fn of(inputs: Inputs) -> Copies {
        let (plan, rules) = (inputs.plan.to_vec(), inputs.rules.to_vec());
        Copies { plan, rules, node_table: inputs.node_table.to_vec(), state_table: inputs.state_table.to_vec() }
    }

    /// What is lent is as it was.
    pub fn are(&self, call: &Call) -> bool {
        lent(call).map_or(true, |now| {
            now.plan == self.plan
                && now.rules == self.rules
                && now.node_table == self.node_table
                && now.state_table == self.state_table
        })
    }
}

/// What a number and the told values mean; the values that the call does not tell are as they were.
pub fn answer(call: &Call, number: u32, out: &[u32; 5], unset: &[u32; 5]) -> Answer {
    let told = match call {
        _ if number != 0 => 0,
        Call::Load(_) | Call::Cancel => 0,
        Call::Start(..) | Call::Advance(_) => 1,
        Call::Read => 5,
    };
    assert_eq!(out[told..], unset[told..], "answer {} told something", number);
    match call {
        _ if number != 0 => Answer::Refused(number),
        Call::Load(_) | Call::Cancel => Answer::Accepted,
        Call::Start(..) => Answer::Parts(out[0]),
        Call::Advance(_) => {
            assert!(out[0] <= 1, "the advance told {}", out[0]);
            [Answer::More, Answer::Finished][out[0] as usize]
        }
        Call::Read => {
            assert!(out[1] <= 1, "the Read told yes {}", out[1]);
            Answer::Outcome(Outcome { state: out[0], yes: out[1] == 1, parts: out[2], links: out[3], passed: out[4] })
        }
    }
}

/// A buffer that is lent, with something before and after it.
pub struct Margins<T> {
    all: Vec<T>,
    was: Vec<T>,
    around: usize,
}

impl<T: Copy + PartialEq + std::fmt::Debug> Margins<T> {
    pub fn new(inside: &[T], margins: Vec<T>) -> Margins<T> {
        let (before, after) = margins.split_at(margins.len() / 2);
        let all = [before, inside, after].concat();
        Margins { was: all.clone(), all, around: before.len() }
    }

    pub fn lent(&mut self) -> &mut [T] {
        let end = self.all.len() - self.around;
        &mut self.all[self.around..end]
    }

    /// It begins with this now, and nothing else changed.
    pub fn starts(&mut self, what: &str, with: &[T]) {
        self.was[self.around..self.around + with.len()].copy_from_slice(with);
        same(what, &self.all, &self.was);
    }

    /// It is this now.
    pub fn is(&mut self, what: &str, wanted: &[T]) {
        assert_eq!(wanted.len(), self.lent().len());
        self.starts(what, wanted);
    }
}

fn by_yardstick(
    call: &Call,
    record: &mut [u8],
    node_table: &mut [u16],
    state_table: &mut [u8],
    out: &mut [u32; 5],
) -> u32 {
    use yardstick::session;
    let done = match *call {
        Call::Load(inputs) => session::load(record, inputs.plan, inputs.rules, node_table, state_table),
        Call::Start(inputs, nodes, labels) => {
            let Inputs { plan, rules, node_table, state_table } = inputs;
            session::start(record, plan, rules, node_table, state_table, nodes, labels).map(|parts| out[0] = parts)
        }
        Call::Advance(Inputs { plan, rules, node_table, state_table }) => {
            session::advance(record, plan, rules, node_table, state_table).map(|finished| out[0] = finished as u32)
        }
        Call::Cancel => session::cancel(record),
        Call::Read => session::read(record)
            .map(|told| *out = [told.state as u32, told.yes as u32, told.parts, told.links, told.passed]),
    };
    done.err().unwrap_or(0)
}

mod library {
    use super::{Call, Inputs};
    use crate::slices;

    pub fn call(
        call: &Call,
        record: &mut [u8],
        node_table: &mut [u16],
        state_table: &mut [u8],
        out: &mut [u32; 5],
    ) -> u32 {
        match *call {
            Call::Load(Inputs { plan, rules, .. }) => slices::load(record, plan, rules, node_table, state_table),
            Call::Start(Inputs { plan, rules, node_table, state_table }, nodes, labels) => {
                slices::start(record, plan, rules, node_table, state_table, nodes, labels, &mut out[0])
            }
            Call::Advance(Inputs { plan, rules, node_table, state_table }) => {
                slices::advance(record, plan, rules, node_table, state_table, &mut out[0])
            }
            Call::Cancel => slices::cancel(record),
            Call::Read => slices::read(record, out),
        }
    }
}
