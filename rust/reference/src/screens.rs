//! Eight screens on one mill (document 02, S-8): the five calls on a run of eight records, and eight reference models beside
//! it. Each is eight of what a single session has, and what the document says of who is meant, who is served and which
//! number is told.

use crate::model::{self, Reference};
use crate::panel::{Answer, Call, Inputs, Phase};
use crate::record::{Record, RECORD_BYTES};
use crate::session;
use crate::tables::Tables;
use std::rc::Rc;

/// "numbered 0 to 7"
pub const SCREENS: usize = 8;
/// "The sessions are handed in as a run of eight records."
pub const RUN_BYTES: usize = SCREENS * RECORD_BYTES;

/// "Start, Cancel and Read name a screen." A deal is handed the screen to try first.
#[derive(Clone, Copy)]
pub enum ScreenCall<'a> {
    Load(Inputs<'a>),
    Start(u32, Inputs<'a>, &'a [u16], &'a [u8]),
    Cancel(u32),
    Read(u32),
    Deal(u32, Inputs<'a>),
}

#[derive(Clone, Copy, Debug, PartialEq, Eq)]
pub enum ScreenAnswer {
    /// Of Start, Cancel and Read, and every refusal.
    One(Answer),
    /// An accepted Load: the screen to try first.
    Loaded(u32),
    /// "A deal tells that number and what the advance tells."
    Dealt(u32, Answer),
}

impl ScreenAnswer {
    pub const fn refused(number: u32) -> ScreenAnswer {
        ScreenAnswer::One(Answer::Refused(number))
    }

    /// The screen to try first, where it is told.
    pub fn number(self) -> Option<u32> {
        match self {
            ScreenAnswer::Loaded(number) | ScreenAnswer::Dealt(number, _) => Some(number),
            ScreenAnswer::One(_) => None,
        }
    }
}

/// What a call leaves: the answer, the run's bytes, and the tables that an accepted Load writes.
pub struct Done {
    pub answer: ScreenAnswer,
    pub run: Vec<u8>,
    pub tables: Option<Tables>,
}

/// Whose a call is.
#[derive(Clone, Copy, Debug, PartialEq, Eq)]
pub enum Whose {
    /// Refused, and nobody's.
    Nobody(u32),
    All,
    Screen(usize),
    /// A turn: the screen is served.
    Turn(usize),
}

/// "A screen number above 7, the one to try first included, or a run of another length, gives 25, before everything
/// else." Then 1: "Load is refused while any screen runs", "A deal with no screen running gives 1".
pub fn whose(
    call: &ScreenCall,
    right_length: bool,
    busy: impl Fn(usize) -> bool,
    runs: impl Fn(usize) -> bool,
) -> Whose {
    let named = match *call {
        ScreenCall::Load(_) => 0,
        ScreenCall::Start(number, ..) | ScreenCall::Cancel(number) | ScreenCall::Read(number) => number as usize,
        ScreenCall::Deal(number, _) => number as usize,
    };
    if !right_length || named >= SCREENS {
        return Whose::Nobody(25);
    }
    match *call {
        ScreenCall::Load(_) if (0..SCREENS).any(busy) => Whose::Nobody(1),
        ScreenCall::Load(_) => Whose::All,
        ScreenCall::Deal(..) => next(named, runs).map_or(Whose::Nobody(1), Whose::Turn),
        _ => Whose::Screen(named),
    }
}

/// "the next running screen .., going from 7 back to 0", the one to try first included
fn next(first: usize, runs: impl Fn(usize) -> bool) -> Option<usize> {
    (first..SCREENS).chain(0..first).find(|&i| runs(i))
}

/// "one past the screen served, 0 past 7"
fn after(served: usize) -> u32 {
    (served as u32 + 1) % 8
}

/// A call on the run's bytes.
pub fn call(run: &[u8], call: &ScreenCall) -> Done {
    let record = |i: usize| run.get(RECORD_BYTES * i..RECORD_BYTES * (i + 1)).unwrap_or(&[]);
    let is_running = |i: usize| record(i).first() == Some(&2);
    let whole = |i: usize| Record::of(record(i)).is_some();
    let busy = |i: usize| is_running(i) || !whole(i);
    match whose(call, run.len() == RUN_BYTES, busy, is_running) {
        Whose::Nobody(number) => refused(run, number),
        Whose::All => load_all(run, call),
        Whose::Screen(i) | Whose::Turn(i) => on_screen(run, i, record(i), call),
    }
}

fn refused(run: &[u8], number: u32) -> Done {
    Done { answer: ScreenAnswer::refused(number), run: run.to_vec(), tables: None }
}

/// "Load .. clears them all", each as a first Load leaves a session.
fn load_all(run: &[u8], call: &ScreenCall) -> Done {
    let inputs = match *call {
        ScreenCall::Load(inputs) => inputs,
        _ => unreachable!("a Load is for all"),
    };
    let one = session::call(&Record::fresh().bytes(), &Call::Load(inputs));
    if let Answer::Refused(number) = one.answer {
        return refused(run, number);
    }
    Done { answer: ScreenAnswer::Loaded(0), run: one.record.repeat(SCREENS), tables: one.tables }
}

/// The call of a single session on the record of a screen; the others stay.
fn on_screen(run: &[u8], i: usize, record: &[u8], call: &ScreenCall) -> Done {
    let one = session::call(record, &alone(call));
    let mut run = run.to_vec();
    run[RECORD_BYTES * i..RECORD_BYTES * (i + 1)].copy_from_slice(&one.record);
    Done { answer: told(call, i, one.answer), run, tables: None }
}

/// A deal that is accepted tells the number too.
fn told(call: &ScreenCall, served: usize, answer: Answer) -> ScreenAnswer {
    match (call, answer) {
        (ScreenCall::Deal(..), Answer::More | Answer::Finished) => ScreenAnswer::Dealt(after(served), answer),
        _ => ScreenAnswer::One(answer),
    }
}

/// The call as a single session has it: "its own calls and its turns as advances".
pub fn alone<'a>(call: &ScreenCall<'a>) -> Call<'a> {
    match *call {
        ScreenCall::Load(inputs) => Call::Load(inputs),
        ScreenCall::Start(_, inputs, nodes, labels) => Call::Start(inputs, nodes, labels),
        ScreenCall::Cancel(_) => Call::Cancel,
        ScreenCall::Read(_) => Call::Read,
        ScreenCall::Deal(_, inputs) => Call::Advance(inputs),
    }
}

/// "Each screen has a panel book of its own, fed with the accepted Loads, its own calls and its turns as advances."
/// They are fed the calls and what is lent, never the run.
#[derive(Clone)]
pub struct References {
    /// Eight.
    models: Vec<Reference>,
}

impl Default for References {
    fn default() -> References {
        References { models: vec![Reference::default(); SCREENS] }
    }
}

/// The reference models' reply to a call.
pub enum Reply {
    /// The answer, and the reference models then.
    Settled(ScreenAnswer, References),
    /// Left to the program: the reference models after its answer; none where that answer is not allowed.
    Unsettled(Box<dyn Fn(ScreenAnswer) -> Option<References>>),
}

impl References {
    pub fn of(&self, screen: usize) -> &Reference {
        &self.models[screen]
    }

    pub fn runs(&self, screen: usize) -> bool {
        self.models[screen].phase() == Phase::Running
    }

    /// Whose a call on a run of the right length is.
    pub fn whose(&self, call: &ScreenCall) -> Whose {
        whose(call, true, |i| self.runs(i), |i| self.runs(i))
    }

    pub fn reply(&self, call: &ScreenCall) -> Reply {
        match self.whose(call) {
            Whose::Nobody(number) => Reply::Settled(ScreenAnswer::refused(number), self.clone()),
            Whose::All => self.load(call),
            Whose::Screen(i) | Whose::Turn(i) => self.on_screen(i, call),
        }
    }

    /// "the accepted Loads": each model takes it; a refused one is nobody's.
    fn load(&self, call: &ScreenCall) -> Reply {
        let mut after = self.clone();
        for at in &mut after.models {
            match at.reply(&alone(call)) {
                model::Reply::Settled(Answer::Accepted, model) => *at = model,
                model::Reply::Settled(answer, _) => return Reply::Settled(ScreenAnswer::One(answer), self.clone()),
                model::Reply::Unsettled(_) => unreachable!("a Load is settled"),
            }
        }
        Reply::Settled(ScreenAnswer::Loaded(0), after)
    }

    fn on_screen(&self, i: usize, call: &ScreenCall) -> Reply {
        match self.models[i].reply(&alone(call)) {
            model::Reply::Settled(answer, model) => Reply::Settled(told(call, i, answer), self.with(i, model)),
            model::Reply::Unsettled(after) => {
                let (as_is, is_deal) = (Rc::new(self.clone()), matches!(call, ScreenCall::Deal(..)));
                Reply::Unsettled(Box::new(move |answer| {
                    let one = match answer {
                        ScreenAnswer::Dealt(number, answer) if is_deal && number == self::after(i) => answer,
                        ScreenAnswer::One(answer) if !is_deal || matches!(answer, Answer::Refused(_)) => answer,
                        _ => return None,
                    };
                    after(one).map(|model| as_is.with(i, model))
                }))
            }
        }
    }

    fn with(&self, i: usize, model: Reference) -> References {
        let mut models = self.clone();
        models.models[i] = model;
        models
    }
}
