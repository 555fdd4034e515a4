//! The record of a question after each call: what a page steps through.
//!
//! Every call is made: Load, Start, each advance, then Start again and each advance with the first answer kept. At each
//! place the calls that are refused there are made, too, on a copy of the session, so that the page can say how.

use super::advance::{fault, so_far, Advance, Advances};
use crate::input::Input;
use crate::loaded::Loaded;
use crate::outcome::Failure;
use crate::questions::Change;
use crate::script::in_state;
use crate::sentences;
use whatif::{Answer, Panel, Refusal, Session, State};

/// The session after a call.
pub struct Place {
    pub state: &'static str,
    /// Parts handled, links and nodes passed over so far.
    pub done: u32,
    pub links: u32,
    pub passed: u32,
    /// What a Read answers here.
    pub read: String,
    /// What Start, advance and Cancel say where they are refused.
    pub refused: [Option<String>; 3],
    /// What a Cancel says where it is accepted.
    pub cancelled: Option<String>,
}

/// A question, call by call.
pub struct Walk<'a> {
    pub loaded: Loaded,
    pub number: usize,
    pub changes: &'a [Change],
    pub roots: Vec<u16>,
    pub advances: Vec<Advance>,
    pub answer: Answer,
    /// After Load or Cancel, Start and each advance: first with no answer kept, then with one.
    pub runs: [Vec<Place>; 2],
    pub children: Vec<Option<(u16, u16)>>,
}

impl<'a> Walk<'a> {
    /// Of one of the questions, counted from 1.
    pub fn of(input: &'a Input, number: usize) -> Result<Walk<'a>, Failure> {
        let changes = input.question(number)?;
        let mut loaded = Loaded::of(input)?;
        let refused = |refusal| {
            let [n, _, k] = input.counts();
            sentences::list_refused(refusal, changes, n, k)
        };
        let looked_up = Advances::of(&loaded.panel, changes).map_err(refused)?;
        let (first, advances) = run(&mut loaded, changes, &looked_up)?;
        let answer = loaded.panel.current().map_err(Failure::refused)?;
        let roots = loaded.panel.session().roots().collect();
        // the same question again, dropped once: the answer is kept
        loaded.panel.start(changes).and_then(|_| loaded.panel.cancel()).map_err(Failure::refused)?;
        let (second, again) = run(&mut loaded, changes, &looked_up)?;
        if again != advances || loaded.panel.current() != Ok(answer) {
            return Err(fault("the same question had another answer"));
        }
        let (runs, children) = ([first, second], looked_up.children().to_vec());
        Ok(Walk { loaded, number, changes, roots, advances, answer, runs, children })
    }

    /// The label that a listed node takes.
    pub fn takes(&self, v: usize) -> Option<u8> {
        self.changes.iter().rev().find(|change| usize::from(change.0) == v).map(|change| change.1)
    }
}

/// Start and every advance of a loaded session.
fn run(loaded: &mut Loaded, changes: &[Change], advances: &Advances) -> Result<(Vec<Place>, Vec<Advance>), Failure> {
    let mut places = vec![place(loaded, changes)];
    let parts = loaded.panel.start(changes).map_err(Failure::refused)?;
    places.push(place(loaded, changes));
    let mut advanced = Vec::new();
    for _ in 0..parts {
        let before = loaded.panel.session().clone();
        loaded.panel.advance().map_err(Failure::refused)?;
        advanced.push(advances.last(&loaded.panel, &before)?);
        places.push(place(loaded, changes));
    }
    Ok((places, advanced))
}

fn place(loaded: &Loaded, changes: &[Change]) -> Place {
    let session = loaded.panel.session();
    let (links, passed) = so_far(session);
    let cancelled = cancel(session);
    Place {
        state: name(session.state()),
        done: session.parts_done(),
        links,
        passed,
        read: read(loaded),
        refused: refusals(&loaded.panel, changes, cancelled.as_ref().err().copied()),
        cancelled: cancelled.ok(),
    }
}

fn name(state: Option<State>) -> &'static str {
    match state {
        Some(State::Loaded) => "loaded",
        Some(State::Running) => "running",
        Some(State::Answered) => "answered",
        _ => "empty",
    }
}

fn read(loaded: &Loaded) -> String {
    match loaded.panel.last() {
        Ok(answer) => sentences::answer(&answer, &loaded.names),
        Err(refusal) => Failure::refused_about(refusal, "no question is finished since load").what(),
    }
}

fn cancel(session: &Session) -> Result<String, Refusal> {
    let mut copy = session.clone();
    copy.cancel()?;
    let kept = if copy.read().is_ok() { ", with the last answer kept" } else { "" };
    Ok(format!("Cancelled: the session is {}, as after load{}.", name(copy.state()), kept))
}

/// Of Start, advance and Cancel, on copies.
fn refusals(panel: &Panel, changes: &[Change], cancel: Option<Refusal>) -> [Option<String>; 3] {
    let (lent, session) = (panel.lent(), panel.session());
    let (nodes, labels): (Vec<u16>, Vec<u8>) = changes.iter().copied().unzip();
    let start = session.clone().start(&lent, &nodes, &labels).err();
    let advance = session.clone().advance(&lent).err();
    [start, advance, cancel].map(|refusal| refusal.map(|refusal| in_state(refusal, session.state()).what()))
}
