//! Eight screens at work: a run of records and the screen to try first, which pass from call to call, with the eight
//! reference models beside them; for each screen a single record that is fed its own calls and turns alone; and who was
//! served since each screen's last turn.

use crate::calls::same;
use crate::panel::{self, Lent};
use crate::random::Random;
use crate::sides::{self, Copies, Margins, MARGIN};
use crate::slices;
use crate::trace;
use reference::panel::{Answer, Inputs};
use reference::record::Record;
use reference::screens::{alone, Done, References, Reply, ScreenAnswer, ScreenCall, Whose, RUN_BYTES, SCREENS};
use reference::tables::Tables;

#[derive(Clone)]
pub struct Lab {
    pub run: Vec<u8>,
    /// The screen to try first, as it was told last.
    pub first: u32,
    pub models: References,
    /// Of each screen the record of a single session: what a screen is told must not depend on the others.
    alone: [Vec<u8>; SCREENS],
    /// The screens served since each screen's last turn, or since its Start.
    since: [Vec<usize>; SCREENS],
    /// How many answers the reference models settled, and how many they left to the program.
    pub settled: usize,
    pub left: usize,
}

impl Default for Lab {
    fn default() -> Lab {
        let fresh = Record::fresh().bytes();
        let alone = [0; SCREENS].map(|_| fresh.clone());
        Lab {
            run: vec![0; RUN_BYTES],
            first: 0,
            models: References::default(),
            alone,
            since: Default::default(),
            settled: 0,
            left: 0,
        }
    }
}

impl Lab {
    /// Loaded with what Load wrote.
    pub fn loaded(lent: &Lent, random: &mut Random) -> Lab {
        let mut lab = Lab::default();
        assert_eq!(lab.call(&ScreenCall::Load(lent.inputs()), random), ScreenAnswer::Loaded(0));
        lab
    }

    /// A call, held to the reference implementation, to the reference models, to single sessions, and to what is said of turns.
    pub fn call(&mut self, call: &ScreenCall, random: &mut Random) -> ScreenAnswer {
        trace::say(told(call));
        let (reply, whose) = (self.models.reply(call), self.models.whose(call));
        let done = compared(&self.run, call, random);
        let before = std::mem::take(&mut self.models);
        self.models = match reply {
            Reply::Settled(answer, models) => {
                self.settled += 1;
                assert_eq!(done.answer, answer, "settled by the reference models");
                models
            }
            Reply::Unsettled(after) => {
                self.left += 1;
                after(done.answer).unwrap_or_else(|| panic!("the reference models do not allow {:?}", done.answer))
            }
        };
        self.run = done.run;
        self.project(whose, call, done.answer, random);
        self.take_turns(&before, whose, call, done.answer);
        self.first = done.answer.number().unwrap_or(self.first);
        done.answer
    }

    pub fn start(
        &mut self,
        screen: u32,
        lent: &Lent,
        nodes: &[u16],
        labels: &[u8],
        random: &mut Random,
    ) -> ScreenAnswer {
        self.call(&ScreenCall::Start(screen, lent.inputs(), nodes, labels), random)
    }

    /// With the number that was told last.
    pub fn deal(&mut self, lent: &Lent, random: &mut Random) -> ScreenAnswer {
        self.call(&ScreenCall::Deal(self.first, lent.inputs()), random)
    }

    /// The screens served since the last turn of one that runs, or since its Start.
    pub fn waits(&self, screen: usize) -> &[usize] {
        &self.since[screen]
    }

    /// "Each screen .. fed with the accepted Loads, its own calls and its turns as advances": a single session's
    /// record is, and is told the same, whatever the others do. After every call the run is these eight records.
    fn project(&mut self, whose: Whose, call: &ScreenCall, answer: ScreenAnswer, random: &mut Random) {
        let own = match (whose, answer) {
            (Whose::All, ScreenAnswer::Loaded(_)) => 0..SCREENS,
            (Whose::Screen(i) | Whose::Turn(i), _) => i..i + 1,
            _ => 0..0,
        };
        for i in own {
            let one = sides::call(&self.alone[i], &alone(call), random);
            let told = match answer {
                ScreenAnswer::One(answer) | ScreenAnswer::Dealt(_, answer) => answer,
                ScreenAnswer::Loaded(_) => Answer::Accepted,
            };
            assert_eq!(told, one.answer, "screen {} beside the others and alone", i);
            self.alone[i] = one.record;
        }
        same("the run against eight single records", &self.run, &self.alone.concat());
    }

    /// "a screen that stays running is served within eight accepted deals, and no other is served twice between two
    /// successive turns of it in one question". A deal that is handed another number than was told begins anew.
    fn take_turns(&mut self, before: &References, whose: Whose, call: &ScreenCall, answer: ScreenAnswer) {
        if matches!(call, ScreenCall::Deal(first, _) if *first != self.first) {
            self.since = Default::default();
        }
        if let (Whose::Turn(served), ScreenAnswer::Dealt(..)) = (whose, answer) {
            for i in (0..SCREENS).filter(|&i| i != served && before.runs(i)) {
                assert!(!self.since[i].contains(&served), "screen {} waits, and {} is served twice", i, served);
                self.since[i].push(served);
                assert!(self.since[i].len() < SCREENS, "screen {} is not served within eight deals", i);
            }
            self.since[served].clear();
        }
        for i in (0..SCREENS).filter(|&i| !before.runs(i)) {
            self.since[i].clear();
        }
    }
}

/// A call by the library, compared with the reference implementation: the answer, every byte of the run, the tables
/// that an accepted Load writes, and all else that is lent, which stays.
pub fn compared(run: &[u8], call: &ScreenCall, random: &mut Random) -> Done {
    let done = reference::screens::call(run, call);
    let mut own = Margins::new(run, random.bytes(2 * MARGIN));
    let (mut node_table, mut state_table) = match call {
        ScreenCall::Load(inputs) => (
            Margins::new(inputs.node_table, random.numbers(2 * MARGIN)),
            Margins::new(inputs.state_table, random.bytes(2 * MARGIN)),
        ),
        _ => (Margins::new(&[], vec![]), Margins::new(&[], vec![])),
    };
    let unset = [0; 5].map(|_: u32| random.word() as u32 | 1 << 20);
    let mut out = unset;
    let alone = alone(call);
    let before = sides::lent(&alone).map(Copies::of);
    let number = library(call, own.lent(), node_table.lent(), state_table.lent(), &mut out);
    assert_eq!(answer(call, number, &out, &unset), done.answer, "the answer");
    own.is("the run", &done.run);
    if let (ScreenCall::Load(_), Some(Tables { node_table: n, state_table: b })) = (call, &done.tables) {
        node_table.starts("the node table", n);
        state_table.starts("the state table", b);
    } else if let ScreenCall::Load(inputs) = call {
        node_table.is("the node table", inputs.node_table);
        state_table.is("the state table", inputs.state_table);
    }
    assert!(before.map_or(true, |before| before.are(&alone)), "something lent was written");
    done
}

/// What a number and the told values mean; the values that the call does not tell are as they were.
fn answer(call: &ScreenCall, number: u32, out: &[u32; 5], unset: &[u32; 5]) -> ScreenAnswer {
    if let (ScreenCall::Load(_), 0) = (call, number) {
        assert_eq!(out[1..], unset[1..], "a Load told something else");
        return ScreenAnswer::Loaded(out[0]);
    }
    if let (ScreenCall::Deal(..), 0) = (call, number) {
        // the advance tells in the second place
        let turned = |list: &[u32; 5]| [list[1], list[2], list[3], list[4], 0];
        return ScreenAnswer::Dealt(out[0], sides::answer(&alone(call), number, &turned(out), &turned(unset)));
    }
    ScreenAnswer::One(sides::answer(&alone(call), number, out, unset))
}

fn library(
    call: &ScreenCall,
    run: &mut [u8],
    node_table: &mut [u16],
    state_table: &mut [u8],
    out: &mut [u32; 5],
) -> u32 {
    match *call {
        ScreenCall::Load(Inputs { plan, rules, .. }) => {
            slices::screens_load(run, plan, rules, node_table, state_table, &mut out[0])
        }
        ScreenCall::Start(screen, Inputs { plan, rules, node_table, state_table }, nodes, labels) => {
            slices::screens_start(run, screen, plan, rules, node_table, state_table, nodes, labels, &mut out[0])
        }
        ScreenCall::Cancel(screen) => slices::screens_cancel(run, screen),
        ScreenCall::Read(screen) => slices::screens_read(run, screen, out),
        ScreenCall::Deal(first, Inputs { plan, rules, node_table, state_table }) => {
            let mut told = [out[0], out[1]];
            let number = slices::screens_deal(run, first, plan, rules, node_table, state_table, &mut told);
            out[..2].copy_from_slice(&told);
            number
        }
    }
}

/// A call in short.
fn told(call: &ScreenCall) -> String {
    match *call {
        ScreenCall::Load(_) => panel::told(&alone(call)),
        ScreenCall::Start(screen, ..) | ScreenCall::Cancel(screen) | ScreenCall::Read(screen) => {
            format!("screen {}: {}", screen, panel::told(&alone(call)))
        }
        ScreenCall::Deal(first, _) => format!("deal from screen {} on", first),
    }
}
