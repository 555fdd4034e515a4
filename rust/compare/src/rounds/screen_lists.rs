//! Whole lists of screen calls, as chance has them, from fresh runs: screens that start, cancel and read beside each
//! other, deals with what was lent before, with other plans and with altered tables, Loads while screens run, screen
//! numbers that there are not, numbers to try first that were not told, runs of other lengths and broken records.
//! Every answer is held to the reference implementation, to eight reference models and to single sessions (`screens::Lab`).

use super::call_lists::{name, plans};
use super::damaged_records;
use super::refusals::any_two;
use crate::alterations::lay_some;
use crate::calls::Kind;
use crate::counts::Counts;
use crate::faults::{lay_on_list, repeat_nodes, Input, BUILD_CHECKS};
use crate::inputs::Case;
use crate::panel::Lent;
use crate::random::Random;
use crate::screens::{compared, Lab};
use reference::panel::{Answer, Phase};
use reference::record::{Record, RECORD_BYTES};
use reference::screens::{ScreenAnswer, ScreenCall, RUN_BYTES, SCREENS};

pub fn round(random: &mut Random, counts: &mut Counts) {
    let most_leaves = if random.below(100) == 0 { 500 } else { 15 };
    list(80, most_leaves, random, counts);
}

/// A list of so many calls on plans of at most so many leaves.
pub fn list(calls: usize, most_leaves: usize, random: &mut Random, counts: &mut Counts) {
    let at_hand = plans(most_leaves, random);
    let usual = at_hand[0].1.clone();
    let mut world = World { at_hand, counts, lab: Lab::default(), now: 0, usual, used: random.between(1, SCREENS) };
    for _ in 0..calls {
        world.turn(random);
    }
    world.counts.add(format!("a list, {} settled", if world.lab.left == 0 { "all" } else { "not all" }));
}

/// Numbers of screens that there are not; cut to 8, 16 or 31 bits some of them are below 8.
pub const NO_SCREENS: [u32; 10] = [8, 9, 255, 256, 259, 263, 65_536 + 2, (1 << 24) + 5, (1 << 31) + 1, u32::MAX];

/// Lengths of runs that are not those of eight records.
pub const OTHER_LENGTHS: [usize; 8] =
    [0, 1, RECORD_BYTES, RUN_BYTES - RECORD_BYTES, RUN_BYTES - 1, RUN_BYTES + 1, RUN_BYTES + RECORD_BYTES, 8 * 975];

/// What a lab has at hand: some plans with their tables; which of them the last Load was about, what is lent usually
/// since then, and how many screens are in use.
struct World<'a> {
    at_hand: Vec<(Case, Lent)>,
    counts: &'a mut Counts,
    lab: Lab,
    now: usize,
    usual: Lent,
    used: usize,
}

impl World<'_> {
    /// A call, mostly one that is allowed.
    fn turn(&mut self, random: &mut Random) {
        let models = &self.lab.models;
        let running = (0..SCREENS).filter(|&i| models.runs(i)).count();
        let usual = match running {
            _ if models.of(0).phase() == Phase::Empty => 0,
            0 => *random.pick(&[1, 1, 1, 1, 4, 0]),
            _ if running < self.used => *random.pick(&[1, 1, 2, 2, 2, 2, 3, 4]),
            _ => *random.pick(&[2, 2, 2, 2, 2, 2, 2, 2, 3, 4]),
        };
        match if random.below(10) == 0 { random.below(6) } else { usual } {
            0 => self.load(random),
            1 => self.start(random),
            2 => self.deal(random),
            3 => {
                let screen = self.screen(true, random);
                let answer = self.lab.call(&ScreenCall::Cancel(screen), random);
                self.count("Cancel", answer);
            }
            4 => {
                let screen = self.screen(false, random);
                let answer = self.lab.call(&ScreenCall::Read(screen), random);
                self.count("Read", answer);
            }
            _ => self.on_a_broken_run(random),
        }
    }

    /// A screen that runs, or one that does not, mostly; now and then any other, or one that there is not.
    fn screen(&self, running: bool, random: &mut Random) -> u32 {
        let fitting: Vec<u32> =
            (0..SCREENS).filter(|&i| self.lab.models.runs(i) == running).map(|i| i as u32).collect();
        match random.below(12) {
            0 => *random.pick(&NO_SCREENS),
            1 | 2 => random.below(SCREENS) as u32,
            _ if fitting.is_empty() => random.below(SCREENS) as u32,
            _ => *random.pick(&fitting),
        }
    }

    /// What is lent with a Start or a deal: mostly what Load wrote, now and then another plan, or altered.
    fn lent(&self, random: &mut Random) -> (usize, Lent) {
        let exchanged = random.below(20) == 0;
        let at = if exchanged { random.below(self.at_hand.len()) } else { self.now };
        let (case, built) = &self.at_hand[at];
        let mut lent = if exchanged { built.clone() } else { self.usual.clone() };
        lay_some(&mut lent, case, 8, random);
        (at, lent)
    }

    fn changes(&self, at: usize, random: &mut Random) -> (Vec<u16>, Vec<u8>) {
        let case = &self.at_hand[at].0;
        let (mut nodes, mut labels) = case.list(*random.pick(&[0, 1, 2, 3, 5, 9]), random);
        if random.below(4) == 0 {
            repeat_nodes(&mut nodes, &mut labels, case.k, random);
        }
        if random.below(6) == 0 && !nodes.is_empty() {
            for &check in any_two(&[12, 13, 14], random).iter().rev() {
                lay_on_list(check, &mut nodes, &mut labels, (case.n, case.k), random);
            }
        }
        (nodes, labels)
    }

    fn load(&mut self, random: &mut Random) {
        let kept = (0..SCREENS).filter(|&i| self.lab.models.of(i).last_settlement().is_some()).count();
        let at = random.below(self.at_hand.len());
        let mut input = Input::new(&self.at_hand[at].0, Kind::Rules, random);
        if random.below(3) == 0 {
            let faults = [*random.pick(&BUILD_CHECKS), *random.pick(&BUILD_CHECKS)];
            input.lay(&faults[random.below(2)..], random);
        }
        let (node_table, state_table) = (random.numbers(input.node_table_len), random.bytes(input.state_table_len));
        let lent = Lent { plan: input.plan, rules: input.table, node_table, state_table };
        let answer = self.lab.call(&ScreenCall::Load(lent.inputs()), random);
        self.count("Load", answer);
        if answer == ScreenAnswer::Loaded(0) {
            // what Load wrote
            self.usual = self.at_hand[at].1.clone();
            self.now = at;
            if kept > 0 {
                self.counts.add("Load, and answers were kept");
            }
        }
    }

    fn start(&mut self, random: &mut Random) {
        let (at, lent) = self.lent(random);
        let (nodes, labels) = self.changes(at, random);
        let screen = self.screen(false, random);
        let answer = self.lab.start(screen, &lent, &nodes, &labels, random);
        self.count("Start", answer);
    }

    /// Mostly with the number that was told; now and then with another, or with one that there is not.
    fn deal(&mut self, random: &mut Random) {
        let (_, lent) = self.lent(random);
        let first = match random.below(24) {
            0 => *random.pick(&NO_SCREENS),
            1 => random.below(SCREENS) as u32,
            _ => self.lab.first,
        };
        let waited: Vec<usize> = (0..SCREENS).map(|i| self.lab.waits(i).len()).collect();
        let answer = self.lab.call(&ScreenCall::Deal(first, lent.inputs()), random);
        self.count("deal", answer);
        if let ScreenAnswer::Dealt(next, _) = answer {
            let served = (next as usize + SCREENS - 1) % SCREENS;
            self.counts.add(format!("a turn after {} others", waited[served]));
        }
    }

    /// A call on an altered copy of the run: one of another length gets 25, and a broken record is only in the way of
    /// the calls that look at it. The screens go on without.
    fn on_a_broken_run(&mut self, random: &mut Random) {
        let mut run = self.lab.run.clone();
        let (at, lent) = self.lent(random);
        let (nodes, labels) = self.changes(at, random);
        let (inputs, screen) = (lent.inputs(), random.below(SCREENS) as u32);
        let start = ScreenCall::Start(screen, inputs, &nodes, &labels);
        let deal = ScreenCall::Deal(random.below(SCREENS) as u32, inputs);
        let call = *random.pick(&[
            ScreenCall::Load(inputs),
            start,
            deal,
            ScreenCall::Cancel(screen),
            ScreenCall::Read(screen),
        ]);
        if random.below(4) == 0 {
            run.resize(*random.pick(&OTHER_LENGTHS), 0);
            assert_eq!(compared(&run, &call, random).answer, ScreenAnswer::refused(25));
            self.counts.add("a run of another length refused 25");
            return;
        }
        let broken = random.below(SCREENS);
        let record = &mut run[RECORD_BYTES * broken..RECORD_BYTES * (broken + 1)];
        let mut other = damaged_records::altered(record, random);
        other.resize(RECORD_BYTES, 0);
        if random.below(3) == 0 {
            // still running, as far as the state says
            other[1..].fill(random.byte());
        }
        record.copy_from_slice(&other);
        let whole = Record::of(&other).is_some();
        let on_it = matches!(call, ScreenCall::Start(..) | ScreenCall::Cancel(_) | ScreenCall::Read(_))
            && screen as usize == broken;
        let done = compared(&run, &call, random);
        if whole {
            self.counts.add("altered record, still a session's");
        } else if on_it || matches!(call, ScreenCall::Load(_)) {
            assert_eq!(done.answer, ScreenAnswer::refused(1));
            self.counts.add("broken record refused 1");
        } else {
            self.counts.add(format!("beside a broken record: {}", kind(&call, done.answer)));
        }
    }

    fn count(&mut self, what: &str, answer: ScreenAnswer) {
        let told = match answer {
            ScreenAnswer::Loaded(_) => "accepted".to_string(),
            ScreenAnswer::One(answer) | ScreenAnswer::Dealt(_, answer) => name(answer),
        };
        self.counts.add(format!("{} {}", what, told));
    }
}

fn kind(call: &ScreenCall, answer: ScreenAnswer) -> String {
    let (what, accepted) = match call {
        ScreenCall::Deal(..) => ("deal", matches!(answer, ScreenAnswer::Dealt(..))),
        _ => ("a call of another screen", !matches!(answer, ScreenAnswer::One(Answer::Refused(_)))),
    };
    format!("{} {}", what, if accepted { "accepted" } else { "refused" })
}
