//! Refusals of the screens' calls: one fault, two at once, or any set of them. The first one in the order of the call's
//! checks wins; nothing is altered and nothing is told.

use super::refusals::{any_set, any_two};
use super::screen_lists::{NO_SCREENS, OTHER_LENGTHS};
use super::session_refusals::{Scene, ADVANCE_CHECKS, DAMAGES, LOAD_CHECKS, START_CHECKS};
use crate::calls::Kind;
use crate::counts::Counts;
use crate::faults::{Input, BUILD_CHECKS};
use crate::panel::Lent;
use crate::random::Random;
use crate::screens::compared;
use reference::panel::{Answer, Phase};
use reference::screens::{ScreenAnswer, ScreenCall, SCREENS};

/// A call with some faults laid.
pub type Faulty = fn(&[u32], &mut Random) -> ScreenAnswer;

/// Name, checks after 25, and the call.
pub const CALLS: [(&str, &[u32], Faulty); 5] = [
    ("Load", &LOAD_CHECKS, load),
    ("Start", &START_CHECKS, start),
    ("deal", &ADVANCE_CHECKS, deal),
    ("Cancel", &[1], cancel),
    ("Read", &[1], read),
];

/// 25 stands before everything else.
pub fn checks_of(after: &[u32]) -> Vec<u32> {
    [&[25], after].concat()
}

pub fn round(random: &mut Random, counts: &mut Counts) {
    for (name, after, call) in CALLS {
        let checks = checks_of(after);
        for pick in [any_two, any_set] {
            let faults = pick(&checks, random);
            compare(name, call, &faults, random, counts);
        }
    }
}

/// The first of the faults, which stand in the order of the call's checks.
pub fn compare(name: &str, call: Faulty, faults: &[u32], random: &mut Random, counts: &mut Counts) {
    let answer = call(faults, random);
    match (faults.first(), answer) {
        (Some(&first), _) => assert_eq!(answer, ScreenAnswer::refused(first), "{} with {:?}", name, faults),
        (None, ScreenAnswer::One(Answer::Refused(number))) => {
            panic!("{} was refused with {} for no fault", name, number)
        }
        (None, _) => (),
    }
    counts.add(faults.first().map_or(format!("{} accepted", name), |first| format!("{} refused {}", name, first)));
}

const AT_REST: [Phase; 3] = [Phase::Empty, Phase::Loaded, Phase::Answered];

/// A run with a record of the scene on one screen, and others beside it: any of the scene's, or those at rest.
struct Run {
    bytes: Vec<u8>,
    screen: u32,
}

impl Run {
    fn new(scene: &Scene, own: &[u8], at_rest: bool, random: &mut Random) -> Run {
        let screen = random.below(SCREENS);
        let mut bytes = Vec::new();
        for i in 0..SCREENS {
            let any = random.pick(&scene.records).clone();
            let other = if at_rest { scene.record(&AT_REST, &[], random) } else { any };
            bytes.extend(if i == screen { own } else { &other });
        }
        Run { bytes, screen: screen as u32 }
    }

    /// Lays 25 by another length of the run, or by a number that no screen has.
    fn lay(&mut self, faults: &[u32], numbered: bool, random: &mut Random) {
        if !faults.contains(&25) {
            return;
        }
        if !numbered || random.below(2) == 0 {
            self.bytes.resize(*random.pick(&OTHER_LENGTHS), 0);
        } else {
            self.screen = *random.pick(&NO_SCREENS);
        }
    }
}

fn load(faults: &[u32], random: &mut Random) -> ScreenAnswer {
    let scene = Scene::new(random);
    let mut input = Input::new(&scene.case, Kind::Rules, random);
    let of_input: Vec<u32> = faults.iter().copied().filter(|fault| BUILD_CHECKS.contains(fault)).collect();
    input.lay(&of_input, random);
    let (node_table, state_table) = (random.numbers(input.node_table_len), random.bytes(input.state_table_len));
    let lent = Lent { plan: input.plan, rules: input.table, node_table, state_table };
    // one screen runs, or has a broken record
    let mut run = Run::new(&scene, &scene.record(&AT_REST, faults, random), true, random);
    run.lay(faults, false, random);
    compared(&run.bytes, &ScreenCall::Load(lent.inputs()), random).answer
}

fn start(faults: &[u32], random: &mut Random) -> ScreenAnswer {
    let mut scene = Scene::new(random);
    if faults.contains(&18) {
        scene.unsound(random.below(DAMAGES), random);
    }
    scene.lay(faults, random);
    let mut run = Run::new(&scene, &scene.record(&[Phase::Loaded, Phase::Answered], faults, random), false, random);
    run.lay(faults, true, random);
    let call = ScreenCall::Start(run.screen, scene.lent.inputs(), &scene.nodes, &scene.labels);
    compared(&run.bytes, &call, random).answer
}

/// One screen runs; with 1 none does, or its record is broken.
fn deal(faults: &[u32], random: &mut Random) -> ScreenAnswer {
    let mut scene = Scene::new(random);
    if faults.contains(&18) {
        // no jump leads inside the plan, and no result is a state
        scene.lent.node_table.iter_mut().skip(1).step_by(4).for_each(|jump| *jump = u16::MAX);
        scene.lent.rules[20..].fill(255);
    }
    scene.lay(faults, random);
    let own = scene.record(&[Phase::Running], faults, random);
    let mut run = Run::new(&scene, &own, true, random);
    // the one that runs is the next from any number on
    run.screen = random.below(SCREENS) as u32;
    run.lay(faults, true, random);
    compared(&run.bytes, &ScreenCall::Deal(run.screen, scene.lent.inputs()), random).answer
}

fn cancel(faults: &[u32], random: &mut Random) -> ScreenAnswer {
    let scene = Scene::new(random);
    let mut run = Run::new(&scene, &scene.record(&[Phase::Running], faults, random), false, random);
    run.lay(faults, true, random);
    compared(&run.bytes, &ScreenCall::Cancel(run.screen), random).answer
}

/// Read is allowed in every state with an answer: the last three records of a scene.
fn read(faults: &[u32], random: &mut Random) -> ScreenAnswer {
    let scene = Scene::new(random);
    let (without, with) = scene.records.split_at(3);
    let own = random.pick(if faults.contains(&1) { without } else { with }).clone();
    let mut run = Run::new(&scene, &own, false, random);
    run.lay(faults, true, random);
    compared(&run.bytes, &ScreenCall::Read(run.screen), random).answer
}
