//! Refusals of Load, Start and advance: one fault, two at once, or any set of them. The first one in the order of the
//! call's checks wins; nothing is altered and nothing is told.

use super::refusals::{any_set, any_two};
use crate::alterations::wrong_length;
use crate::calls::Kind;
use crate::counts::Counts;
use crate::faults::{lay_on_list, Input, BUILD_CHECKS};
use crate::inputs::Case;
use crate::panel::{Lent, Panel};
use crate::random::Random;
use crate::shapes::SHAPES;
use crate::sides;
use crate::trace;
use reference::panel::{Answer, Call, Phase};

pub const LOAD_CHECKS: [u32; 11] = [1, 2, 3, 4, 5, 6, 7, 8, 9, 10, 11];
pub const START_CHECKS: [u32; 6] = [1, 17, 12, 13, 14, 18];
pub const ADVANCE_CHECKS: [u32; 3] = [1, 17, 18];

/// How many kinds of damage `unsound` knows.
pub const DAMAGES: usize = 10;

/// A call with some faults laid.
pub type Faulty = fn(&[u32], &mut Random) -> Answer;

pub const CALLS: [(&str, &[u32], Faulty); 3] =
    [("Load", &LOAD_CHECKS, load), ("Start", &START_CHECKS, start), ("advance", &ADVANCE_CHECKS, advance)];

pub fn round(random: &mut Random, counts: &mut Counts) {
    for (name, checks, call) in CALLS {
        for pick in [any_two, any_set] {
            let faults = pick(checks, random);
            compare(name, call, &faults, random, counts);
        }
    }
}

/// The first of the faults, which stand in the order of the call's checks.
pub fn compare(name: &str, call: Faulty, faults: &[u32], random: &mut Random, counts: &mut Counts) {
    let answer = call(faults, random);
    match (faults.first(), answer) {
        (Some(&first), _) => assert_eq!(answer, Answer::Refused(first), "{} with {:?}", name, faults),
        (None, Answer::Refused(number)) => panic!("{} was refused with {} for no fault", name, number),
        (None, _) => (),
    }
    counts.add(faults.first().map_or(format!("{} accepted", name), |first| format!("{} refused {}", name, first)));
}

fn load(faults: &[u32], random: &mut Random) -> Answer {
    let scene = Scene::new(random);
    let mut input = Input::new(&scene.case, Kind::Rules, random);
    let of_input: Vec<u32> = faults.iter().copied().filter(|fault| BUILD_CHECKS.contains(fault)).collect();
    input.lay(&of_input, random);
    let (node_table, state_table) = (random.numbers(input.node_table_len), random.bytes(input.state_table_len));
    let lent = Lent { plan: input.plan, rules: input.table, node_table, state_table };
    let record = scene.record(&[Phase::Empty, Phase::Loaded, Phase::Answered], faults, random);
    sides::call(&record, &Call::Load(lent.inputs()), random).answer
}

fn start(faults: &[u32], random: &mut Random) -> Answer {
    let mut scene = Scene::new(random);
    if faults.contains(&18) {
        scene.unsound(random.below(DAMAGES), random);
    }
    scene.lay(faults, random);
    let record = scene.record(&[Phase::Loaded, Phase::Answered], faults, random);
    sides::call(&record, &Call::Start(scene.lent.inputs(), &scene.nodes, &scene.labels), random).answer
}

fn advance(faults: &[u32], random: &mut Random) -> Answer {
    let mut scene = Scene::new(random);
    if faults.contains(&18) {
        // no jump leads inside the plan, and no result is a state
        scene.lent.node_table.iter_mut().skip(1).step_by(4).for_each(|jump| *jump = u16::MAX);
        scene.lent.rules[20..].fill(255);
    }
    scene.lay(faults, random);
    let record = scene.record(&[Phase::Running], faults, random);
    sides::call(&record, &Call::Advance(scene.lent.inputs()), random).answer
}

/// A session's record in each of the four states, with and without an earlier answer, and what is lent with its next
/// call.
pub struct Scene {
    pub case: Case,
    pub lent: Lent,
    pub nodes: Vec<u16>,
    pub labels: Vec<u8>,
    /// Empty, loaded, running, answered; loaded and running with the answer kept.
    pub records: [Vec<u8>; 6],
}

const PHASES: [Phase; 6] =
    [Phase::Empty, Phase::Loaded, Phase::Running, Phase::Answered, Phase::Loaded, Phase::Running];

impl Scene {
    /// The list begins with two leaves, which are next to each other in the list of wanted nodes: a search is made.
    pub fn new(random: &mut Random) -> Scene {
        let (leaves, s, k) = (random.between(2, 40), random.between(1, 16), random.between(1, 64));
        let case = Case::new(*random.pick(&SHAPES), leaves, s, k, random);
        let lent = Lent::built(&case, random);
        let kinds = &case.plan[12 + case.n..];
        let mut leaves: Vec<u16> = (0..case.n as u16).filter(|&v| kinds[v as usize] == 0).collect();
        random.shuffle(&mut leaves);
        let mut nodes = leaves[..2].to_vec();
        let (more, _) = case.list(random.below(20), random);
        nodes.extend(more.iter().filter(|v| !leaves[..2].contains(v)));
        let labels = random.bytes_below(nodes.len(), k);
        let mut panel = Panel::default();
        let empty = panel.record.clone();
        panel.call(&Call::Load(lent.inputs()), random);
        let loaded = panel.record.clone();
        panel.start(&lent, &nodes, &labels, random);
        let advances = random.below(panel.says().roots.len());
        for _ in 0..advances {
            panel.advance(&lent, random);
        }
        let running = panel.record.clone();
        panel.finish(&lent, random);
        let answered = panel.record.clone();
        panel.start(&lent, &nodes, &labels, random);
        for _ in 0..advances {
            panel.advance(&lent, random);
        }
        let running_with = panel.record.clone();
        panel.call(&Call::Cancel, random);
        let records = [empty, loaded, running, answered, panel.record, running_with];
        Scene { case, lent, nodes, labels, records }
    }

    /// A record in one of these states; or in any other or none at all, where 1 is among the faults.
    pub fn record(&self, allowed: &[Phase], faults: &[u32], random: &mut Random) -> Vec<u8> {
        let refused = faults.contains(&1);
        let in_phases = |allows: bool| {
            let fitting = PHASES.iter().zip(&self.records).filter(move |(phase, _)| allowed.contains(phase) == allows);
            fitting.map(|(_, record)| record.clone()).collect::<Vec<_>>()
        };
        if !refused || random.below(3) > 0 {
            return random.pick(&in_phases(!refused)).clone();
        }
        // a record that would do, but for a byte that no record has
        let mut record = random.pick(&in_phases(true)).clone();
        record[1] = 2;
        record
    }

    /// Lays a damage that Start's full check must find, by its kind: in a table, also the last of its values, or in plan
    /// or rules, so that they no longer pass 2 to 10 or name other sizes.
    pub fn unsound(&mut self, kind: usize, random: &mut Random) {
        let Case { n, s, k, .. } = self.case;
        let Lent { plan, rules, node_table, state_table } = &mut self.lent;
        let (root, marks) = (4 * (n - 1), rules.len() - s);
        match kind {
            0 => node_table[random.below(4 * n)] ^= 1,
            1 => node_table[root + random.below(4)] ^= 1,
            2 => state_table[random.below((s + 1) * n)] ^= 1,
            3 => state_table[(s + 1) * n - 1] ^= 1,
            4 => plan[12 + random.below(n)] = random.between(k, 255) as u8,
            5 => plan[12 + n + random.below(n)] = 2,
            6 => plan[random.below(12)] ^= 1,
            7 => rules[random.below(20)] ^= 1,
            8 => rules[20 + random.below(k + s * k * s)] = random.between(s, 255) as u8,
            _ => rules[marks + random.below(s)] = 2,
        }
    }

    /// Lays the faults of Start or advance but 18, the last checks first.
    pub fn lay(&mut self, faults: &[u32], random: &mut Random) {
        trace::say(format!("faults {:?}", faults));
        let Case { n, k, .. } = self.case;
        let has = |number: &u32| faults.contains(number);
        for check in [14, 13, 12].into_iter().filter(has) {
            lay_on_list(check, &mut self.nodes, &mut self.labels, (n, k), random);
        }
        if has(&17) {
            wrong_length(&mut self.lent, &self.case, random.below(6), random);
        }
    }
}
