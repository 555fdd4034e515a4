//! Records that the panel did not leave as they were. Bytes that break the layout get 1 from every call and stay byte
//! for byte; others are a session's like any, and every call goes by them.

use crate::counts::Counts;
use crate::inputs::Case;
use crate::panel::{Lent, Panel};
use crate::random::Random;
use crate::sides;
use reference::panel::{Answer, Call, Outcome, Phase, Sizes};
use reference::record::{Record, MAX_PARTS, RECORD_BYTES};

pub fn round(random: &mut Random, counts: &mut Counts) {
    let m = random.between(0, 12);
    let beside = Beside::new(Case::random(60, random), m, random);
    for record in beside.records(random).iter().chain(&beside.with_an_answer(random)) {
        beside.count("altered", &altered(record, random), random, counts);
    }
    for _ in 0..3 {
        beside.count("made up", &made_up(&beside.case, random).bytes(), random, counts);
        beside.count("any bytes", &any_bytes(random), random, counts);
    }
}

/// What is lent beside the records.
pub struct Beside {
    pub case: Case,
    lent: Lent,
    nodes: Vec<u16>,
    labels: Vec<u8>,
}

impl Beside {
    pub fn new(case: Case, m: usize, random: &mut Random) -> Beside {
        let lent = Lent::built(&case, random);
        let (nodes, labels) = case.list(m, random);
        Beside { case, lent, nodes, labels }
    }

    /// All five calls on a record. Whether it can be a session's; where not, all five say 1 and leave it.
    pub fn all_calls(&self, record: &[u8], random: &mut Random) -> bool {
        let valid = Record::of(record).is_some();
        let inputs = self.lent.inputs();
        let start = Call::Start(inputs, &self.nodes, &self.labels);
        for call in [Call::Load(inputs), start, Call::Advance(inputs), Call::Cancel, Call::Read] {
            let done = sides::call(record, &call, random);
            if !valid {
                assert_eq!(done.answer, Answer::Refused(1));
                assert!(done.record == record);
            }
            if done.answer != Answer::Refused(1) {
                assert!(Record::of(&done.record).is_some(), "a call leaves a record that is a session's");
            }
        }
        valid
    }

    /// The same, counted.
    pub fn count(&self, what: &str, record: &[u8], random: &mut Random, counts: &mut Counts) {
        let valid = self.all_calls(record, random);
        counts.add(format!("{}, {}", what, if valid { "a session's" } else { "broken" }));
    }

    /// The records of a session in all its states: empty, loaded, running from the first part to the last, answered.
    pub fn records(&self, random: &mut Random) -> Vec<Vec<u8>> {
        let mut panel = Panel::default();
        let mut records = vec![panel.record.clone()];
        panel.call(&Call::Load(self.lent.inputs()), random);
        records.push(panel.record.clone());
        panel.start(&self.lent, &self.nodes, &self.labels, random);
        records.push(panel.record.clone());
        while panel.advance(&self.lent, random) == Answer::More {
            records.push(panel.record.clone());
        }
        records.push(panel.record.clone());
        records
    }

    /// Records with an earlier answer kept: running from the first part to the last, and loaded after a Cancel.
    pub fn with_an_answer(&self, random: &mut Random) -> Vec<Vec<u8>> {
        let mut panel = Panel::loaded(&self.lent, random);
        panel.start(&self.lent, &self.nodes, &self.labels, random);
        panel.finish(&self.lent, random);
        panel.start(&self.lent, &self.nodes, &self.labels, random);
        let mut records = vec![panel.record.clone()];
        for _ in 1..panel.says().roots.len() {
            panel.advance(&self.lent, random);
            records.push(panel.record.clone());
        }
        panel.call(&Call::Cancel, random);
        records.push(panel.record);
        records
    }
}

/// Several bytes changed, to values that are near those that are there; now and then another length.
pub fn altered(record: &[u8], random: &mut Random) -> Vec<u8> {
    let mut other = record.to_vec();
    let (m, parts) = (record[6] as usize, record[7] as usize);
    for _ in 0..random.between(1, 4) {
        // among the counts, where an entry stands, or in the answer that is kept and the nodes passed over
        let place = match random.below(6) {
            0 => random.below(13),
            1 => 13 + random.below(2 * m + 2).min(127),
            2 => 141 + random.below(m + 1).min(63),
            3 => 205 + random.below(2 * parts + 2).min(507),
            4 => 713 + random.below(parts + 1).min(253),
            _ => 967 + random.below(16),
        };
        other[place] = match random.below(3) {
            0 => other[place].wrapping_add(1),
            1 => other[place].wrapping_sub(1),
            _ => random.below(8) as u8,
        };
    }
    if random.below(20) == 0 {
        other.resize(*random.pick(&[0, 1, 13, 713, 967, 975, 982, 984, 2 * 983]), 0);
    }
    other
}

/// A record that no session has left, but one might: any rising roots, any states, a node listed twice, any answer kept.
pub fn made_up(case: &Case, random: &mut Random) -> Record {
    let Case { n, s, k, .. } = *case;
    let (m, phase) = (random.between(0, 64), *random.pick(&[Phase::Running, Phase::Answered]));
    let mut roots: Vec<u16> = (0..random.below(n.min(MAX_PARTS))).map(|_| random.below(n) as u16).collect();
    roots.push(n as u16 - 1);
    roots.sort_unstable();
    roots.dedup();
    let handled = if phase == Phase::Running { random.below(roots.len()) } else { roots.len() };
    let parts = random.between(1, MAX_PARTS) as u32;
    let (state, (links, passed)) = (random.below(s) as u32, climbed(parts as usize, random));
    let last =
        Some(Outcome { state, yes: random.below(2) == 0, parts, links, passed }).filter(|_| random.below(2) == 0);
    let (links, passed) = climbed(handled, random);
    let record = Record {
        phase,
        yes: phase == Phase::Answered && random.below(2) == 0,
        sizes: Sizes { n, s, k },
        links,
        passed,
        nodes: (0..m).map(|_| random.below(n) as u16).collect(),
        labels: random.bytes_below(m, k),
        roots,
        states: random.bytes_below(handled, s),
        last,
    };
    if phase == Phase::Answered {
        return Record { last: record.answer(), ..record };
    }
    record
}

/// Links, and as many nodes passed over at least, that so many parts can have.
fn climbed(parts: usize, random: &mut Random) -> (u32, u32) {
    let passed = random.below(65_535 * parts + 1);
    (random.below(passed + 1) as u32, passed as u32)
}

/// Anything at all, or small numbers.
pub fn any_bytes(random: &mut Random) -> Vec<u8> {
    let mut record = random.bytes(RECORD_BYTES);
    if random.below(2) == 0 {
        record[0] %= 4;
        record.iter_mut().skip(1).for_each(|byte| *byte = byte.saturating_sub(253));
    }
    record
}
