//! The session record and its bytes.
//!
//! | Offset | Bytes | Holds |
//! |---|---|---|
//! | 0 | 1 | state: 0 empty, 1 loaded, 2 running, 3 answered |
//! | 1 | 1 | yes 1, no 0; 0 unless answered |
//! | 2 | 1 | S |
//! | 3 | 1 | K |
//! | 4 | 2 | N |
//! | 6 | 1 | m, the changes listed |
//! | 7 | 1 | the parts |
//! | 8 | 1 | the parts handled |
//! | 9 | 4 | the links so far |
//! | 13 | 128 | the nodes as listed, two bytes each |
//! | 141 | 64 | their labels |
//! | 205 | 508 | the roots of the parts, two bytes each |
//! | 713 | 254 | the states of the parts handled |
//! | 967 | 1 | 1 where an answer is kept, else 0 |
//! | 968 | 1 | its state |
//! | 969 | 1 | its yes 1, its no 0 |
//! | 970 | 1 | its parts |
//! | 971 | 4 | its links |
//! | 975 | 4 | the nodes passed over so far |
//! | 979 | 4 | those of the answer that is kept |
//!
//! Numbers of more than one byte are little-endian, and unused entries are zero; so is all of an answer that is not there.

use crate::formats::{MAX_LABELS, MAX_STATES};
use crate::fresh::MAX_CHANGES;
use crate::panel::{Outcome, Phase, Sizes};

pub const RECORD_BYTES: usize = 983;
/// 4 × 64 - 2.
pub const MAX_PARTS: usize = 254;

#[derive(Clone, Debug, PartialEq, Eq)]
pub struct Record {
    pub phase: Phase,
    pub yes: bool,
    pub sizes: Sizes,
    pub links: u32,
    pub passed: u32,
    pub nodes: Vec<u16>,
    pub labels: Vec<u8>,
    pub roots: Vec<u16>,
    pub states: Vec<u8>,
    /// The last finished answer.
    pub last: Option<Outcome>,
}

impl Record {
    pub fn fresh() -> Record {
        Record::idle(Phase::Empty, Sizes::NONE)
    }

    /// "Load .. end\[s\] in loaded with the record exactly as after a first Load of that plan."
    pub fn loaded(sizes: Sizes) -> Record {
        Record::idle(Phase::Loaded, sizes)
    }

    /// "Loaded after Cancel .. equals it in all but that answer".
    pub fn loaded_with(sizes: Sizes, last: Option<Outcome>) -> Record {
        Record { last, ..Record::loaded(sizes) }
    }

    fn idle(phase: Phase, sizes: Sizes) -> Record {
        let (nodes, labels, roots, states) = (vec![], vec![], vec![], vec![]);
        Record { phase, yes: false, sizes, links: 0, passed: 0, nodes, labels, roots, states, last: None }
    }

    /// What the record of an answered question has of its answer.
    pub fn answer(&self) -> Option<Outcome> {
        let state = *self.states.last()? as u32;
        let parts = self.roots.len() as u32;
        Some(Outcome { state, yes: self.yes, parts, links: self.links, passed: self.passed })
    }

    pub fn bytes(&self) -> Vec<u8> {
        let phase =
            [Phase::Empty, Phase::Loaded, Phase::Running, Phase::Answered].iter().position(|&p| p == self.phase);
        let counts = [self.nodes.len(), self.roots.len(), self.states.len()];
        let mut bytes = vec![phase.unwrap() as u8, self.yes as u8, self.sizes.s as u8, self.sizes.k as u8];
        bytes.extend((self.sizes.n as u16).to_le_bytes());
        bytes.extend(counts.map(|count| count as u8));
        bytes.extend(self.links.to_le_bytes());
        let doubled = |list: &[u16]| list.iter().flat_map(|v| v.to_le_bytes()).collect::<Vec<u8>>();
        for (list, end) in [
            (doubled(&self.nodes), 141),
            (self.labels.clone(), 205),
            (doubled(&self.roots), 713),
            (self.states.clone(), 967),
            (self.last.map_or(vec![], |last| last_bytes(&last).to_vec()), 975),
            (self.passed.to_le_bytes().to_vec(), 979),
            (self.last.map_or(vec![], |last| last.passed.to_le_bytes().to_vec()), RECORD_BYTES),
        ] {
            bytes.extend(list);
            assert!(bytes.len() <= end);
            bytes.resize(end, 0);
        }
        bytes
    }

    /// The record of these bytes; none where they can't be a session's. What the plan and the rules would be needed for
    /// is not asked, nor whether a node is listed twice.
    pub fn of(bytes: &[u8]) -> Option<Record> {
        if bytes.len() != RECORD_BYTES {
            return None;
        }
        let [m, parts, handled] = [bytes[6] as usize, bytes[7] as usize, bytes[8] as usize];
        if m > MAX_CHANGES || parts > MAX_PARTS || handled > parts {
            return None;
        }
        let record = Record {
            phase: *[Phase::Empty, Phase::Loaded, Phase::Running, Phase::Answered].get(bytes[0] as usize)?,
            yes: bytes[1] == 1,
            sizes: Sizes { n: word(bytes, 4) as usize, s: bytes[2] as usize, k: bytes[3] as usize },
            links: double(bytes, 9),
            passed: double(bytes, 975),
            nodes: (0..m).map(|i| word(bytes, 13 + 2 * i)).collect(),
            labels: bytes[141..141 + m].to_vec(),
            roots: (0..parts).map(|i| word(bytes, 205 + 2 * i)).collect(),
            states: bytes[713..713 + handled].to_vec(),
            last: last_of(bytes),
        };
        // bytes that no record has: entries in use no more, a yes of 2, values of an answer that is not there
        if record.bytes() == bytes && record.holds() {
            Some(record)
        } else {
            None
        }
    }

    /// What each state asks for.
    fn holds(&self) -> bool {
        match self.phase {
            Phase::Empty => *self == Record::fresh(),
            Phase::Loaded => {
                self.sizes_hold() && self.last_holds() && *self == Record::loaded_with(self.sizes, self.last)
            }
            Phase::Running => {
                self.question_holds() && self.last_holds() && self.states.len() < self.roots.len() && !self.yes
            }
            Phase::Answered => {
                self.question_holds() && self.states.len() == self.roots.len() && self.last == self.answer()
            }
        }
    }

    /// An answer that is kept is one that a question on these S states can have.
    fn last_holds(&self) -> bool {
        self.last.map_or(true, |last| {
            let parts = last.parts as usize;
            (last.state as usize) < self.sizes.s
                && (1..=MAX_PARTS).contains(&parts)
                && counts_hold(last.links, last.passed, parts)
        })
    }

    fn sizes_hold(&self) -> bool {
        let Sizes { n, s, k } = self.sizes;
        n >= 1 && (1..=MAX_STATES as usize).contains(&s) && (1..=MAX_LABELS as usize).contains(&k)
    }

    fn question_holds(&self) -> bool {
        let Sizes { n, s, k } = self.sizes;
        self.sizes_hold()
            && self.nodes.iter().all(|&v| (v as usize) < n)
            && self.labels.iter().all(|&a| (a as usize) < k)
            && self.roots.windows(2).all(|pair| pair[0] < pair[1])
            && self.roots.last().map_or(false, |&last| last as usize == n - 1)
            && self.states.iter().all(|&q| (q as usize) < s)
            && counts_hold(self.links, self.passed, self.states.len())
    }
}

fn last_bytes(last: &Outcome) -> [u8; 8] {
    let [a, b, c, d] = last.links.to_le_bytes();
    [1, last.state as u8, last.yes as u8, last.parts as u8, a, b, c, d]
}

/// Any bytes but a 0 at first are taken for an answer: `bytes` then tells whether they are one.
fn last_of(bytes: &[u8]) -> Option<Outcome> {
    let [there, state, yes, parts] = [967, 968, 969, 970].map(|at| bytes[at]);
    let (links, passed) = (double(bytes, 971), double(bytes, 979));
    let told = Outcome { state: state as u32, yes: yes == 1, parts: parts as u32, links, passed };
    Some(told).filter(|_| there != 0)
}

/// Each move passes over a node at least, and each climb over 65,535 at most: "links ≤ passed ≤ 65,535 for each part".
fn counts_hold(links: u32, passed: u32, parts: usize) -> bool {
    links <= passed && passed as usize <= 65_535 * parts
}

fn double(bytes: &[u8], at: usize) -> u32 {
    u32::from_le_bytes(bytes[at..at + 4].try_into().unwrap())
}

fn word(bytes: &[u8], at: usize) -> u16 {
    u16::from_le_bytes([bytes[at], bytes[at + 1]])
}
