//! Document 01's sample clearance.

use crate::panel::Outcome;
use crate::write;

/// "Plan A: N 7, labels 1 1 1 0 1 0 1, kinds 0 0 1 0 0 1 1 (26 bytes)."
pub fn plan_a() -> Vec<u8> {
    write::plan(&[1, 1, 1, 0, 1, 0, 1], &[0, 0, 1, 0, 0, 1, 1])
}

/// "Table A: S 2, K 2, leaf states 0 1, inner 0 1 0 0 1 1 0 1, marks 0 1 (32 bytes)"
pub fn table_a() -> Vec<u8> {
    write::rules(2, 2, &[0, 1], &[0, 1, 0, 0, 1, 1, 0, 1], &[0, 1])
}

/// The design's control, in which the nodes passed over are more than the links: N 13.
pub fn plan_with_a_gap() -> Vec<u8> {
    write::plan(&[0, 0, 0, 0, 1, 1, 1, 1, 0, 1, 1, 1, 0], &[0, 0, 0, 0, 1, 1, 0, 1, 0, 1, 0, 1, 1])
}

/// A question, and what is told of it, or the refusal.
pub struct Row {
    pub nodes: &'static [u16],
    pub labels: &'static [u8],
    pub told: Result<Outcome, u32>,
}

/// "For the questions (none); 0→0; 0→0 2→0; 0→0 3→1; 4→0; 6→0; 7→0; 0→2; 0→0 0→1 it prints": state, yes or no, parts,
/// links and nodes passed over, or the refusal. Here these are as many as the links.
pub const ROWS: [Row; 9] = [
    row(&[], &[], told(1, true, 1, 0, 0)),
    row(&[0], &[0], told(0, false, 2, 1, 1)),
    row(&[0, 2], &[0, 0], told(1, true, 3, 0, 0)),
    row(&[0, 3], &[0, 1], told(0, false, 5, 0, 0)),
    row(&[4], &[0], told(0, false, 2, 1, 1)),
    row(&[6], &[0], told(1, true, 1, 0, 0)),
    row(&[7], &[0], Err(13)),
    row(&[0], &[2], Err(14)),
    row(&[0, 0], &[0, 1], told(1, true, 1, 0, 0)),
];

const fn row(nodes: &'static [u16], labels: &'static [u8], told: Result<Outcome, u32>) -> Row {
    Row { nodes, labels, told }
}

const fn told(state: u32, yes: bool, parts: u32, links: u32, passed: u32) -> Result<Outcome, u32> {
    Ok(Outcome { state, yes, parts, links, passed })
}

impl Row {
    /// What a fresh run tells of it: state, and yes or no.
    pub fn fresh(&self) -> Result<(u8, bool), u32> {
        self.told.map(|told| (told.state as u8, told.yes))
    }
}
