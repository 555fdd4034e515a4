//! Random comparisons in rounds: a round of each kind makes a case or a few, as chance has them, and compares every call
//! that it makes. The tests run them from fixed seeds and ask what came; the program runs them all, round after round.

pub mod agreements;
pub mod allowed;
pub mod asks;
pub mod branch_questions;
pub mod builds;
pub mod call_lists;
pub mod choices;
pub mod colour_branches;
pub mod colour_questions;
pub mod damaged_inputs;
pub mod damaged_records;
pub mod damaged_tables;
pub mod fewest;
pub mod fresh_runs;
pub mod full_checks;
pub mod lay_overs;
pub mod merges;
pub mod mills;
pub mod other_bytes;
pub mod owned;
pub mod panels;
pub mod planner_files;
pub mod questions;
pub mod refusals;
pub mod screen_lists;
pub mod screen_refusals;
pub mod session_refusals;

use crate::counts::Counts;
use crate::difference::{self, Difference};
use crate::inputs::Case;
use crate::random::Random;

/// A kind of random comparison.
#[derive(Clone, Copy)]
pub struct Round {
    pub name: &'static str,
    compare: fn(&mut Random, &mut Counts),
}

pub const ROUNDS: [Round; 27] = [
    Round { name: "builds", compare: builds::round },
    Round { name: "full checks", compare: full_checks::round },
    Round { name: "fresh runs", compare: fresh_runs::round },
    Round { name: "refusals", compare: refusals::round },
    Round { name: "branch questions", compare: branch_questions::round },
    Round { name: "damaged tables", compare: damaged_tables::round },
    Round { name: "questions", compare: questions::round },
    Round { name: "other bytes", compare: other_bytes::round },
    Round { name: "damaged inputs", compare: damaged_inputs::round },
    Round { name: "call lists", compare: call_lists::round },
    Round { name: "session refusals", compare: session_refusals::round },
    Round { name: "damaged records", compare: damaged_records::round },
    Round { name: "merges", compare: merges::round },
    Round { name: "agreements", compare: agreements::round },
    Round { name: "planner files", compare: planner_files::round },
    Round { name: "laying over", compare: lay_overs::round },
    Round { name: "choices", compare: choices::round },
    Round { name: "allowed labels", compare: allowed::round },
    Round { name: "fewest changes", compare: fewest::round },
    Round { name: "whole questions", compare: asks::round },
    Round { name: "screen lists", compare: screen_lists::round },
    Round { name: "screen refusals", compare: screen_refusals::round },
    Round { name: "colours of words", compare: colour_branches::round },
    Round { name: "colours of sets", compare: colour_questions::round },
    Round { name: "panels", compare: panels::round },
    Round { name: "mills", compare: mills::round },
    Round { name: "owned types", compare: owned::round },
];

impl Round {
    /// The round of this kind that a seed gives: the first difference that it finds, if any.
    pub fn run(&self, seed: u64, counts: &mut Counts) -> Option<Difference> {
        let own = self.name.bytes().fold(seed, |sum, byte| sum.wrapping_mul(257).wrapping_add(byte as u64));
        difference::first(|| (self.compare)(&mut Random::new(own), counts))
    }
}

/// Small cases mostly, now and then larger ones, seldom the largest.
fn any_case(random: &mut Random) -> Case {
    let most_leaves = match random.below(200) {
        0 => 32_768,
        1..=10 => 600,
        _ => 40,
    };
    Case::random(most_leaves, random)
}
