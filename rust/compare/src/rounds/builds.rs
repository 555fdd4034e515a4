//! Builds of rule tables and of branch tables in buffers that are too short, exactly long enough or longer, and full
//! checks of what they wrote: nothing beyond the tables is written or looked at, and nothing at all on a refusal.

use super::any_case;
use crate::calls::{self, longer, Kind, KINDS};
use crate::counts::Counts;
use crate::faults::shorter;
use crate::inputs::Case;
use crate::random::Random;

pub fn round(random: &mut Random, counts: &mut Counts) {
    let case = any_case(random);
    for kind in KINDS {
        let more = (random.below(9), random.below(9));
        for excess in [(0, 0), more] {
            build(&case, kind, excess, random, counts);
        }
        too_short(&case, kind, random, counts);
    }
}

/// Buffers with this much excess; the full check of what was written says yes, with any excess.
pub fn build(case: &Case, kind: Kind, excess: (usize, usize), random: &mut Random, counts: &mut Counts) {
    let table = case.table(kind);
    let lens = (case.node_table_len() + excess.0, case.state_table_len() + excess.1);
    let (mut node_table, mut state_table) = calls::build(kind, &case.plan, table, lens, random).expect("accepted");
    let yes = calls::library_check(kind, &case.plan, table, &node_table, &state_table, random);
    assert_eq!(yes, Ok(true), "the full check of what was built");
    node_table.truncate(case.node_table_len());
    state_table.truncate(case.state_table_len());
    let node_table = longer(&node_table, random.numbers(excess.0));
    let state_table = longer(&state_table, random.bytes(excess.1));
    let yes = calls::library_check(kind, &case.plan, table, &node_table, &state_table, random);
    assert_eq!(yes, Ok(true), "the full check with another excess");
    counts.add(format!("{:?} built, excess {}", kind, if excess == (0, 0) { "none" } else { "some" }));
}

/// 11 from the build and from the full check: one buffer short by one or by more, the other long enough, or both short.
pub fn too_short(case: &Case, kind: Kind, random: &mut Random, counts: &mut Counts) {
    let (node_table, state_table) = (case.node_table_len(), case.state_table_len());
    let few = (shorter(node_table, random), shorter(state_table, random));
    for lens in [
        (node_table - 1, state_table),
        (node_table, state_table - 1),
        few,
        (few.0, state_table + 5),
        (node_table + 5, few.1),
    ] {
        let refused = calls::build(kind, &case.plan, case.table(kind), lens, random);
        assert_eq!(refused.err(), Some(11));
        let (node_table, state_table) = (random.numbers(lens.0), random.bytes(lens.1));
        let refused = calls::check(kind, &case.plan, case.table(kind), &node_table, &state_table, random);
        assert_eq!(refused, Err(11));
        counts.add(format!("{:?} refused 11", kind));
    }
}
