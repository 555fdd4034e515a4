//! Fresh runs with lists of changes.

use super::any_case;
use crate::calls;
use crate::counts::Counts;
use crate::faults::repeat_nodes;
use crate::inputs::Case;
use crate::random::Random;

pub fn round(random: &mut Random, counts: &mut Counts) {
    let case = any_case(random);
    for _ in 0..3 {
        let m = *random.pick(&[0, 1, 2, 3, 9, 30, 64]);
        fresh_run(&case, m, random, counts);
    }
}

/// A list of at most `m` changes; the other way round it is the same question; then with nodes
/// listed again.
pub fn fresh_run(case: &Case, m: usize, random: &mut Random, counts: &mut Counts) {
    let (mut nodes, mut labels) = case.list(m, random);
    calls::fresh_run(&case.plan, &case.rules, &nodes, &labels, random).expect("accepted");
    nodes.reverse();
    labels.reverse();
    calls::fresh_run(&case.plan, &case.rules, &nodes, &labels, random).expect("accepted");
    let m = nodes.len();
    repeat_nodes(&mut nodes, &mut labels, case.k, random);
    calls::fresh_run(&case.plan, &case.rules, &nodes, &labels, random).expect("accepted");
    let changes = match m {
        0 => "none",
        1 => "1",
        64 => "64",
        _ => "2 to 63",
    };
    counts.add(format!("changes: {}", changes));
}
