//! How many choices end in each state, with growing numbers of open nodes.

use crate::cases::list;
use crate::measure::{by_turns, Pair};
use crate::table::Single;
use compare::inputs::Case;
use compare::random::Random;
use compare::shapes::Shape;
use whatif::sizes::MAX_STATES;

/// On what, its shape and the open nodes. 10^18 lets nine nodes with 64 labels pass.
const ROWS: [(&str, Shape, usize); 7] = [
    ("random, N 65,535, S 16, K 64, m 0", Shape::Uniform, 0),
    ("random, N 65,535, S 16, K 64, m 1", Shape::Uniform, 1),
    ("random, N 65,535, S 16, K 64, m 2", Shape::Uniform, 2),
    ("random, N 65,535, S 16, K 64, m 4", Shape::Uniform, 4),
    ("random, N 65,535, S 16, K 64, m 8", Shape::Uniform, 8),
    ("left comb, N 65,535, S 16, K 64, m 8", Shape::LeftComb, 8),
    ("balanced, N 65,535, S 16, K 64, m 8", Shape::Balanced, 8),
];
const GOAL: f64 = 2.5;

/// Lists of nodes in a turn, on one plan.
const LISTS: usize = 65;
const LABELS: usize = 64;

/// A plan with its tables.
pub struct Built {
    case: Case,
    node_table: Vec<u16>,
    state_table: Vec<u8>,
}

impl Built {
    pub fn new(case: Case) -> Built {
        let (mut node_table, mut state_table) = (vec![0; case.node_table_len()], vec![0; case.state_table_len()]);
        whatif::build(&case.plan, &case.rules, &mut node_table, &mut state_table).expect("accepted");
        Built { case, node_table, state_table }
    }

    fn by_library(&self, nodes: &[u16]) -> [u64; MAX_STATES] {
        let told = whatif::count(&self.case.plan, &self.case.rules, &self.node_table, &self.state_table, nodes);
        let mut counts = [0; MAX_STATES];
        counts[..self.case.s].copy_from_slice(told.expect("accepted").by_state());
        counts
    }

    fn by_yardstick(&self, nodes: &[u16]) -> [u64; MAX_STATES] {
        let mut counts = [0; MAX_STATES];
        let Built { case, node_table, state_table } = self;
        yardstick::count(&case.plan, &case.rules, node_table, state_table, nodes, &mut counts).expect("accepted");
        counts
    }
}

fn times(shape: Shape, m: usize) -> Pair {
    let random = &mut Random::new(8);
    let built = Built::new(Case::new(shape, 32_768, MAX_STATES, LABELS, random));
    let lists: Vec<Vec<u16>> = (0..LISTS).map(|_| list(&built.case, m, random).0).collect();
    let first = |count: &dyn Fn(&[u16]) -> [u64; MAX_STATES]| lists.iter().map(|nodes| count(nodes)[0] % 1_000).sum();
    assert!(lists.iter().all(|nodes| built.by_library(nodes) == built.by_yardstick(nodes)), "both count the same");
    let wanted: u64 = first(&|nodes| built.by_library(nodes));
    by_turns(
        LISTS,
        || assert_eq!(first(&|nodes| built.by_library(nodes)), wanted),
        || assert_eq!(first(&|nodes| built.by_yardstick(nodes)), wanted),
    )
}

/// Those whose work has this text in its name, each handed on when it is measured.
pub fn singles(wanted: &str, keep: &mut dyn FnMut(Single)) {
    if "count".contains(wanted) {
        for (on, shape, m) in ROWS {
            keep(Single { work: "count", on, goal: GOAL, times: times(shape, m) });
        }
    }
}

/// Twenty calls by both sides, on a plan and its tables.
pub fn calls(built: &Built, m: usize, random: &mut Random) {
    for _ in 0..20 {
        let nodes = list(&built.case, m.min(9), random).0;
        assert!(built.by_library(&nodes) == built.by_yardstick(&nodes), "both count the same");
    }
}
