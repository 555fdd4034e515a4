//! Whole questions outside the session, beside plain Rust and beside the fresh run; allowed labels and clearing states.

use crate::cases::{list, List};
use crate::measure::{by_turns, Pair};
use crate::table::Single;
use compare::inputs::Case;
use compare::random::Random;
use compare::shapes::Shape;
use whatif::Lent;

/// The greatest ratio that is wanted.
const GOAL: f64 = 1.1;
const LABELS: usize = 64;
/// Lists in a round, on one plan.
const LISTS: usize = 65;

/// A plan with its tables, and lists of changes.
pub struct Asked {
    case: Case,
    node_table: Vec<u16>,
    state_table: Vec<u8>,
    lists: Vec<List>,
}

impl Asked {
    pub fn new(case: Case, m: usize, count: usize, random: &mut Random) -> Asked {
        let (mut node_table, mut state_table) = (vec![0; case.node_table_len()], vec![0; case.state_table_len()]);
        whatif::build(&case.plan, &case.rules, &mut node_table, &mut state_table).expect("accepted");
        let lists = (0..count).map(|_| list(&case, m, random)).collect();
        Asked { case, node_table, state_table, lists }
    }

    fn lent(&self) -> Lent<'_> {
        let Asked { case, node_table, state_table, .. } = self;
        Lent { plan: &case.plan, rules: &case.rules, node_table, state_table }
    }

    /// The sums of states, parts, links and nodes passed over.
    pub fn by_library(&self) -> [u32; 4] {
        let lent = self.lent();
        sums(self.lists.iter().map(|(nodes, labels)| {
            let told = whatif::ask(&lent, nodes, labels).expect("accepted");
            [u32::from(told.state), told.parts, told.links, told.passed]
        }))
    }

    pub fn by_yardstick(&self) -> [u32; 4] {
        let Asked { case, node_table, state_table, .. } = self;
        sums(self.lists.iter().map(|(nodes, labels)| {
            let told = yardstick::ask_whole(&case.plan, &case.rules, node_table, state_table, nodes, labels);
            let [state, _, parts, links, passed] = told.expect("accepted");
            [state, parts, links, passed]
        }))
    }

    fn by_fresh_runs(&self) -> u32 {
        let run = |(nodes, labels): &List| {
            u32::from(whatif::fresh_run(&self.case.plan, &self.case.rules, nodes, labels).expect("accepted").state)
        };
        self.lists.iter().map(run).sum()
    }
}

fn sums(told: impl Iterator<Item = [u32; 4]>) -> [u32; 4] {
    told.fold([0; 4], |sums, told| [0, 1, 2, 3].map(|i| sums[i] + told[i]))
}

fn ask_times(shape: Shape, s: usize, m: usize) -> Pair {
    let random = &mut Random::new(17);
    let asked = Asked::new(Case::new(shape, 32_768, s, LABELS, random), m, LISTS, random);
    let wanted = asked.by_library();
    by_turns(
        LISTS,
        || assert_eq!(asked.by_library(), wanted, "both tell the same"),
        || assert_eq!(asked.by_yardstick(), wanted, "both tell the same"),
    )
}

/// The columns of this work are a question and a fresh run, both of the library.
const BESIDE: &str = "ask : fresh run";

fn beside_fresh_run() -> Pair {
    let random = &mut Random::new(17);
    let asked = Asked::new(Case::new(Shape::Uniform, 32_768, 16, LABELS, random), 8, 5, random);
    let state = asked.by_library()[0];
    by_turns(
        asked.lists.len(),
        || assert_eq!(asked.by_library()[0], state, "both tell the same"),
        || assert_eq!(asked.by_fresh_runs(), state, "both tell the same"),
    )
}

fn allowed_times(shape: Shape, s: usize) -> Pair {
    let case = Case::new(shape, 32_768, s, LABELS, &mut Random::new(18));
    let (mut mine, mut other) = (vec![0; case.n], vec![0; case.n]);
    let times = by_turns(
        1,
        || whatif::allowed(&case.plan, &case.rules, &mut mine).expect("accepted"),
        || yardstick::allowed(&case.plan, &case.rules, &mut other).expect("accepted"),
    );
    assert!(mine == other, "both write the same");
    times
}

fn clearing_times(shape: Shape, s: usize) -> Pair {
    let case = Case::new(shape, 32_768, s, LABELS, &mut Random::new(18));
    let (mut mine, mut other) = (vec![0; case.n], vec![0; case.n]);
    let times = by_turns(
        1,
        || whatif::clearing(&case.plan, &case.rules, &mut mine).expect("accepted"),
        || yardstick::clearing(&case.plan, &case.rules, &mut other).expect("accepted"),
    );
    assert!(mine == other, "both write the same");
    times
}

const ASKS: [(&str, Shape, usize, usize); 6] = [
    ("random, N 65,535, S 16, K 64, m 1", Shape::Uniform, 16, 1),
    ("random, N 65,535, S 16, K 64, m 8", Shape::Uniform, 16, 8),
    ("random, N 65,535, S 16, K 64, m 64", Shape::Uniform, 16, 64),
    ("random, N 65,535, S 2, K 64, m 8", Shape::Uniform, 2, 8),
    ("left comb, N 65,535, S 16, K 64, m 8", Shape::LeftComb, 16, 8),
    ("balanced, N 65,535, S 16, K 64, m 8", Shape::Balanced, 16, 8),
];
const PLANS: [(&str, Shape, usize); 4] = [
    ("random, N 65,535, S 16, K 64", Shape::Uniform, 16),
    ("random, N 65,535, S 2, K 64", Shape::Uniform, 2),
    ("left comb, N 65,535, S 16, K 64", Shape::LeftComb, 16),
    ("balanced, N 65,535, S 16, K 64", Shape::Balanced, 16),
];

/// Those whose work has this text in its name, each handed on when it is measured.
pub fn singles(wanted: &str, keep: &mut dyn FnMut(Single)) {
    if "ask".contains(wanted) {
        for (on, shape, s, m) in ASKS {
            keep(Single { work: "ask", on, goal: GOAL, times: ask_times(shape, s, m) });
        }
    }
    if BESIDE.contains(wanted) {
        let on = "random, N 65,535, S 16, K 64, m 8";
        keep(Single { work: BESIDE, on, goal: f64::INFINITY, times: beside_fresh_run() });
    }
    for (on, shape, s) in PLANS {
        if "allowed".contains(wanted) {
            keep(Single { work: "allowed", on, goal: GOAL, times: allowed_times(shape, s) });
        }
        if "clearing".contains(wanted) {
            keep(Single { work: "clearing", on, goal: GOAL, times: clearing_times(shape, s) });
        }
    }
}

/// Twenty calls by both sides.
pub fn calls(case: &Case, m: usize, random: &mut Random) {
    let asked = Asked::new(case.clone(), m, 20, random);
    assert_eq!(asked.by_library(), asked.by_yardstick(), "both tell the same");
    let (mut masks, mut sets) = ([vec![0; case.n], vec![0; case.n]], [vec![0; case.n], vec![0; case.n]]);
    for _ in 0..20 {
        whatif::allowed(&case.plan, &case.rules, &mut masks[0]).expect("accepted");
        yardstick::allowed(&case.plan, &case.rules, &mut masks[1]).expect("accepted");
        whatif::clearing(&case.plan, &case.rules, &mut sets[0]).expect("accepted");
        yardstick::clearing(&case.plan, &case.rules, &mut sets[1]).expect("accepted");
    }
    assert!(masks[0] == masks[1] && sets[0] == sets[1], "both write the same");
}
