//! The fewest changes: on plans that are not as wanted, so that a list is made; every label permitted, or a set for
//! each node.

use crate::measure::{by_turns, Pair};
use crate::table::Single;
use compare::inputs::Case;
use compare::random::Random;
use compare::shapes::Shape;
use whatif::sizes::MAX_CHANGES;
use whatif::{Fewest, Want};

/// The greatest ratio that is wanted.
const GOAL: f64 = 1.3;
const WORK: &str = "fewest";

/// On what, its shape, leaves, S, K, and whether each node has a set of labels.
const ROWS: [(&str, Shape, [usize; 3], bool); 6] = [
    ("random, N 65,535, S 4, K 8", Shape::Uniform, [32_768, 4, 8], false),
    ("random, N 65,535, S 4, K 64", Shape::Uniform, [32_768, 4, 64], false),
    ("left comb, N 65,535, S 4, K 8", Shape::LeftComb, [32_768, 4, 8], false),
    ("random, N 65,535, S 4, K 8, sets of labels", Shape::Uniform, [32_768, 4, 8], true),
    ("random, N 4,095, S 16, K 64", Shape::Uniform, [2_048, 16, 64], false),
    ("random, N 4,095, S 16, K 64, sets of labels", Shape::Uniform, [2_048, 16, 64], true),
];

/// A plan, its rules, and the verdict that it has not; sets of labels where they are wanted; work space of each side.
pub struct Asked {
    case: Case,
    may: Vec<u64>,
    want: Want,
    work: [Vec<u32>; 2],
}

impl Asked {
    pub fn new(case: Case, sets: bool, random: &mut Random) -> Asked {
        // by the reference: the library's own runs are counted
        let yes = reference::fresh::fresh_run(&case.plan, &case.rules, &[], &[]).expect("accepted").yes;
        let may = (0..if sets { case.n } else { 0 }).map(|_| random.word()).collect();
        let work = [vec![0; case.state_table_len()], vec![0; case.state_table_len()]];
        Asked { case, may, want: if yes { Want::NotCleared } else { Want::Cleared }, work }
    }

    /// The least number; the list is looked at once, in the comparison.
    fn by_library(&mut self) -> Option<u32> {
        let Asked { case, may, want, work } = self;
        let fewest = whatif::fewest(&case.plan, &case.rules, may, *want, &mut work[0]).expect("accepted");
        assert!(fewest != Fewest::AsItIs, "it is not as wanted");
        fewest.least()
    }

    fn by_yardstick(&mut self) -> Option<u32> {
        let Asked { case, may, want, work } = self;
        let (mut nodes, mut labels) = ([0; MAX_CHANGES], [0; MAX_CHANGES]);
        let (cleared, list) = (*want == Want::Cleared, (&mut nodes[..], &mut labels[..]));
        let told = yardstick::fewest(&case.plan, &case.rules, may, cleared, &mut work[1], list).expect("accepted");
        Some(told.0).filter(|&least| least < yardstick::FAR)
    }
}

fn times(shape: Shape, [leaves, s, k]: [usize; 3], sets: bool) -> Pair {
    let random = &mut Random::new(41);
    let asked = &mut Asked::new(Case::new(shape, leaves, s, k, random), sets, random);
    let wanted = asked.by_library();
    let asked = std::cell::RefCell::new(asked);
    by_turns(
        1,
        || assert_eq!(asked.borrow_mut().by_library(), wanted, "both tell the same"),
        || assert_eq!(asked.borrow_mut().by_yardstick(), wanted, "both tell the same"),
    )
}

/// Those whose work has this text in its name, each handed on when it is measured.
pub fn singles(wanted: &str, keep: &mut dyn FnMut(Single)) {
    if WORK.contains(wanted) {
        for (on, shape, numbers, sets) in ROWS {
            keep(Single { work: WORK, on, goal: GOAL, times: times(shape, numbers, sets) });
        }
    }
}

/// The largest plan on which its instructions are counted: on larger ones a call takes minutes under valgrind.
const COUNTED: usize = 1_001;

/// One call by both sides.
pub fn calls(case: &Case, random: &mut Random) {
    if case.n <= COUNTED {
        let asked = &mut Asked::new(case.clone(), false, random);
        assert_eq!(asked.by_library(), asked.by_yardstick(), "both tell the same");
    }
}
