//! The calls on tables: Load, full check, fresh run, and branch build, check and question. Each on buffers of its own,
//! allocated and written before.

use crate::cases::{each, list, List};
use crate::measure::{by_turns, Pair};
use crate::table::Row;
use compare::inputs::Case;
use compare::random::Random;
use reference::tree::Tree;
use whatif::sizes::RECORD_BYTES;
use whatif::Session;
use yardstick::session;

/// Branch questions of a turn: so many that no turn is learned by heart. Of 2,000 a processor remembers which way the
/// branches went, more of it for one side than for the other.
const QUESTIONS: usize = 20_000;

type Buffers = (Vec<u16>, Vec<u8>);

/// A branch question, in one of the two readings, by the library and by plain Rust.
pub type Mine = fn(&[u8], &[u8], &[u16], &[u8], u32, u32) -> Result<whatif::BranchVerdict, whatif::Refusal>;
pub type Other = fn(&[u8], &[u8], &[u16], &[u8], u32, u32) -> Result<yardstick::Told, u32>;

/// A case, and buffers for both sides.
struct One {
    case: Case,
    library: Buffers,
    yardstick: Buffers,
    /// The list of a fresh run.
    list: List,
    /// Branch questions: upper and lower node.
    pairs: Vec<(u32, u32)>,
}

impl One {
    fn new(case: Case, questions: usize, random: &mut Random) -> One {
        let buffers = (vec![0; case.node_table_len()], vec![0; case.state_table_len()]);
        let list = list(&case, 64, random);
        let tree = Tree::of(&reference::formats::read_plan(&case.plan).expect("accepted"));
        let pairs = (0..questions).map(|_| pair(&tree, random)).collect();
        One { case, library: buffers.clone(), yardstick: buffers, list, pairs }
    }
}

/// A random node and one of the nodes from it up to the root.
pub fn pair(tree: &Tree, random: &mut Random) -> (u32, u32) {
    let lower = random.below(tree.root() + 1);
    let mut upper = lower;
    for _ in 0..random.below(tree.depth[lower] + 1) {
        upper = tree.parent[upper];
    }
    (upper as u32, lower as u32)
}

/// The plans of one turn, all of one shape and size.
struct Set(Vec<One>);

type Build = fn(&Case, &mut Buffers) -> bool;
type Check = fn(&Case, &Buffers) -> bool;

impl Set {
    fn new(cases: Vec<Case>, random: &mut Random) -> Set {
        let questions = QUESTIONS / cases.len();
        Set(cases.into_iter().map(|case| One::new(case, questions, random)).collect())
    }

    fn build(&mut self, library: Build, yardstick: Build) -> Pair {
        let count = self.0.len();
        let (mut to_library, mut to_yardstick): (Vec<_>, Vec<_>) =
            self.0.iter_mut().map(|one| ((&one.case, &mut one.library), (&one.case, &mut one.yardstick))).unzip();
        let times = by_turns(
            count,
            || assert!(to_library.iter_mut().all(|(case, to)| library(case, to))),
            || assert!(to_yardstick.iter_mut().all(|(case, to)| yardstick(case, to))),
        );
        assert!(self.0.iter().all(|one| one.library == one.yardstick), "both build the same");
        times
    }

    fn load(&mut self) -> Pair {
        self.build(
            |case, to| Session::new().load(&case.plan, &case.rules, &mut to.0, &mut to.1).is_ok(),
            |case, to| session::load(&mut [0; RECORD_BYTES], &case.plan, &case.rules, &mut to.0, &mut to.1).is_ok(),
        )
    }

    fn branch_build(&mut self) -> Pair {
        self.build(
            |case, to| whatif::branch_build(&case.plan, &case.branch, &mut to.0, &mut to.1).is_ok(),
            |case, to| yardstick::branch_build(&case.plan, &case.branch, &mut to.0, &mut to.1).is_ok(),
        )
    }

    fn check(&self, library: Check, yardstick: Check) -> Pair {
        by_turns(
            self.0.len(),
            || assert!(self.0.iter().all(|one| library(&one.case, &one.library)), "a full check says yes"),
            || assert!(self.0.iter().all(|one| yardstick(&one.case, &one.library)), "a full check says yes"),
        )
    }

    /// After `load`.
    fn full_check(&self) -> Pair {
        self.check(
            |case, of| whatif::check(&case.plan, &case.rules, &of.0, &of.1) == Ok(true),
            |case, of| yardstick::check(&case.plan, &case.rules, &of.0, &of.1) == Ok(true),
        )
    }

    /// After `branch_build`.
    fn branch_check(&self) -> Pair {
        self.check(
            |case, of| whatif::branch_check(&case.plan, &case.branch, &of.0, &of.1) == Ok(true),
            |case, of| yardstick::branch_check(&case.plan, &case.branch, &of.0, &of.1) == Ok(true),
        )
    }

    /// Both sides by turns on every plan; both must tell the same.
    fn told(&self, count: usize, library: impl Fn(&One) -> u32, yardstick: impl Fn(&One) -> u32) -> Pair {
        let (mut by_library, mut by_yardstick) = (0, 0);
        let times = by_turns(
            count,
            || by_library = self.0.iter().map(&library).sum(),
            || by_yardstick = self.0.iter().map(&yardstick).sum(),
        );
        assert_eq!(by_library, by_yardstick, "both tell the same");
        times
    }

    fn fresh_run(&self, m: usize) -> Pair {
        self.told(
            self.0.len(),
            |One { case, list: (nodes, labels), .. }| {
                let told = whatif::fresh_run(&case.plan, &case.rules, &nodes[..m], &labels[..m]).unwrap();
                u32::from(told.state) * 2 + u32::from(told.yes)
            },
            |One { case, list: (nodes, labels), .. }| {
                let told = yardstick::fresh_run(&case.plan, &case.rules, &nodes[..m], &labels[..m]).unwrap();
                u32::from(told.0) * 2 + u32::from(told.1)
            },
        )
    }

    /// After `branch_build`: the word from below the upper node.
    fn branch_question(&self) -> Pair {
        self.asked(whatif::branch, yardstick::ask)
    }

    /// The word with the upper node's label.
    fn branch_question_with_upper(&self) -> Pair {
        self.asked(whatif::branch_with_upper, yardstick::ask_with_upper)
    }

    fn asked(&self, mine: Mine, other: Other) -> Pair {
        self.told(
            self.0.iter().map(|one| one.pairs.len()).sum(),
            |One { case, library: (node_table, state_table), pairs, .. }| {
                let ask =
                    |&(upper, lower)| mine(&case.plan, &case.branch, node_table, state_table, upper, lower).unwrap();
                pairs.iter().map(ask).map(|told| u32::from(told.state) + 16 * told.links).sum()
            },
            |One { case, library: (node_table, state_table), pairs, .. }| {
                let ask =
                    |&(upper, lower)| other(&case.plan, &case.branch, node_table, state_table, upper, lower).unwrap();
                pairs.iter().map(ask).map(|told| u32::from(told.state) + 16 * told.links).sum()
            },
        )
    }
}

/// Rows whose work has this text in its name, each handed on when it is measured; the builds always, since what follows
/// needs them.
pub fn rows(wanted: &str, keep: &mut dyn FnMut(Row)) {
    let mut sets = each(&mut Random::new(2), Set::new);
    let mut measure = |work: &'static str, m: Option<usize>, measured: &mut dyn FnMut(&mut Set) -> Pair| {
        if !work.contains(wanted) && work != "Load" && work != "branch build" {
            return;
        }
        for (shape, s, [small, large]) in &mut sets {
            let times = [measured(small), measured(large)];
            keep(Row { work, m, shape, s: *s, times });
        }
    };
    measure("Load", None, &mut Set::load);
    measure("full check", None, &mut |set| set.full_check());
    for m in [0, 64] {
        measure("fresh run", Some(m), &mut |set| set.fresh_run(m));
    }
    measure("branch build", None, &mut Set::branch_build);
    measure("branch check", None, &mut |set| set.branch_check());
    measure("branch question", None, &mut |set| set.branch_question());
    measure("branch question with upper", None, &mut |set| set.branch_question_with_upper());
}
