//! Branch questions and questions by colours, beside plain Rust that does the same, and beside the climbs: on combs of growing
//! depth, under tables whose colours fall often, seldom or never.

use crate::cases::{list, List};
use crate::measure::{by_turns, Pair};
use crate::table::Single;
use crate::tables::pair;
use compare::inputs::{branch, lasting_branch, lasting_rules, plan, random_branch, random_rules, Case};
use compare::random::Random;
use compare::shapes::{kinds, Shape};
use reference::formats::read_plan;
use reference::tree::Tree;
use whatif::sizes::{colour_branch_bytes, colour_branch_numbers, colour_bytes, colour_numbers};

const LABELS: usize = 64;
/// The greatest ratios that are wanted: of a question, and of a build.
const GOAL: f64 = 2.0;
const BUILD_GOAL: f64 = 1.3;
/// Questions of a turn, on one plan.
const QUESTIONS: usize = 2_000;
/// Those by lists of changes.
const LISTS: usize = 65;

/// How often the colours of a branch table fall.
#[derive(Clone, Copy, PartialEq)]
pub enum Falls {
    /// Entries without any pattern: at almost every node two states are joined.
    Often,
    /// One label of 64 joins two states, all others permute them.
    Seldom,
    /// Every label permutes the states.
    Never,
}

impl Falls {
    pub fn named(word: &str) -> Option<Falls> {
        match word {
            "often" => Some(Falls::Often),
            "seldom" => Some(Falls::Seldom),
            "never" => Some(Falls::Never),
            _ => None,
        }
    }

    fn table(self, s: usize, random: &mut Random) -> Vec<u8> {
        if self == Falls::Often {
            return random_branch(s, LABELS, random);
        }
        let bytes = lasting_branch(s, LABELS, random);
        let (mut steps, marks) = (bytes[16..16 + s * LABELS].to_vec(), bytes[16 + s * LABELS..].to_vec());
        if self == Falls::Seldom && s > 1 {
            // under label 0 state 0 goes where state 1 goes
            steps[0] = steps[LABELS];
        }
        branch(s, LABELS, &steps, &marks)
    }
}

/// A plan and a branch table, with all their tables and some questions.
pub struct Branches {
    plan: Vec<u8>,
    branch: Vec<u8>,
    node_table: Vec<u16>,
    state_table: Vec<u8>,
    numbers: Vec<u16>,
    bytes: Vec<u8>,
    pairs: Vec<(u32, u32)>,
}

impl Branches {
    pub fn new(shape: Shape, leaves: usize, s: usize, falls: Falls, questions: usize) -> Branches {
        let random = &mut Random::new(14);
        let kinds = kinds(shape, leaves, random);
        let n = kinds.len();
        let (plan, branch) = (plan(&random.bytes_below(n, LABELS), &kinds), falls.table(s, random));
        let (mut node_table, mut state_table) = (vec![0; 4 * n], vec![0; (s + 1) * n]);
        whatif::branch_build(&plan, &branch, &mut node_table, &mut state_table).expect("accepted");
        let (mut numbers, mut bytes) = (vec![0; colour_branch_numbers(n, s)], vec![0; colour_branch_bytes(n, s)]);
        whatif::colour_branch_build(&plan, &branch, &mut numbers, &mut bytes).expect("accepted");
        let tree = Tree::of(&read_plan(&plan).expect("accepted"));
        let pairs = (0..questions).map(|_| pair(&tree, random)).collect();
        Branches { plan, branch, node_table, state_table, numbers, bytes, pairs }
    }

    /// The drops and the links of all questions, and a sum of their states.
    fn by_library(&self) -> [u32; 3] {
        let Branches { plan, branch, node_table, numbers, bytes, .. } = self;
        let ask = |&(upper, lower)| {
            let told = whatif::colour_branch(plan, branch, node_table, numbers, bytes, upper, lower).expect("accepted");
            [told.drops, told.links, u32::from(told.state)]
        };
        sums(self.pairs.iter().map(ask))
    }

    fn by_yardstick(&self) -> [u32; 3] {
        let Branches { plan, branch, node_table, numbers, bytes, .. } = self;
        let ask = |&(upper, lower)| {
            let told =
                yardstick::ask_colours(plan, branch, node_table, numbers, bytes, upper, lower).expect("accepted");
            [told.drops, told.links, u32::from(told.state)]
        };
        sums(self.pairs.iter().map(ask))
    }

    /// The links of the climbs, and the same sum of states.
    fn by_climb(&self) -> [u32; 2] {
        let Branches { plan, branch, node_table, state_table, .. } = self;
        let ask = |&(upper, lower)| {
            let told = whatif::branch(plan, branch, node_table, state_table, upper, lower).expect("accepted");
            [told.links, u32::from(told.state)]
        };
        sums(self.pairs.iter().map(ask))
    }

    fn by_plain_climb(&self) -> [u32; 2] {
        let Branches { plan, branch, node_table, state_table, .. } = self;
        let ask = |&(upper, lower)| {
            let told = yardstick::ask(plan, branch, node_table, state_table, upper, lower).expect("accepted");
            [told.links, u32::from(told.state)]
        };
        sums(self.pairs.iter().map(ask))
    }

    fn question(&self) -> Pair {
        let wanted = self.by_library();
        assert_eq!(self.by_climb()[1], wanted[2], "the climbs tell the same");
        by_turns(
            self.pairs.len(),
            || assert_eq!(self.by_library(), wanted, "both tell the same"),
            || assert_eq!(self.by_yardstick(), wanted, "both tell the same"),
        )
    }

    /// The library beside itself: by colours, and by the climb.
    fn beside_the_climb(&self) -> Pair {
        let (by_colours, by_climb) = (self.by_library(), self.by_climb());
        by_turns(
            self.pairs.len(),
            || assert_eq!(self.by_library(), by_colours),
            || assert_eq!(self.by_climb(), by_climb),
        )
    }

    fn build(&mut self) -> Pair {
        let (mut numbers, mut bytes) = (self.numbers.clone(), self.bytes.clone());
        let (plan, branch) = (&self.plan, &self.branch);
        by_turns(
            1,
            || whatif::colour_branch_build(plan, branch, &mut self.numbers, &mut self.bytes).expect("accepted"),
            || yardstick::colour_branch_build(plan, branch, &mut numbers, &mut bytes).expect("accepted"),
        )
    }

    /// Every question once by colours and by the climb, by the library and by plain Rust, for a count of instructions: questions, drops, links,
    /// links of the climbs.
    pub fn once(&self) -> [u32; 4] {
        let wanted = self.by_library();
        assert_eq!(self.by_yardstick(), wanted, "both tell the same");
        let [links, states] = self.by_climb();
        assert_eq!(self.by_plain_climb(), [links, states], "both tell the same");
        assert_eq!(states, wanted[2], "the climbs tell the same");
        [self.pairs.len() as u32, wanted[0], wanted[1], links]
    }
}

fn sums<const N: usize>(told: impl Iterator<Item = [u32; N]>) -> [u32; N] {
    told.fold([0; N], |mut sums, told| {
        sums.iter_mut().zip(told).for_each(|(sum, number)| *sum += number);
        sums
    })
}

/// A plan and a rule table of four states with their colour tables, and lists of changes.
struct Questions {
    case: Case,
    numbers: Vec<u16>,
    bytes: Vec<u8>,
    lists: Vec<List>,
}

impl Questions {
    fn new(case: Case, lists: Vec<List>) -> Questions {
        let (mut numbers, mut bytes) = (vec![0; colour_numbers(case.n, case.s)], vec![0; colour_bytes(case.n, case.s)]);
        whatif::colour_build(&case.plan, &case.rules, &mut numbers, &mut bytes).expect("accepted");
        Questions { case, numbers, bytes, lists }
    }

    fn by_library(&self) -> [u32; 2] {
        let Questions { case: Case { plan, rules, .. }, numbers, bytes, .. } = self;
        let ask = |(nodes, labels): &List| {
            let told =
                whatif::colour_ask(plan, rules, numbers, bytes, numbers, bytes, nodes, labels).expect("accepted");
            [told.drops, told.links]
        };
        sums(self.lists.iter().map(ask))
    }

    fn by_yardstick(&self) -> [u32; 2] {
        let Questions { case: Case { plan, rules, .. }, numbers, bytes, .. } = self;
        let ask = |(nodes, labels): &List| {
            let told = yardstick::colour_ask(plan, rules, numbers, bytes, numbers, bytes, nodes, labels);
            let told = told.expect("accepted");
            [told.drops, told.links]
        };
        sums(self.lists.iter().map(ask))
    }
}

/// A plan with a rule table of four states under which colours fall often, or never.
fn case_of(shape: Shape, falls: Falls, random: &mut Random) -> Case {
    let mut case = Case::new(shape, 32_768, 4, LABELS, random);
    case.rules = match falls {
        Falls::Never => lasting_rules(4, LABELS, random),
        Falls::Often | Falls::Seldom => random_rules(4, LABELS, random),
    };
    case
}

fn question_times(shape: Shape, falls: Falls, m: usize) -> Pair {
    let random = &mut Random::new(15);
    let case = case_of(shape, falls, random);
    let lists = (0..LISTS).map(|_| list(&case, m, random)).collect();
    let questions = Questions::new(case, lists);
    let wanted = questions.by_library();
    by_turns(
        LISTS,
        || assert_eq!(questions.by_library(), wanted, "both tell the same"),
        || assert_eq!(questions.by_yardstick(), wanted, "both tell the same"),
    )
}

fn build_times(falls: Falls) -> Pair {
    let random = &mut Random::new(15);
    let case = case_of(Shape::Uniform, falls, random);
    let buffers = || (vec![0; colour_numbers(case.n, 4)], vec![0; colour_bytes(case.n, 4)]);
    let (mut mine, mut other) = (buffers(), buffers());
    by_turns(
        1,
        || whatif::colour_build(&case.plan, &case.rules, &mut mine.0, &mut mine.1).expect("accepted"),
        || yardstick::colour_build(&case.plan, &case.rules, &mut other.0, &mut other.1).expect("accepted"),
    )
}

/// The columns of this work are the library by colours and the library by the climb.
const BESIDE: &str = "branch question, colours : climb";

const SHAPES: [(&str, Shape, usize, Falls); 6] = [
    ("left comb, N 65,535, S 16, falls often", Shape::LeftComb, 16, Falls::Often),
    ("left comb, N 65,535, S 16, falls seldom", Shape::LeftComb, 16, Falls::Seldom),
    ("left comb, N 65,535, S 16, falls never", Shape::LeftComb, 16, Falls::Never),
    ("left comb, N 65,535, S 2, falls often", Shape::LeftComb, 2, Falls::Often),
    ("random, N 65,535, S 16, falls often", Shape::Uniform, 16, Falls::Often),
    ("balanced, N 65,535, S 16, falls often", Shape::Balanced, 16, Falls::Often),
];
const LISTS_OF: [(&str, Shape, Falls, usize); 6] = [
    ("random, N 65,535, S 4, K 64, m 1, falls often", Shape::Uniform, Falls::Often, 1),
    ("random, N 65,535, S 4, K 64, m 8, falls often", Shape::Uniform, Falls::Often, 8),
    ("random, N 65,535, S 4, K 64, m 8, falls never", Shape::Uniform, Falls::Never, 8),
    ("left comb, N 65,535, S 4, K 64, m 1, falls often", Shape::LeftComb, Falls::Often, 1),
    ("left comb, N 65,535, S 4, K 64, m 8, falls often", Shape::LeftComb, Falls::Often, 8),
    ("left comb, N 65,535, S 4, K 64, m 8, falls never", Shape::LeftComb, Falls::Never, 8),
];

/// Those whose work has this text in its name, each handed on when it is measured.
pub fn singles(wanted: &str, keep: &mut dyn FnMut(Single)) {
    let (question, build) = ("branch question by colours", "colour branch build");
    for (on, shape, s, falls) in SHAPES {
        if question.contains(wanted) || build.contains(wanted) {
            let mut branches = Branches::new(shape, 32_768, s, falls, QUESTIONS);
            keep(Single { work: question, on, goal: GOAL, times: branches.question() });
            keep(Single { work: BESIDE, on, goal: f64::INFINITY, times: branches.beside_the_climb() });
            if falls == Falls::Often {
                keep(Single { work: build, on, goal: BUILD_GOAL, times: branches.build() });
            }
        }
    }
    if "question by colours".contains(wanted) {
        for (on, shape, falls, m) in LISTS_OF {
            keep(Single { work: "question by colours", on, goal: GOAL, times: question_times(shape, falls, m) });
        }
    }
    if "colour build".contains(wanted) {
        let (often, never) = ("random, N 65,535, S 4, K 64, falls often", "random, N 65,535, S 4, K 64, falls never");
        for (on, falls) in [(often, Falls::Often), (never, Falls::Never)] {
            keep(Single { work: "colour build", on, goal: BUILD_GOAL, times: build_times(falls) });
        }
    }
}

/// Both sides once, on a small plan.
pub fn calls() {
    Branches::new(Shape::Bushy, 501, 16, Falls::Often, 20).once();
}
