//! Twenty calls of each kind by both sides, and nothing else: for bench/instructions.

use crate::cases::{list, List, SHAPES};
use crate::sessions::One;
use crate::tables::{pair, Mine, Other};
use crate::{choices, colours, fewest, planner, rule_tables, whole};
use compare::inputs::Case;
use compare::random::Random;
use reference::tree::Tree;
use whatif::sizes::RECORD_BYTES;
use whatif::Session;
use yardstick::session;

/// On one plan of n nodes with s states, lists of m changes.
pub fn make(shape: &str, [n, s, m]: [usize; 3]) {
    let random = &mut Random::new(4);
    let (shape, _) = *SHAPES.iter().find(|(_, name)| *name == shape).expect("one of the shapes of the table");
    let one = One::new(Case::new(shape, (n + 1) / 2, s, 64, random));
    builds(&one.case);
    for _ in 0..20 {
        let list = list(&one.case, m, random);
        assert_eq!(one.ask(&list), one.yardstick_ask(&list), "both tell the same");
        fresh_run(&one, &list);
        #[cfg(feature = "probes")]
        crate::places::once(&one, &list);
    }
    whole::calls(&one.case, m, random);
    fewest::calls(&one.case, random);
    choices::calls(&choices::Built::new(one.case.clone()), m, random);
    branch_questions(one.case, random);
    rule_tables::calls(random);
    planner::calls(random);
    colours::calls();
}

/// Loads, branch builds and their full checks, into buffers of each side.
fn builds(case: &Case) {
    let buffers = || (vec![0; case.node_table_len()], vec![0; case.state_table_len()]);
    let (mut mine, mut other) = (buffers(), buffers());
    for _ in 0..20 {
        Session::new().load(&case.plan, &case.rules, &mut mine.0, &mut mine.1).expect("accepted");
        session::load(&mut [0; RECORD_BYTES], &case.plan, &case.rules, &mut other.0, &mut other.1).expect("accepted");
        assert!(mine == other, "both build the same");
        assert_eq!(whatif::check(&case.plan, &case.rules, &mine.0, &mine.1), Ok(true));
        assert_eq!(yardstick::check(&case.plan, &case.rules, &mine.0, &mine.1), Ok(true));
        whatif::branch_build(&case.plan, &case.branch, &mut mine.0, &mut mine.1).expect("accepted");
        yardstick::branch_build(&case.plan, &case.branch, &mut other.0, &mut other.1).expect("accepted");
        assert!(mine == other, "both build the same");
        assert_eq!(whatif::branch_check(&case.plan, &case.branch, &mine.0, &mine.1), Ok(true));
        assert_eq!(yardstick::branch_check(&case.plan, &case.branch, &mine.0, &mine.1), Ok(true));
    }
}

fn fresh_run(one: &One, list: &List) {
    let told = yardstick::fresh_run(&one.case.plan, &one.case.rules, &list.0, &list.1).expect("accepted");
    assert_eq!(one.fresh_run(list), u32::from(told.0), "both tell the same");
}

/// In both readings.
fn branch_questions(case: Case, random: &mut Random) {
    let (mut node_table, mut state_table) = (vec![0; case.node_table_len()], vec![0; case.state_table_len()]);
    whatif::branch_build(&case.plan, &case.branch, &mut node_table, &mut state_table).expect("accepted");
    let tree = Tree::of(&reference::formats::read_plan(&case.plan).expect("accepted"));
    for _ in 0..20 {
        let (upper, lower) = pair(&tree, random);
        for (mine, other) in
            [(whatif::branch as Mine, yardstick::ask as Other), (whatif::branch_with_upper, yardstick::ask_with_upper)]
        {
            let told = mine(&case.plan, &case.branch, &node_table, &state_table, upper, lower).expect("accepted");
            let want = other(&case.plan, &case.branch, &node_table, &state_table, upper, lower).expect("accepted");
            assert_eq!(
                (told.state, told.links, told.passed),
                (want.state, want.links, want.passed),
                "both tell the same"
            );
        }
    }
}
