//! The types that own a plan with a branch table, with colour tables, or with a planner's file.

mod sample;

use sample::{plan_a, rows, table_a};
use whatif::Kind::{Inner, Leaf};
use whatif::{layout, Unconfirmed, Verdict};
use whatif::{BranchColours, BranchTable, Branches, Plan, Planned, PlannerNode, Refusal, RuleColours, Rules};

/// Three states: a label 0 below a label 1 leads to the marked one.
fn table() -> BranchTable {
    BranchTable::new(2, &[0, 1, 2, 1, 2, 2], &[false, false, true]).unwrap()
}

/// The state after a word, by its steps.
fn run(table: &BranchTable, word: &[u8]) -> u8 {
    word.iter().fold(0, |state, &label| table.step(state, label).unwrap())
}

/// Every pair of nodes of plan A, in both readings, by the climb and by colours.
#[test]
fn branch_questions() {
    let (plan, table) = (plan_a(), table());
    let branches = Branches::build(plan.clone(), table.clone()).unwrap();
    let colours = BranchColours::build(plan.clone(), table.clone()).unwrap();
    assert_eq!((branches.plan(), branches.table(), colours.plan(), colours.table()), (&plan, &table, &plan, &table));
    let parents = [2, 2, 6, 5, 5, 6, 6];
    for (upper, lower) in (0..9).flat_map(|upper| (0..9).map(move |lower| (upper, lower))) {
        let path = branches.path(upper, lower);
        if let Ok(path) = &path {
            assert_eq!((path[0], path[path.len() - 1]), (upper as u16, lower as u16));
            assert!(path.windows(2).all(|pair| parents[pair[1] as usize] == pair[0]));
            let word: Vec<u8> = path.iter().map(|&v| plan.labels()[v as usize]).collect();
            for (state, climb, by_colours) in [
                (run(&table, &word[1..]), branches.ask(upper, lower), colours.ask(upper, lower)),
                (run(&table, &word), branches.ask_with_upper(upper, lower), colours.ask_with_upper(upper, lower)),
            ] {
                let expected = Ok((state, state == 2));
                assert_eq!(climb.map(|told| (told.state, told.yes)), expected, "{} {}", upper, lower);
                assert_eq!(by_colours.map(|told| (told.state, told.yes)), expected, "{} {}", upper, lower);
            }
        } else {
            let refusal = if upper > 6 || lower > 6 { Refusal::Node } else { Refusal::NotBelow };
            assert_eq!(path, Err(refusal));
            assert_eq!((branches.ask(upper, lower), colours.ask(upper, lower)), (Err(refusal), Err(refusal)));
        }
    }
    assert_eq!(branches.ask(6, 65_539), Err(Refusal::Node));
}

#[test]
fn a_label_that_the_table_does_not_have() {
    let plan = || Plan::new(&[2], &[Leaf]).unwrap();
    assert_eq!(Branches::build(plan(), table()).err(), Some(Refusal::PlanLabel));
    assert_eq!(BranchColours::build(plan(), table()).err(), Some(Refusal::PlanLabel));
    assert_eq!(RuleColours::build(plan(), table_a()).err(), Some(Refusal::PlanLabel));
}

#[test]
fn questions_by_colours() {
    let colours = RuleColours::build(plan_a(), table_a()).unwrap();
    assert_eq!((colours.plan(), colours.rules()), (&plan_a(), &table_a()));
    for (changes, expected) in rows() {
        let told = colours.ask(changes).map(|told| (told.state, told.yes, told.parts));
        assert_eq!(told, expected.map(|told| (told.state, told.yes, told.parts)), "{:?}", changes);
        let confirmed = match expected {
            Ok(told) if told.yes => Ok(()),
            Ok(told) => Err(Unconfirmed::NotCleared(Verdict { state: told.state, yes: false })),
            Err(refusal) => Err(Unconfirmed::Refused(refusal)),
        };
        assert_eq!(colours.confirm(changes), confirmed, "{:?}", changes);
    }
    assert_eq!(colours.ask(&[(0, 0); 65]), Err(Refusal::ListLength));
    let rules = |s| Rules::from_fn(s, 2, |_| 0, |_, _, _| 0, |_| true).unwrap();
    for s in 1..=4 {
        assert!(RuleColours::build(plan_a(), rules(s)).is_ok());
    }
    for s in [5, 16] {
        assert_eq!(RuleColours::build(plan_a(), rules(s)).err(), Some(Refusal::ColourStates));
    }
}

/// docs/LAYOUT.md's example, and a deeper one.
#[test]
fn a_planner_s_file() {
    let node = |(label, children)| PlannerNode { label, children };
    let planned = Planned::new(&[(5, 2), (6, 0), (7, 0)].map(node)).unwrap();
    assert_eq!(planned.file(), layout::planner_file(&[5, 6, 7], &[2, 0, 0]));
    assert_eq!(
        planned.plan(),
        &Plan::new(&[63, 63, 63, 7, 6, 63, 5], &[Leaf, Leaf, Leaf, Inner, Inner, Leaf, Inner]).unwrap()
    );
    assert_eq!(planned.places(), [6, 4, 3]);
    assert!(planned.nodes().eq([(5, 2), (6, 0), (7, 0)].map(node)));
    assert_eq!(Planned::out(planned.file()), Ok(planned.clone()));
    assert_eq!(Planned::home(planned.plan()), Ok(planned.clone()));
    assert_eq!(Planned::home(planned.plan().as_bytes()), Ok(planned));
    let deep = Planned::new(&[(5, 2), (6, 2), (8, 0), (9, 0), (6, 1), (8, 0)].map(node)).unwrap();
    assert_eq!(Planned::home(deep.plan()), Ok(deep));
}

#[test]
fn planner_s_files_that_are_refused() {
    let node = |(label, children)| PlannerNode { label, children };
    assert_eq!(Planned::new(&[]), Err(Refusal::PlannerFile));
    assert_eq!(Planned::new(&[(5, 0), (6, 0)].map(node)), Err(Refusal::PlannerFile));
    assert_eq!(Planned::new(&[(63, 0)].map(node)), Err(Refusal::PlannerLabel));
    assert_eq!(Planned::out([0; 11]), Err(Refusal::PlannerFile));
    // a chain of as many nodes as there can be, and one of more
    let chain = |n: usize| (0..n).map(|v| node((0, u8::from(v + 1 < n)))).collect::<Vec<_>>();
    assert_eq!(Planned::new(&chain(32_767)).unwrap().plan().nodes(), 65_535);
    assert_eq!(Planned::new(&chain(32_768)), Err(Refusal::PlannerRoom));
    assert_eq!(Planned::home(plan_a()), Err(Refusal::PlannerFile));
    assert_eq!(Planned::home([0; 5]), Err(Refusal::PlannerFile));
}

#[test]
fn shown_for_people() {
    let plan = Plan::new(&[0], &[Leaf]).unwrap();
    let rules = Rules::new(&[0], &[0], &[true]).unwrap();
    let table = BranchTable::new(1, &[0], &[true]).unwrap();
    let branches = format!("{:?}", Branches::build(plan.clone(), table.clone()).unwrap());
    assert_eq!(
        branches,
        "Branches { plan: Plan of 1 node [leaf 0], table: BranchTable { states: 1, labels: 1, marked: [0], .. }, .. }"
    );
    let colours = format!("{:?}", BranchColours::build(plan.clone(), table).unwrap());
    assert_eq!(colours, branches.replace("Branches", "BranchColours"));
    let colours = format!("{:?}", RuleColours::build(plan, rules).unwrap());
    assert_eq!(
        colours,
        "RuleColours { plan: Plan of 1 node [leaf 0], rules: Rules { states: 1, labels: 1, marked: [0], .. }, .. }"
    );
    let planned = Planned::new(&[PlannerNode { label: 5, children: 0 }]).unwrap();
    assert_eq!(format!("{:?}", planned), "Planned { nodes: 1, plan: Plan of 3 nodes [leaf 63, leaf 63, inner 5], .. }");
}
