//! How many choices end in each state: trying all, sums and parts, on the sample and on one node.

use reference::count::{by_sums, by_trying, checks, count, Answer, Given, Said, MOST_ASSIGNMENTS};
use reference::formats::{read_plan, read_rules};
use reference::panel::Inputs;
use reference::sample::{plan_a, table_a};
use reference::tables::rule_tables;
use reference::tree::Tree;
use reference::write;

/// Every list of different nodes of plan A, rising.
fn lists() -> impl Iterator<Item = Vec<u16>> {
    (0..1u32 << 7).map(|set| (0..7).filter(|v| set >> v & 1 == 1).collect())
}

#[test]
fn the_three_agree_on_the_sample() {
    let (plan, rules) = (plan_a(), table_a());
    let (plan, rules) = (read_plan(&plan).unwrap(), read_rules(&rules).unwrap());
    let (tree, tables) = (Tree::of(&plan), rule_tables(&plan, &rules));
    let given = Given { tree: &tree, labels: plan.labels, rules: &rules, state_table: &tables.state_table };
    for nodes in lists() {
        let tried = by_trying(&plan, &rules, &nodes);
        assert_eq!(by_sums(&tree, &plan, &rules, &nodes), tried, "{:?}", nodes);
        assert_eq!(given.by_parts(&nodes).counts, tried, "{:?}", nodes);
        assert_eq!(tried.iter().sum::<u64>(), 1 << nodes.len());
    }
    // with no open node the run's own state, 1, has count 1
    assert_eq!(given.by_parts(&[]), Answer { counts: vec![0, 1], parts: 1, links: 0 });
}

#[test]
fn checks_in_their_order() {
    let inputs = |plan, rules, node_table, state_table| Inputs { plan, rules, node_table, state_table };
    // ten labels, one state, 19 leaves
    let (kinds, rules) = ([vec![0; 19], vec![1; 18]].concat(), write::rules(1, 10, &[0; 10], &[0; 10], &[1]));
    let plan = write::plan(&[0; 37], &kinds);
    let tables = rule_tables(&read_plan(&plan).unwrap(), &read_rules(&rules).unwrap());
    let lent = inputs(&plan, &rules, &tables.node_table, &tables.state_table);
    let nodes: Vec<u16> = (0..19).collect();
    assert!(checks(&lent, &nodes[..18]).is_ok());
    match count(&lent, &nodes[..18]) {
        Said::Answered(answer) => assert_eq!(answer.counts, [MOST_ASSIGNMENTS]),
        other => panic!("{:?}", other),
    }
    assert_eq!(checks(&lent, &nodes).err(), Some(26));
    assert_eq!(checks(&lent, &[36, 0, 36]).err(), Some(15));
    assert_eq!(checks(&lent, &[37, 0, 0]).err(), Some(13));
    assert_eq!(checks(&lent, &[37; 65]).err(), Some(12));
    let short = inputs(&plan, &rules, &tables.node_table[1..], &tables.state_table);
    assert_eq!(checks(&short, &[37; 65]).err(), Some(17));
}
