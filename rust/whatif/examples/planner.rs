//! A bridge planner's tree as our plan, a question that names a planner's node, and home again.
//!
//!     cargo run --example planner

use whatif::{Panel, Planned, PlannerNode, Refusal, Rules};

fn main() -> Result<(), Refusal> {
    // top first: a node with label 5 over two with labels 6 and 7
    let nodes = [(5, 2), (6, 0), (7, 0)].map(|(label, children)| PlannerNode { label, children });
    let planned = Planned::new(&nodes)?;
    println!("labels of our plan: {:?}", planned.plan().labels());
    println!("places of the planner's nodes: {:?}", planned.places());

    // label 63 is at every leaf of such a plan, so its rules have 64 labels; here a node with label 9 is not cleared
    let worst = |left: u8, label: u8, right: u8| left.max(right).max(u8::from(label == 9));
    let rules = Rules::from_fn(2, 64, |_| 0, worst, |state| state == 0)?;
    let mut panel = Panel::new(planned.plan().clone(), rules)?;
    for label in [8, 9] {
        let changes = [(planned.places()[2], label)];
        let yes = panel.ask(&changes)?.yes;
        println!("the planner's node 2 with label {}: {}", label, if yes { "cleared" } else { "not cleared" });
    }

    // the plan with a change made goes home as a planner's file
    let changed = panel.changed_plan(&[(planned.places()[2], 8)])?;
    let labels: Vec<u8> = Planned::home(&changed)?.nodes().map(|node| node.label).collect();
    println!("home: labels {:?}", labels);
    Ok(())
}
