//! Whole questions by colours: after one build, at a cost that does not grow with the depth of the plan.
//!
//!     cargo run --example colours

use std::error::Error;
use whatif::Kind::{Inner, Leaf};
use whatif::{BranchColours, BranchTable, Plan, RuleColours, Rules};

fn main() -> Result<(), Box<dyn Error>> {
    // a comb of 65,535 nodes: its deepest leaf is at depth 32,767
    let comb = Plan::from_fn(65_535, |v| if v > 0 && v % 2 == 0 { (Inner, 1) } else { (Leaf, 1) })?;
    // a node with label 0 is in state 0, and so is every node above it
    let rules =
        Rules::from_fn(2, 2, |label| label, |left, label, right| left.min(label).min(right), |state| state == 1)?;
    let colours = RuleColours::build(comb.clone(), rules)?;
    for changes in [&[][..], &[(0, 0)], &[(0, 0), (0, 1), (65_534, 1)]] {
        let answer = colours.ask(changes)?;
        let verdict = if answer.yes { "cleared" } else { "not cleared" };
        println!("{:?}: {}; parts {}, drops {}, links {}", changes, verdict, answer.parts, answer.drops, answer.links);
    }
    // a yes is confirmed by a fresh run before a blank is cut
    colours.confirm(&[])?;

    // branch questions by colours: is there a label 0 on the way down?
    let table = BranchTable::from_fn(2, 2, |state, label| state.max(1 - label), |state| state == 1)?;
    let colours = BranchColours::build(comb, table)?;
    let answer = colours.ask(65_534, 0)?;
    println!("from the root down to node 0: state {}, drops {}", answer.state, answer.drops);
    Ok(())
}
