//! Branch questions: what does a branch table make of the labels on the way from an upper node down to a lower?
//!
//!     cargo run --example branch

use whatif::Kind::{Inner, Leaf};
use whatif::{BranchTable, Branches, Plan, Refusal};

fn main() -> Result<(), Refusal> {
    let plan = Plan::new(&[1, 1, 1, 0, 1, 0, 1], &[Leaf, Leaf, Inner, Leaf, Leaf, Inner, Inner])?;
    // three states: a label 0 below a label 1 leads to state 2, which is marked and stays
    let step = |state: u8, label: u8| match (state, label) {
        (0, 1) => 1,
        (1, 0) | (2, _) => 2,
        (state, _) => state,
    };
    let branches = Branches::build(plan, BranchTable::from_fn(3, 2, step, |state| state == 2)?)?;

    // the root 6 and node 4, with node 5 between them: the labels are 1, 0 and 1
    println!("the way is {:?}", branches.path(6, 4)?);
    let below = branches.ask(6, 4)?;
    println!("from below the root: state {}, {}", below.state, if below.yes { "yes" } else { "no" });
    let with = branches.ask_with_upper(6, 4)?;
    println!("with the root's label: state {}, {}", with.state, if with.yes { "yes" } else { "no" });
    // the same node twice is the empty word
    println!("from below node 4 down to node 4: state {}", branches.ask(4, 4)?.state);
    if let Err(refusal) = branches.ask(2, 4) {
        println!("{}", refusal);
    }
    Ok(())
}
