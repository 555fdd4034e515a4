//! A panel at work: Load, a question that is cancelled, one that is answered part by part, and a yes that is confirmed
//! before a blank is cut.
//!
//!     cargo run --example session

use std::error::Error;
use whatif::Kind::{Inner, Leaf};
use whatif::{Call, Panel, Plan, Rules};

fn main() -> Result<(), Box<dyn Error>> {
    // nodes 0 and 1 are the children of 2, nodes 3 and 4 those of 5, nodes 2 and 5 those of the root 6
    let plan = Plan::new(&[1, 1, 1, 0, 1, 0, 1], &[Leaf, Leaf, Inner, Leaf, Leaf, Inner, Inner])?;
    // label 0 takes the greater state of the two children, label 1 the lesser; state 1 clears the plan
    let by_label = |left: u8, label: u8, right: u8| if label == 0 { left.max(right) } else { left.min(right) };
    let rules = Rules::from_fn(2, 2, |label| label, by_label, |state| state == 1)?;
    let mut panel = Panel::new(plan, rules)?;
    println!("as it is: {}", cleared(panel.ask(&[])?.yes));

    // what if node 0 took label 0 and node 3 label 1? the technician thinks better of it
    let parts = panel.start(&[(0, 0), (3, 1)])?;
    panel.advance()?;
    println!("{} of {} parts, then cancelled", panel.session().parts_done(), parts);
    panel.cancel()?;
    println!("the last answer is still there: {}", cleared(panel.last()?.yes));

    // what if nodes 0 and 2 took label 0? show how far it is
    let changes = [(0, 0), (2, 0)];
    panel.start(&changes)?;
    for part in panel.advances() {
        let part = part?;
        println!("part {} of {}: node {} is in state {}", part.number, part.of, part.root, part.state);
    }
    println!("with the changes: {}", cleared(panel.current()?.yes));

    // before the blank is cut: a fresh run of the plan with the list that goes to the mill
    match panel.confirm(&changes) {
        Ok(()) => println!("confirmed: cut"),
        Err(why) => println!("{}", why),
    }
    match panel.confirm(&[(0, 0)]) {
        Ok(()) => println!("confirmed: cut"),
        Err(why) => println!("{}", why),
    }

    // what is refused is said, and has changed nothing
    if let Err(refusal) = panel.start(&[(7, 0)]) {
        println!("{}", refusal);
    }
    if let Some(why) = panel.session().why_not(Call::Advance) {
        println!("no advance: {}", why);
    }
    Ok(())
}

fn cleared(yes: bool) -> &'static str {
    if yes {
        "cleared"
    } else {
        "not cleared"
    }
}
