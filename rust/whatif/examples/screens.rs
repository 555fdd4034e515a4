//! Two screens on one mill: their questions are served in turn. Then what is done about a screen whose record was
//! damaged.
//!
//!     cargo run --example screens

use whatif::sizes::RECORD_BYTES;
use whatif::Kind::{Inner, Leaf};
use whatif::{Mill, Plan, Progress, Refusal, Rules, Screens};

fn main() -> Result<(), Refusal> {
    let plan = Plan::new(&[1, 1, 1, 0, 1, 0, 1], &[Leaf, Leaf, Inner, Leaf, Leaf, Inner, Inner])?;
    let by_label = |left: u8, label: u8, right: u8| if label == 0 { left.max(right) } else { left.min(right) };
    let rules = Rules::from_fn(2, 2, |label| label, by_label, |state| state == 1)?;
    let mut mill = Mill::new(plan, rules)?;

    mill.start(2, &[(4, 0)])?;
    mill.start(5, &[(0, 0), (2, 0)])?;
    while let Some(deal) = mill.deal()? {
        let (done, parts) = (mill.screens().parts_done(deal.screen), mill.screens().parts(deal.screen));
        println!("screen {}: part {} of {}", deal.screen, done, parts);
        if deal.progress == Progress::Finished {
            let answer = mill.current(deal.screen)?;
            println!("screen {}: state {}, {}", deal.screen, answer.state, if answer.yes { "yes" } else { "no" });
        }
    }

    // a deal that returns none found no screen running; so a refusal means that the next screen's record is damaged
    mill.start(7, &[(6, 0)])?;
    while mill.screens().is_running() {
        if let (Err(_), Some(screen)) = (mill.deal(), mill.screens().next()) {
            mill.repair(screen)?;
        }
    }

    // what damage looks like, on a copy of the screens in which a bit of screen 7's record is flipped
    let loaded = mill.screens().session(0).unwrap_or_default();
    mill.start(7, &[(6, 0)])?;
    let mut records = *mill.screens().as_bytes();
    records[7 * RECORD_BYTES + 1] ^= 1;
    let mut screens = Screens::from_bytes(records, mill.screens().first());
    println!("a deal: {:?}, the next screen: {:?}", screens.deal(&mill.lent()), screens.next());
    println!("{}", screens.why_no_deal().unwrap_or("a deal can be made"));
    screens.replace(7, &loaded)?;
    println!("{}", screens.why_no_deal().unwrap_or("a deal can be made"));
    Ok(())
}
