//! Document 01's sample: plan A and table A, with the rows of its listing as requests S-4, S-5 and S-7 left them.
#![allow(dead_code)] // each test takes what it needs

use whatif::Kind::{Inner, Leaf};
use whatif::{Answer, Change, Mill, Panel, Plan, Refusal, Rules};

pub fn plan_a() -> Plan {
    Plan::new(&[1, 1, 1, 0, 1, 0, 1], &[Leaf, Leaf, Inner, Leaf, Leaf, Inner, Inner]).unwrap()
}

/// Label 0 takes the greater state of the children, label 1 the lesser.
pub fn table_a() -> Rules {
    let by_label = |p: u8, a: u8, q: u8| if a == 0 { p.max(q) } else { p.min(q) };
    Rules::from_fn(2, 2, |a| a, by_label, |state| state == 1).unwrap()
}

pub fn panel() -> Panel {
    Panel::new(plan_a(), table_a()).unwrap()
}

pub fn mill() -> Mill {
    Mill::new(plan_a(), table_a()).unwrap()
}

/// State, yes, parts, links, nodes passed over.
fn answer(state: u8, yes: bool, parts: u32, links: u32) -> Result<Answer, Refusal> {
    Ok(Answer { state, yes, parts, links, passed: links })
}

/// "For the questions (none); 0→0; 0→0 2→0; 0→0 3→1; 4→0; 6→0; 7→0; 0→2; 0→0 0→1".
pub fn rows() -> [(&'static [Change], Result<Answer, Refusal>); 9] {
    [
        (&[], answer(1, true, 1, 0)),
        (&[(0, 0)], answer(0, false, 2, 1)),
        (&[(0, 0), (2, 0)], answer(1, true, 3, 0)),
        (&[(0, 0), (3, 1)], answer(0, false, 5, 0)),
        (&[(4, 0)], answer(0, false, 2, 1)),
        (&[(6, 0)], answer(1, true, 1, 0)),
        (&[(7, 0)], Err(Refusal::Node)),
        (&[(0, 2)], Err(Refusal::Label)),
        (&[(0, 0), (0, 1)], answer(1, true, 1, 0)),
    ]
}
