//! Branch questions on tables that are not as built: 16, 18 or the answer that the rule gives on those very bytes, the
//! same every time.

use crate::alterations::damage;
use crate::built::Built;
use crate::calls::{self, Kind};
use crate::counts::Counts;
use crate::inputs::Case;
use crate::random::Random;
use reference::branch::READINGS;

pub fn round(random: &mut Random, counts: &mut Counts) {
    for _ in 0..8 {
        let most_leaves = if random.below(500) == 0 { 3_000 } else { 25 };
        ask(Case::random(most_leaves, random), random, counts);
    }
}

/// Damages the node table, the state table, or labels, steps and marks: a few or all of them, inside the plan and the
/// states or not.
fn damaged(case: Case, random: &mut Random) -> Built {
    let mut built = Built::new(Kind::Branch, case, random);
    let (n, s, k) = (built.case.n, built.case.s, built.case.k);
    let share = *random.pick(&[1, 2, 10, 50]);
    let inside = random.below(2) == 0;
    let (node_table, states) = if inside { (n, s) } else { (65_536, s + 2) };
    let which = random.below(7);
    if which & 1 == 0 {
        damage(&mut built.node_table, share, random, |random| random.below(node_table) as u16);
    }
    if which & 2 == 0 {
        damage(&mut built.state_table, share, random, |random| random.below(states) as u8);
    }
    if which & 4 == 0 {
        damage(&mut built.case.plan[12..12 + n], share, random, |random| random.below(k + 1) as u8);
        damage(&mut built.case.branch[16..], share, random, |random| random.below(s + 1) as u8);
    }
    built
}

/// Four questions on the damaged tables of a case.
pub fn ask(case: Case, random: &mut Random, counts: &mut Counts) {
    let built = damaged(case, random);
    let n = built.case.n;
    for _ in 0..4 {
        let lower = random.below(n) as u32;
        let upper = random.between(lower as usize, n - 1) as u32;
        let answers = calls::branches(built.lent(), upper, lower, random);
        let again = READINGS.map(|reading| calls::library_branch(reading, built.lent(), upper, lower, random));
        assert_eq!(answers, again, "the same again");
        match answers {
            [Ok(_), _] => counts.add("answered"),
            [Err(number), Ok(_)] => counts.add(format!("refused {}, answered from below the upper node", number)),
            [Err(number), Err(_)] => {
                assert!(number == 16 || number == 18, "refused {}", number);
                counts.add(format!("refused {}", number));
            }
        }
    }
}
