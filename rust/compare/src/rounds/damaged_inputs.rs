//! Sessions on inputs that are not as built: node table, state table, labels, kinds, headers and rules with other
//! values. Start gives 18. Between Start and advance every answer and every record is the reference's, which follows the
//! lent values and gives 18 where one leads outside.

use crate::alterations::{Alteration, ALTERATIONS};
use crate::counts::Counts;
use crate::inputs::Case;
use crate::panel::{Lent, Panel};
use crate::random::Random;
use reference::panel::{Answer, Call};

pub fn round(random: &mut Random, counts: &mut Counts) {
    for kind in of_values() {
        let leaves = if random.below(400) == 0 { 1_500 } else { 30 };
        of_one_kind(kind, Case::random(leaves, random), random, counts);
    }
    everything(random, counts);
}

/// All alterations but those of a length.
pub fn of_values() -> impl Iterator<Item = Alteration> {
    ALTERATIONS.into_iter().filter(|&kind| kind != Alteration::Length)
}

/// Three questions on inputs with one kind of alteration.
pub fn of_one_kind(kind: Alteration, case: Case, random: &mut Random, counts: &mut Counts) {
    let good = Lent::built(&case, random);
    let mut bad = good.clone();
    kind.lay(&mut bad, &case, random);
    let mut panel = Panel::loaded(&good, random);
    for _ in 0..3 {
        let came = ask(&mut panel, &case, &good, &bad, random);
        came.iter().for_each(|what| counts.add(format!("{:?}: {}", kind, what)));
    }
}

/// A question on inputs with several of them at once, and anything at all in the tables.
pub fn everything(random: &mut Random, counts: &mut Counts) {
    let case = Case::random(25, random);
    let good = Lent::built(&case, random);
    let mut bad = good.clone();
    for kind in of_values() {
        if random.below(3) == 0 {
            kind.lay(&mut bad, &case, random);
        }
    }
    if random.below(5) == 0 {
        bad.node_table = random.numbers(bad.node_table.len());
        let n = case.n as u16;
        bad.node_table.iter_mut().for_each(|number| *number %= n);
    }
    let mut panel = Panel::loaded(&good, random);
    let came = ask(&mut panel, &case, &good, &bad, random);
    came.iter().for_each(|what| counts.add(format!("several: {}", what)));
}

/// Start on damaged inputs and, where it gets 18, on good ones; then advances on damaged inputs. 18 in the middle is tried
/// again, and then the inputs are restored or the question is given up. What came, in order.
fn ask(panel: &mut Panel, case: &Case, good: &Lent, bad: &Lent, random: &mut Random) -> Vec<&'static str> {
    let m = random.between(0, 12);
    let (nodes, labels) = case.list(m, random);
    let mut came = match panel.start(bad, &nodes, &labels, random) {
        Answer::Parts(_) => vec!["started"],
        Answer::Refused(18) => vec!["18 at Start"],
        other => panic!("{:?}", other),
    };
    if came[0] == "18 at Start" {
        assert!(matches!(panel.start(good, &nodes, &labels, random), Answer::Parts(_)));
    }
    loop {
        let lent = if random.below(20) == 0 { good } else { bad };
        let before = panel.record.clone();
        match panel.advance(lent, random) {
            Answer::More => came.push("more"),
            Answer::Finished => break,
            Answer::Refused(18) => {
                came.push("18 at an advance");
                assert!(panel.record == before, "a refused advance leaves the record");
                if random.below(4) == 0 {
                    assert_eq!(panel.call(&Call::Cancel, random), Answer::Accepted);
                    return came;
                }
                if !matches!(panel.advance(good, random), Answer::More | Answer::Refused(18)) {
                    break;
                }
            }
            other => panic!("{:?}", other),
        }
    }
    came.push("finished");
    assert!(matches!(panel.call(&Call::Read, random), Answer::Outcome(_)));
    came
}
