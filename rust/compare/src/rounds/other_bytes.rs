//! Run states and maps that are any bytes below S, under plan, rules and node table as built: 18 at Start; "an advance
//! goes on as always and stores and counts what this rule gives on those bytes". The reference model replays the rule on the tree.

use crate::alterations::Alteration;
use crate::counts::Counts;
use crate::inputs::Case;
use crate::panel::{Lent, Panel};
use crate::random::Random;
use crate::shapes::SHAPES;
use reference::panel::{Answer, Call, Outcome};

pub fn round(random: &mut Random, counts: &mut Counts) {
    let (shape, each) = (*random.pick(&SHAPES), random.below(2) == 0);
    let (leaves, s, k) = (random.between(1, 60), random.between(2, 16), random.between(1, 9));
    let case = Case::new(shape, leaves, s, k, random);
    let lent = Lent::built(&case, random);
    let m = random.between(0, 9);
    ask(&case, &lent, m, each, random, counts);
}

/// Another state table, below S.
fn altered(lent: &Lent, case: &Case, random: &mut Random) -> Lent {
    let mut other = lent.clone();
    if random.below(2) == 0 {
        Alteration::BytesBelow.lay(&mut other, case, random);
    } else {
        other.state_table = random.bytes_below(lent.state_table.len(), case.s);
    }
    other
}

/// A question whose advances are lent other bytes, the same for all or others for each; Start refuses them. As many
/// advances as there are parts, and as many links and nodes passed over as on tables as built; the answer may be
/// another.
pub fn ask(case: &Case, lent: &Lent, m: usize, each: bool, random: &mut Random, counts: &mut Counts) {
    let mut panel = Panel::loaded(lent, random);
    let (nodes, labels) = case.list(m, random);
    assert!(matches!(panel.start(lent, &nodes, &labels, random), Answer::Parts(_)));
    let (_, as_built) = panel.finish(lent, random);
    let mut now = altered(lent, case, random);
    let used = case.state_table_len();
    if now.state_table[..used] != lent.state_table[..used] {
        assert_eq!(panel.start(&now, &nodes, &labels, random), Answer::Refused(18));
        counts.add("18 at Start");
    }
    let parts = match panel.start(lent, &nodes, &labels, random) {
        Answer::Parts(parts) => parts,
        other => panic!("a Start on tables as built answered {:?}", other),
    };
    for i in 1..=parts {
        if each {
            now = altered(lent, case, random);
        }
        let wanted = if i == parts { Answer::Finished } else { Answer::More };
        assert_eq!(panel.advance(&now, random), wanted);
    }
    match panel.call(&Call::Read, random) {
        Answer::Outcome(told) => {
            let moved = |told: &Outcome| (told.parts, told.links, told.passed);
            assert_eq!(moved(&told), moved(&as_built));
            assert_eq!(panel.left, 0, "all of it is settled");
            counts.add(if told == as_built { "the same answer" } else { "another answer" });
        }
        other => panic!("{:?}", other),
    }
}
