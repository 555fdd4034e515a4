//! Numbers of 32 bits are read whole: a header's N, S, K and offsets, and the nodes of a branch question.

use compare::built::Built;
use compare::calls::{self, Kind, KINDS};
use compare::inputs::Case;
use compare::panel::{Lent, Panel};
use compare::random::Random;
use compare::shapes::Shape;
use compare::sides;
use reference::panel::{Answer, Call};
use reference::record::RECORD_BYTES;

/// What must be noticed when it is added to a number: cut to 8, 16, 24 or 31 bits it is nothing.
const ADDED: [u32; 4] = [1 << 8, 1 << 16, 1 << 24, 1 << 31];

fn add(bytes: &mut [u8], at: usize, added: u32) {
    let was = u32::from_le_bytes(bytes[4 * at..4 * at + 4].try_into().unwrap());
    bytes[4 * at..4 * at + 4].copy_from_slice(&(was + added).to_le_bytes());
}

/// Every number of every header, in every call that reads it: builds, full checks, fresh run, Load, branch question.
#[test]
fn every_number_of_the_headers() {
    let random = &mut Random::new(1901);
    let good = Case::new(Shape::Bushy, 20, 3, 4, random);
    // the refusals for N and its two offsets, for S, K and the offsets of the tables; 17 where a count is wrong
    let refusals = [(true, [3, 4, 4, 0, 0], 3), (false, [7, 7, 8, 8, 8], 5)];
    for (of_plan, numbers, count) in refusals {
        for kind in KINDS {
            let count = if of_plan || kind == Kind::Rules { count } else { 4 };
            for (at, added) in (0..count).flat_map(|at| ADDED.map(|added| (at, added))) {
                let mut case = good.clone();
                let header = match kind {
                    _ if of_plan => &mut case.plan,
                    Kind::Rules => &mut case.rules,
                    Kind::Branch => &mut case.branch,
                };
                add(header, at, added);
                // N 295 is a count of nodes, of another length
                let wanted = if of_plan && at == 0 && added == 1 << 8 { 4 } else { numbers[at] };
                every_call(kind, &good, &case, wanted, random);
            }
        }
    }
}

/// The calls that read the headers of a kind; a branch question looks at the counts alone, which have numbers 3, 7 or,
/// where another length follows from them, 4.
fn every_call(kind: Kind, good: &Case, case: &Case, wanted: u32, random: &mut Random) {
    let lens = (case.node_table_len(), case.state_table_len());
    let (node_table, state_table) = calls::build(kind, &good.plan, good.table(kind), lens, random).expect("accepted");
    assert_eq!(calls::build(kind, &case.plan, case.table(kind), lens, random).err(), Some(wanted));
    assert_eq!(calls::check(kind, &case.plan, case.table(kind), &node_table, &state_table, random), Err(wanted));
    if kind == Kind::Rules {
        assert_eq!(calls::fresh_run(&case.plan, &case.rules, &[], &[], random), Err(wanted));
        let lent = Lent { plan: case.plan.clone(), rules: case.rules.clone(), node_table, state_table };
        let answer = sides::call(&[0; RECORD_BYTES], &Call::Load(lent.inputs()), random).answer;
        assert_eq!(answer, Answer::Refused(wanted));
        return;
    }
    let lent =
        calls::Lent { plan: &case.plan, branch: &case.branch, node_table: &node_table, state_table: &state_table };
    let counts = case.plan[..4] != good.plan[..4] || case.branch[..8] != good.branch[..8];
    for told in calls::branches(lent, case.n as u32 - 1, 0, random) {
        assert_eq!(told.err(), if counts { Some(17) } else { None });
    }
}

/// N 65,536 + 7 in the header of plan A's 26 bytes.
#[test]
fn seven_nodes_and_65_536() {
    let random = &mut Random::new(1902);
    let good = Case::new(Shape::Balanced, 4, 2, 2, random);
    let mut case = good.clone();
    add(&mut case.plan, 0, 65_536);
    assert_eq!((case.plan.len(), &case.plan[..4]), (26, &[7, 0, 1, 0][..]));
    KINDS.iter().for_each(|&kind| every_call(kind, &good, &case, 3, random));
    // Start asks whether the headers name the record's N; an advance goes by the record's and reads no header: what it
    // tells is left to the program
    let lent = Lent::built(&good, random);
    let other = Lent { plan: case.plan, ..lent.clone() };
    let mut panel = Panel::loaded(&lent, random);
    assert_eq!(panel.start(&other, &[0], &[0], random), Answer::Refused(18));
    assert!(matches!(panel.start(&lent, &[0], &[0], random), Answer::Parts(_)));
    panel.finish(&other, random);
    assert!(panel.left > 0, "not the same: the plan does not name N");
}

/// Node 65,543 is not node 7.
#[test]
fn node_65_543_of_a_branch_question() {
    let random = &mut Random::new(1903);
    let built = Built::new(Kind::Branch, Case::new(Shape::LeftComb, 10, 3, 3, random), random);
    let (root, lent) = (18, built.lent());
    for node in 0..19 {
        assert!(calls::branch_with_upper(lent, root, node, random).is_ok());
        for added in ADDED {
            for (upper, lower) in [(root, node + added), (root + added, node), (node + added, node + added)] {
                assert_eq!(calls::branches(lent, upper, lower, random), [Err(13); 2], "{} and {}", upper, lower);
            }
        }
    }
    assert_eq!(calls::branches(lent, root, 65_543, random), [Err(13); 2]);
}
