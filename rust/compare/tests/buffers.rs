//! Buffers that are too short, exactly long enough and longer, for every call that is lent some.

use compare::built::Built;
use compare::calls::{self, longer, Kind, KINDS};
use compare::counts::Counts;
use compare::inputs::Case;
use compare::panel::{Lent, Panel};
use compare::random::Random;
use compare::rounds::builds;
use reference::panel::{Answer, Call};

fn case(turn: usize, random: &mut Random) -> Case {
    Case::random(if turn % 100 == 0 { 32_768 } else { 60 }, random)
}

#[test]
fn short_buffers_get_11() {
    let (random, counts) = (&mut Random::new(201), &mut Counts::default());
    for turn in 0..400 {
        let kind = *random.pick(&KINDS);
        builds::too_short(&case(turn, random), kind, random, counts);
    }
    assert!(KINDS.iter().all(|kind: &Kind| counts.of(&format!("{:?} refused 11", kind)) > 700), "{}", counts);
}

#[test]
fn exact_and_longer_buffers_are_accepted() {
    let (random, counts) = (&mut Random::new(202), &mut Counts::default());
    for turn in 0..300 {
        let (case, kind) = (case(turn, random), *random.pick(&KINDS));
        for excess in [(0, 0), (0, 1), (1, 0), (random.below(500), random.below(500))] {
            builds::build(&case, kind, excess, random, counts);
        }
    }
}

/// Another length by so many: one too few, exactly enough, or any excess.
fn resized<T: Clone>(table: &[T], by: isize, excess: Vec<T>) -> Vec<T> {
    longer(&table[..(table.len() as isize + by.min(0)) as usize], excess)
}

const SHORT: [(isize, isize); 5] = [(-1, 0), (0, -1), (-1, -1), (-1, 9), (9, -1)];
const ENOUGH: [(isize, isize); 4] = [(0, 0), (1, 0), (0, 1), (9, 9)];

fn both_resized(
    node_table: &[u16],
    state_table: &[u8],
    by: (isize, isize),
    random: &mut Random,
) -> (Vec<u16>, Vec<u8>) {
    let more = (by.0.max(0) as usize, by.1.max(0) as usize);
    (resized(node_table, by.0, random.numbers(more.0)), resized(state_table, by.1, random.bytes(more.1)))
}

fn lent_resized(lent: &Lent, by: (isize, isize), random: &mut Random) -> Lent {
    let (node_table, state_table) = both_resized(&lent.node_table, &lent.state_table, by, random);
    Lent { plan: lent.plan.clone(), rules: lent.rules.clone(), node_table, state_table }
}

/// Load gets 11, Start and advance 17, and a whole question goes on with any excess.
#[test]
fn session_calls() {
    let random = &mut Random::new(203);
    for turn in 0..150 {
        let case = Case::random(if turn % 50 == 0 { 5_000 } else { 40 }, random);
        let lent = Lent::built(&case, random);
        let short = SHORT.map(|by| lent_resized(&lent, by, random));
        let mut panel = Panel::default();
        let (nodes, labels) = case.list(3, random);
        for short in &short {
            assert_eq!(panel.call(&Call::Load(short.inputs()), random), Answer::Refused(11));
        }
        for by in ENOUGH {
            let long = lent_resized(&lent, by, random);
            assert_eq!(panel.call(&Call::Load(long.inputs()), random), Answer::Accepted);
            for short in &short {
                assert_eq!(panel.start(short, &nodes, &labels, random), Answer::Refused(17));
            }
            assert!(matches!(panel.start(&long, &nodes, &labels, random), Answer::Parts(_)));
            for short in &short {
                assert_eq!(panel.advance(short, random), Answer::Refused(17));
            }
            panel.finish(&lent_resized(&lent, (by.1, by.0), random), random);
            assert_eq!(panel.left, 0, "all of it is settled");
        }
    }
}

/// A branch question gets 17, and excess is nothing to it.
#[test]
fn branch_questions() {
    let random = &mut Random::new(204);
    for _ in 0..300 {
        let built = Built::new(Kind::Branch, Case::random(40, random), random);
        let (lower, upper) = built.pair(&built.tree(), random);
        let told = calls::branches(built.lent(), upper, lower, random);
        assert!(told.iter().all(Result::is_ok));
        for (by, wanted) in SHORT.map(|by| (by, [Err(17); 2])).into_iter().chain(ENOUGH.map(|by| (by, told))) {
            let (node_table, state_table) = both_resized(&built.node_table, &built.state_table, by, random);
            let lent = calls::Lent { node_table: &node_table, state_table: &state_table, ..built.lent() };
            assert_eq!(calls::branches(lent, upper, lower, random), wanted);
        }
    }
}
