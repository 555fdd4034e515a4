//! Branch questions on tables that are not as built: 16, 18 or the answer that the rule gives on those very bytes, the
//! same every time.

use compare::built::Built;
use compare::calls::{self, Kind};
use compare::counts::Counts;
use compare::inputs::Case;
use compare::random::Random;
use compare::rounds::damaged_tables::ask;
use compare::shapes::Shape;
use reference::branch::READINGS;

#[test]
fn the_rule_on_any_bytes() {
    let (random, counts) = (&mut Random::new(801), &mut Counts::default());
    for turn in 0..60_000 {
        ask(Case::random(if turn % 1_000 == 0 { 3_000 } else { 25 }, random), random, counts);
    }
    for what in ["answered", "refused 16", "refused 18"] {
        assert!(counts.of(what) > 20_000, "{}", counts);
    }
}

/// Run states are nothing to a branch question, nor is the mark of another state.
#[test]
fn state_bytes_are_not_read() {
    let random = &mut Random::new(802);
    for _ in 0..500 {
        let mut built = Built::new(Kind::Branch, Case::random(30, random), random);
        let (lower, upper) = built.pair(&built.tree(), random);
        let before = READINGS.map(|reading| calls::library_branch(reading, built.lent(), upper, lower, random));
        let row = built.case.s + 1;
        built.state_table.iter_mut().step_by(row).for_each(|state| *state = 255);
        assert_eq!(calls::branches(built.lent(), upper, lower, random), before);
    }
}

/// A mark above 1 is no yes, and no refusal.
#[test]
fn marks_above_1() {
    let random = &mut Random::new(803);
    for mark in [0, 1, 2, 3, 128, 255] {
        let mut built = Built::new(Kind::Branch, Case::new(Shape::Zigzag, 20, 3, 3, random), random);
        built.case.branch[16 + 9..].fill(mark);
        for answer in calls::branches(built.lent(), 38, 0, random) {
            assert_eq!(answer.expect("accepted")[1], u32::from(mark == 1));
        }
    }
}

/// Every jump leads to the next node and every depth is one less: as many moves as there are nodes.
#[test]
fn the_longest_climb() {
    let random = &mut Random::new(804);
    let mut built = Built::new(Kind::Branch, Case::new(Shape::Uniform, 32_768, 4, 4, random), random);
    for v in 0..built.case.n {
        let next = v as u16 + 1;
        built.node_table[4 * v..4 * v + 4].copy_from_slice(&[next, next, 65_534 - v as u16, u16::MAX]);
    }
    let answer = calls::branch_with_upper(built.lent(), 65_534, 0, random).expect("accepted");
    assert_eq!(answer[2], 65_534);
    // a move to the same depth does not rise
    built.node_table[4 * 30_000 + 2] = built.node_table[4 * 30_001 + 2];
    assert_eq!(calls::branches(built.lent(), 65_534, 0, random), [Err(18); 2]);
}

/// A label of the upper node that the branch table doesn't have: 18 with it, and nothing to the word from below it.
#[test]
fn the_upper_nodes_label_outside() {
    let random = &mut Random::new(805);
    for _ in 0..300 {
        let mut built = Built::new(Kind::Branch, Case::random(30, random), random);
        let (lower, upper) = built.pair(&built.tree(), random);
        let before = calls::branches(built.lent(), upper, lower, random)[1];
        built.case.plan[12 + upper as usize] = built.case.k as u8;
        assert_eq!(calls::branches(built.lent(), upper, lower, random), [Err(18), before]);
    }
}
