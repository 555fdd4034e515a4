//! Whether two rule tables agree (document 02, S-13): every separating plan is run through both tables by the reference and,
//! where it is a plan of at most 65,535 nodes, by the library's own fresh run (rounds::agreements).

use compare::calls;
use compare::counts::Counts;
use compare::inputs::{lasting_rules, random_rules, rules, sample};
use compare::random::Random;
use compare::rounds::agreements::{compare, doubled, refused, renamed, table_checks};
use reference::agree::{reached, separates, MAX_LINES};
use whatif::Line;

/// All tables of two states and one label, each with each.
#[test]
fn every_pair_of_the_smallest_tables() {
    let (random, counts) = (&mut Random::new(2101), &mut Counts::default());
    let table = |bits: usize| {
        let bit = |at: usize| (bits >> at & 1) as u8;
        rules(2, 1, &[bit(0)], &[bit(1), bit(2), bit(3), bit(4)], &[bit(5), bit(6)])
    };
    for first in 0..128 {
        for second in 0..128 {
            compare("smallest", &table(first), &table(second), random, counts);
        }
    }
    for what in ["smallest: agree", "smallest: separated, fresh runs too"] {
        assert!(counts.of(what) > 1_000, "{}", counts);
    }
}

#[test]
fn random_pairs() {
    let (random, counts) = (&mut Random::new(2102), &mut Counts::default());
    for _ in 0..3_000 {
        let (s1, s2, k) = (random.between(1, 6), random.between(1, 6), random.between(1, 4));
        let (first, second) = (random_rules(s1, k, random), lasting_rules(s2, k, random));
        compare("random", &first, &second, random, counts);
    }
}

/// Every entry of a table changed to every other value.
#[test]
fn every_other_entry() {
    let (random, counts) = (&mut Random::new(2103), &mut Counts::default());
    for (s, k) in [(1, 1), (2, 2), (3, 2), (4, 3)] {
        for table in [random_rules(s, k, random), lasting_rules(s, k, random)] {
            for at in 20..table.len() {
                let values = if at >= table.len() - s { 2 } else { s as u8 };
                for value in (0..values).filter(|&value| value != table[at]) {
                    let mut other = table.clone();
                    other[at] = value;
                    compare("entry", &table, &other, random, counts);
                }
            }
        }
    }
    assert!(counts.of("entry: agree") > 0 && counts.of("entry: separated, fresh runs too") > 0, "{}", counts);
}

/// The same table, its states renamed, its states doubled: agreed, in either order.
#[test]
fn tables_that_agree() {
    let (random, counts) = (&mut Random::new(2104), &mut Counts::default());
    for turn in 0..300 {
        let (s, k) = if turn % 100 == 0 { (16, 64) } else { (random.between(1, 8), random.between(1, 5)) };
        let table = lasting_rules(s, k, random);
        let other = doubled(&renamed(&table, random), random);
        for (first, second) in [(&table, &table), (&table, &other), (&other, &table)] {
            assert_eq!(compare("same", first, second, random, counts), None);
        }
    }
}

/// A table whose state is the height of the plan, up to 15; two of them that mark another height differ exactly there.
#[test]
fn plans_of_every_least_height() {
    let (random, counts) = (&mut Random::new(2105), &mut Counts::default());
    let heights = |mark: Option<usize>, k: usize| {
        let inner: Vec<u8> = (0..16 * k * 16).map(|i| (1 + (i / 16 / k).max(i % 16)).min(15) as u8).collect();
        let marks: Vec<u8> = (0..16).map(|state| (mark == Some(state)) as u8).collect();
        rules(16, k, &vec![0; k], &inner, &marks)
    };
    for height in 0..16 {
        let (first, second) = (heights(Some(height), 2), heights(None, 2));
        let lines = compare("height", &first, &second, random, counts).expect("separated");
        assert_eq!(separates(&first, &second, &lines), Ok(height));
    }
}

/// Tables that differ only at a label that stands nowhere but above h nodes in a row on the left.
#[test]
fn a_label_that_high_plans_reach() {
    let (random, counts) = (&mut Random::new(2106), &mut Counts::default());
    // states count the label 0 in a row on the left; at h of them label 1 leads to state 15
    let table = |h: usize, mark: u8| {
        let mut inner = Vec::new();
        for p in 0..16 {
            for a in 0..2 {
                inner.extend(
                    [if a == 0 && p < h {
                        p + 1
                    } else if a == 1 && p == h {
                        15
                    } else {
                        0
                    } as u8; 16],
                );
            }
        }
        let mut marks = vec![0; 16];
        marks[15] = mark;
        rules(16, 2, &[0, 0], &inner, &marks)
    };
    for h in 0..15 {
        let (first, second) = (table(h, 1), table(h, 0));
        let lines = compare("row", &first, &second, random, counts).expect("separated");
        assert_eq!(separates(&first, &second, &lines), Ok(h + 1));
        assert_eq!(lines.last().map(|line| (line[0], line[1])), Some((1, 1)), "the root has label 1");
    }
}

/// 16 states against 16, all 256 pairs reached, 64 labels.
#[test]
fn the_largest_tables() {
    let (random, counts) = (&mut Random::new(2107), &mut Counts::default());
    let mut most = 0;
    for turn in 0..6 {
        let (mut first, mut second) = (random_rules(16, 64, random), random_rules(16, 64, random));
        let marks = first.len() - 16;
        if turn % 2 == 0 {
            first[marks..].fill(1);
            second[marks..].fill(1);
        } else {
            // the one state that is marked comes late
            first[marks..].fill(0);
            second[marks..].fill(0);
            first[marks + random.below(16)] = 1;
        }
        assert_eq!(reached(&first, &second), Ok(256));
        let lines = compare("largest", &first, &second, random, counts);
        assert_eq!(lines.is_none(), turn % 2 == 0);
        most = most.max(lines.map_or(0, |lines| lines.len()));
    }
    assert!((1..=MAX_LINES).contains(&most));
}

/// Tables of one label whose state rises where both children have the same: a state needs a balanced tree.
fn balanced(s: usize, marks: &[u8]) -> Vec<u8> {
    let inner: Vec<u8> = (0..s * s).map(|i| if i / s == i % s { (i / s + 1) % s } else { 0 } as u8).collect();
    rules(s, 1, &[0], &inner, marks)
}

/// The greatest plan is one still, and beyond it the lines alone can say it: no fresh run can.
#[test]
fn plans_of_65_535_nodes_and_more() {
    let (random, counts) = (&mut Random::new(2108), &mut Counts::default());
    let last = [vec![0; 15], vec![1]].concat();
    let (first, second) = (balanced(16, &last), balanced(16, &[0; 16]));
    let lines = compare("greatest", &first, &second, random, counts).expect("separated");
    assert_eq!(reference::agree::plan(&lines).map(|plan| plan.len()), Some(12 + 2 * 65_535));
    assert_eq!(separates(&first, &second, &lines), Ok(15));
    // all states but 14 are marked: of period 15 and of period 16, which first differ after 28 steps
    let mut marks = [1; 16];
    marks[14] = 0;
    let (first, second) = (balanced(15, &marks[..15]), balanced(16, &marks));
    let lines = compare("beyond", &first, &second, random, counts).expect("separated");
    assert_eq!((lines.len(), separates(&first, &second, &lines)), (199, Ok(29)));
    assert_eq!(reference::agree::plan(&lines), None, "it has 98,301 nodes");
    assert_eq!(counts.of("beyond: separated, fresh runs not"), 1, "{}", counts);
}

#[test]
fn each_refusal_alone_and_in_pairs() {
    let (random, counts) = (&mut Random::new(2109), &mut Counts::default());
    for (i, &first) in table_checks().iter().enumerate() {
        for &second in &table_checks()[i..] {
            (0..40).for_each(|_| refused(&[first, second], random, counts));
        }
    }
    for number in [6, 7, 8, 9, 23] {
        assert!(counts.of(&format!("refused {}", number)) > 0, "{}", counts);
    }
}

/// One byte of either table changed to any other value: the same answer as the reference's.
#[test]
fn every_byte_of_small_tables() {
    let random = &mut Random::new(2110);
    let (first, second) = (random_rules(2, 2, random), random_rules(3, 2, random));
    for at in 0..first.len() + second.len() {
        for add in 1..=255 {
            let (mut first, mut second) = (first.clone(), second.clone());
            let byte = first.iter_mut().chain(second.iter_mut()).nth(at).unwrap();
            *byte = byte.wrapping_add(add);
            let _ = calls::agree(&first, &second, 4 * MAX_LINES, random);
        }
    }
}

/// The wrapper says what the call says.
#[test]
fn by_value() {
    let random = &mut Random::new(2111);
    let (_, table) = sample();
    assert_eq!(whatif::agree(&table, &table), Ok(None));
    for _ in 0..200 {
        let (first, second) = (random_rules(3, 2, random), random_rules(2, 2, random));
        let lines = calls::agree(&first, &second, 4 * MAX_LINES, random).expect("accepted");
        let shown = whatif::agree(&first, &second).expect("accepted");
        let numbers = |line: Line| match line {
            Line::Leaf { label } => [0, label as u16, 0, 0],
            Line::Inner { label, left, right } => [1, label as u16, left as u16, right as u16],
        };
        assert_eq!(shown.map(|plan| plan.lines().map(numbers).collect::<Vec<_>>()), lines);
    }
}
