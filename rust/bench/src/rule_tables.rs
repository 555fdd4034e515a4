//! The calls on two rule tables, without a plan: merge, and whether they agree; and one list of changes laid over another.

use crate::measure::{by_turns, Pair};
use crate::table::Single;
use compare::inputs::random_rules;
use compare::random::Random;
use compare::slices;
use whatif::sizes::{rules_bytes, MAX_CHANGES, MAX_LINES, MAX_STATES};

/// Pairs of tables in a turn.
const PAIRS: usize = 65;
/// States of each table, and their labels.
const STATES: usize = 4;
const LABELS: usize = 64;

type Tables = [Vec<u8>; 2];

fn tables(random: &mut Random) -> Tables {
    [random_rules(STATES, LABELS, random), random_rules(STATES, LABELS, random)]
}

/// Each with a buffer of its own for each side.
fn merge() -> Pair {
    let random = &mut Random::new(5);
    let pairs: Vec<Tables> = (0..PAIRS).map(|_| tables(random)).collect();
    let buffers = vec![vec![0; rules_bytes(STATES * STATES, LABELS)]; PAIRS];
    let (mut library, mut yardstick) = (buffers.clone(), buffers);
    let times = by_turns(
        PAIRS,
        || {
            let mut each = pairs.iter().zip(&mut library);
            assert!(each.all(|([first, second], to)| whatif::merge(first, second, to).is_ok()));
        },
        || {
            let mut each = pairs.iter().zip(&mut yardstick);
            assert!(each.all(|([first, second], to)| yardstick::merge(first, second, to).is_ok()));
        },
    );
    assert!(library == yardstick, "both merge the same");
    times
}

/// The greatest ratios that are wanted; plain Rust lays over by one sort, the library by insertion.
const AGREE_GOAL: f64 = 1.5;
const LAY_OVER_GOAL: f64 = 10.0;

/// Pairs of the largest tables in a turn: the search for each is long.
const FEW: usize = 3;

/// Tables of 16 states that mark all of them, so they agree, and reach every pair of states: nothing is searched in vain.
fn largest(random: &mut Random) -> Tables {
    loop {
        let both = [(); 2].map(|_| random_rules(MAX_STATES, LABELS, random)).map(|mut table| {
            let marks = table.len() - MAX_STATES;
            table[marks..].fill(1);
            table
        });
        if reference::agree::reached(&both[0], &both[1]) == Ok(MAX_LINES) {
            return both;
        }
    }
}

/// A table of 16 states, and the same with one entry edited: the next state.
fn edited(random: &mut Random) -> Tables {
    let table = random_rules(MAX_STATES, LABELS, random);
    let mut other = table.clone();
    let at = 20 + LABELS + random.below(MAX_STATES * LABELS * MAX_STATES);
    other[at] = (other[at] + 1) % MAX_STATES as u8;
    [table, other]
}

/// By each side: whether the pairs agree, and the lines shown for each.
fn agree(count: usize, pair: fn(&mut Random) -> Tables) -> Pair {
    let random = &mut Random::new(6);
    let pairs: Vec<Tables> = (0..count).map(|_| pair(random)).collect();
    let (mut mine, mut other) = ([0; 4 * MAX_LINES], [0; 4 * MAX_LINES]);
    let mut library = || {
        let told = pairs.iter().map(|[first, second]| {
            let mut out = [0; 2];
            assert_eq!(slices::agree(first, second, &mut mine, &mut out), 0, "accepted");
            out[0] + 2 * out[1]
        });
        told.sum::<u32>()
    };
    let mut plain = || {
        let told = pairs.iter().map(|[first, second]| {
            let (agree, count) = yardstick::agree(first, second, &mut other).expect("accepted");
            u32::from(agree) + 2 * count as u32
        });
        told.sum::<u32>()
    };
    let wanted = library();
    by_turns(
        count,
        || assert_eq!(library(), wanted, "both show as much"),
        || assert_eq!(plain(), wanted, "both show as much"),
    )
}

/// Two lists of so many entries, some nodes in both.
fn lay_over(entries: usize) -> Pair {
    let random = &mut Random::new(9);
    let mut list = || {
        let nodes: Vec<u16> = (0..entries).map(|_| random.below(2 * entries) as u16).collect();
        (nodes, random.bytes_below(entries, LABELS))
    };
    let pairs: Vec<_> = (0..PAIRS).map(|_| [list(), list()]).collect();
    let (mut nodes, mut labels) = ([0; MAX_CHANGES], [0; MAX_CHANGES]);
    let (mut plain_nodes, mut plain_labels) = (nodes, labels);
    let mut library = || {
        let laid = pairs.iter().map(|[lower, upper]| {
            let (lower, upper) = ((&lower.0[..], &lower.1[..]), (&upper.0[..], &upper.1[..]));
            let count = whatif::lay_over(lower, upper, &mut nodes, &mut labels).expect("accepted");
            count + usize::from(nodes[count - 1]) + usize::from(labels[count - 1])
        });
        laid.sum::<usize>()
    };
    let mut plain = || {
        let laid = pairs.iter().map(|[lower, upper]| {
            let (lower, upper) = ((&lower.0[..], &lower.1[..]), (&upper.0[..], &upper.1[..]));
            let count = yardstick::lay_over(lower, upper, &mut plain_nodes, &mut plain_labels).expect("accepted");
            count + usize::from(plain_nodes[count - 1]) + usize::from(plain_labels[count - 1])
        });
        laid.sum::<usize>()
    };
    let wanted = library();
    by_turns(
        PAIRS,
        || assert_eq!(library(), wanted, "both lay the same"),
        || assert_eq!(plain(), wanted, "both lay the same"),
    )
}

/// Those whose work has this text in its name, each handed on when it is measured.
pub fn singles(wanted: &str, keep: &mut dyn FnMut(Single)) {
    if "merge".contains(wanted) {
        keep(Single { work: "merge", on: "4 and 4 states, K 64", goal: 2.0, times: merge() });
    }
    if "agree".contains(wanted) {
        let (all, one) = ("16 and 16 states, all 256 pairs, they agree, K 64", "16 states, one entry edited, K 64");
        keep(Single { work: "agree", on: all, goal: AGREE_GOAL, times: agree(FEW, largest) });
        keep(Single { work: "agree", on: one, goal: AGREE_GOAL, times: agree(PAIRS, edited) });
    }
    if "lay over".contains(wanted) {
        for (on, entries) in [("1 entry each", 1), ("8 entries each", 8), ("32 entries each", 32)] {
            keep(Single { work: "lay over", on, goal: LAY_OVER_GOAL, times: lay_over(entries) });
        }
    }
}

/// Twenty calls by both sides.
pub fn calls(random: &mut Random) {
    let mut buffers = [vec![0; rules_bytes(STATES * STATES, LABELS)], vec![0; rules_bytes(STATES * STATES, LABELS)]];
    for _ in 0..20 {
        let [first, second] = tables(random);
        whatif::merge(&first, &second, &mut buffers[0]).expect("accepted");
        yardstick::merge(&first, &second, &mut buffers[1]).expect("accepted");
        assert!(buffers[0] == buffers[1], "both merge the same");
        let mut lines = [[0; 4 * MAX_LINES]; 2];
        let mut told = [0; 2];
        assert_eq!(slices::agree(&first, &second, &mut lines[0], &mut told), 0, "accepted");
        let (agree, count) = yardstick::agree(&first, &second, &mut lines[1]).expect("accepted");
        assert!(told == [agree as u32, count as u32] && lines[0] == lines[1], "both show the same");
    }
}
