//! Full checks of tables that are not as built: every single entry counts, and so does what only the whole shows.

use crate::built::Built;
use crate::calls::{self, Kind, KINDS};
use crate::counts::Counts;
use crate::inputs::{self, Case};
use crate::random::Random;
use crate::shapes::{Shape, SHAPES};

pub fn round(random: &mut Random, counts: &mut Counts) {
    let kind = *random.pick(&KINDS);
    let built = Built::with_excess(kind, Case::random(30, random), random);
    for _ in 0..12 {
        single_entry(&built, random, counts);
    }
    wrong_root(&built, random, counts);
    something_else(kind, random, counts);
    any_tables(random, counts);
}

/// What the full check says of some tables, compared.
fn says(built: &Built, node_table: &[u16], state_table: &[u8], random: &mut Random) -> bool {
    let table = built.case.table(built.kind);
    calls::check(built.kind, &built.case.plan, table, node_table, state_table, random).expect("accepted")
}

/// One entry altered: at the root, at a leaf or at another node; one of the four numbers, the state or the map.
pub fn single_entry(built: &Built, random: &mut Random, counts: &mut Counts) {
    let (n, s) = (built.case.n, built.case.s);
    let any = random.below(n);
    let v = *random.pick(&[n - 1, 0, any]);
    let node = match built.case.plan[12 + n + v] {
        _ if v == n - 1 => "the root",
        0 => "a leaf",
        _ => "another node",
    };
    let (mut node_table, mut state_table) = (built.node_table.clone(), built.state_table.clone());
    let entry = match random.below(6) {
        at @ 0..=3 => {
            node_table[4 * v + at] ^= 1 << random.below(16);
            ["parent", "jump", "depth", "size"][at]
        }
        4 => {
            state_table[(s + 1) * v] ^= 1 << random.below(8);
            "state"
        }
        _ => {
            state_table[(s + 1) * v + random.between(1, s)] ^= 1 << random.below(8);
            "map"
        }
    };
    assert!(!says(built, &node_table, &state_table, random), "{} of {} altered", entry, node);
    assert!(says(built, &built.node_table, &built.state_table, random));
    counts.add(format!("no: {} of {}", entry, node));
}

/// Tables that fit together entry by entry, from another start at the root.
pub fn wrong_root(built: &Built, random: &mut Random, counts: &mut Counts) {
    let mut deeper = built.node_table.clone();
    deeper[..built.case.node_table_len()].iter_mut().skip(2).step_by(4).for_each(|depth| *depth += 1);
    assert!(!says(built, &deeper, &built.state_table, random), "all depths one too large");
    counts.add("no: all depths one too large");
    if built.case.s < 2 {
        return;
    }
    // every map followed by one more exchange of two states, which alters the root's map too
    let mut exchanged = built.state_table.clone();
    for row in exchanged[..built.case.state_table_len()].chunks_mut(built.case.s + 1) {
        row[1..].iter_mut().filter(|state| **state < 2).for_each(|state| *state = 1 - *state);
    }
    assert!(!says(built, &built.node_table, &exchanged, random), "all maps with two states exchanged");
    counts.add("no: all maps with two states exchanged");
}

/// The tables of another plan, of other labels or of other rules: yes exactly where they happen to be the same.
pub fn something_else(kind: Kind, random: &mut Random, counts: &mut Counts) {
    let (leaves, s, k) = (random.between(2, 40), random.between(2, 4), random.between(2, 4));
    let shape = *random.pick(&SHAPES);
    let built = Built::new(kind, Case::new(shape, leaves, s, k, random), random);
    let mut other = built.case.clone();
    match random.below(3) {
        0 => other.plan = Case::new(Shape::Uniform, leaves, s, k, random).plan,
        1 => {
            let at = 12 + random.below(other.n);
            other.plan[at] = (other.plan[at] + 1) % k as u8;
        }
        _ => {
            other.rules = inputs::random_rules(s, k, random);
            other.branch = inputs::random_branch(s, k, random);
        }
    }
    let other = Built::new(kind, other, random);
    let yes = says(&other, &built.node_table, &built.state_table, random);
    assert_eq!(yes, (&other.node_table, &other.state_table) == (&built.node_table, &built.state_table));
    counts.add(if yes { "yes: tables of something like it" } else { "no: tables of something else" });
}

/// Any tables at all.
pub fn any_tables(random: &mut Random, counts: &mut Counts) {
    let case = Case::random(20, random);
    let kind = *random.pick(&KINDS);
    let limit = random.between(1, case.n);
    let mut node_table = random.numbers(case.node_table_len());
    if random.below(2) == 0 {
        node_table.iter_mut().for_each(|number| *number %= limit as u16 + 1);
    }
    let state_table = random.bytes_below(case.state_table_len(), case.s + 1);
    let _ = calls::check(kind, &case.plan, case.table(kind), &node_table, &state_table, random);
    counts.add("any tables");
}
