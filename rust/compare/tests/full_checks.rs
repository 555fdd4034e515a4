//! Full checks of tables that are not as built: every single entry counts, and so does what only the whole shows.

use compare::built::Built;
use compare::calls::KINDS;
use compare::counts::Counts;
use compare::inputs::Case;
use compare::random::Random;
use compare::rounds::full_checks;
use compare::shapes::SHAPES;

#[test]
fn every_entry_of_small_tables() {
    let random = &mut Random::new(401);
    for shape in SHAPES {
        for (leaves, s, k) in
            [(1, 1, 1), (1, 3, 2), (2, 2, 2), (3, 1, 3), (4, 3, 2), (9, 2, 4), (16, 5, 3), (20, 16, 64)]
        {
            for kind in KINDS {
                let mut built = Built::new(kind, Case::new(shape, leaves, s, k, random), random);
                assert!(built.says(&built.node_table, &built.state_table, random));
                for at in 0..built.node_table.len() {
                    let was = built.node_table[at];
                    let mut others: Vec<u16> = (0..16).map(|bit| was ^ (1 << bit)).collect();
                    others.extend([was.wrapping_add(1), was.wrapping_sub(1), 0, built.case.n as u16 - 1, u16::MAX]);
                    for other in others.into_iter().filter(|&other| other != was) {
                        built.node_table[at] = other;
                        assert!(!built.says(&built.node_table, &built.state_table, random), "number {}: {}", at, other);
                    }
                    built.node_table[at] = was;
                }
                for at in 0..built.state_table.len() {
                    let was = built.state_table[at];
                    for other in (0..=20).chain([127, 128, 254, 255]).filter(|&other| other != was) {
                        built.state_table[at] = other;
                        assert!(!built.says(&built.node_table, &built.state_table, random), "byte {}: {}", at, other);
                    }
                    built.state_table[at] = was;
                }
                assert!(built.says(&built.node_table, &built.state_table, random));
            }
        }
    }
}

#[test]
fn single_entries_of_the_largest_tables() {
    let random = &mut Random::new(402);
    for shape in SHAPES {
        for kind in KINDS {
            let mut built = Built::new(kind, Case::new(shape, 32_768, 16, 64, random), random);
            let root = built.case.n - 1;
            for turn in 0..150 {
                // now and then at the root or at the first node
                let v = *random.pick(&[root, 0, turn * 430, turn * 430 + 1]);
                let at = 4 * v + random.below(4);
                let was = built.node_table[at];
                built.node_table[at] = was ^ (1 << random.below(16));
                assert!(!built.says(&built.node_table, &built.state_table, random), "number {} of node {}", at % 4, v);
                built.node_table[at] = was;
                let at = 17 * v + random.below(17);
                let was = built.state_table[at];
                built.state_table[at] = (was as usize + random.between(1, 15)) as u8 % 16;
                assert!(!built.says(&built.node_table, &built.state_table, random), "byte {} of node {}", at % 17, v);
                built.state_table[at] = was;
            }
            assert!(built.says(&built.node_table, &built.state_table, random));
        }
    }
}

/// At every kind of node, for every kind of entry.
#[test]
fn single_entries_by_chance() {
    let (random, counts) = (&mut Random::new(406), &mut Counts::default());
    for turn in 0..300 {
        let built = Built::with_excess(KINDS[turn % 2], Case::random(30, random), random);
        for _ in 0..20 {
            full_checks::single_entry(&built, random, counts);
        }
    }
    for entry in ["parent", "jump", "depth", "size", "state", "map"] {
        for node in ["the root", "a leaf", "another node"] {
            assert!(counts.of(&format!("no: {} of {}", entry, node)) > 50, "{}", counts);
        }
    }
}

/// Tables that fit together entry by entry, from another start at the root.
#[test]
fn consistent_from_a_wrong_root() {
    let (random, counts) = (&mut Random::new(403), &mut Counts::default());
    for turn in 0..300 {
        let leaves = random.between(2, 40);
        for kind in KINDS {
            let case = Case::new(SHAPES[turn % SHAPES.len()], leaves, 4, 3, random);
            full_checks::wrong_root(&Built::with_excess(kind, case, random), random, counts);
        }
    }
    assert_eq!(counts.total(), 1_200);
}

/// The tables of another plan, of other labels, of other rules: yes exactly where they happen to be the same.
#[test]
fn tables_of_something_else() {
    let (random, counts) = (&mut Random::new(404), &mut Counts::default());
    for turn in 0..600 {
        full_checks::something_else(KINDS[turn % 2], random, counts);
    }
    assert!(counts.of("no: tables of something else") > 400, "{}", counts);
}

/// Any tables at all: no crash, and as the reference says.
#[test]
fn any_tables() {
    let random = &mut Random::new(405);
    for _ in 0..3_000 {
        full_checks::any_tables(random, &mut Counts::default());
    }
}
