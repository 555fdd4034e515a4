//! The types of `whatif` that own what their calls need, against the reference and against plain calls: panels, mills
//! and the types that own bytes; everything that can come came. Then the largest plans.

use compare::counts::Counts;
use compare::inputs::Case;
use compare::random::Random;
use compare::rounds::{mills, owned, panels};
use compare::shapes::{self, SHAPES};
use whatif::{Change, Panel, Plan, Rules};

fn came(counts: &Counts, least: usize, what: &[&str]) {
    for what in what {
        assert!(counts.of(what) >= least, "{}:\n{}", what, counts);
    }
}

#[test]
fn panels_beside_sessions() {
    let (random, counts) = (&mut Random::new(3101), &mut Counts::default());
    for _ in 0..600 {
        panels::round(random, counts);
    }
    let accepted =
        ["ask", "start", "advance", "advances", "cancel", "load", "fresh run"].map(|call| format!("{} accepted", call));
    let refused = [
        ("ask", &[1, 12, 13, 14][..]),
        ("start", &[1, 12, 13, 14]),
        ("advance", &[1]),
        ("advances", &[1]),
        ("cancel", &[1]),
        ("load", &[1, 10]),
        ("fresh run", &[12, 13, 14]),
        ("count", &[13, 15, 26]),
        ("confirm", &[1, 13]),
    ];
    let refused =
        refused.iter().flat_map(|(call, numbers)| numbers.iter().map(move |n| format!("{} refused {}", call, n)));
    for what in accepted.into_iter().chain(refused) {
        came(counts, 10, &[&what]);
    }
    came(counts, 10, &["current accepted, last true", "current refused 1, last false", "current refused 1, last true"]);
    came(counts, 10, &["confirm: Ok(())", "confirm: not cleared", "confirm: Err(OtherList)", "count"]);
}

#[test]
fn mills_beside_screens() {
    let (random, counts) = (&mut Random::new(3102), &mut Counts::default());
    for _ in 0..600 {
        mills::round(random, counts);
    }
    came(counts, 10, &["start accepted", "start refused 1", "start refused 13", "start refused 25"]);
    came(counts, 10, &["deal more", "deal finished", "deal none", "deals", "deals, to the end"]);
    came(counts, 10, &["cancel accepted", "cancel refused 1", "cancel refused 25", "load accepted", "load refused 1"]);
    came(counts, 10, &["current accepted, last true", "current refused 1, last false", "current refused 1, last true"]);
    came(counts, 10, &["confirm true", "confirm false", "confirm refused 25", "repair", "repair refused 25"]);
}

#[test]
fn types_that_own_bytes() {
    let (random, counts) = (&mut Random::new(3103), &mut Counts::default());
    for _ in 0..800 {
        owned::round(random, counts);
    }
    for number in [0, 2, 3, 4, 5] {
        came(counts, 20, &[&format!("plan {}", number)]);
    }
    for number in [0, 6, 7, 8, 9] {
        came(counts, 20, &[&format!("Rules {}", number), &format!("Branch {}", number)]);
    }
    came(counts, 20, &["branch 0", "branch 13", "branch 16", "by colours true", "by colours false"]);
    came(counts, 20, &["merge 0", "merge 23", "merge 24", "a separating plan"]);
    came(counts, 20, &["planner 0", "planner 19", "planner 20"]);
}

/// N 65,535 in every shape, and the question of 254 parts: a panel's answer is a fresh run's.
#[test]
fn the_largest_plans() {
    let random = &mut Random::new(3104);
    for shape in SHAPES {
        let case = Case::new(shape, 32_768, random.between(2, 16), random.between(2, 64), random);
        let mut panel = panel(&case.plan, &case.rules);
        for m in [0, 1, 8, 64] {
            let (nodes, labels) = case.list(m, random);
            let list: Vec<Change> = nodes.iter().copied().zip(labels.iter().copied()).collect();
            let want = reference::fresh::fresh_run(&case.plan, &case.rules, &nodes, &labels).unwrap();
            let got = panel.ask(&list).unwrap();
            assert_eq!((got.state, got.yes), (want.state, want.yes));
            assert_eq!(panel.confirm(&list).is_ok(), want.yes);
        }
    }
    let (kinds, listed) = shapes::most_parts();
    let case = Case::of_kinds(&kinds, 4, 3, random);
    let labels = case.other_labels(&listed, random);
    let list: Vec<Change> = listed.iter().copied().zip(labels).collect();
    let mut panel = panel(&case.plan, &case.rules);
    assert_eq!((panel.start(&list), panel.advances().filter(|part| part.is_ok()).count()), (Ok(254), 254));
}

fn panel(plan: &[u8], rules: &[u8]) -> Panel {
    Panel::new(Plan::from_bytes(plan).unwrap(), Rules::from_bytes(rules).unwrap()).unwrap()
}
