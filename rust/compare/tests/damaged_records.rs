//! Records that the panel did not leave as they were. Bytes that break the layout get 1 from every call and stay byte
//! for byte; others are a session's like any, and every call goes by them.

use compare::counts::Counts;
use compare::inputs::Case;
use compare::random::Random;
use compare::rounds::damaged_records::{altered, any_bytes, made_up, Beside};
use compare::shapes::{self, Shape};
use reference::panel::{Outcome, Phase, Sizes};
use reference::record::{Record, RECORD_BYTES};

/// One byte changed, at every place.
#[test]
fn every_byte() {
    let random = &mut Random::new(1601);
    for (leaves, m) in [(1, 0), (9, 3), (40, 64)] {
        let (shape, s, k) = (Shape::Uniform, random.between(2, 16), random.between(2, 64));
        let beside = Beside::new(Case::new(shape, leaves, s, k, random), m, random);
        let records = beside.records(random);
        let kept = beside.with_an_answer(random);
        let last = records.len() - 1;
        let (mut valid, mut broken) = (0, 0);
        let chosen = [0, 1, 2, 3.min(last), last - 1, last].map(|at| &records[at]);
        for record in chosen.into_iter().chain([&kept[0], &kept[kept.len() - 1]]) {
            assert!(beside.all_calls(record, random));
            for place in 0..RECORD_BYTES {
                // every value where the counts stand
                let adds = if !(13..967).contains(&place) && m == 3 {
                    (1..=255).collect()
                } else {
                    vec![1, 255, random.between(2, 254)]
                };
                for add in adds {
                    let mut other = record.clone();
                    other[place] = other[place].wrapping_add(add as u8);
                    if beside.all_calls(&other, random) {
                        valid += 1;
                    } else {
                        broken += 1;
                    }
                }
            }
        }
        assert!(broken > 10_000 && (m == 0 || valid > 50), "{} valid, {} broken", valid, broken);
    }
}

/// Several bytes changed, to values that are near those that are there.
#[test]
fn several_bytes() {
    let (random, counts) = (&mut Random::new(1602), &mut Counts::default());
    for _ in 0..150 {
        let (leaves, m) = (random.between(1, 60), random.between(0, 12));
        let beside = Beside::new(Case::new(Shape::Bushy, leaves, 4, 4, random), m, random);
        for record in beside.records(random).iter().chain(&beside.with_an_answer(random)) {
            for _ in 0..20 {
                beside.count("altered", &altered(record, random), random, counts);
            }
        }
    }
    assert!(counts.of("altered, a session's") > 500 && counts.of("altered, broken") > 5_000, "{}", counts);
}

/// Those of layout versions 1 and 2, of 967 and 975 bytes, are among them.
#[test]
fn other_lengths() {
    let random = &mut Random::new(1603);
    let beside = Beside::new(Case::new(Shape::Zigzag, 12, 3, 3, random), 4, random);
    for record in beside.records(random).iter().chain(&beside.with_an_answer(random)) {
        for len in [0, 1, 13, 713, 966, 967, 968, 975, 982, 984, 1_000, 2 * 983] {
            let mut other = record.clone();
            other.resize(len, 0);
            assert!(!beside.all_calls(&other, random), "{} bytes", len);
        }
    }
}

#[test]
fn records_that_no_session_left() {
    let random = &mut Random::new(1604);
    let mut twice = 0;
    for turn in 0..300 {
        let leaves = if turn % 10 == 0 { 2_000 } else { random.between(1, 60) };
        let beside = Beside::new(Case::new(shapes::SHAPES[turn % 6], leaves, 3, 3, random), 3, random);
        for _ in 0..20 {
            let made_up = made_up(&beside.case, random);
            let next = made_up.roots.get(made_up.states.len());
            twice += usize::from(made_up.nodes.iter().filter(|&v| Some(v) == next).count() > 1);
            let record = made_up.bytes();
            assert_eq!(Record::of(&record).as_ref(), Some(&made_up));
            assert!(beside.all_calls(&record, random));
        }
    }
    assert!(twice > 100, "{} of 6,000 had the next root twice in the list", twice);
}

/// The bounds, each at its limit and one beyond.
#[test]
fn the_limits() {
    let random = &mut Random::new(1605);
    let beside = Beside::new(Case::new(Shape::Balanced, 32, 3, 3, random), 5, random);
    let records = beside.records(random);
    let running = Record::of(&records[4]).unwrap();
    let answered = Record::of(records.last().unwrap()).unwrap();
    let cases: Vec<(&str, Record, Record)> = vec![
        (
            "nodes passed over by a running session",
            Record { passed: 65_535 * 2, ..running.clone() },
            Record { passed: 65_535 * 2 + 1, ..running.clone() },
        ),
        (
            "links of a running session",
            Record { links: 70_000, passed: 70_000, ..running.clone() },
            Record { links: 70_000, passed: 69_999, ..running.clone() },
        ),
        (
            "nodes passed over by an answered session",
            with_its_answer(Record { passed: 65_535 * answered.roots.len() as u32, ..answered.clone() }),
            with_its_answer(Record { passed: 65_535 * answered.roots.len() as u32 + 1, ..answered.clone() }),
        ),
        (
            "links of an answered session",
            with_its_answer(Record { links: 70_000, passed: 70_000, ..answered.clone() }),
            with_its_answer(Record { links: 70_000, passed: 69_999, ..answered.clone() }),
        ),
        ("a yes before the end", running.clone(), Record { yes: true, ..running.clone() }),
        ("a state", running.clone(), Record { states: vec![3; running.states.len()], ..running.clone() }),
        ("a node", running.clone(), Record { nodes: vec![63; running.nodes.len()], ..running.clone() }),
        ("a label", running.clone(), Record { labels: vec![3; running.labels.len()], ..running.clone() }),
        ("no parts", running.clone(), Record { roots: vec![], states: vec![], links: 0, passed: 0, ..running.clone() }),
        ("answered too early", running.clone(), Record { phase: Phase::Answered, ..running.clone() }),
        ("running at the end", answered.clone(), Record { phase: Phase::Running, ..answered.clone() }),
        ("the root left out", running.clone(), Record { roots: running.roots[..4].to_vec(), ..running.clone() }),
    ];
    for (what, good, bad) in cases {
        assert!(beside.all_calls(&good.bytes(), random), "{}", what);
        assert!(!beside.all_calls(&bad.bytes(), random), "{}", what);
    }
    for (n, s, k) in [(0, 1, 1), (1, 0, 1), (1, 1, 0), (1, 17, 1), (1, 1, 65)] {
        assert!(!beside.all_calls(&Record::loaded(Sizes { n, s, k }).bytes(), random));
    }
    for (n, s, k) in [(1, 1, 1), (65_535, 16, 64), (2, 16, 64)] {
        assert!(beside.all_calls(&Record::loaded(Sizes { n, s, k }).bytes(), random));
    }
}

/// An answered record keeps its own answer.
fn with_its_answer(record: Record) -> Record {
    Record { last: record.answer(), ..record }
}

/// The bounds of the answer that is kept, in every state.
#[test]
fn the_limits_of_a_kept_answer() {
    let random = &mut Random::new(1607);
    let beside = Beside::new(Case::new(Shape::Balanced, 32, 3, 3, random), 5, random);
    let records = beside.records(random);
    let [loaded, running] = [1, 4].map(|at| Record::of(&records[at]).unwrap());
    let answered = Record::of(records.last().unwrap()).unwrap();
    let told = |state, parts, links, passed| Some(Outcome { state, yes: true, parts, links, passed });
    for record in [loaded, running] {
        let mut is = |last, valid| {
            let bytes = Record { last, ..record.clone() }.bytes();
            assert_eq!(beside.all_calls(&bytes, random), valid, "{:?}", last);
        };
        let most = 65_535 * 254;
        for last in
            [None, told(2, 1, 65_535, 65_535), told(0, 254, most, most), told(0, 1, 0, 0), told(0, 1, 0, 65_535)]
        {
            is(last, true);
        }
        for last in [told(3, 1, 0, 0), told(0, 0, 0, 0), told(0, 255, 0, 0)] {
            is(last, false);
        }
        for last in [told(0, 1, 0, 65_536), told(0, 254, 0, most + 1), told(0, 1, 2, 1), told(0, 254, most, most - 1)] {
            is(last, false);
        }
        // neither there nor not, and values of an answer that is not there
        for (place, to) in [(967, 2), (967, 255), (968, 1), (969, 1), (970, 1), (971, 1), (974, 1), (979, 1), (982, 1)]
        {
            let mut bytes = record.bytes();
            bytes[place] = to;
            assert!(!beside.all_calls(&bytes, random), "byte {}", place);
        }
    }
    // in answered it is the record's own answer, in empty there is none
    let own = answered.answer().unwrap();
    for last in [
        None,
        Some(Outcome { state: (own.state + 1) % 3, ..own }),
        Some(Outcome { yes: !own.yes, ..own }),
        Some(Outcome { parts: own.parts - 1, ..own }),
        Some(Outcome { links: own.links + 1, passed: own.passed + 1, ..own }),
        Some(Outcome { passed: own.passed + 1, ..own }),
    ] {
        assert!(!beside.all_calls(&Record { last, ..answered.clone() }.bytes(), random), "{:?}", last);
    }
    assert!(!beside.all_calls(&Record { last: told(0, 1, 0, 0), ..Record::fresh() }.bytes(), random));
}

#[test]
fn anything_at_all() {
    let (random, counts) = (&mut Random::new(1606), &mut Counts::default());
    let beside = Beside::new(Case::new(Shape::Balanced, 32, 3, 3, random), 5, random);
    for _ in 0..2_000 {
        beside.count("any bytes", &any_bytes(random), random, counts);
    }
    assert!(counts.of("any bytes, a session's") < 5, "{}", counts);
}
