//! Eight screens on one mill (document 02, S-8): whole lists of screen calls, held to the reference implementation, to
//! eight reference models and to single sessions; turns; and what is refused, in order.

use compare::counts::Counts;
use compare::inputs::Case;
use compare::panel::Lent;
use compare::random::Random;
use compare::rounds::refusals::any_set;
use compare::rounds::screen_lists::{list, NO_SCREENS, OTHER_LENGTHS};
use compare::rounds::screen_refusals::{checks_of, compare, CALLS};
use compare::rounds::session_refusals::Scene;
use compare::screens::{compared, Lab};
use compare::shapes::Shape;
use reference::panel::Answer;
use reference::record::RECORD_BYTES;
use reference::screens::{ScreenAnswer, ScreenCall, RUN_BYTES, SCREENS};

#[test]
fn lists_of_screen_calls() {
    let (random, counts) = (&mut Random::new(2301), &mut Counts::default());
    for _ in 0..900 {
        list(150, 15, random, counts);
    }
    // everything that a screen can be told came, and each often enough
    let starts = [25, 1, 17, 12, 13, 14, 18].map(|n| format!("Start refused {}", n));
    let loads = (1..=11).map(|n| format!("Load refused {}", n));
    let turns = (0..SCREENS).map(|n| format!("a turn after {} others", n));
    let others = [
        "Load accepted",
        "Load, and answers were kept",
        "Start parts",
        "deal More",
        "deal Finished",
        "deal refused 25",
        "deal refused 1",
        "deal refused 17",
        "deal refused 18",
        "Cancel Accepted",
        "Cancel refused 1",
        "Cancel refused 25",
        "Read told",
        "Read refused 1",
        "Read refused 25",
        "a run of another length refused 25",
        "broken record refused 1",
        "altered record, still a session's",
        "beside a broken record: deal accepted",
        "beside a broken record: deal refused",
        "beside a broken record: a call of another screen accepted",
        "a list, all settled",
        "a list, not all settled",
    ];
    for what in starts.into_iter().chain(loads).chain(turns).chain(others.map(String::from)) {
        assert!(counts.of(&what) >= 20, "{}:\n{}", what, counts);
    }
}

#[test]
fn larger_plans() {
    let (random, counts) = (&mut Random::new(2302), &mut Counts::default());
    for _ in 0..6 {
        list(150, 2_000, random, counts);
    }
    assert!(counts.of("deal Finished") > 3, "{}", counts);
}

/// Every check of every call alone, every two of them, and any set.
#[test]
fn refusals_in_pairs() {
    let (random, counts) = (&mut Random::new(2303), &mut Counts::default());
    for ((name, after, call), turns) in CALLS.into_iter().zip([20, 40, 80, 80, 80]) {
        let checks = checks_of(after);
        for _ in 0..turns {
            compare(name, call, &[], random, counts);
            for (i, &first) in checks.iter().enumerate() {
                for &second in &checks[i..] {
                    compare(name, call, &[first, second], random, counts);
                }
            }
            let some = any_set(&checks, random);
            compare(name, call, &some, random, counts);
        }
    }
}

/// A plan with its tables, and all eight screens loaded.
fn lab(random: &mut Random) -> (Case, Lent, Lab) {
    let case = Case::new(Shape::Bushy, 12, 3, 4, random);
    let lent = Lent::built(&case, random);
    let lab = Lab::loaded(&lent, random);
    (case, lent, lab)
}

/// A question that has more parts than one.
fn start(lab: &mut Lab, case: &Case, lent: &Lent, screen: u32, random: &mut Random) {
    let nodes = [0, 3, 5];
    let labels = case.other_labels(&nodes, random);
    match lab.start(screen, lent, &nodes, &labels, random) {
        ScreenAnswer::One(Answer::Parts(parts)) => assert!(parts > 2),
        other => panic!("the Start was told {:?}", other),
    }
}

/// Whoever is named as 259 or 2^32 - 1 is not there; nor is the run of a byte more or less. Both before 1, and before
/// all that is lent.
#[test]
fn numbers_and_lengths() {
    let random = &mut Random::new(2304);
    let (case, lent, mut lab) = lab(random);
    (0..8).for_each(|screen| start(&mut lab, &case, &lent, screen, random));
    let none = Lent { plan: vec![], rules: vec![], node_table: vec![], state_table: vec![] };
    for inputs in [lent.inputs(), none.inputs()] {
        for number in NO_SCREENS {
            for call in [
                ScreenCall::Start(number, inputs, &[], &[]),
                ScreenCall::Cancel(number),
                ScreenCall::Read(number),
                ScreenCall::Deal(number, inputs),
            ] {
                assert_eq!(lab.call(&call, random), ScreenAnswer::refused(25), "{}", number);
            }
        }
        for len in OTHER_LENGTHS {
            let mut run = lab.run.clone();
            run.resize(len, 0);
            for call in [
                ScreenCall::Load(inputs),
                ScreenCall::Start(0, inputs, &[], &[]),
                ScreenCall::Cancel(0),
                ScreenCall::Read(0),
                ScreenCall::Deal(0, inputs),
            ] {
                assert_eq!(compared(&run, &call, random).answer, ScreenAnswer::refused(25), "{} bytes", len);
            }
        }
    }
    // screen 3, which 259 and 2^16 + 3 are not, is where it was
    assert_eq!(lab.call(&ScreenCall::Cancel(3), random), ScreenAnswer::One(Answer::Accepted));
}

/// All eight run: each is served once in eight deals, in the order of their numbers, from 7 back to 0, until it is
/// finished; with one alone it is served every time.
#[test]
fn turns_of_all_eight() {
    let random = &mut Random::new(2305);
    let (case, lent, mut lab) = lab(random);
    (0..8).for_each(|screen| start(&mut lab, &case, &lent, screen, random));
    let mut served = vec![];
    while (0..SCREENS).all(|i| lab.models.runs(i)) {
        match lab.deal(&lent, random) {
            ScreenAnswer::Dealt(next, _) => served.push((next + 7) % 8),
            other => panic!("the deal was told {:?}", other),
        }
    }
    assert!(served.len() >= 8 && served.iter().enumerate().all(|(i, &screen)| screen == i as u32 % 8), "{:?}", served);
    for screen in (0..8).filter(|&screen| screen != 5) {
        lab.call(&ScreenCall::Cancel(screen), random);
    }
    while lab.models.runs(5) {
        assert_eq!(lab.deal(&lent, random).number(), Some(6));
    }
    assert_eq!(lab.deal(&lent, random), ScreenAnswer::refused(1));
}

/// Refused with 17 or 18 a deal tells no number, alters nothing, and serves nobody else: the same screen is the next.
#[test]
fn a_refused_deal_was_a_turn() {
    let random = &mut Random::new(2306);
    let (case, lent, mut lab) = lab(random);
    [2, 4, 6].into_iter().for_each(|screen| start(&mut lab, &case, &lent, screen, random));
    assert_eq!(lab.deal(&lent, random).number(), Some(3));
    let short = Lent { plan: lent.plan[1..].to_vec(), ..lent.clone() };
    let no_state = Lent { rules: [&lent.rules[..20], &vec![255; lent.rules.len() - 20]].concat(), ..lent.clone() };
    for (wrong, number) in [(&short, 17), (&no_state, 18)] {
        let before = lab.run.clone();
        assert_eq!(lab.deal(wrong, random), ScreenAnswer::refused(number));
        assert!(lab.run == before && lab.first == 3);
    }
    assert_eq!(lab.deal(&lent, random).number(), Some(5));
    assert_eq!(lab.deal(&lent, random).number(), Some(7));
    assert_eq!(lab.deal(&lent, random).number(), Some(3));
}

/// A Load waits until no screen runs; accepted it clears all eight, the last finished answers too, and tells 0.
#[test]
fn load_waits_and_clears() {
    let random = &mut Random::new(2307);
    let (case, lent, mut lab) = lab(random);
    let loaded = lab.run.clone();
    let load = ScreenCall::Load(lent.inputs());
    for screen in 0..8 {
        start(&mut lab, &case, &lent, screen, random);
        while lab.models.runs(screen as usize) {
            assert_eq!(lab.call(&load, random), ScreenAnswer::refused(1));
            lab.deal(&lent, random);
        }
    }
    start(&mut lab, &case, &lent, 7, random);
    lab.call(&ScreenCall::Cancel(7), random);
    for screen in 0..8 {
        assert!(matches!(lab.call(&ScreenCall::Read(screen), random), ScreenAnswer::One(Answer::Outcome(_))));
    }
    assert_eq!((lab.call(&load, random), lab.first), (ScreenAnswer::Loaded(0), 0));
    assert!(lab.run == loaded, "as after a first Load");
    for screen in 0..8 {
        assert_eq!(lab.call(&ScreenCall::Read(screen), random), ScreenAnswer::refused(1));
    }
}

/// Two histories with the same calls and turns of one screen, and others that start, cancel and are served beside it
/// in one of them: the screen is told the same.
#[test]
fn isolation() {
    let random = &mut Random::new(2308);
    for turn in 0..40 {
        let (case, lent, mut alone) = lab(random);
        let mut beside = alone.clone();
        let own = turn % 8;
        let (nodes, labels) = case.list(random.between(1, 9), random);
        let mut told = vec![];
        told.push(alone.start(own, &lent, &nodes, &labels, random));
        assert_eq!(beside.start(own, &lent, &nodes, &labels, random), told[0]);
        while alone.models.runs(own as usize) {
            told.push(alone.deal(&lent, random));
            // what the others do until it is the screen's turn
            loop {
                for other in (0..8).filter(|&other| other != own) {
                    match random.below(4) {
                        0 if beside.models.runs(other as usize) => {
                            beside.call(&ScreenCall::Cancel(other), random);
                        }
                        1 if !beside.models.runs(other as usize) => start(&mut beside, &case, &lent, other, random),
                        _ => (),
                    }
                }
                let answer = beside.deal(&lent, random);
                if answer.number() == Some((own + 1) % 8) {
                    assert_eq!(answer, *told.last().unwrap());
                    break;
                }
            }
        }
        let read = ScreenCall::Read(own);
        assert_eq!(alone.call(&read, random), beside.call(&read, random));
        let record = |lab: &Lab| lab.run[RECORD_BYTES * own as usize..RECORD_BYTES * (own as usize + 1)].to_vec();
        assert!(record(&alone) == record(&beside));
    }
}

/// A broken record on one screen: only its own calls and Load are refused; a deal goes by its state, and at its turn
/// gives 1, by which nobody is served.
#[test]
fn a_broken_record() {
    let random = &mut Random::new(2309);
    let scene = Scene::new(random);
    let [_, loaded, running, answered, ..] = &scene.records;
    let inputs = scene.lent.inputs();
    let with = |at: usize, record: &[u8]| {
        let mut run = running.repeat(SCREENS);
        run[RECORD_BYTES * at..RECORD_BYTES * (at + 1)].copy_from_slice(record);
        run
    };
    let start = |screen| ScreenCall::Start(screen, inputs, &scene.nodes, &scene.labels);
    for at in 0..SCREENS {
        let own = at as u32;
        let broken = |record: &[u8]| [&[record[0], 2], &record[2..]].concat();
        for record in [loaded, running, answered] {
            let run = with(at, &broken(record));
            for call in [start(own), ScreenCall::Cancel(own), ScreenCall::Read(own), ScreenCall::Load(inputs)] {
                assert_eq!(compared(&run, &call, random).answer, ScreenAnswer::refused(1));
            }
            let dealt = compared(&run, &ScreenCall::Deal(own, inputs), random).answer;
            if record == running {
                assert_eq!(dealt, ScreenAnswer::refused(1), "at its turn");
            } else {
                assert_eq!(dealt.number(), Some((own + 2) % 8), "the one after it is served");
            }
            let other = (own + 1) % 8;
            let cancel = compared(&run, &ScreenCall::Cancel(other), random).answer;
            assert_eq!(cancel, ScreenAnswer::One(Answer::Accepted));
            assert!(compared(&run, &ScreenCall::Deal(other, inputs), random).answer.number().is_some());
        }
        // no state at all is not running
        let run = with(at, &[9; RECORD_BYTES]);
        assert_eq!(compared(&run, &ScreenCall::Deal(own, inputs), random).answer.number(), Some((own + 2) % 8));
    }
    assert_eq!(RUN_BYTES, 7_864);
}

/// The wrapper hands the number on by itself, and tells who was served.
#[test]
fn the_wrapper() {
    let random = &mut Random::new(2310);
    let (case, lent, _) = lab(random);
    let mut lab = Lab::default();
    let mut screens = whatif::Screens::new();
    let (mut node_table, mut state_table) = (lent.node_table.clone(), lent.state_table.clone());
    screens.load(&lent.plan, &lent.rules, &mut node_table, &mut state_table).unwrap();
    lab.call(&ScreenCall::Load(lent.inputs()), random);
    let inputs = whatif::Lent {
        plan: &lent.plan,
        rules: &lent.rules,
        node_table: &lent.node_table,
        state_table: &lent.state_table,
    };
    for _ in 0..600 {
        let screen = random.below(9) as u32;
        let (call, told) = match random.below(8) {
            0 | 1 => {
                let (nodes, labels) = case.list(random.below(9), random);
                let told = screens.start(screen, &inputs, &nodes, &labels).map(Answer::Parts);
                assert_eq!(one(lab.start(screen, &lent, &nodes, &labels, random)), told.map_err(|no| no.number()));
                continue;
            }
            2 => (ScreenCall::Cancel(screen), screens.cancel(screen).map(|()| Answer::Accepted)),
            3 => {
                let told = screens.read(screen).map(|a| (a.state as u32, a.yes, a.parts, a.links, a.passed));
                let answer = match one(lab.call(&ScreenCall::Read(screen), random)) {
                    Ok(Answer::Outcome(a)) => Ok((a.state, a.yes, a.parts, a.links, a.passed)),
                    Ok(other) => panic!("the Read was told {:?}", other),
                    Err(number) => Err(number),
                };
                assert_eq!(answer, told.map_err(|no| no.number()));
                continue;
            }
            _ => {
                let told = screens.deal(&inputs);
                let wanted = match told {
                    Ok(whatif::Deal { screen, progress: whatif::Progress::More }) => Ok((screen, Answer::More)),
                    Ok(whatif::Deal { screen, .. }) => Ok((screen, Answer::Finished)),
                    Err(refusal) => Err(refusal.number()),
                };
                match lab.deal(&lent, random) {
                    ScreenAnswer::Dealt(next, answer) => assert_eq!(Ok(((next + 7) % 8, answer)), wanted),
                    other => assert_eq!(one(other).map(|answer| (0, answer)), wanted),
                }
                continue;
            }
        };
        assert_eq!(one(lab.call(&call, random)), told.map_err(|no| no.number()));
        assert!(screens.as_bytes()[..] == lab.run[..] && screens.first() == lab.first);
        let running = (0..SCREENS).any(|i| lab.models.runs(i));
        assert_eq!(screens.is_running(), running);
    }
}

fn one(answer: ScreenAnswer) -> Result<Answer, u32> {
    match answer {
        ScreenAnswer::One(Answer::Refused(number)) => Err(number),
        ScreenAnswer::One(answer) | ScreenAnswer::Dealt(_, answer) => Ok(answer),
        ScreenAnswer::Loaded(_) => Ok(Answer::Accepted),
    }
}
