//! Refusals of the session's calls: each alone, each with each, and any set of them at once. The first one in the order
//! of the call's checks wins; nothing is altered and nothing is told.

use compare::counts::Counts;
use compare::panel::Lent;
use compare::random::Random;
use compare::rounds::refusals::any_set;
use compare::rounds::session_refusals::{compare, Scene, CALLS, DAMAGES};
use compare::sides;
use reference::panel::{Answer, Call};
use reference::record::Record;

/// Every check alone, every two of them, and any set.
#[test]
fn load_start_and_advance_in_pairs() {
    let (random, counts) = (&mut Random::new(1701), &mut Counts::default());
    for ((name, checks, call), turns) in CALLS.into_iter().zip([40, 80, 150]) {
        for _ in 0..turns {
            compare(name, call, &[], random, counts);
            for (i, &first) in checks.iter().enumerate() {
                for &second in &checks[i..] {
                    compare(name, call, &[first, second], random, counts);
                }
            }
            let some = any_set(checks, random);
            compare(name, call, &some, random, counts);
        }
    }
}

/// Each kind of damage alone: 18 at Start, and the record stays.
#[test]
fn every_kind_of_damage_before_start() {
    let random = &mut Random::new(1706);
    for turn in 0..30 * DAMAGES {
        let mut scene = Scene::new(random);
        scene.unsound(turn % DAMAGES, random);
        let start = Call::Start(scene.lent.inputs(), &scene.nodes, &scene.labels);
        for record in [&scene.records[1], &scene.records[3], &scene.records[4]] {
            let done = sides::call(record, &start, random);
            assert_eq!(done.answer, Answer::Refused(18), "kind {}", turn % DAMAGES);
            assert!(done.record == *record, "nothing is altered");
        }
    }
}

/// Every call in every state.
#[test]
fn states() {
    let random = &mut Random::new(1704);
    for _ in 0..60 {
        let scene = Scene::new(random);
        let inputs = scene.lent.inputs();
        let calls = [
            (Call::Load(inputs), [true, true, false, true, true, false]),
            (Call::Start(inputs, &scene.nodes, &scene.labels), [false, true, false, true, true, false]),
            (Call::Advance(inputs), [false, false, true, false, false, true]),
            (Call::Cancel, [false, false, true, false, false, true]),
            (Call::Read, [false, false, false, true, true, true]),
        ];
        for (call, allowed) in calls {
            for (record, allowed) in scene.records.iter().zip(allowed) {
                let done = sides::call(record, &call, random);
                assert_eq!(done.answer == Answer::Refused(1), !allowed);
                if let Call::Load(_) = call {
                    assert!(!allowed || done.record == scene.records[1], "as after a first Load");
                }
                if let Call::Cancel = call {
                    let mut first = scene.records[1].clone();
                    first[967..975].copy_from_slice(&record[967..975]);
                    first[979..].copy_from_slice(&record[979..]);
                    assert!(!allowed || done.record == first, "as after a first Load in all but the answer kept");
                }
                if let Call::Read = call {
                    assert!(done.record == *record, "Read alters nothing");
                }
            }
        }
    }
}

/// A refused call leaves the answer, and so do Start and Cancel; an accepted Load empties it. Of the question itself a Start
/// from answered forgets all.
#[test]
fn the_answer_stays_until_a_load_is_accepted() {
    let random = &mut Random::new(1705);
    for _ in 0..60 {
        let scene = Scene::new(random);
        let [_, loaded, _, answered, loaded_with, running_with] = &scene.records;
        let told = sides::call(answered, &Call::Read, random).answer;
        let short = Lent { plan: scene.lent.plan[..11].to_vec(), ..scene.lent.clone() };
        for call in [
            Call::Load(short.inputs()),
            Call::Start(short.inputs(), &[], &[]),
            Call::Start(scene.lent.inputs(), &[0, 0], &[0]),
            Call::Advance(scene.lent.inputs()),
            Call::Cancel,
        ] {
            let done = sides::call(answered, &call, random);
            assert!(matches!(done.answer, Answer::Refused(_)));
            assert_eq!(sides::call(&done.record, &Call::Read, random).answer, told);
        }
        for record in [loaded_with, running_with] {
            assert_eq!(sides::call(record, &Call::Read, random).answer, told);
        }
        let start = Call::Start(scene.lent.inputs(), &scene.nodes, &scene.labels);
        let again = sides::call(answered, &start, random).record;
        assert!(again == sides::call(loaded_with, &start, random).record);
        assert_eq!(sides::call(&again, &Call::Read, random).answer, told);
        let anew = sides::call(loaded, &start, random).record;
        assert!(again[..967] == anew[..967] && again[975..979] == anew[975..979]);
        let record = Record::of(&again).unwrap();
        assert_eq!((record.states, record.links, record.passed, record.yes), (vec![], 0, 0, false));
        let load = Call::Load(scene.lent.inputs());
        for record in [answered, loaded_with] {
            let done = sides::call(record, &load, random);
            assert_eq!(done.answer, Answer::Accepted);
            assert_eq!(sides::call(&done.record, &Call::Read, random).answer, Answer::Refused(1));
        }
    }
}
