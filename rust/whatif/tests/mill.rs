//! The mill on document 01's sample: turns, answers, and what is done about a damaged record.

mod sample;

use sample::{mill, plan_a, rows, table_a};
use whatif::sizes::{RECORD_BYTES, SCREENS_BYTES};
use whatif::{Call, Deal, Kind, Mill, Plan, Progress, Refusal, Screens, Session, State, Unconfirmed};

/// Each of the sample's questions that is not refused, on a screen of its own, all at once.
#[test]
fn the_sample_s_rows() {
    let mut mill = mill();
    let asked: Vec<_> = (0..8).zip(rows().into_iter().filter(|(_, expected)| expected.is_ok())).collect();
    for (screen, (changes, _)) in &asked {
        assert!(mill.start(*screen, changes).is_ok());
    }
    assert!(mill.deals().all(|deal| deal.is_ok()));
    for (screen, (changes, expected)) in asked {
        assert_eq!((mill.current(screen), mill.last(screen)), (expected, expected));
        let yes = expected.map_or(false, |answer| answer.yes);
        assert_eq!(mill.confirm(screen, changes).is_ok(), yes, "{:?}", changes);
    }
    for (changes, expected) in rows().into_iter().filter(|(_, expected)| expected.is_err()) {
        assert_eq!(mill.start(0, changes), Err(expected.unwrap_err()));
    }
}

#[test]
fn turns() {
    let mut mill = mill();
    assert_eq!(mill.deal(), Ok(None));
    assert_eq!((mill.start(6, &[(0, 0)]), mill.start(1, &[(4, 0)])), (Ok(2), Ok(2)));
    assert!(mill.screens().running().eq([1, 6]));
    assert_eq!(mill.screens().next(), Some(1));
    let deal = |screen, progress| Ok(Some(Deal { screen, progress }));
    assert_eq!(mill.deal(), deal(1, Progress::More));
    assert_eq!((mill.screens().first(), mill.screens().next()), (2, Some(6)));
    assert_eq!(mill.deal(), deal(6, Progress::More));
    assert_eq!((mill.screens().first(), mill.screens().next()), (7, Some(1)));
    assert_eq!(mill.deal(), deal(1, Progress::Finished));
    assert_eq!(mill.screens().why_no_deal(), None);
    let rest: Vec<_> = mill.deals().take(9).collect();
    assert_eq!(rest, [Ok(Deal { screen: 6, progress: Progress::Finished })]);
    assert_eq!((mill.screens().is_running(), mill.screens().next()), (false, None));
    assert_eq!(mill.screens().why_no_deal(), Some("No screen is running: there is nothing to deal."));
}

#[test]
fn screens_above_7() {
    let mut mill = mill();
    for screen in [8, 259, u32::MAX] {
        assert_eq!(mill.start(screen, &[]), Err(Refusal::Screen));
        assert_eq!(mill.cancel(screen), Err(Refusal::Screen));
        assert_eq!((mill.current(screen), mill.last(screen)), (Err(Refusal::Screen), Err(Refusal::Screen)));
        assert_eq!(mill.confirm(screen, &[]), Err(Unconfirmed::Refused(Refusal::Screen)));
        assert_eq!(mill.repair(screen), Err(Refusal::Screen));
        assert_eq!(mill.screens().why_not(screen, Call::Start), Some(Refusal::Screen.sentence()));
    }
}

#[test]
fn an_earlier_answer_is_not_the_current_one() {
    let mut mill = mill();
    mill.start(4, &[]).unwrap();
    assert!(mill.deals().all(|deal| deal.is_ok()));
    let earlier = mill.current(4).unwrap();
    mill.start(4, &[(0, 0)]).unwrap();
    assert_eq!((mill.current(4), mill.last(4)), (Err(Refusal::SessionState), Ok(earlier)));
    mill.cancel(4).unwrap();
    assert_eq!((mill.current(4), mill.last(4)), (Err(Refusal::SessionState), Ok(earlier)));
    let why = mill.screens().why_not(4, Call::Current).unwrap();
    assert!(why.contains("an earlier answer is not this one's"), "{}", why);
}

#[test]
fn another_load() {
    let mut mill = mill();
    mill.start(3, &[]).unwrap();
    let one = || Plan::new(&[0], &[Kind::Leaf]).unwrap();
    assert_eq!(mill.load(one(), table_a()), Err(Refusal::SessionState));
    assert!(mill.screens().why_no_load().unwrap().starts_with("A screen is running"));
    assert!(mill.deals().all(|deal| deal.is_ok()));
    assert_eq!((mill.screens().why_no_load(), mill.plan()), (None, &plan_a()));
    assert_eq!(mill.load(one(), table_a()), Ok(()));
    assert_eq!((mill.plan(), mill.rules(), mill.last(3)), (&one(), &table_a(), Err(Refusal::SessionState)));
    // the record that repairs is the new plan's
    mill.repair(5).unwrap();
    assert_eq!(mill.start(5, &[]), Ok(1));
    let two = Plan::new(&[2], &[Kind::Leaf]).unwrap();
    assert_eq!(Mill::new(two, table_a()).err(), Some(Refusal::PlanLabel));
}

#[test]
fn a_repaired_screen_is_as_after_the_load() {
    let mut mill = mill();
    let loaded = mill.screens().session(2).unwrap();
    mill.start(2, &[(0, 0)]).unwrap();
    mill.start(3, &[(0, 0)]).unwrap();
    let running = mill.screens().session(2).unwrap();
    assert_eq!(mill.repair(2), Ok(running));
    assert_eq!(mill.screens().session(2), Some(loaded));
    assert!(mill.screens().running().eq([3]));
}

/// A record that is put in another's place is whole and not running.
#[test]
fn what_may_be_put_in_a_place() {
    let mill = {
        let mut mill = mill();
        mill.start(0, &[]).unwrap();
        mill.start(1, &[]).unwrap();
        assert!(mill.deals().take(1).all(|deal| deal.is_ok()));
        mill
    };
    let mut screens = mill.screens().clone();
    let [answered, running, loaded] = [0, 1, 2].map(|screen| screens.session(screen).unwrap());
    assert_eq!((answered.state(), running.state()), (Some(State::Answered), Some(State::Running)));
    let before = screens.clone();
    for wrong in [running, Session::from_bytes([9; RECORD_BYTES])] {
        assert_eq!((screens.replace(5, &wrong), &screens), (Err(Refusal::SessionState), &before));
    }
    assert_eq!((screens.replace(8, &loaded), &screens), (Err(Refusal::Screen), &before));
    for right in [Session::new(), loaded, answered] {
        assert!(screens.replace(5, &right).is_ok());
        assert_eq!(screens.session(5), Some(right));
        assert!((0..8).filter(|&other| other != 5).all(|other| screens.session(other) == before.session(other)));
    }
}

#[test]
fn a_number_to_try_first_above_7() {
    let mill = {
        let mut mill = mill();
        mill.start(0, &[]).unwrap();
        mill
    };
    let mut screens = Screens::from_bytes(*mill.screens().as_bytes(), 8);
    assert_eq!((screens.next(), screens.deal(&mill.lent())), (None, Err(Refusal::Screen)));
    assert_eq!(screens.why_no_deal(), Some(Refusal::Screen.sentence()));
}

#[test]
fn damaged_records_are_found() {
    let mut records = *mill().screens().as_bytes();
    records[2 * RECORD_BYTES + 1] = 9;
    records[7 * RECORD_BYTES] = 200;
    let screens = Screens::from_bytes(records, 0);
    assert!(screens.damaged().eq([2, 7]));
    assert!(screens.why_no_load().unwrap().contains("damaged"));
    assert!(Screens::from_bytes([0; SCREENS_BYTES], 0).damaged().next().is_none());
}

#[test]
fn shown_for_people() {
    let mut mill = mill();
    mill.start(3, &[(0, 0)]).unwrap();
    let shown = format!("{:?}", mill.screens());
    assert!(shown.starts_with("{\"first\": 0, 0: Session { state: Loaded, last: None }, 1: "), "{}", shown);
    assert!(shown.contains("3: Session { state: Running, changes: [(0, 0)], parts_done: 0, parts: 2, last: None }"));
    assert!(format!("{:?}", mill).starts_with("Mill { plan: Plan of 7 nodes ["));
}
