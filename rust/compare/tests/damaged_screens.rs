//! One flipped bit in one screen's record: every bit of every screen's record, in every state. Which screens are
//! stopped by it, and that a loaded record in its place frees them all, by `Screens::replace`.

use compare::inputs::Case;
use compare::random::Random;
use compare::shapes::Shape;
use reference::record::{Record, RECORD_BYTES};
use whatif::{sizes, Call, Change, Lent, Progress, Refusal, Screens, Session, State};

const SCREENS: u32 = sizes::SCREENS as u32;

/// A plan with its tables, as the library built them.
struct Given {
    case: Case,
    node_table: Vec<u16>,
    state_table: Vec<u8>,
}

impl Given {
    fn lent(&self) -> Lent<'_> {
        let (node_table, state_table) = (&self.node_table, &self.state_table);
        Lent { plan: &self.case.plan, rules: &self.case.rules, node_table, state_table }
    }
}

/// Screens in every state, each question with its list, and a loaded record that was kept aside.
struct Scene {
    given: Given,
    screens: Screens,
    lists: Vec<Vec<Change>>,
    loaded: Session,
}

fn scene(random: &mut Random) -> Scene {
    let case = Case::new(Shape::Bushy, 12, 3, 3, random);
    let (mut node_table, mut state_table) = (vec![0; case.node_table_len()], vec![0; case.state_table_len()]);
    let mut screens = Screens::new();
    screens.load(&case.plan, &case.rules, &mut node_table, &mut state_table).unwrap();
    let (given, loaded) = (Given { case, node_table, state_table }, screens.session(0).unwrap());
    let lists: Vec<Vec<Change>> = (0..SCREENS).map(|_| question(&given.case, random)).collect();
    let start = |screens: &mut Screens, screen: u32| {
        let (nodes, labels): (Vec<u16>, Vec<u8>) = lists[screen as usize].iter().copied().unzip();
        assert!(screens.start(screen, &given.lent(), &nodes, &labels).unwrap() > 2);
    };
    // 3, 4, 5 and 7 are answered; 4 is cancelled then and 5 asked again, so that both keep an answer
    [3, 4, 5, 7].into_iter().for_each(|screen| start(&mut screens, screen));
    while screens.is_running() {
        screens.deal(&given.lent()).unwrap();
    }
    [1, 2, 4, 5, 6].into_iter().for_each(|screen| start(&mut screens, screen));
    screens.cancel(4).unwrap();
    for _ in 0..6 {
        screens.deal(&given.lent()).unwrap();
    }
    let states = (0..SCREENS).map(|screen| screens.state(screen).unwrap()).collect::<Vec<_>>();
    use State::{Answered, Loaded, Running};
    assert_eq!(states, [Loaded, Running, Running, Answered, Loaded, Running, Running, Answered]);
    Scene { given, screens, lists, loaded }
}

/// Of several nodes, with a label that each has not.
fn question(case: &Case, random: &mut Random) -> Vec<Change> {
    let (nodes, _) = case.list(4, random);
    let labels = case.other_labels(&nodes, random);
    nodes.into_iter().zip(labels).collect()
}

impl Scene {
    fn with_flipped(&self, screen: u32, bit: usize) -> Screens {
        let mut records = *self.screens.as_bytes();
        records[RECORD_BYTES * screen as usize + bit / 8] ^= 1 << (bit % 8);
        Screens::from_bytes(records, screen)
    }

    /// Every question that runs is finished, and each answer is a fresh run's.
    fn finish(&self, screens: &mut Screens, lists: &[Vec<Change>]) {
        let running: Vec<u32> = screens.running().collect();
        while screens.is_running() {
            screens.deal(&self.given.lent()).unwrap();
        }
        for screen in running {
            let (nodes, labels): (Vec<u16>, Vec<u8>) = lists[screen as usize].iter().copied().unzip();
            let want =
                reference::fresh::fresh_run(&self.given.case.plan, &self.given.case.rules, &nodes, &labels).unwrap();
            let got = screens.current(screen).unwrap();
            assert_eq!((got.state, got.yes), (want.state, want.yes), "screen {}", screen);
            assert_eq!(screens.confirm(screen, &self.given.lent(), &nodes, &labels).is_ok(), want.yes);
        }
    }
}

#[test]
fn every_bit_of_every_record() {
    let scene = scene(&mut Random::new(3201));
    let (mut damaged, mut whole, mut stopped) = (0, 0, 0);
    for screen in 0..SCREENS {
        for bit in 0..8 * RECORD_BYTES {
            let mut screens = scene.with_flipped(screen, bit);
            let record = screens.session(screen).unwrap();
            let breaks = Record::of(record.as_bytes()).is_none();
            assert!(screens.damaged().eq(Some(screen).filter(|_| breaks)), "screen {}, bit {}", screen, bit);
            if breaks {
                damaged += 1;
                stopped += usize::from(is_stopped(&scene, &mut screens, screen));
            } else {
                whole += 1;
            }
            replaced(&scene, &mut screens, screen);
        }
    }
    assert!(damaged > 50_000 && whole > 300 && stopped > 20_000, "{} {} {}", damaged, whole, stopped);
}

/// The calls on a screen whose record is damaged, and Load, are refused with 1; so is a deal at its turn, again and
/// again.
fn is_stopped(scene: &Scene, screens: &mut Screens, screen: u32) -> bool {
    let before = screens.clone();
    let lent = scene.given.lent();
    let (mut nodes, mut states) = (scene.given.node_table.clone(), scene.given.state_table.clone());
    let refused = Err(Refusal::SessionState);
    assert_eq!(screens.load(lent.plan, lent.rules, &mut nodes, &mut states), refused);
    assert_eq!(screens.start(screen, &lent, &[], &[]).map(|_| ()), refused);
    assert_eq!((screens.cancel(screen), screens.read(screen).map(|_| ())), (refused, refused));
    let why = screens.why_not(screen, Call::Start).unwrap();
    assert!(why.starts_with("The record is damaged"), "{}", why);
    assert_eq!(screens.why_no_load(), Some("A screen's record is damaged: replace it."));
    let turn = screens.state(screen) == Some(State::Running);
    assert_eq!(screens.next() == Some(screen), turn, "it is this screen's turn");
    if turn {
        for _ in 0..3 {
            assert_eq!(screens.deal(&lent), Err(Refusal::SessionState));
        }
        assert!(screens.why_no_deal().unwrap().starts_with("The record is damaged"));
    }
    assert!(*screens == before, "refused calls change nothing");
    turn
}

/// The run is as before but for this screen, which is loaded.
fn replaced(scene: &Scene, screens: &mut Screens, screen: u32) {
    let flipped = screens.session(screen).unwrap();
    assert_eq!(screens.replace(screen, &scene.loaded), Ok(flipped));
    let mut records = *scene.screens.as_bytes();
    let at = RECORD_BYTES * screen as usize;
    records[at..at + RECORD_BYTES].copy_from_slice(scene.loaded.as_bytes());
    assert!(screens.as_bytes()[..] == records[..], "the other screens stay");
    assert_eq!((screens.damaged().next(), screens.state(screen)), (None, Some(State::Loaded)));
}

/// On each screen: the others go on and are right, a question can be started there at once, and Load is free
/// afterwards.
#[test]
fn all_go_on_after_a_replacement() {
    let random = &mut Random::new(3202);
    for screen in 0..SCREENS {
        let scene = scene(random);
        let mut screens = scene.with_flipped(screen, 8 * 20 + 3);
        screens.replace(screen, &scene.loaded).unwrap();
        let mut lists = scene.lists.clone();
        lists[screen as usize] = question(&scene.given.case, random);
        let (nodes, labels): (Vec<u16>, Vec<u8>) = lists[screen as usize].iter().copied().unzip();
        assert!(screens.start(screen, &scene.given.lent(), &nodes, &labels).is_ok());
        scene.finish(&mut screens, &lists);
        let (mut nodes, mut states) = (scene.given.node_table.clone(), scene.given.state_table.clone());
        let lent = scene.given.lent();
        assert_eq!(screens.load(lent.plan, lent.rules, &mut nodes, &mut states), Ok(()));
    }
}

/// A fresh record in its place frees the others too; this screen waits for the next Load.
#[test]
fn a_fresh_record() {
    let scene = scene(&mut Random::new(3203));
    for screen in [1, 3, 6] {
        let mut screens = scene.with_flipped(screen, 8);
        screens.replace(screen, &Session::new()).unwrap();
        let lent = scene.given.lent();
        assert_eq!(screens.start(screen, &lent, &[], &[]), Err(Refusal::SessionState));
        assert_eq!(screens.why_not(screen, Call::Start), Some("No plan is loaded: call Load first."));
        scene.finish(&mut screens, &scene.lists);
        let (mut nodes, mut states) = (scene.given.node_table.clone(), scene.given.state_table.clone());
        assert_eq!(screens.load(lent.plan, lent.rules, &mut nodes, &mut states), Ok(()));
    }
}

/// A record that still keeps its layout may be another question's: what it comes to is not confirmed unless a fresh run
/// clears the list.
#[test]
fn records_that_are_still_whole() {
    let scene = scene(&mut Random::new(3204));
    let lent = scene.given.lent();
    let (mut confirmed, mut not) = (0, 0);
    for screen in scene.screens.running().collect::<Vec<_>>() {
        let (nodes, labels): (Vec<u16>, Vec<u8>) = scene.lists[screen as usize].iter().copied().unzip();
        let clears = whatif::fresh_run(lent.plan, lent.rules, &nodes, &labels).unwrap().yes;
        for bit in 0..8 * RECORD_BYTES {
            let mut session = scene.with_flipped(screen, bit).session(screen).unwrap();
            if session.is_damaged() {
                continue;
            }
            // to its end, or to a refusal
            while session.advance(&lent) == Ok(Progress::More) {}
            match session.confirm(&lent, &nodes, &labels) {
                Ok(()) => {
                    assert!(clears, "screen {}, bit {}", screen, bit);
                    confirmed += 1;
                }
                Err(_) => not += 1,
            }
        }
    }
    assert!(not > 200, "{} confirmed, {} not", confirmed, not);
}
