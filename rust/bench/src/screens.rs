//! Eight screens beside the session's own calls: all deals of eight questions against their advances, and a Load of
//! eight against one.

use crate::cases::{list, List, SHAPES};
use crate::measure::{by_turns, Pair};
use crate::sessions::One;
use crate::table::Single;
use compare::inputs::Case;
use compare::random::Random;
use std::cell::RefCell;
use whatif::sizes::SCREENS;
use whatif::{Progress, Screens, Session};

pub const DEAL: &str = "deal : advance";
pub const LOAD: &str = "Load of eight : Load";

/// On what, its shape, N and m.
const DEALS: [(&str, &str, usize, usize); 4] = [
    ("random, N 1,001, S 16, K 64, m 0", "random", 1_001, 0),
    ("random, N 1,001, S 16, K 64, m 8", "random", 1_001, 8),
    ("random, N 65,535, S 16, K 64, m 8", "random", 65_535, 8),
    ("random, N 65,535, S 16, K 64, m 64", "random", 65_535, 64),
];
const LOADS: [(&str, &str, usize, usize); 2] = [
    ("random, N 65,535, S 16, K 64", "random", 65_535, 16),
    ("left comb, N 65,535, S 2, K 64", "left comb", 65_535, 2),
];

/// Questions of eight screens, one each, that are put together.
type Lists = [List; SCREENS];

fn plan(shape: &str, n: usize, s: usize, random: &mut Random) -> One {
    let (shape, _) = *SHAPES.iter().find(|(_, name)| *name == shape).expect("one of the shapes of the table");
    One::new(Case::new(shape, (n + 1) / 2, s, 64, random))
}

fn lists(one: &One, m: usize, random: &mut Random) -> Lists {
    [0; SCREENS].map(|_| list(&one.case, m, random))
}

/// Eight screens, loaded and with a question each.
fn started(one: &One, lists: &Lists) -> Screens {
    let mut screens = loaded(one);
    for (screen, (nodes, labels)) in (0..).zip(lists) {
        screens.start(screen, &one.lent(), nodes, labels).expect("accepted");
    }
    screens
}

/// The same as single sessions.
fn alone(screens: &Screens) -> [Session; SCREENS] {
    let mut screen = 0..SCREENS as u32;
    [0; SCREENS].map(|_| screens.session(screen.next().expect("eight")).expect("a screen"))
}

fn loaded(one: &One) -> Screens {
    let mut screens = Screens::new();
    let (mut node_table, mut state_table) = (one.node_table.clone(), one.state_table.clone());
    screens.load(&one.case.plan, &one.case.rules, &mut node_table, &mut state_table).expect("accepted");
    screens
}

/// All deals; how many they were.
fn deal(one: &One, screens: &mut Screens) -> usize {
    let mut deals = 0;
    while screens.deal(&one.lent()).is_ok() {
        deals += 1;
    }
    deals
}

/// All advances, by turns as the deals make them; how many they were.
fn advance(one: &One, sessions: &mut [Session; SCREENS]) -> usize {
    let (mut advances, mut running) = (0, [true; SCREENS]);
    while running.contains(&true) {
        for (session, runs) in sessions.iter_mut().zip(&mut running).filter(|(_, runs)| **runs) {
            *runs = session.advance(&one.lent()) == Ok(Progress::More);
            advances += 1;
        }
    }
    advances
}

fn load(one: &One, node_table: &mut [u16], state_table: &mut [u8]) {
    Session::new().load(&one.case.plan, &one.case.rules, node_table, state_table).expect("accepted");
}

fn load_of_eight(one: &One, node_table: &mut [u16], state_table: &mut [u8]) {
    Screens::new().load(&one.case.plan, &one.case.rules, node_table, state_table).expect("accepted");
}

/// Rounds of eight questions in a turn, and Loads in one.
const ROUNDS: usize = 16;
const LOADED: usize = 4;

fn deal_times(shape: &str, n: usize, m: usize) -> Pair {
    let random = &mut Random::new(9);
    let one = plan(shape, n, 16, random);
    let rounds: Vec<_> = (0..ROUNDS).map(|_| started(&one, &lists(&one, m, random))).collect();
    let deals = || rounds.iter().map(|screens| deal(&one, &mut screens.clone())).sum::<usize>();
    let sessions: Vec<_> = rounds.iter().map(alone).collect();
    let advances = || sessions.iter().map(|sessions| advance(&one, &mut sessions.clone())).sum::<usize>();
    let count = deals();
    assert_eq!(count, advances(), "as many deals as advances");
    by_turns(count, || assert_eq!(deals(), count), || assert_eq!(advances(), count))
}

fn load_times(shape: &str, n: usize, s: usize) -> Pair {
    let one = plan(shape, n, s, &mut Random::new(9));
    // the same buffers for both
    let tables = RefCell::new((one.node_table.clone(), one.state_table.clone()));
    let with_tables = |load: fn(&One, &mut [u16], &mut [u8])| {
        let (node_table, state_table) = &mut *tables.borrow_mut();
        (0..LOADED).for_each(|_| load(&one, node_table, state_table));
    };
    by_turns(LOADED, || with_tables(load_of_eight), || with_tables(load))
}

/// Those whose work has this text in its name, each handed on when it is measured.
pub fn singles(wanted: &str, keep: &mut dyn FnMut(Single)) {
    if DEAL.contains(wanted) {
        for (on, shape, n, m) in DEALS {
            keep(Single { work: DEAL, on, goal: 1.1, times: deal_times(shape, n, m) });
        }
    }
    if LOAD.contains(wanted) {
        for (on, shape, n, s) in LOADS {
            keep(Single { work: LOAD, on, goal: 1.01, times: load_times(shape, n, s) });
        }
    }
}

/// Nothing but calls of one kind, and what must be before them: for bench/instructions. Two kinds can't be counted in
/// one run, where one calls the other.
pub fn calls(kind: &str, shape: &str, [n, s, m]: [usize; 3]) -> Option<()> {
    let random = &mut Random::new(4);
    let one = plan(shape, n, s, random);
    let (mut node_table, mut state_table) = (one.node_table.clone(), one.state_table.clone());
    for _ in 0..4 {
        match kind {
            "load" => load(&one, &mut node_table, &mut state_table),
            "load-of-eight" => load_of_eight(&one, &mut node_table, &mut state_table),
            "advance" => assert!(advance(&one, &mut alone(&started(&one, &lists(&one, m, random)))) > 0),
            "deal" => assert!(deal(&one, &mut started(&one, &lists(&one, m, random))) > 0),
            _ => return None,
        }
    }
    Some(())
}
