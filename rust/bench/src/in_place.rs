//! The calls in place against the same calls through record bytes: every answer, and every number and byte of the tables.
//!
//! A case is a plan, rules and a list, with faults for any of the checks or without, and tables as built or altered. It is
//! put to a life of a session (fresh, Load, Start, Cancel, the question again), to Start with some advances, to a whole
//! question and to eight screens (Start on two, deals, Cancel, Read). A difference is told with its case and ends the
//! program with 1; so does a kind of answer that never came.

use crate::cases::List;
use crate::probes::{self, Eight, Life, Question, Sizes, Steps, Turns};
use compare::alterations::ALTERATIONS;
use compare::calls::{same, Kind};
use compare::counts::Counts;
use compare::difference;
use compare::faults::{Input, BUILD_CHECKS};
use compare::inputs::Case;
use compare::panel;
use compare::random::Random;
use compare::shapes::most_parts;
use compare::slices;
use compare::trace;
use reference::record::Record;
use whatif::sizes::{MAX_PARTS, SCREENS};
use whatif::{Lent, Refusal, Session};

/// Around the tables that a life writes: what is outside must stay.
const MARGIN: usize = 9;
const LIST_CHECKS: [u32; 3] = [12, 13, 14];
/// Every answer that these calls give here; an advance's 17 and 18 need other buffers than Start's.
const CAME: [(&str, &[u32]); 7] = [
    ("Load", &[0, 2, 3, 4, 5, 6, 7, 8, 9, 10, 11]),
    ("Start", &[0, 1, 12, 13, 14, 17, 18]),
    ("advance", &[0, 1]),
    ("Start on a screen", &[0, 1, 12, 13, 14, 17, 18, 25]),
    ("deal", &[0, 1, 25]),
    ("Cancel on a screen", &[0, 1, 25]),
    ("Read on a screen", &[0, 1, 25]),
];

const MOST_PARTS: &str = "Start told 254 parts";

/// A case for each seed from `seed` on. The first difference is handed back, and nothing is tried after it.
pub fn compare(seed: u64, count: u64) -> Result<(), String> {
    let mut counts = Counts::default();
    for own in (0..count).map(|i| seed.wrapping_add(i)) {
        if let Some(found) = difference::first(|| one_case(&mut Random::new(own), &mut counts)) {
            let case = found.case.iter().map(|line| format!("  {}\n", line)).collect::<String>();
            return Err(format!("in place, seed {}: {} ({})\n{}", own, found.what, found.at, case));
        }
    }
    print!("{}", counts);
    for (call, numbers) in CAME {
        if let Some(number) = numbers.iter().find(|&&number| counts.of(&answer(call, number)) == 0) {
            return Err(format!("in place: no case came to '{}'", answer(call, *number)));
        }
    }
    if counts.of(MOST_PARTS) == 0 {
        return Err(format!("in place: no case came to '{}'", MOST_PARTS));
    }
    println!("in place: {} cases, no difference", count);
    Ok(())
}

fn answer(call: &str, number: u32) -> String {
    if number == 0 {
        format!("{} accepted", call)
    } else {
        format!("{} refused {}", call, number)
    }
}

fn one_case(random: &mut Random, counts: &mut Counts) {
    let case = any_case(random);
    a_life(&case, random, counts);
    questions(&case, random, counts);
}

/// Small mostly, now and then larger, seldom the one whose question can have 254 parts.
fn any_case(random: &mut Random) -> Case {
    match random.below(300) {
        0 => Case::random(3_000, random),
        1..=3 => Case::of_kinds(&most_parts().0, random.between(1, 16), random.between(1, 64), random),
        4..=20 => Case::random(200, random),
        _ => Case::random(30, random),
    }
}

/// None of these checks, one, or two.
fn some_of(checks: &[u32], random: &mut Random) -> Vec<u32> {
    (0..random.below(3)).map(|_| *random.pick(checks)).collect()
}

/// A list of at most 64 changes, now and then with faults; on the tree for 254 parts the one that has them.
fn list(case: &Case, random: &mut Random) -> List {
    let mut input = Input::new(case, Kind::Rules, random);
    let (kinds, listed) = most_parts();
    if case.plan[12 + case.n..] == kinds {
        (input.nodes, input.labels) = (listed, random.bytes_below(64, case.k));
    } else if random.below(3) == 0 {
        (input.nodes, input.labels) = case.list(random.below(65), random);
    } else if random.below(2) == 0 {
        input.lay(&some_of(&LIST_CHECKS, random), random);
    }
    trace::say(format!("nodes {:?}, labels {:?}", input.nodes, input.labels));
    (input.nodes, input.labels)
}

/// A life on buffers of any length that hold anything.
fn a_life(case: &Case, random: &mut Random, counts: &mut Counts) {
    let mut input = Input::new(case, Kind::Rules, random);
    if random.below(2) == 0 {
        input.lay(&some_of(&BUILD_CHECKS, random), random);
    }
    let list = list(case, random);
    let node_table = random.numbers(input.node_table_len + 2 * MARGIN);
    let state_table = random.bytes(input.state_table_len + 2 * MARGIN);
    let (mut got_nodes, mut got_states) = (node_table.clone(), state_table.clone());
    let (mut want_nodes, mut want_states) = (node_table, state_table);
    let inside = |len: usize| MARGIN..MARGIN + len;
    let (nodes_at, states_at) = (inside(input.node_table_len), inside(input.state_table_len));
    let (plan, rules) = (&input.plan, &input.table);
    let got = probes::life(plan, rules, &mut got_nodes[nodes_at.clone()], &mut got_states[states_at.clone()], &list);
    let want = life_by_bytes(plan, rules, &mut want_nodes[nodes_at], &mut want_states[states_at], &list, counts);
    assert_eq!(got, want, "a life in place");
    same("the node table after a life in place", &got_nodes, &want_nodes);
    same("the state table after a life in place", &got_states, &want_states);
}

fn life_by_bytes(
    plan: &[u8],
    rules: &[u8],
    node_table: &mut [u16],
    state_table: &mut [u8],
    list: &List,
    counts: &mut Counts,
) -> Life {
    let mut session = Session::new();
    let load = number(session.load(plan, rules, node_table, state_table));
    counts.add(answer("Load", load));
    let lent = Lent { plan, rules, node_table, state_table };
    let parts = started(&mut session, &lent, list, counts);
    let cancel = number(session.cancel());
    let again = question_by_bytes(&mut session, &lent, list, counts);
    Life { load, parts, cancel, again }
}

/// Start with some advances, and a whole question, on tables as built or altered, or on those of another plan.
fn questions(case: &Case, random: &mut Random, counts: &mut Counts) {
    let mut bytes = panel::Lent::built(case, random);
    if random.below(2) == 0 {
        let alteration = *random.pick(&ALTERATIONS);
        alteration.lay(&mut bytes, case, random);
    }
    let other = Case::random(30, random);
    let of = if random.below(8) == 0 { &other } else { case };
    let sizes = Sizes { n: of.n as u16, s: of.s as u8, k: of.k as u8 };
    let list = list(case, random);
    let inputs = bytes.inputs();
    let lent =
        Lent { plan: inputs.plan, rules: inputs.rules, node_table: inputs.node_table, state_table: inputs.state_table };
    let mut session = loaded(of);
    let parts = started(&mut session, &lent, &list, counts);
    let count = random.below(parts as usize + 3) as u32;
    advance_by(count, &mut session, &lent, counts);
    let want = Steps { parts, links: Record::of(session.as_bytes()).expect("a valid record").links };
    assert_eq!(probes::steps(sizes, &lent, &list, count), want, "Start and {} advances in place", count);
    let want = question_by_bytes(&mut loaded(of), &lent, &list, counts);
    assert_eq!(probes::question(sizes, &lent, &list), want, "a question in place");
    let turns = turns(parts, random);
    let want = screens_by_bytes(&loaded(of), &lent, &list, turns, counts);
    assert_eq!(probes::screens(sizes, &lent, &list, turns), want, "eight screens in place, {:?}", turns);
}

/// Two screens, often one and the same, and deals for the parts of one or of both; now and then a screen above 7.
fn turns(parts: u32, random: &mut Random) -> Turns {
    let [screen, other, first] = [0; 3].map(|_| {
        let most = if random.below(8) == 0 { 12 } else { 8 };
        random.below(most)
    });
    Turns { screen, other, first, count: random.below(2 * parts as usize + 3) as u32 }
}

fn screens_by_bytes(loaded: &Session, lent: &Lent, (nodes, labels): &List, turns: Turns, counts: &mut Counts) -> Eight {
    let Lent { plan, rules, node_table, state_table } = *lent;
    let mut records = loaded.as_bytes().repeat(SCREENS);
    let mut told = |call: &str, number: u32| {
        counts.add(answer(call, number));
        number
    };
    let [mut parts, mut others] = [0; 2];
    for (screen, parts) in [(turns.screen, &mut parts), (turns.other, &mut others)] {
        let number = slices::screens_start(
            &mut records,
            screen as u32,
            plan,
            rules,
            node_table,
            state_table,
            nodes,
            labels,
            parts,
        );
        told("Start on a screen", number);
    }
    let mut next = turns.first as u32;
    for _ in 0..turns.count {
        let mut out = [next, 0];
        told("deal", slices::screens_deal(&mut records, next, plan, rules, node_table, state_table, &mut out));
        next = out[0];
    }
    let cancel = told("Cancel on a screen", slices::screens_cancel(&mut records, turns.other as u32));
    let mut out = [16, 0, 0, 0, 0];
    told("Read on a screen", slices::screens_read(&records, turns.screen as u32, &mut out));
    let [state, yes, read_parts, links, _] = out;
    let read = Question { state, yes: yes == 1, parts: read_parts, links };
    Eight { parts, others, next: next as usize, cancel, read }
}

fn loaded(case: &Case) -> Session {
    let (mut node_table, mut state_table) = (vec![0; case.node_table_len()], vec![0; case.state_table_len()]);
    let mut session = Session::new();
    session.load(&case.plan, &case.rules, &mut node_table, &mut state_table).expect("accepted");
    session
}

/// As many parts as Start tells; 0 where it is refused.
fn started(session: &mut Session, lent: &Lent, (nodes, labels): &List, counts: &mut Counts) -> u32 {
    let told = session.start(lent, nodes, labels);
    counts.add(answer("Start", number(told)));
    if told == Ok(MAX_PARTS as u32) {
        counts.add(MOST_PARTS);
    }
    told.unwrap_or(0)
}

/// Some advances, accepted or not.
fn advance_by(count: u32, session: &mut Session, lent: &Lent, counts: &mut Counts) {
    for _ in 0..count {
        counts.add(answer("advance", number(session.advance(lent))));
    }
}

fn question_by_bytes(session: &mut Session, lent: &Lent, list: &List, counts: &mut Counts) -> Question {
    let parts = started(session, lent, list, counts);
    advance_by(parts, session, lent, counts);
    let mut told = [16, 0, 0, 0, 0];
    slices::read(session.as_bytes(), &mut told);
    let [state, yes, parts, links, _] = told; // the probes do not tell the nodes passed over
    Question { state, yes: yes == 1, parts, links }
}

fn number<T>(answer: Result<T, Refusal>) -> u32 {
    answer.err().map_or(0, Refusal::number)
}
