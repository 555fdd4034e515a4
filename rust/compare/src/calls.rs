//! The library's calls, with everything lent held to account, each compared with the reference implementation.
//!
//! Buffers that are written stand inside longer ones: what is outside must stay, and so must all of it on a refusal.
//! Out values start at a random number, which they must keep on a refusal.

use crate::random::Random;
use crate::slices;
use reference::agree::{separates, Line, MAX_LINES};
use reference::branch::{Reading, READINGS};
use reference::causes;
use reference::count::{checks, Said, MOST_ASSIGNMENTS};
use reference::panel::Inputs;
use reference::tables::Tables;
use std::fmt::Debug;

/// Which kind of table a call is about.
#[derive(Clone, Copy, Debug, PartialEq, Eq)]
pub enum Kind {
    Rules,
    Branch,
}

pub const KINDS: [Kind; 2] = [Kind::Rules, Kind::Branch];

/// Panics at the first difference, without printing whole tables.
pub fn same<T: PartialEq + Debug>(what: &str, got: &[T], want: &[T]) {
    if got != want {
        let at = got.iter().zip(want).position(|(g, w)| g != w);
        let (g, w) = at.map_or((None, None), |i| (got.get(i), want.get(i)));
        panic!("{}: {} and {} long, first different at {:?}: {:?}, not {:?}", what, got.len(), want.len(), at, g, w);
    }
}

const MARGIN: usize = 9;

/// A build into buffers of these lengths that hold random numbers, compared whole. What was written, or the refusal.
pub fn build(
    kind: Kind,
    plan: &[u8],
    table: &[u8],
    lens: (usize, usize),
    random: &mut Random,
) -> Result<(Vec<u16>, Vec<u8>), u32> {
    let expected = match kind {
        Kind::Rules => reference::build(plan, table, lens.0, lens.1),
        Kind::Branch => reference::branch_build(plan, table, lens.0, lens.1),
    };
    build_as(kind, plan, table, lens, expected.as_ref().map_err(|&number| number), random)
}

/// The same where it is known already what comes out.
pub fn build_as(
    kind: Kind,
    plan: &[u8],
    table: &[u8],
    lens: (usize, usize),
    expected: Result<&Tables, u32>,
    random: &mut Random,
) -> Result<(Vec<u16>, Vec<u8>), u32> {
    let mut node_table = random.numbers(lens.0 + 2 * MARGIN);
    let mut state_table = random.bytes(lens.1 + 2 * MARGIN);
    let (mut want_node_table, mut want_state_table) = (node_table.clone(), state_table.clone());
    let (plan_was, table_was) = (plan.to_vec(), table.to_vec());
    let build = match kind {
        Kind::Rules => slices::build,
        Kind::Branch => slices::branch_build,
    };
    let number =
        build(plan, table, &mut node_table[MARGIN..MARGIN + lens.0], &mut state_table[MARGIN..MARGIN + lens.1]);
    assert_eq!(number, expected.err().unwrap_or(0), "the answer of the build");
    if let Ok(tables) = expected {
        want_node_table[MARGIN..MARGIN + tables.node_table.len()].copy_from_slice(&tables.node_table);
        want_state_table[MARGIN..MARGIN + tables.state_table.len()].copy_from_slice(&tables.state_table);
    }
    same("node table", &node_table, &want_node_table);
    same("state table", &state_table, &want_state_table);
    same("plan", plan, &plan_was);
    same("table", table, &table_was);
    let lent = (node_table[MARGIN..MARGIN + lens.0].to_vec(), state_table[MARGIN..MARGIN + lens.1].to_vec());
    expected.map(|_| lent)
}

/// A full check, its answer alone. The number 0 or 1 that it tells, and nothing on a refusal.
pub fn library_check(
    kind: Kind,
    plan: &[u8],
    table: &[u8],
    node_table: &[u16],
    state_table: &[u8],
    random: &mut Random,
) -> Result<bool, u32> {
    let unset = random.word() as u32 | 2;
    let mut yes = unset;
    let check = match kind {
        Kind::Rules => slices::check,
        Kind::Branch => slices::branch_check,
    };
    let number = check(plan, table, node_table, state_table, &mut yes);
    told(number, &[yes], &[unset])?;
    assert!(yes <= 1, "the full check told {}", yes);
    Ok(yes == 1)
}

/// A full check, compared.
pub fn check(
    kind: Kind,
    plan: &[u8],
    table: &[u8],
    node_table: &[u16],
    state_table: &[u8],
    random: &mut Random,
) -> Result<bool, u32> {
    let expected = match kind {
        Kind::Rules => reference::check(plan, table, node_table, state_table),
        Kind::Branch => reference::branch_check(plan, table, node_table, state_table),
    };
    let answer = library_check(kind, plan, table, node_table, state_table, random);
    assert_eq!(answer, expected, "the answer of the full check");
    answer
}

/// A fresh run, compared.
pub fn fresh_run(plan: &[u8], rules: &[u8], nodes: &[u16], labels: &[u8], random: &mut Random) -> Result<(), u32> {
    let expected = reference::fresh::fresh_run(plan, rules, nodes, labels);
    let unset = [random.word() as u32 | 16, random.word() as u32 | 16];
    let mut out = unset;
    let number = slices::fresh_run(plan, rules, nodes, labels, &mut out);
    let answer = told(number, &out, &unset).map(|()| out);
    let want = expected.map(|told| [told.state as u32, told.yes as u32]);
    assert_eq!(answer, want, "the answer of the fresh run with {:?} and {:?}", nodes, labels);
    answer.map(|_| ())
}

/// What a count of choices tells: a number for each state, parts and links.
pub type Counted = (Vec<u64>, [u32; 2]);

/// A count of choices into a buffer of this length that holds random numbers, compared whole: with the reference, where the
/// documents say what is told, else an 18 with its causes; and with plain Rust in every case.
pub fn count(inputs: &Inputs, nodes: &[u16], len: usize, random: &mut Random) -> Result<Counted, u32> {
    let Inputs { plan, rules, node_table, state_table } = *inputs;
    let before: Vec<u64> = (0..len + 2 * MARGIN).map(|_| random.word()).collect();
    let unset = [random.word() as u32 | 1 << 20, random.word() as u32 | 1 << 20];
    let (mut counts, mut out) = (before.clone(), unset);
    let inside = &mut counts[MARGIN..MARGIN + len];
    let number = slices::count(plan, rules, node_table, state_table, nodes, inside, &mut out);
    let (mut want, mut want_out) = (before, unset);
    let inside = &mut want[MARGIN..MARGIN + len];
    let by_yardstick = yardstick::count(plan, rules, node_table, state_table, nodes, inside);
    if let Ok((parts, links)) = by_yardstick {
        want_out = [parts, links];
    }
    let said = reference::count::count(inputs, nodes);
    match &said {
        Said::Refused(wanted) => assert_eq!(number, *wanted, "the answer of the count"),
        Said::Answered(answer) => {
            let short = len < answer.counts.len();
            assert_eq!(number, if short { 11 } else { 0 }, "the answer of the count");
            if !short {
                same("counts", &counts[MARGIN..MARGIN + answer.counts.len()], &answer.counts);
                assert_eq!(out.map(|told| told as usize), [answer.parts, answer.links], "parts and links");
            }
        }
        Said::Left => {
            let sizes = checks(inputs, nodes).expect("checked before");
            let cause = || causes::anywhere(sizes, inputs, &[], &[]);
            assert!(number != 18 || cause(), "18 without a cause");
            assert!([0, 11, 18].contains(&number), "the answer of the count is {}", number);
        }
    }
    assert_eq!((number, out), (by_yardstick.err().unwrap_or(0), want_out), "plain Rust's answer");
    same("counts", &counts, &want);
    if number != 0 {
        return Err(number);
    }
    let states = rules[0] as usize;
    let told = counts[MARGIN..MARGIN + states].to_vec();
    assert!(told.iter().all(|&count| count <= MOST_ASSIGNMENTS), "a count above the limit");
    Ok((told, out))
}

/// A merge into a buffer of this length that holds random bytes, compared whole; plain Rust too. The merged table alone.
pub fn merge(first: &[u8], second: &[u8], len: usize, random: &mut Random) -> Result<Vec<u8>, u32> {
    let expected = reference::merge::merge(first, second, len);
    let before = random.bytes(len + 2 * MARGIN);
    let mut want = before.clone();
    if let Ok(merged) = &expected {
        want[MARGIN..MARGIN + merged.len()].copy_from_slice(merged);
    }
    let (first_was, second_was) = (first.to_vec(), second.to_vec());
    let by_yardstick =
        |first: &[u8], second: &[u8], out: &mut [u8]| yardstick::merge(first, second, out).err().unwrap_or(0);
    let sides: [(&str, Merge); 2] = [("the library", slices::merge), ("plain Rust", by_yardstick)];
    for (name, side) in sides {
        let mut merged = before.clone();
        let number = side(first, second, &mut merged[MARGIN..MARGIN + len]);
        assert_eq!(number, expected.as_ref().err().copied().unwrap_or(0), "{}: the answer of the merge", name);
        same("merged table", &merged, &want);
    }
    same("first table", first, &first_was);
    same("second table", second, &second_was);
    expected
}

type Merge = fn(&[u8], &[u8], &mut [u8]) -> u32;

/// A list laid over another, into buffers of these lengths that hold random numbers, compared whole. The entries that remain.
pub fn lay_over(
    lower: (&[u16], &[u8]),
    upper: (&[u16], &[u8]),
    lens: (usize, usize),
    random: &mut Random,
) -> Result<Vec<(u16, u8)>, u32> {
    let expected = reference::lists::lay_over(lower, upper, lens);
    let (mut nodes, mut labels) = (random.numbers(lens.0 + 2 * MARGIN), random.bytes(lens.1 + 2 * MARGIN));
    let (mut want_nodes, mut want_labels, unset) = (nodes.clone(), labels.clone(), random.word() as u32 | 1 << 20);
    let mut want_count = unset;
    if let Ok(laid) = &expected {
        for (i, &(node, label)) in laid.iter().enumerate() {
            want_nodes[MARGIN + i] = node;
            want_labels[MARGIN + i] = label;
        }
        want_count = laid.len() as u32;
    }
    let mut count = unset;
    let (out_nodes, out_labels) = (&mut nodes[MARGIN..MARGIN + lens.0], &mut labels[MARGIN..MARGIN + lens.1]);
    let number = slices::lay_over(lower, upper, out_nodes, out_labels, &mut count);
    assert_eq!(number, expected.as_ref().err().copied().unwrap_or(0), "the answer of laying over");
    same("laid nodes", &nodes, &want_nodes);
    same("laid labels", &labels, &want_labels);
    assert_eq!(count, want_count, "the count of nodes that remain");
    expected
}

/// Do two rule tables agree? Compared: the answer with the reference, the lines with what they must be, and every number
/// with plain Rust, which searches in the same order. The lines of the separating plan; none where they agree.
pub fn agree(first: &[u8], second: &[u8], len: usize, random: &mut Random) -> Result<Option<Vec<Line>>, u32> {
    let before = random.numbers(len + 2 * MARGIN);
    let unset = [random.word() as u32 | 1 << 20, random.word() as u32 | 1 << 20];
    let (first_was, second_was) = (first.to_vec(), second.to_vec());
    let (mut lines, mut out) = (before.clone(), unset);
    let number = slices::agree(first, second, &mut lines[MARGIN..MARGIN + len], &mut out);
    let (mut want, mut want_out) = (before.clone(), unset);
    let by_yardstick = yardstick::agree(first, second, &mut want[MARGIN..MARGIN + len]);
    if let Ok((agree, count)) = by_yardstick {
        want_out = [agree as u32, count as u32];
    }
    assert_eq!((number, out), (by_yardstick.err().unwrap_or(0), want_out), "plain Rust's answer");
    same("lines", &lines, &want);
    same("first table", first, &first_was);
    same("second table", second, &second_was);
    let least = match (number, reference::agree::least_height(first, second)) {
        // the lines do not fit: they are at least one, and at most 256
        (11, Ok(Some(_))) if len < 4 * MAX_LINES => return Err(11),
        (_, Err(wanted)) => {
            assert_eq!(number, wanted, "the answer of the agreement");
            return Err(number);
        }
        (_, Ok(least)) => least,
    };
    assert_eq!((number, out[0]), (0, least.is_none() as u32), "the answer of the agreement");
    let shown: Vec<Line> =
        lines[MARGIN..].chunks_exact(4).take(out[1] as usize).map(|line| line.try_into().unwrap()).collect();
    match least {
        None => assert_eq!(out[1], 0, "lines where the tables agree"),
        Some(_) => assert_eq!(separates(first, second, &shown).ok(), least, "{:?}", separates(first, second, &shown)),
    }
    Ok(least.map(|_| shown))
}

/// Out: a planner's file into a plan and places of these lengths that hold random numbers, compared whole; plain Rust too.
/// The plan and the places alone.
pub fn planner_out(file: &[u8], lens: (usize, usize), random: &mut Random) -> Result<(Vec<u8>, Vec<u16>), u32> {
    let expected = reference::planner::out(file, lens.0, lens.1);
    let before = (random.bytes(lens.0 + 2 * MARGIN), random.numbers(lens.1 + 2 * MARGIN));
    let mut want = before.clone();
    if let Ok(out) = &expected {
        want.0[MARGIN..MARGIN + out.plan.len()].copy_from_slice(&out.plan);
        want.1[MARGIN..MARGIN + out.places.len()].copy_from_slice(&out.places);
    }
    let file_was = file.to_vec();
    let by_yardstick = |file: &[u8], plan: &mut [u8], places: &mut [u16]| {
        yardstick::plan_of_planner(file, plan, places).err().unwrap_or(0)
    };
    let sides: [(&str, PlannerOut); 2] = [("the library", slices::plan_of_planner), ("plain Rust", by_yardstick)];
    for (name, side) in sides {
        let (mut plan, mut places) = before.clone();
        let number = side(file, &mut plan[MARGIN..MARGIN + lens.0], &mut places[MARGIN..MARGIN + lens.1]);
        assert_eq!(number, expected.as_ref().err().copied().unwrap_or(0), "{}: the answer going out", name);
        same("plan of a planner's file", &plan, &want.0);
        same("places", &places, &want.1);
    }
    same("planner's file", file, &file_was);
    expected.map(|out| (out.plan, out.places))
}

type PlannerOut = fn(&[u8], &mut [u8], &mut [u16]) -> u32;

/// Home: a plan into a file of this length that holds random bytes, compared whole; plain Rust too. The file alone.
pub fn planner_home(plan: &[u8], len: usize, random: &mut Random) -> Result<Vec<u8>, u32> {
    let expected = reference::planner::home(plan, len);
    let before = random.bytes(len + 2 * MARGIN);
    let mut want = before.clone();
    if let Ok(file) = &expected {
        want[MARGIN..MARGIN + file.len()].copy_from_slice(file);
    }
    let plan_was = plan.to_vec();
    let by_yardstick = |plan: &[u8], file: &mut [u8]| yardstick::planner_of_plan(plan, file).err().unwrap_or(0);
    let sides: [(&str, PlannerHome); 2] = [("the library", slices::planner_of_plan), ("plain Rust", by_yardstick)];
    for (name, side) in sides {
        let mut file = before.clone();
        let number = side(plan, &mut file[MARGIN..MARGIN + len]);
        assert_eq!(number, expected.as_ref().err().copied().unwrap_or(0), "{}: the answer going home", name);
        same("planner's file", &file, &want);
    }
    same("plan that goes home", plan, &plan_was);
    expected
}

type PlannerHome = fn(&[u8], &mut [u8]) -> u32;

/// What is lent for a branch question.
#[derive(Clone, Copy)]
pub struct Lent<'a> {
    pub plan: &'a [u8],
    pub branch: &'a [u8],
    pub node_table: &'a [u16],
    pub state_table: &'a [u8],
}

/// A branch question, its answer alone: state, yes, links and nodes passed over, and nothing on a refusal.
pub fn library_branch(
    reading: Reading,
    lent: Lent,
    upper: u32,
    lower: u32,
    random: &mut Random,
) -> Result<[u32; 4], u32> {
    let unset = [0; 4].map(|_: u32| random.word() as u32);
    let mut out = unset;
    let ask = match reading {
        Reading::WithUpper => slices::branch_with_upper,
        Reading::BelowUpper => slices::branch,
    };
    let number = ask(lent.plan, lent.branch, lent.node_table, lent.state_table, [upper, lower], &mut out);
    told(number, &out, &unset).map(|()| out)
}

/// A branch question on any tables, compared with the rule on those very tables.
pub fn branch(reading: Reading, lent: Lent, upper: u32, lower: u32, random: &mut Random) -> Result<[u32; 4], u32> {
    let Lent { plan, branch, node_table, state_table } = lent;
    let expected = reference::branch::on_tables(reading, plan, branch, node_table, state_table, upper, lower);
    let answer = library_branch(reading, lent, upper, lower, random);
    let want = expected.map(|told| [told.state as u32, told.yes as u32, told.links as u32, told.passed as u32]);
    assert_eq!(answer, want, "the branch question from {} to {}, {:?}", upper, lower, reading);
    answer
}

/// Both readings, each compared. They are refused with the same number or tell the same links and nodes passed over; only
/// an 18 may be of one reading alone: they start in different states, and so read different entries.
pub fn branches(lent: Lent, upper: u32, lower: u32, random: &mut Random) -> [Result<[u32; 4], u32>; 2] {
    let [with_upper, below] = READINGS.map(|reading| branch(reading, lent, upper, lower, random));
    if with_upper != Err(18) && below != Err(18) {
        let climb = |told: Result<[u32; 4], u32>| told.map(|told| (told[2], told[3]));
        assert_eq!(climb(below), climb(with_upper), "links, nodes passed over or refusal of the two readings");
    }
    if upper == lower && below.is_ok() {
        assert_eq!(below.map(|told| (told[0], told[2], told[3])), Ok((0, 0, 0)), "the empty word");
    }
    [with_upper, below]
}

/// The answer with the upper node's label; beside it the other reading is compared too.
pub fn branch_with_upper(lent: Lent, upper: u32, lower: u32, random: &mut Random) -> Result<[u32; 4], u32> {
    branches(lent, upper, lower, random)[0]
}

/// A refusal leaves the out values.
fn told(number: u32, out: &[u32], unset: &[u32]) -> Result<(), u32> {
    if number == 0 {
        return Ok(());
    }
    assert_eq!(out, unset, "refused with {}, and told something", number);
    Err(number)
}

/// A longer copy with random excess.
pub fn longer<T: Clone>(table: &[T], excess: Vec<T>) -> Vec<T> {
    [table, &excess[..]].concat()
}
