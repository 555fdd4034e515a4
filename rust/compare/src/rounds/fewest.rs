//! The fewest changes: the number against every relabelling where the plan is small, and against plain Rust always; the
//! list, which the contract leaves open, by what must hold of it; the wrapper's answer; each refusal.

use super::any_case;
use crate::calls::same;
use crate::counts::Counts;
use crate::inputs::{plan, rules, Case};
use crate::random::Random;
use crate::shapes::{kinds, SHAPES};
use crate::slices;
use crate::trace;
use reference::fewest::{as_wanted, checks, choices, least, may_take, Lengths, MOST_LISTED};
use reference::formats::{read_plan, read_rules, Plan, Rules};
use reference::fresh::changed;
use whatif::{Fewest, LabelSet, Panel, Want};

const MARGIN: usize = 9;
/// All relabellings of a plan cost this many nodes at most.
const WHOLE: usize = 60_000;

pub fn round(random: &mut Random, counts: &mut Counts) {
    for _ in 0..4 {
        right(&small(random), random, counts);
        right(&ordered(random), random, counts);
    }
    right(&any_case(random), random, counts);
    right(&demanding(random), random, counts);
    refused(Case::random(12, random), random, counts);
}

/// A plan whose relabellings may be tried, mostly all of them.
fn small(random: &mut Random) -> Case {
    let (leaves, k) = *random.pick(&[(1, 64), (2, 12), (3, 4), (4, 3), (5, 2), (3, 6), (6, 2)]);
    let s = *random.pick(&[1, 2, 2, 3, 4, 4, 16]);
    Case::new(*random.pick(&SHAPES), random.between(1, leaves), s, random.between(1, k), random)
}

/// A small plan whose states are ordered, as in document 01's sample: a leaf has its label as state, a node the lesser
/// state of its children, with some labels the greater; low labels where a high state is wanted. Several changes are
/// needed.
fn ordered(random: &mut Random) -> Case {
    let (leaves, k) = *random.pick(&[(3, 4), (4, 3), (5, 2), (6, 2)]);
    let (s, greater) = (random.between(2, k), random.between(0, 1));
    let kinds = kinds(*random.pick(&SHAPES), random.between(2, leaves), random);
    let leaf: Vec<u8> = (0..k).map(|a| a.min(s - 1) as u8).collect();
    let by_label = |i: usize| {
        let (p, a, q) = (i / s / k, i / s % k, i % s);
        (if a < greater { p.max(q) } else { p.min(q) }) as u8
    };
    let inner: Vec<u8> = (0..s * k * s).map(by_label).collect();
    let marks: Vec<u8> = (0..s).map(|q| u8::from(q + 1 == s)).collect();
    let labels = random.bytes_below(kinds.len(), 2);
    let mut case = Case::of_kinds(&kinds, s, k, random);
    (case.plan, case.rules) = (plan(&labels, &kinds), rules(s, k, &leaf, &inner, &marks));
    trace::say_case(&case);
    case
}

/// The plan is cleared where no leaf has label 0: often more changes than can be listed.
fn demanding(random: &mut Random) -> Case {
    let k = random.between(2, 5);
    let kinds = kinds(*random.pick(&SHAPES), random.between(1, 120), random);
    let inner: Vec<u8> = (0..4 * k).map(|i| u8::from(i / 2 / k == 1 && i % 2 == 1)).collect();
    let leaf: Vec<u8> = (0..k).map(|a| u8::from(a > 0)).collect();
    let most = *random.pick(&[1, 1, 2, k]);
    let mut case = Case::of_kinds(&kinds, 2, k, random);
    case.plan = plan(&random.bytes_below(case.n, most), &kinds);
    case.rules = rules(2, k, &leaf, &inner, &[0, 1]);
    trace::say_case(&case);
    case
}

/// Sets of labels: none, or one for each node; some nodes closed, few labels at hand, or nothing open.
fn sets(case: &Case, random: &mut Random) -> Vec<u64> {
    let (way, at_hand, open) = (random.below(8), random.word(), random.between(1, 4));
    let set = |_| match way {
        3 => random.word(),
        4 => at_hand,
        5 if random.below(open) == 0 => u64::MAX,
        6 if random.below(open) == 0 => random.word() & random.word(),
        _ => 0,
    };
    (0..if way < 3 { 0 } else { case.n }).map(set).collect()
}

/// What a call wrote.
#[derive(Clone, Debug, PartialEq, Eq)]
pub struct Told {
    pub least: u32,
    pub nodes: Vec<u16>,
    pub labels: Vec<u8>,
}

/// Into buffers of these lengths that hold random numbers. What is outside must stay, and all of it on a refusal.
pub fn fewest(
    plan: &[u8],
    rules: &[u8],
    may: &[u64],
    want: u32,
    [work, nodes, labels]: [usize; 3],
    random: &mut Random,
) -> Result<Told, u32> {
    let work_was: Vec<u32> = (0..work + 2 * MARGIN).map(|_| random.word() as u32).collect();
    let (nodes_were, labels_were) = (random.numbers(nodes + 2 * MARGIN), random.bytes(labels + 2 * MARGIN));
    let out_was = [random.word() as u32, random.word() as u32];
    let (mut in_work, mut in_nodes, mut in_labels, mut out) =
        (work_was.clone(), nodes_were.clone(), labels_were.clone(), out_was);
    let list = (&mut in_nodes[MARGIN..MARGIN + nodes], &mut in_labels[MARGIN..MARGIN + labels]);
    let number = slices::fewest(plan, rules, may, want, &mut in_work[MARGIN..MARGIN + work], list, &mut out);
    let checked = checks(plan, rules, Lengths { may: may.len(), work, nodes, labels });
    assert_eq!(number, checked.as_ref().err().copied().unwrap_or(0), "the answer for the fewest changes");
    let (used, count) = match &checked {
        Ok((plan, rules)) => (plan.nodes() * (rules.states + 1), out[1] as usize),
        Err(_) => (0, 0),
    };
    assert!(count <= MOST_LISTED, "{} changes are listed", count);
    same("work before", &in_work[..MARGIN], &work_was[..MARGIN]);
    same("work behind", &in_work[MARGIN + used..], &work_was[MARGIN + used..]);
    same("nodes before", &in_nodes[..MARGIN], &nodes_were[..MARGIN]);
    same("nodes behind", &in_nodes[MARGIN + count..], &nodes_were[MARGIN + count..]);
    same("labels before", &in_labels[..MARGIN], &labels_were[..MARGIN]);
    same("labels behind", &in_labels[MARGIN + count..], &labels_were[MARGIN + count..]);
    if number != 0 {
        assert_eq!(out, out_was, "refused, no number is written");
        return Err(number);
    }
    let listed = MARGIN..MARGIN + count;
    Ok(Told { least: out[0], nodes: in_nodes[listed.clone()].to_vec(), labels: in_labels[listed].to_vec() })
}

/// A list of permitted changes, rising, that is as long as it says and does it.
fn list_holds(plan: &Plan, rules: &Rules, may: &[u64], cleared: bool, told: &Told) {
    let listed = if told.least as usize <= MOST_LISTED { told.least as usize } else { 0 };
    assert_eq!(told.nodes.len(), listed, "how many are listed of {}", told.least);
    assert!(told.nodes.windows(2).all(|pair| pair[0] < pair[1]), "the nodes rise: {:?}", told.nodes);
    for (&v, &b) in told.nodes.iter().zip(&told.labels) {
        assert!(usize::from(v) < plan.nodes() && usize::from(b) < rules.labels, "{} to {} is a change", v, b);
        assert!(plan.labels[usize::from(v)] != b && may_take(plan, may, v.into(), b), "{} may take {}", v, b);
    }
    if told.least as usize <= MOST_LISTED {
        let labels = changed(plan.labels, &told.nodes, &told.labels);
        assert!(as_wanted(plan, rules, &labels, cleared), "the list does it");
    }
}

/// How many relabellings there are, up to one more than are tried.
fn relabellings(plan: &Plan, rules: &Rules, may: &[u64]) -> usize {
    choices(plan, rules, may).iter().fold(1, |all, labels| (all * labels.len()).min(WHOLE + 1))
}

/// A plan and rules as they must be, with sets of labels of any kind and either verdict wanted.
pub fn right(case: &Case, random: &mut Random, counts: &mut Counts) {
    let (may, want) = (sets(case, random), *random.pick(&[1, 1, 1, 0, 0, 2, u32::MAX]));
    let (plan, rules) = (read_plan(&case.plan).unwrap(), read_rules(&case.rules).unwrap());
    trace::say(format!("want {}, sets {:x?}", want, &may[..may.len().min(16)]));
    let lens = [case.state_table_len() + random.below(3), MOST_LISTED + random.below(3), MOST_LISTED + random.below(2)];
    let told = fewest(&case.plan, &case.rules, &may, want, lens, random).expect("accepted");
    let cleared = want != 0;
    list_holds(&plan, &rules, &may, cleared, &told);
    by_yardstick(case, &may, cleared, &told);
    by_panel(case, &may, cleared, &told);
    let whole = relabellings(&plan, &rules, &may) * plan.nodes() <= WHOLE;
    if whole {
        let number = least(&plan, &rules, &may, cleared).map_or(whatif::sizes::NO_WAY, |number| number);
        assert_eq!(told.least as usize, number, "the least number of changes over all relabellings");
    }
    counts.add(if whole { "every relabelling" } else { "plain Rust alone" });
    counts.add(match told.least as usize {
        number @ 0..=4 => format!("{} changes", number),
        5..=MOST_LISTED => "5 to 64 changes".to_string(),
        whatif::sizes::NO_WAY => "no way".to_string(),
        _ => "more than 64 changes".to_string(),
    });
}

fn by_yardstick(case: &Case, may: &[u64], cleared: bool, told: &Told) {
    let (plan, rules) = (read_plan(&case.plan).unwrap(), read_rules(&case.rules).unwrap());
    let (mut work, mut nodes, mut labels) = (vec![7; case.state_table_len()], [0; MOST_LISTED], [0; MOST_LISTED]);
    let plain = yardstick::fewest(&case.plan, &case.rules, may, cleared, &mut work, (&mut nodes, &mut labels));
    let (number, count) = plain.expect("accepted by plain Rust");
    assert_eq!((number, count as usize), (told.least, told.nodes.len()), "plain Rust's number");
    let (nodes, labels) = (nodes[..count as usize].to_vec(), labels[..count as usize].to_vec());
    list_holds(&plan, &rules, may, cleared, &Told { least: number, nodes, labels });
}

/// The wrapper's answer, and what may change as its builder has it.
fn by_panel(case: &Case, may: &[u64], cleared: bool, told: &Told) {
    let (plan, rules) = (whatif::Plan::from_bytes(&case.plan[..]), whatif::Rules::from_bytes(&case.rules[..]));
    let panel = Panel::new(plan.expect("a plan"), rules.expect("rules")).expect("accepted");
    let set = |built: whatif::MayChange, (v, &bits): (usize, &u64)| {
        built.at(v as u16, LabelSet::from_bits(bits)).expect("a node of the plan")
    };
    let built = may.iter().enumerate().fold(panel.may_change(), set);
    assert_eq!(built.as_bits(), may, "what may change");
    let want = if cleared { Want::Cleared } else { Want::NotCleared };
    let answer = panel.fewest(want, &built).expect("accepted");
    let number = answer.least().unwrap_or(whatif::sizes::NO_WAY as u32);
    assert_eq!(number, told.least, "the wrapper's number");
    let list: Vec<_> = told.nodes.iter().copied().zip(told.labels.iter().copied()).collect();
    match answer {
        Fewest::AsItIs => assert!(number == 0 && list.is_empty(), "as it is"),
        Fewest::Changes(changes) => assert_eq!(changes[..], list[..], "the wrapper's list"),
        Fewest::Number(_) => assert!(number as usize > MOST_LISTED, "a number alone"),
        Fewest::NoWay => assert_eq!(number as usize, whatif::sizes::NO_WAY, "no way"),
    }
}

/// A byte of the plan or the rules altered, or one cut off; a set too many or too few; a buffer that is too short.
pub fn refused(mut case: Case, random: &mut Random, counts: &mut Counts) {
    let mut lens = [case.state_table_len(), MOST_LISTED, MOST_LISTED];
    if random.below(2) == 0 {
        let which = random.below(3);
        lens[which] = if random.below(2) == 0 { lens[which] - 1 } else { random.below(lens[which]) };
    }
    let sets = match random.below(4) {
        0 => 0,
        1 => case.n + 1,
        2 => random.below(case.n + 1),
        _ => case.n,
    };
    let may: Vec<u64> = (0..sets).map(|_| random.word()).collect();
    match random.below(8) {
        0 => {
            // a label that the rules do not have
            let at = 12 + random.below(case.n);
            case.plan[at] = case.k as u8;
        }
        1 => {
            case.plan.pop();
        }
        2 => {
            case.rules.pop();
        }
        3 => {
            let at = random.below(case.plan.len());
            case.plan[at] = random.word() as u8;
        }
        4 => {
            let at = random.below(case.rules.len());
            case.rules[at] = random.word() as u8;
        }
        _ => (),
    }
    let answer = fewest(&case.plan, &case.rules, &may, random.word() as u32 % 3, lens, random).err();
    let [work, nodes, labels] = lens;
    let (mut work, mut nodes, mut labels) = (vec![0; work], vec![0; nodes], vec![0; labels]);
    let plain = yardstick::fewest(&case.plan, &case.rules, &may, true, &mut work, (&mut nodes, &mut labels));
    assert_eq!(plain.err(), answer, "plain Rust refuses alike");
    counts.add(answer.map_or("accepted".to_string(), |number| format!("refused {}", number)));
}
