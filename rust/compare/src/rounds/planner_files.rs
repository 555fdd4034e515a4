//! The bridge planner's files, out to our plans and home: every byte that is written, both round trips, questions by the
//! places told, and refusals alone, in pairs or in any set.

use crate::calls::{self, longer};
use crate::counts::Counts;
use crate::faults::shorter;
use crate::inputs::{plan as plan_bytes, Case};
use crate::random::Random;
use crate::trace;
use reference::planner::EMPTY;
use reference::write;
use whatif::sizes::{planner_bytes, planner_plan_bytes, MAX_PLANNER_NODES};

/// Trees of a planner.
#[derive(Clone, Copy, Debug, PartialEq, Eq)]
pub enum Form {
    /// Every node but the last has one child.
    Chain,
    /// One node with all the others below it, at most 255 of them.
    Star,
    /// Every node has children, as long as there are nodes left.
    Deep,
    /// Up to three children each.
    Random,
    /// Lists of 255 where they fit.
    Wide,
}

pub const FORMS: [Form; 5] = [Form::Chain, Form::Star, Form::Deep, Form::Random, Form::Wide];

/// Child counts of a tree of n nodes in pre-order (a star has 256 at most).
pub fn counts(form: Form, n: usize, random: &mut Random) -> Vec<u8> {
    match form {
        Form::Chain => (0..n).map(|v| (v + 1 < n) as u8).collect(),
        Form::Star => {
            let n = n.min(256);
            (0..n).map(|v| if v == 0 { (n - 1) as u8 } else { 0 }).collect()
        }
        Form::Deep => spread(n, random, |random| *random.pick(&[1, 2, 3, 9])),
        Form::Random => spread(n, random, |random| random.below(4)),
        Form::Wide => spread(n, random, |random| *random.pick(&[0, 0, 0, 1, 255])),
    }
}

/// As many children as `wanted` says and there are nodes left; the last node that waits takes one at least.
fn spread(n: usize, random: &mut Random, mut wanted: impl FnMut(&mut Random) -> usize) -> Vec<u8> {
    let (mut counts, mut waiting) = (Vec::new(), 1);
    while counts.len() < n {
        // this node is read: the others that wait, and those still to be named
        let left = n - counts.len() - waiting;
        let least = (waiting == 1 && left > 0) as usize;
        let count = wanted(random).max(least).min(left).min(255);
        counts.push(count as u8);
        waiting = waiting - 1 + count;
    }
    counts
}

/// A random file of this form.
pub fn file(form: Form, n: usize, random: &mut Random) -> Vec<u8> {
    let counts = counts(form, n, random);
    trace::say(format!("{:?}, {} planner's nodes", form, counts.len()));
    write::plan(&random.bytes_below(counts.len(), EMPTY as usize), &counts)
}

pub fn round(random: &mut Random, counts: &mut Counts) {
    for _ in 0..3 {
        let (form, most) = (*random.pick(&FORMS), if random.below(50) == 0 { MAX_PLANNER_NODES } else { 60 });
        let file = file(form, random.between(1, most), random);
        there_and_back(&file, random);
        counts.add(format!("{:?}", form));
    }
    for pair in OUT_CHECKS.windows(2) {
        refused_out(pair, random, counts);
    }
    for fault in HOME_FAULTS {
        refused_home(&[fault], random, counts);
    }
    refused_home(&[Home::Plan, Home::Room], random, counts);
    any_bytes(random);
}

/// Out and home restores the file, home and out the plan, into exact and into longer buffers; a question by a place told
/// changes the planner's node of that number.
pub fn there_and_back(file: &[u8], random: &mut Random) -> (Vec<u8>, Vec<u16>) {
    let n = (file.len() - 12) / 2;
    let lens = (planner_plan_bytes(n), n);
    let (plan, places) = calls::planner_out(file, lens, random).expect("accepted");
    let more = (lens.0 + random.between(1, 9), lens.1 + random.between(1, 9));
    assert_eq!(calls::planner_out(file, more, random).as_ref(), Ok(&(plan.clone(), places.clone())));
    assert_eq!((plan.len(), places.len()), lens);
    for len in [planner_bytes(n), planner_bytes(n) + random.between(1, 9)] {
        let home = calls::planner_home(&plan, len, random).expect("accepted");
        calls::same("out and home", &home, file);
        let again = calls::planner_out(&home, lens, random).expect("accepted");
        assert!(again == (plan.clone(), places.clone()), "home and out");
    }
    changed_node(file, &plan, &places, random);
    (plan, places)
}

/// The plan of the file with one label changed is the plan with that label at the place told.
fn changed_node(file: &[u8], plan: &[u8], places: &[u16], random: &mut Random) {
    let (v, label) = (random.below(places.len()), random.below(EMPTY as usize) as u8);
    let (mut file, mut plan) = (file.to_vec(), plan.to_vec());
    file[12 + v] = label;
    plan[12 + places[v] as usize] = label;
    let lens = (plan.len(), places.len());
    assert!(calls::planner_out(&file, lens, random) == Ok((plan, places.to_vec())), "node {} is at its place", v);
}

/// A check going out; 21 has three ways.
#[derive(Clone, Copy, Debug, PartialEq, Eq)]
pub enum Out {
    File,
    Label,
    Plan,
    Places,
}

/// In their order.
pub const OUT_CHECKS: [Out; 4] = [Out::File, Out::Label, Out::Plan, Out::Places];

impl Out {
    pub fn number(self) -> u32 {
        match self {
            Out::File => 19,
            Out::Label => 20,
            Out::Plan | Out::Places => 21,
        }
    }
}

/// Going out with these faults, which stand in the order of the checks: the first is given.
pub fn refused_out(faults: &[Out], random: &mut Random, counts: &mut Counts) {
    trace::say(format!("faults {:?}", faults));
    let form = *random.pick(&FORMS);
    let mut bytes = file(form, random.between(1, 40), random);
    let n = (bytes.len() - 12) / 2;
    let has = |fault: Out| faults.contains(&fault);
    let plan = if has(Out::Plan) { shorter(planner_plan_bytes(n), random) } else { planner_plan_bytes(n) };
    let places = if has(Out::Places) { shorter(n, random) } else { n };
    if has(Out::Label) {
        bytes[12 + random.below(n)] = random.between(EMPTY as usize, 255) as u8;
    }
    if has(Out::File) {
        malform(&mut bytes, random);
    }
    let answer = calls::planner_out(&bytes, (plan, places), random).err();
    let wanted = faults.first().map(|check| check.number());
    assert_eq!(answer, wanted, "going out with {:?}", faults);
    counts.add(wanted.map_or("out".to_string(), |number| format!("out refused {}", number)));
}

/// One of the ways in which a file is malformed.
pub fn malform(file: &mut Vec<u8>, random: &mut Random) {
    let n = (file.len() - 12) / 2;
    let header = |file: &mut Vec<u8>, at: usize, number: usize| {
        file[at..at + 4].copy_from_slice(&(number as u32).to_le_bytes());
    };
    match random.below(9) {
        0 => file.truncate(random.below(12)),
        1 => *file = write::plan(&[], &[]),
        2 => header(file, 4, *random.pick(&[0, 11, 13, 12 + 65_536])),
        3 => header(file, 8, *random.pick(&[12, 11 + n, 13 + n, 12 + n + 65_536])),
        4 => file.truncate(12 + random.below(2 * n)),
        5 => file.push(random.byte()),
        6 => header(file, 0, *random.pick(&[0, n + 1, n + 65_536, u32::MAX as usize])),
        // one node more is named than there is, or one is left over
        7 => {
            let at = 12 + n + random.below(n);
            file[at] = if file[at] == 255 { 254 } else { file[at] + 1 };
        }
        _ => {
            let named: Vec<usize> = (12 + n..12 + 2 * n).filter(|&at| file[at] > 0).collect();
            match named.len() {
                0 => file[12 + n] = 1,
                some => file[named[random.below(some)]] -= 1,
            }
        }
    }
}

/// A fault going home.
#[derive(Clone, Copy, Debug, PartialEq, Eq)]
pub enum Home {
    /// The bytes are no plan.
    Plan,
    /// A leaf has another label than 63.
    LeafLabel,
    /// An inner node has a label of 63 or more.
    InnerLabel,
    /// A second tree at the top.
    TwoTrees,
    /// A plan of one leaf: no planner's node.
    NoTree,
    /// A node with 256 children.
    TooMany,
    /// The file is too short.
    Room,
}

pub const HOME_FAULTS: [Home; 7] =
    [Home::Plan, Home::LeafLabel, Home::InnerLabel, Home::TwoTrees, Home::NoTree, Home::TooMany, Home::Room];

/// Going home with these faults: 19 for any but the last, which is 21.
pub fn refused_home(faults: &[Home], random: &mut Random, counts: &mut Counts) {
    trace::say(format!("faults {:?}", faults));
    let has = |fault: Home| faults.contains(&fault);
    let file = file(*random.pick(&FORMS), random.between(1, 40), random);
    let n = (file.len() - 12) / 2;
    let out = reference::planner::out(&file, planner_plan_bytes(n), n).expect("accepted").plan;
    let mut plan = out.clone();
    if has(Home::NoTree) {
        plan = plan_bytes(&[EMPTY], &[0]);
    }
    if has(Home::TooMany) {
        plan = list_of(256);
    }
    if has(Home::TwoTrees) {
        // the image of a list of two: the second tree's image in place of the leaf before the root
        let (labels, kinds) = runs(&plan);
        let last = labels.len() - 1;
        let two = |run: &[u8], second: &[u8]| [&run[..last.saturating_sub(1)], second, &run[last..]].concat();
        plan = plan_bytes(&two(labels, &[EMPTY, EMPTY, 5]), &two(kinds, &[0, 0, 1]));
    }
    let size = (plan.len() - 12) / 2;
    let mut at = |kind: u8| {
        let with: Vec<usize> = (0..size).filter(|&v| plan[12 + size + v] == kind).collect();
        with.get(random.below(with.len().max(1))).copied()
    };
    let (leaf, inner) = (at(0), at(1));
    if has(Home::LeafLabel) {
        plan[12 + leaf.expect("a leaf")] = *random.pick(&[0, 62, 64, 255]);
    }
    if has(Home::InnerLabel) {
        plan[12 + inner.unwrap_or(0)] = *random.pick(&[64, 127, 255]);
    }
    if has(Home::Plan) {
        damage(&mut plan, random);
    }
    let nodes = size / 2;
    let len = if has(Home::Room) { shorter(planner_bytes(nodes), random) } else { planner_bytes(nodes) };
    let answer = calls::planner_home(&plan, len, random).err();
    let wanted = if faults.iter().any(|&fault| fault != Home::Room) { Some(19) } else { faults.first().map(|_| 21) };
    assert_eq!(answer, wanted, "going home with {:?}", faults);
    counts.add(wanted.map_or("home".to_string(), |number| format!("home refused {}", number)));
}

fn runs(plan: &[u8]) -> (&[u8], &[u8]) {
    plan[12..].split_at((plan.len() - 12) / 2)
}

/// The image of a node with this many children, which a file can hold up to 255: its post-order is the children's leaves,
/// the end of their list, the children from the last to the first, a leaf and the node.
pub fn list_of(children: usize) -> Vec<u8> {
    let labels = [vec![EMPTY; children + 1], vec![1; children], vec![EMPTY, 2]].concat();
    let kinds = [vec![0; children + 1], vec![1; children], vec![0, 1]].concat();
    plan_bytes(&labels, &kinds)
}

/// One of 2 to 5.
fn damage(plan: &mut Vec<u8>, random: &mut Random) {
    let n = (plan.len() - 12) / 2;
    match random.below(5) {
        0 => plan.truncate(random.below(12)),
        1 => plan[..4].copy_from_slice(&65_536u32.to_le_bytes()),
        2 => plan[4] = 13,
        3 => plan.push(0),
        _ => plan[12 + n + random.below(n)] ^= 1,
    }
}

/// Plans of any shape and files of any bytes: as the reference does, whatever comes out.
pub fn any_bytes(random: &mut Random) {
    let n = random.between(1, 12);
    let mut file = write::plan(&random.bytes_below(n, 66), &random.bytes_below(n, 4));
    let at = random.below(file.len());
    if random.below(2) == 0 {
        file[at] = *random.pick(&[0, 1, 2, 12, 62, 63, 64, 255]);
    }
    let excess = random.below(2);
    let file = longer(&file, random.bytes(excess));
    let _ = calls::planner_out(&file, (random.below(70), random.below(14)), random);
    let case = Case::random(12, random);
    let mut plan = case.plan;
    let size = case.n;
    for v in 0..size {
        if random.below(8) != 0 {
            plan[12 + v] = if plan[12 + size + v] == 0 { EMPTY } else { random.below(63) as u8 };
        }
    }
    let _ = calls::planner_home(&plan, random.below(40), random);
}
