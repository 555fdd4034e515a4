//! Questions by colours, over sets of at most four states: tables as built, byte for byte; answers against the path itself,
//! against the session and the fresh run; refusals in order; tables that are not as built.

use super::questions::Asked;
use super::refusals::{any_set, any_two};
use crate::alterations::{damage, Alteration, ALTERATIONS};
use crate::calls::Kind;
use crate::colour_calls;
use crate::counts::Counts;
use crate::faults::{lay_on_list, repeat_nodes, shorter, Input};
use crate::inputs::Case;
use crate::panel::Lent;
use crate::random::Random;
use crate::shapes::SHAPES;
use crate::trace;
use reference::colour_rules::{self, Inputs, MOST_STATES};
use reference::formats::{read_plan, read_rules};
use reference::fresh::changed;
use reference::tables::run;

/// The checks of the build, in their order.
pub const BUILD_CHECKS: [u32; 11] = [2, 3, 4, 5, 6, 7, 8, 9, 27, 10, 11];
/// Those of a question.
pub const CHECKS: [u32; 6] = [17, 27, 12, 13, 14, 18];

pub fn round(random: &mut Random, counts: &mut Counts) {
    let most_leaves = match random.below(200) {
        0 => 32_768,
        1..=10 => 600,
        _ => 40,
    };
    as_built(any_case(most_leaves, random), random, counts);
    for faults in [any_two(&BUILD_CHECKS, random), any_set(&BUILD_CHECKS, random), vec![27, 10], vec![10, 11]] {
        build_refused(&faults, random, counts);
    }
    for pair in CHECKS.windows(2) {
        refused(pair, random, counts);
    }
    refused(&any_set(&CHECKS, random), random, counts);
    for _ in 0..3 {
        damaged(any_case(25, random), random, counts);
    }
    altered(*random.pick(&ALTERATIONS), any_case(25, random), random, counts);
}

/// With at most four states.
pub fn any_case(most_leaves: usize, random: &mut Random) -> Case {
    let (shape, leaves) = (*random.pick(&SHAPES), random.between(1, most_leaves));
    let (s, k) = (random.between(1, MOST_STATES), random.between(1, 64));
    Case::new(shape, leaves, s, k, random)
}

/// What is lent for a question by colours, as built.
#[derive(Clone)]
pub struct Coloured {
    pub lent: Lent,
    pub numbers: Vec<u16>,
    pub bytes: Vec<u8>,
}

impl Coloured {
    /// In buffers with some excess.
    pub fn new(case: &Case, random: &mut Random) -> Coloured {
        let (numbers, bytes) = colour_rules::lens(case.n, case.s);
        let lens = (numbers + random.below(3), bytes + random.below(3));
        let (numbers, bytes) =
            colour_calls::rule_build(&case.plan, &case.rules, lens, random).expect("nothing is wrong with it");
        let mut lent = Lent::built(case, random);
        Alteration::Excess.lay(&mut lent, case, random);
        Coloured { lent, numbers, bytes }
    }

    pub fn inputs(&self) -> Inputs<'_> {
        Inputs { tables: self.lent.inputs(), numbers: &self.numbers, bytes: &self.bytes }
    }
}

/// Questions on tables as built: some changes, nodes listed again, labels that change nothing.
pub fn as_built(case: Case, random: &mut Random, counts: &mut Counts) {
    let coloured = Coloured::new(&case, random);
    let mut asked = Asked::new(case, random);
    for _ in 0..3 {
        let m = *random.pick(&[0, 1, 2, 3, 5, 8, 16, 64]);
        let (mut nodes, mut labels) = asked.case.list(m, random);
        if random.below(3) == 0 {
            repeat_nodes(&mut nodes, &mut labels, asked.case.k, random);
        }
        if random.below(3) == 0 {
            let own = asked.case.labels()[nodes.first().map_or(0, |&v| v as usize)];
            labels.iter_mut().take(1).for_each(|label| *label = own);
        }
        ask(&coloured, &mut asked, &nodes, &labels, random, counts);
    }
}

/// One question, by colours and in the session.
pub fn ask(
    coloured: &Coloured,
    asked: &mut Asked,
    nodes: &[u16],
    labels: &[u8],
    random: &mut Random,
    counts: &mut Counts,
) {
    trace::say(format!("by colours, nodes {:?}, labels {:?}", nodes, labels));
    let told = colour_calls::question(&coloured.inputs(), nodes, labels, random).expect("accepted");
    let [state, yes, drops, links, parts] = told;
    let session = asked.ask(nodes, labels, random);
    assert_eq!((state, yes == 1, parts), (session.state, session.yes, session.parts), "the session's answer");
    assert!(drops <= 60 * parts && links <= 45 * drops, "{} parts, {} drops, {} links", parts, drops, links);
    // each part's state is the changed run's at its root, as the climb's is
    let (plan, rules) = (read_plan(&asked.case.plan).unwrap(), read_rules(&asked.case.rules).unwrap());
    let states = run(plan.kinds, &changed(plan.labels, nodes, labels), &rules);
    let members = asked.panel.says().roots;
    let (_, by_path) = colour_rules::Coloured::new(plan, rules).by_path(nodes, labels);
    let found = by_path.iter().map(|part| part.state);
    assert!(members.iter().map(|&v| states[v as usize]).eq(found), "the states of the parts");
    counts.add(format!("drops: {}", ["none", "1", "2", "3 or more"][drops.min(3) as usize]));
}

/// A build with these faults, which stand in the order of the checks: the first is given.
pub fn build_refused(faults: &[u32], random: &mut Random, counts: &mut Counts) {
    let many = faults.contains(&27);
    let s = if many { random.between(5, 16) } else { random.between(1, MOST_STATES) };
    let case = Case::new(*random.pick(&SHAPES), random.between(1, 25), s, random.between(1, 64), random);
    let mut input = Input::new(&case, Kind::Rules, random);
    let (mut numbers, mut bytes) = colour_rules::lens(case.n, case.s.min(MOST_STATES));
    if faults.contains(&11) {
        let which = random.below(3);
        if which != 1 {
            numbers = shorter(numbers, random);
        }
        if which != 0 {
            bytes = shorter(bytes, random);
        }
    }
    let others: Vec<u32> = faults.iter().copied().filter(|fault| ![11, 27].contains(fault)).collect();
    input.lay(&others, random);
    let built = colour_calls::rule_build(&input.plan, &input.table, (numbers, bytes), random);
    let wanted = faults.first().copied();
    assert_eq!(built.err(), wanted, "the build of colour tables with {:?}", faults);
    counts.add(format!("build, {}", wanted.map_or("accepted".into(), |number| format!("refused {}", number))));
}

/// A question with these faults, which stand in the order of the checks: the first is given.
pub fn refused(faults: &[u32], random: &mut Random, counts: &mut Counts) {
    trace::say(format!("faults {:?}", faults));
    let many = faults.contains(&27);
    let s = if many { random.between(5, 16) } else { random.between(1, MOST_STATES) };
    let case = Case::new(*random.pick(&SHAPES), random.between(2, 30), s, random.between(1, 64), random);
    let mut lent = if many {
        // no length is defined for its colour tables
        let (numbers, bytes) = (random.below(50), random.below(50));
        let (numbers, bytes) = (random.numbers(numbers), random.bytes(bytes));
        Coloured { lent: Lent::built(&case, random), numbers, bytes }
    } else {
        Coloured::new(&case, random)
    };
    let m = random.between(1, 20);
    let (mut nodes, mut labels) = case.list(m, random);
    for &fault in faults.iter().rev() {
        match fault {
            // no state of the rule table is one
            18 => lent.lent.rules[20..].iter_mut().for_each(|state| *state = random.between(16, 255) as u8),
            27 => (),
            17 => wrong_length(&mut lent, &case, random.below(WRONG_LENGTHS), random),
            _ => lay_on_list(fault, &mut nodes, &mut labels, (case.n, case.k), random),
        }
    }
    let answer = colour_calls::question(&lent.inputs(), &nodes, &labels, random).err();
    let wanted = faults.first().copied();
    assert_eq!(answer, wanted, "the question by colours with {:?}", faults);
    counts.add(wanted.map_or("accepted".to_string(), |number| format!("refused {}", number)));
}

/// In how many ways something lent can be cut short, be too long or name a number outside its limits.
pub const WRONG_LENGTHS: usize = 14;

pub fn wrong_length(lent: &mut Coloured, case: &Case, way: usize, random: &mut Random) {
    match way {
        0..=11 => super::choices::wrong_length(&mut lent.lent, case, way, random),
        // with more than four states no length is asked of these
        _ if case.s > MOST_STATES => lent.lent.plan.push(0),
        12 => lent.numbers.truncate(shorter(colour_rules::lens(case.n, case.s).0, random)),
        _ => lent.bytes.truncate(shorter(colour_rules::lens(case.n, case.s).1, random)),
    }
}

/// Damages the colour numbers, their fourth numbers alone, or the sets: a few or all of them, inside or not.
pub fn damaged(case: Case, random: &mut Random, counts: &mut Counts) {
    let mut lent = Coloured::new(&case, random);
    let (n, colours) = (case.n, 1usize << case.s);
    let share = *random.pick(&[1, 2, 10, 50]);
    let (cells, lands, sets) = if random.below(2) == 0 { (n, colours, colours) } else { (65_536, 65_536, 256) };
    let which = random.below(7);
    trace::say(format!("damaged in way {}, one in {}", which, share));
    if which & 1 == 0 {
        damage(&mut lent.numbers, share, random, |random| random.below(cells) as u16);
    }
    if which & 2 == 0 {
        let mut fourth: Vec<u16> = lent.numbers.iter().skip(3).step_by(4).copied().collect();
        damage(&mut fourth, share, random, |random| random.below(lands) as u16);
        lent.numbers.iter_mut().skip(3).step_by(4).zip(fourth).for_each(|(number, to)| *number = to);
    }
    if which & 4 == 0 {
        damage(&mut lent.bytes[n * (case.s + 1)..], share, random, |random| random.below(sets) as u8);
    }
    told(&lent, &case, "damaged", random, counts);
}

/// Plan, rules, node table or state table altered, and the colour tables as built.
pub fn altered(kind: Alteration, case: Case, random: &mut Random, counts: &mut Counts) {
    let mut lent = Coloured::new(&case, random);
    kind.lay(&mut lent.lent, &case, random);
    told(&lent, &case, &format!("{:?}", kind), random, counts);
}

/// Two questions, each twice: an answer, 17 or 18; another S may be named too.
fn told(lent: &Coloured, case: &Case, what: &str, random: &mut Random, counts: &mut Counts) {
    for _ in 0..2 {
        let m = random.between(0, 12);
        let (nodes, labels) = case.list(m, random);
        let answer = colour_calls::question(&lent.inputs(), &nodes, &labels, random);
        let again = colour_calls::question(&lent.inputs(), &nodes, &labels, random);
        assert_eq!(answer, again, "the same again");
        counts.add(match answer {
            Ok(_) => format!("{}: answered", what),
            Err(number) => format!("{}: refused {}", what, number),
        });
    }
}
