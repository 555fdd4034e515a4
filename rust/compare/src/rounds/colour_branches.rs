//! Branch questions by colours: tables as built, byte for byte; answers against the path itself and against the climb, in
//! both readings; refusals in order; tables that are not as built.

use super::any_case;
use super::branch_questions::{faulty_pairs, Faulty};
use super::refusals::{any_set, any_two};
use crate::alterations::damage;
use crate::built::Built;
use crate::calls::{self, Kind};
use crate::colour_calls;
use crate::counts::Counts;
use crate::faults::{shorter, Input, BUILD_CHECKS};
use crate::inputs::Case;
use crate::random::Random;
use crate::shapes::SHAPES;
use crate::trace;
use reference::branch::READINGS;
use reference::colour_branch::{by_path, colours, Inputs};
use reference::colours::Colours;
use reference::formats::{read_branch, read_plan};
use reference::tree::Tree;

pub fn round(random: &mut Random, counts: &mut Counts) {
    let coloured = Coloured::new(any_case(random), random);
    let (tree, colours) = coloured.path();
    for _ in 0..12 {
        let (lower, upper) = coloured.built.pair(&tree, random);
        coloured.ask(&tree, &colours, upper, lower, random, counts);
        let any = random.below(coloured.built.case.n) as u32;
        coloured.ask(&tree, &colours, any, lower, random, counts);
        coloured.ask(&tree, &colours, lower, lower, random, counts);
    }
    let (shape, leaves) = (*random.pick(&SHAPES), random.between(2, 40));
    let (s, k) = (random.between(1, 16), random.between(1, 64));
    let case = Case::new(shape, leaves, s, k, random);
    for faults in [any_two(&BUILD_CHECKS, random), any_set(&BUILD_CHECKS, random), vec![10, 11], vec![11]] {
        build_refused(&case, &faults, random, counts);
    }
    let way = random.below(WRONG_LENGTHS);
    refusals(case, way, random, counts);
    for _ in 0..4 {
        damaged(Case::random(25, random), random, counts);
    }
}

/// A case with its tables and its colour tables, all as the library built them, in buffers with some excess.
#[derive(Clone)]
pub struct Coloured {
    pub built: Built,
    pub numbers: Vec<u16>,
    pub bytes: Vec<u8>,
}

/// The numbers and the bytes that colour tables need.
pub fn lens(case: &Case) -> (usize, usize) {
    (4 * case.n * case.s, case.n * case.s)
}

impl Coloured {
    pub fn new(case: Case, random: &mut Random) -> Coloured {
        let (numbers, bytes) = lens(&case);
        let lens = (numbers + random.below(3), bytes + random.below(3));
        let (numbers, bytes) =
            colour_calls::branch_build(&case.plan, &case.branch, lens, random).expect("nothing is wrong with it");
        Coloured { built: Built::with_excess(Kind::Branch, case, random), numbers, bytes }
    }

    pub fn inputs(&self) -> Inputs<'_> {
        Inputs {
            plan: &self.built.case.plan,
            branch: &self.built.case.branch,
            node_table: &self.built.node_table,
            numbers: &self.numbers,
            bytes: &self.bytes,
        }
    }

    /// The plan's tree and its colours.
    pub fn path(&self) -> (Tree, Colours) {
        let (plan, branch) = (read_plan(&self.built.case.plan).unwrap(), read_branch(&self.built.case.branch).unwrap());
        let tree = Tree::of(&plan);
        let colours = colours(&tree, &plan, &branch);
        (tree, colours)
    }

    /// A question in each reading, on tables as built: the answer is that of the path and, in state and yes, that of the
    /// climb; at most S - 1 drops, and at most 45 links for each.
    pub fn ask(
        &self,
        tree: &Tree,
        colours: &Colours,
        upper: u32,
        lower: u32,
        random: &mut Random,
        counts: &mut Counts,
    ) {
        let branch = read_branch(&self.built.case.branch).unwrap();
        for reading in READINGS {
            let answer = colour_calls::branch(reading, self.inputs(), upper, lower, random);
            let want = by_path(reading, tree, colours, &branch, upper, lower);
            let want = want.map(|told| [told.state as u32, told.yes as u32, told.drops as u32, told.links as u32]);
            assert_eq!(answer, want, "the path itself, {:?} from {} to {}", reading, upper, lower);
            let climb = calls::library_branch(reading, self.built.lent(), upper, lower, random);
            let first_two = |told: [u32; 4]| [told[0], told[1]];
            assert_eq!(answer.map(first_two), climb.map(first_two), "the climb, {:?}", reading);
            counts.add(match answer {
                Ok([_, _, drops, links]) => {
                    assert!(drops < self.built.case.s as u32, "{} drops", drops);
                    assert!(links <= 45 * drops, "{} links for {} drops", links, drops);
                    format!("answered, drops: {}", ["none", "1", "2", "3 or more"][drops.min(3) as usize])
                }
                Err(number) => format!("refused {}", number),
            });
        }
    }
}

/// A build with these faults, which stand in the order of the checks: the first is given.
pub fn build_refused(case: &Case, faults: &[u32], random: &mut Random, counts: &mut Counts) {
    let mut input = Input::new(case, Kind::Branch, random);
    let (mut numbers, mut bytes) = lens(case);
    if faults.contains(&11) {
        let which = random.below(3);
        if which != 1 {
            numbers = shorter(numbers, random);
        }
        if which != 0 {
            bytes = shorter(bytes, random);
        }
    }
    let others: Vec<u32> = faults.iter().copied().filter(|&fault| fault != 11).collect();
    input.lay(&others, random);
    let built = colour_calls::branch_build(&input.plan, &input.table, (numbers, bytes), random);
    let wanted = faults.first().copied();
    assert_eq!(built.err(), wanted, "the build of colour tables with {:?}", faults);
    counts.add(format!("build, {}", wanted.map_or("accepted".into(), |number| format!("refused {}", number))));
}

/// In how many ways something lent can be cut short, be too long or name a number outside its limits.
pub const WRONG_LENGTHS: usize = 13;

fn wrong_length(good: &Coloured, way: usize, random: &mut Random) -> Coloured {
    let case = &good.built.case;
    let mut wrong = good.clone();
    let header = |bytes: &mut Vec<u8>, at: usize, number: usize| {
        bytes[at..at + 4].copy_from_slice(&(number as u32).to_le_bytes());
    };
    let (plan, branch) = (&mut wrong.built.case.plan, &mut wrong.built.case.branch);
    match way {
        0 => plan.truncate(random.below(12)),
        1 => plan.truncate(case.plan.len() - 1),
        2 => plan.push(0),
        3 => header(plan, 0, *random.pick(&[0, 65_536, 65_536 + case.n, u32::MAX as usize])),
        4 => branch.truncate(random.below(16)),
        5 => branch.truncate(case.branch.len() - 1),
        6 => branch.push(0),
        7 => header(branch, 0, *random.pick(&[0, 17, 65_536 + case.s, u32::MAX as usize])),
        8 => header(branch, 4, *random.pick(&[0, 65, 65_536 + case.k, u32::MAX as usize])),
        9 => [0, 4].iter().for_each(|&at| header(branch, at, u32::MAX as usize)),
        10 => wrong.built.node_table.truncate(shorter(case.node_table_len(), random)),
        11 => wrong.numbers.truncate(shorter(lens(case).0, random)),
        _ => wrong.bytes.truncate(shorter(lens(case).1, random)),
    }
    wrong
}

/// 17, 13, 16 and 18, each alone and each two of them at once, on a plan of more than one node.
pub fn refusals(case: Case, way: usize, random: &mut Random, counts: &mut Counts) {
    let good = Coloured::new(case, random);
    let n = good.built.case.n;
    let (root, v) = (n as u32 - 1, random.below(n - 1) as u32);
    let out = *random.pick(&[n as u32, 65_535, 65_536 + v, (1 << 24) + v, u32::MAX]);
    // not below: a node and the root, the wrong way round; states that are none get 18
    let mut damaged = good.clone();
    damaged.bytes.fill(u8::MAX);
    let (short, both) = (wrong_length(&good, way, random), wrong_length(&damaged, way, random));
    let faulty = Faulty { good: &good, damaged: &damaged, short: &short, both: &both };
    for (lent, upper, lower, wanted, what) in faulty_pairs(faulty, root, v, out) {
        for reading in READINGS {
            let answer = colour_calls::branch(reading, lent.inputs(), upper, lower, random);
            assert_eq!(answer.err().unwrap_or(0), wanted, "{}, in way {}", what, way);
        }
        counts.add(format!("answer {}: {}", wanted, what));
    }
}

/// Damages the node table, the colour numbers, the colour bytes or the marks: a few or all of them, inside the plan, the
/// states and the colours or not. Then four questions, each twice.
pub fn damaged(case: Case, random: &mut Random, counts: &mut Counts) {
    let mut lent = Coloured::new(case, random);
    let (n, s) = (lent.built.case.n, lent.built.case.s);
    let share = *random.pick(&[1, 2, 10, 50]);
    let (cells, lands, states) = if random.below(2) == 0 { (n, s, s) } else { (65_536, 65_536, s + 2) };
    let which = random.below(15);
    trace::say(format!("damaged in way {}, one in {}", which, share));
    if which & 1 == 0 {
        damage(&mut lent.built.node_table, share, random, |random| random.below(cells) as u16);
    }
    if which & 2 == 0 {
        damage(&mut lent.numbers, share, random, |random| random.below(cells) as u16);
    }
    if which & 4 == 0 {
        // the fourth numbers alone
        let mut fourth: Vec<u16> = lent.numbers.iter().skip(3).step_by(4).copied().collect();
        damage(&mut fourth, share, random, |random| random.below(lands) as u16);
        lent.numbers.iter_mut().skip(3).step_by(4).zip(fourth).for_each(|(number, to)| *number = to);
    }
    if which & 8 == 0 {
        damage(&mut lent.bytes, share, random, |random| random.below(states) as u8);
        damage(&mut lent.built.case.branch[16..], share, random, |random| random.below(s + 1) as u8);
    }
    for _ in 0..4 {
        let lower = random.below(n) as u32;
        let upper = random.between(lower as usize, n - 1) as u32;
        for reading in READINGS {
            let answer = colour_calls::branch(reading, lent.inputs(), upper, lower, random);
            let again = colour_calls::branch(reading, lent.inputs(), upper, lower, random);
            assert_eq!(answer, again, "the same again");
            counts.add(match answer {
                Ok(_) => "damaged: answered".to_string(),
                Err(number) => {
                    assert!(number == 16 || number == 18, "refused {}", number);
                    format!("damaged: refused {}", number)
                }
            });
        }
    }
}
