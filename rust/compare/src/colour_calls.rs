//! The calls on colour tables, with everything lent held to account: the library and plain Rust, each compared with the
//! reference implementation. As in `calls`, buffers that are written stand inside longer ones, and out values start at random
//! numbers.

use crate::calls::same;
use crate::random::Random;
use crate::slices;
use reference::branch::Reading;
use reference::colour_branch::{self, ColourTables, Inputs};
use reference::colour_rules::{self, Said};
use reference::panel;

const MARGIN: usize = 9;

type Build = fn(&[u8], &[u8], &mut [u16], &mut [u8]) -> u32;

/// What a build of colour tables writes, or the refusal.
pub type Built = Result<(Vec<u16>, Vec<u8>), u32>;

/// A build into buffers of these lengths that hold random numbers, compared whole, by each side.
fn build(
    sides: [(&str, Build); 2],
    plan: &[u8],
    table: &[u8],
    lens: (usize, usize),
    expected: Result<ColourTables, u32>,
    random: &mut Random,
) -> Built {
    let (numbers, bytes) = (random.numbers(lens.0 + 2 * MARGIN), random.bytes(lens.1 + 2 * MARGIN));
    let (mut want_numbers, mut want_bytes) = (numbers.clone(), bytes.clone());
    if let Ok(tables) = &expected {
        want_numbers[MARGIN..MARGIN + tables.numbers.len()].copy_from_slice(&tables.numbers);
        want_bytes[MARGIN..MARGIN + tables.bytes.len()].copy_from_slice(&tables.bytes);
    }
    let (plan_was, table_was) = (plan.to_vec(), table.to_vec());
    for (name, side) in sides {
        let (mut numbers, mut bytes) = (numbers.clone(), bytes.clone());
        let (to_numbers, to_bytes) = (&mut numbers[MARGIN..MARGIN + lens.0], &mut bytes[MARGIN..MARGIN + lens.1]);
        let number = side(plan, table, to_numbers, to_bytes);
        assert_eq!(number, expected.as_ref().err().copied().unwrap_or(0), "{}: the build of colour tables", name);
        same(&format!("{}: colour numbers", name), &numbers, &want_numbers);
        same(&format!("{}: colour bytes", name), &bytes, &want_bytes);
    }
    same("plan", plan, &plan_was);
    same("table", table, &table_was);
    let inside = (MARGIN..MARGIN + lens.0, MARGIN..MARGIN + lens.1);
    expected.map(|_| (want_numbers[inside.0].to_vec(), want_bytes[inside.1].to_vec()))
}

/// A build of the colour tables of a branch table.
pub fn branch_build(plan: &[u8], branch: &[u8], lens: (usize, usize), random: &mut Random) -> Built {
    let plain: Build =
        |plan, branch, numbers, bytes| yardstick::colour_branch_build(plan, branch, numbers, bytes).err().unwrap_or(0);
    let expected = colour_branch::build(plan, branch, lens.0, lens.1);
    build([("the library", slices::colour_branch_build), ("plain Rust", plain)], plan, branch, lens, expected, random)
}

/// A branch question by colours on any tables, compared with the rule on those very tables: state, yes, drops and links, and
/// nothing on a refusal.
pub fn branch(reading: Reading, lent: Inputs, upper: u32, lower: u32, random: &mut Random) -> Result<[u32; 4], u32> {
    let Inputs { plan, branch, node_table, numbers, bytes } = lent;
    let unset = [0; 4].map(|_: u32| random.word() as u32 | 1 << 20);
    let mut out = unset;
    let (ask, plain) = match reading {
        Reading::WithUpper => (slices::colour_branch_with_upper as Ask, yardstick::ask_colours_with_upper as Plain),
        Reading::BelowUpper => (slices::colour_branch as Ask, yardstick::ask_colours as Plain),
    };
    let number = ask(plan, branch, node_table, numbers, bytes, [upper, lower], &mut out);
    let answer = match number {
        0 => Ok(out),
        _ => {
            assert_eq!(out, unset, "refused with {}, and told something", number);
            Err(number)
        }
    };
    let expected = colour_branch::on_tables(reading, lent, upper, lower);
    let want = expected.map(|told| [told.state as u32, told.yes as u32, told.drops as u32, told.links as u32]);
    assert_eq!(answer, want, "the branch question by colours from {} to {}, {:?}", upper, lower, reading);
    let plain = plain(plan, branch, node_table, numbers, bytes, upper, lower);
    let plain = plain.map(|told| [told.state as u32, told.yes as u32, told.drops, told.links]);
    assert_eq!(plain, want, "plain Rust's answer");
    answer
}

type Ask = fn(&[u8], &[u8], &[u16], &[u16], &[u8], [u32; 2], &mut [u32; 4]) -> u32;
type Plain = fn(&[u8], &[u8], &[u16], &[u16], &[u8], u32, u32) -> Result<yardstick::ColourTold, u32>;

/// A build of the colour tables of a rule table.
pub fn rule_build(plan: &[u8], rules: &[u8], lens: (usize, usize), random: &mut Random) -> Built {
    let plain: Build =
        |plan, rules, numbers, bytes| yardstick::colour_build(plan, rules, numbers, bytes).err().unwrap_or(0);
    let expected = colour_rules::build(plan, rules, lens.0, lens.1);
    build([("the library", slices::colour_build), ("plain Rust", plain)], plan, rules, lens, expected, random)
}

/// A question by colours on any tables: compared with plain Rust always, and with the reference where the documents say what
/// is told. State, yes, drops, links and parts, and nothing on a refusal.
pub fn question(
    lent: &colour_rules::Inputs,
    nodes: &[u16],
    labels: &[u8],
    random: &mut Random,
) -> Result<[u32; 5], u32> {
    let panel::Inputs { plan, rules, node_table, state_table } = lent.tables;
    let unset = [0; 5].map(|_: u32| random.word() as u32 | 1 << 20);
    let mut out = unset;
    let number =
        slices::colour_ask(plan, rules, node_table, state_table, lent.numbers, lent.bytes, nodes, labels, &mut out);
    let answer = match number {
        0 => Ok(out),
        _ => {
            assert_eq!(out, unset, "refused with {}, and told something", number);
            Err(number)
        }
    };
    match colour_rules::question(lent, nodes, labels) {
        Said::Refused(wanted) => assert_eq!(answer, Err(wanted), "the answer of the question by colours"),
        Said::Answered(told, parts) => {
            let want = [told.state as u32, told.yes as u32, told.drops as u32, told.links as u32, told.parts as u32];
            assert_eq!(answer, Ok(want), "the question by colours with {:?} and {:?}", nodes, labels);
            for part in parts {
                assert!(part.searches.len() <= 60, "{} drops for one part", part.searches.len());
                assert!(part.searches.iter().all(|&links| links <= 45), "a search of {:?}", part.searches);
            }
        }
        Said::Left => assert!([0, 18].contains(&number), "the answer of the question by colours is {}", number),
    }
    let plain = yardstick::colour_ask(plan, rules, node_table, state_table, lent.numbers, lent.bytes, nodes, labels);
    let plain = plain.map(|told| [told.state as u32, told.yes as u32, told.drops, told.links, told.parts]);
    assert_eq!(plain, answer, "plain Rust's answer");
    answer
}
