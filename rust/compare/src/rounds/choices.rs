//! How many choices end in each state: on tables as built against trying all, against sums over all nodes and against a
//! question's parts and links; refusals alone, in pairs or in any set; on tables that are not as built.

use super::any_case;
use super::questions::Asked;
use crate::alterations::{damage, Alteration, ALTERATIONS};
use crate::calls::{self, Counted};
use crate::counts::Counts;
use crate::faults::shorter;
use crate::inputs::Case;
use crate::panel::Lent;
use crate::random::Random;
use crate::shapes::{Shape, SHAPES};
use crate::trace;
use reference::count::{by_sums, by_trying, MOST_ASSIGNMENTS};
use reference::formats::{read_plan, read_rules};
use reference::tree::Tree;

/// The checks of a count, in their order.
pub const CHECKS: [u32; 7] = [17, 12, 13, 15, 26, 18, 11];

pub fn round(random: &mut Random, counts: &mut Counts) {
    as_built(any_case(random), random, counts);
    let (shape, leaves) = (*random.pick(&SHAPES), random.between(1, 6));
    let (s, k) = (random.between(1, 5), random.between(1, 4));
    as_built(Case::new(shape, leaves, s, k, random), random, counts);
    for pair in CHECKS.windows(2) {
        refused(pair, random, counts);
    }
    let any: Vec<u32> = CHECKS.iter().copied().filter(|_| random.below(4) == 0).collect();
    refused(&any, random, counts);
    at_the_limit(*random.pick(&[1, 10]), random, counts);
    altered(*random.pick(&ALTERATIONS), Case::random(30, random), random, counts);
}

/// The most nodes that are not too many for 26, with K labels.
pub fn most_nodes(k: usize) -> usize {
    let few = |m: &u32| (k as u64).checked_pow(*m).map_or(false, |all| all <= MOST_ASSIGNMENTS);
    (0..=64).rev().find(few).expect("no node has one assignment") as usize
}

/// A count on tables as built, with any number of nodes that 26 lets through; the same with the nodes in another order.
pub fn as_built(case: Case, random: &mut Random, counts: &mut Counts) {
    let most = most_nodes(case.k);
    let any = random.between(0, most);
    let m = *random.pick(&[0, 1, 2, 3, 8, most, any]);
    let (mut nodes, _) = case.list(m.min(most), random);
    let mut lent = Lent::built(&case, random);
    Alteration::Excess.lay(&mut lent, &case, random);
    let len = case.s + random.below(3);
    trace::say(format!("open nodes {:?}", nodes));
    let told = calls::count(&lent.inputs(), &nodes, len, random).expect("accepted");
    by_definition(&case, &nodes, &told, counts);
    nodes.reverse();
    assert_eq!(calls::count(&lent.inputs(), &nodes, len, random), Ok(told.clone()), "the nodes in another order");
    as_a_question(case, &nodes, told.1, random, counts);
}

/// "the counts are those of the definition by trying all, and their sum is K to the power m"; by sums where these are many.
fn by_definition(case: &Case, nodes: &[u16], told: &Counted, counts: &mut Counts) {
    let (plan, rules) = (read_plan(&case.plan).unwrap(), read_rules(&case.rules).unwrap());
    assert_eq!(told.0, by_sums(&Tree::of(&plan), &plan, &rules, nodes), "by sums");
    let all = (case.k as u64).pow(nodes.len() as u32);
    assert_eq!(told.0.iter().sum::<u64>(), all, "K to the power m");
    if all.saturating_mul(case.n as u64) <= 100_000 {
        assert_eq!(told.0, by_trying(&plan, &rules, nodes), "by trying all");
        counts.add("counted, and tried");
    } else {
        counts.add("counted, too many to try");
    }
}

/// "the parts and links told are those of a question whose W is these nodes and the root": one that gives each of them
/// another label.
fn as_a_question(case: Case, nodes: &[u16], told: [u32; 2], random: &mut Random, counts: &mut Counts) {
    if case.k == 1 {
        return;
    }
    let own = |v: u16| case.labels()[v as usize] as usize;
    let others: Vec<u8> = nodes.iter().map(|&v| ((own(v) + random.between(1, case.k - 1)) % case.k) as u8).collect();
    let answer = Asked::new(case, random).ask(nodes, &others, random);
    assert_eq!([answer.parts, answer.links], told, "a question's parts and links");
    counts.add(format!("links: {}", if answer.links == 0 { "none" } else { "some" }));
}

/// A count with these faults, which stand in the order of the checks: the first is given.
pub fn refused(faults: &[u32], random: &mut Random, counts: &mut Counts) {
    trace::say(format!("faults {:?}", faults));
    let many = faults.contains(&26);
    let (s, k) = (random.between(1, 16), if many { random.between(2, 64) } else { random.between(1, 64) });
    let leaves = random.between(if many { 33 } else { 2 }, 40);
    let case = Case::new(*random.pick(&SHAPES), leaves, s, k, random);
    let most = most_nodes(k);
    let m = if many { random.between(most + 1, 64) } else { random.between(2, most) };
    let (mut nodes, _) = case.list(m, random);
    let mut lent = Lent::built(&case, random);
    let mut len = s + random.below(3);
    for &fault in faults.iter().rev() {
        match fault {
            11 => len = shorter(s, random),
            18 => {
                let at = random.between(20, case.rules.len() - s - 1);
                lent.rules[at] = random.between(s, 255) as u8;
            }
            26 => (),
            15 => {
                // one of them in the place of another
                let at = random.between(1, nodes.len() - 1);
                nodes[at] = nodes[random.below(at)];
            }
            13 => {
                let at = random.below(nodes.len());
                nodes[at] = random.between(case.n, 65_535) as u16;
            }
            12 => nodes.resize(random.between(65, 200), 0),
            _ => wrong_length(&mut lent, &case, random.below(WRONG_LENGTHS), random),
        }
    }
    let answer = calls::count(&lent.inputs(), &nodes, len, random).err();
    let wanted = faults.first().copied();
    assert_eq!(answer, wanted, "the count with {:?}", faults);
    counts.add(wanted.map_or("accepted".to_string(), |number| format!("refused {}", number)));
}

/// In how many ways something lent can be cut short, be too long or name a number outside its limits.
pub const WRONG_LENGTHS: usize = 12;

pub fn wrong_length(lent: &mut Lent, case: &Case, way: usize, random: &mut Random) {
    let header = |bytes: &mut Vec<u8>, at: usize, number: usize| {
        bytes[at..at + 4].copy_from_slice(&(number as u32).to_le_bytes());
    };
    match way {
        0 => lent.plan.truncate(random.below(12)),
        1 => lent.plan.truncate(case.plan.len() - 1),
        2 => lent.plan.push(0),
        3 => header(&mut lent.plan, 0, *random.pick(&[0, 65_536, 65_536 + case.n, u32::MAX as usize])),
        4 => lent.rules.truncate(random.below(20)),
        5 => lent.rules.truncate(case.rules.len() - 1),
        6 => lent.rules.push(0),
        7 => header(&mut lent.rules, 0, *random.pick(&[0, 17, 65_536 + case.s, u32::MAX as usize])),
        8 => header(&mut lent.rules, 4, *random.pick(&[0, 65, 65_536 + case.k, u32::MAX as usize])),
        9 => [0, 4].iter().for_each(|&at| header(&mut lent.rules, at, u32::MAX as usize)),
        10 => lent.node_table.truncate(shorter(case.node_table_len(), random)),
        _ => lent.state_table.truncate(shorter(case.state_table_len(), random)),
    }
}

/// 10^18 assignments pass, those of 18 nodes with ten labels, and 64 nodes with one; with one node more of ten labels 26.
pub fn at_the_limit(k: usize, random: &mut Random, counts: &mut Counts) {
    let case = Case::new(*random.pick(&SHAPES), 40, random.between(1, 16), k, random);
    let most = if k == 1 { 64 } else { 18 };
    let (nodes, _) = case.list(most + 1, random);
    let lent = Lent::built(&case, random);
    let told = calls::count(&lent.inputs(), &nodes[..most], case.s, random).expect("at the limit");
    assert_eq!(told.0.iter().sum::<u64>(), (k as u64).pow(most as u32));
    let more = calls::count(&lent.inputs(), &nodes, case.s, random).err();
    assert_eq!(more, Some(if k == 1 { 12 } else { 26 }), "one node more");
    counts.add(format!("at the limit, {} labels", k));
}

/// Inputs that are not as built: what the rule gives on bytes below S, else 18 with a cause or what plain Rust tells.
pub fn altered(kind: Alteration, case: Case, random: &mut Random, counts: &mut Counts) {
    let most = most_nodes(case.k);
    let m = random.between(0, most.min(12));
    let (nodes, _) = case.list(m, random);
    let mut lent = Lent::built(&case, random);
    kind.lay(&mut lent, &case, random);
    let answer = calls::count(&lent.inputs(), &nodes, case.s.max(16), random);
    if matches!(kind, Alteration::BytesBelow | Alteration::Excess) {
        let told = answer.as_ref().expect("bytes below S");
        assert_eq!(told.0.iter().sum::<u64>(), (case.k as u64).pow(nodes.len() as u32), "K to the power m");
    }
    counts.add(match answer {
        Ok(_) => format!("{:?}: answered", kind),
        Err(number) => format!("{:?}: refused {}", kind, number),
    });
}

/// Node tables that are random numbers inside the plan: parts may be read several times, and counts stop at the limit.
pub fn tangled(random: &mut Random, counts: &mut Counts) {
    let case = Case::new(Shape::Uniform, random.between(2, 30), random.between(1, 4), 10, random);
    let (nodes, _) = case.list(random.between(1, 18), random);
    let mut lent = Lent::built(&case, random);
    damage(&mut lent.node_table, *random.pick(&[2, 10, 40]), random, |random| random.below(case.n) as u16);
    counts.add(match calls::count(&lent.inputs(), &nodes, 16, random) {
        Ok((told, _)) if told.contains(&MOST_ASSIGNMENTS) => "a count at the limit".to_string(),
        Ok(_) => "answered".to_string(),
        Err(number) => format!("refused {}", number),
    });
}
