//! Whole questions outside the session: on tables as built against the session and a fresh run, on other tables against
//! the rule or plain Rust, and each refusal.

use super::any_case;
use super::choices::{wrong_length, WRONG_LENGTHS};
use super::questions::Asked;
use crate::alterations::{Alteration, ALTERATIONS};
use crate::counts::Counts;
use crate::faults::repeat_nodes;
use crate::inputs::Case;
use crate::panel::Lent;
use crate::random::Random;
use crate::shapes::SHAPES;
use crate::slices;
use crate::trace;
use reference::causes;
use reference::panel::{Inputs, Outcome};
use reference::whole::{checks, Said};

/// The checks of a question, in their order.
pub const CHECKS: [u32; 5] = [17, 12, 13, 14, 18];

pub fn round(random: &mut Random, counts: &mut Counts) {
    as_the_session(any_case(random), random, counts);
    for pair in CHECKS.windows(2) {
        refused(pair, random, counts);
    }
    let any: Vec<u32> = CHECKS.iter().copied().filter(|_| random.below(3) == 0).collect();
    refused(&any, random, counts);
    for _ in 0..4 {
        altered(*random.pick(&ALTERATIONS), Case::random(30, random), random, counts);
    }
}

/// A question, compared: with the reference, where the documents say what is told, else an 18 with its cause; and with plain
/// Rust in every case.
pub fn ask(inputs: &Inputs, nodes: &[u16], labels: &[u8], random: &mut Random) -> Result<Outcome, u32> {
    let Inputs { plan, rules, node_table, state_table } = *inputs;
    let unset = [(); 5].map(|()| random.word() as u32 | 1 << 20);
    let mut out = unset;
    let number = slices::ask(plan, rules, node_table, state_table, nodes, labels, &mut out);
    let plain = yardstick::ask_whole(plan, rules, node_table, state_table, nodes, labels);
    assert_eq!((number, out), (plain.err().unwrap_or(0), plain.unwrap_or(unset)), "plain Rust's answer");
    let [state, yes, parts, links, passed] = out;
    let told = Outcome { state, yes: yes == 1, parts, links, passed };
    match reference::whole::ask(inputs, nodes, labels) {
        Said::Refused(wanted) => assert_eq!(number, wanted, "the answer of the question"),
        Said::Answered(wanted) => assert_eq!((number, told), (0, wanted), "the answer of the question"),
        Said::Left => {
            let sizes = checks(inputs, nodes, labels).expect("checked before");
            assert!(number == 0 || number == 18, "the answer of the question is {}", number);
            assert!(number != 18 || causes::anywhere(sizes, inputs, nodes, labels), "18 without a cause");
        }
    }
    if number == 0 {
        Ok(told)
    } else {
        Err(number)
    }
}

/// On tables as built: what the session reads, which is held to a fresh run.
pub fn as_the_session(case: Case, random: &mut Random, counts: &mut Counts) {
    let m = *random.pick(&[0, 1, 2, 3, 8, 64]);
    let (mut nodes, mut labels) = case.list(m, random);
    if random.below(2) == 0 {
        repeat_nodes(&mut nodes, &mut labels, case.k, random);
    }
    let mut lent = Lent::built(&case, random);
    Alteration::Excess.lay(&mut lent, &case, random);
    let told = ask(&lent.inputs(), &nodes, &labels, random).expect("accepted");
    let session = Asked::new(case, random).ask(&nodes, &labels, random);
    assert_eq!(told, session, "the session's answer");
    counts.add(format!("links: {}", if told.links == 0 { "none" } else { "some" }));
}

/// A question with these faults, which stand in the order of the checks: the first is given.
pub fn refused(faults: &[u32], random: &mut Random, counts: &mut Counts) {
    trace::say(format!("faults {:?}", faults));
    let case =
        Case::new(*random.pick(&SHAPES), random.between(2, 40), random.between(1, 16), random.between(1, 63), random);
    let (mut nodes, mut labels) = case.list(random.between(1, 8), random);
    let mut lent = Lent::built(&case, random);
    for &fault in faults.iter().rev() {
        match fault {
            18 => lent.rules[20..case.rules.len() - case.s].fill(case.s as u8),
            14 => {
                let at = random.below(labels.len());
                labels[at] = random.between(case.k, 255) as u8;
            }
            13 => {
                let at = random.below(nodes.len());
                nodes[at] = random.between(case.n, 65_535) as u16;
            }
            12 => match random.below(2) {
                0 => labels.push(0),
                _ => {
                    let many = random.between(65, 200);
                    nodes.resize(many, 0);
                    labels.resize(many, 0);
                }
            },
            _ => wrong_length(&mut lent, &case, random.below(WRONG_LENGTHS), random),
        }
    }
    let answer = ask(&lent.inputs(), &nodes, &labels, random).err();
    assert_eq!(answer, faults.first().copied(), "the question with {:?}", faults);
    counts.add(answer.map_or("accepted".to_string(), |number| format!("refused {}", number)));
}

/// Inputs that are not as built: what the rule gives on bytes below S, else 18 with a cause or what plain Rust tells.
pub fn altered(kind: Alteration, case: Case, random: &mut Random, counts: &mut Counts) {
    let m = random.between(0, 12);
    let (nodes, labels) = case.list(m, random);
    let mut lent = Lent::built(&case, random);
    kind.lay(&mut lent, &case, random);
    let answer = ask(&lent.inputs(), &nodes, &labels, random);
    let again = ask(&lent.inputs(), &nodes, &labels, random);
    assert_eq!(answer, again, "the same again");
    counts.add(match answer {
        Ok(_) => format!("{:?}: answered", kind),
        Err(number) => format!("{:?}: refused {}", kind, number),
    });
}
