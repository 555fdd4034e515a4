//! The five calls of the panel session, on the record's bytes.

use crate::checks::number;
use crate::fresh::list;
use crate::question::Lent;
use crate::record::{self, double, word, Head, ANSWERED, HANDLED, LABELS, LAST, LAST_PASSED, LINKS, LOADED, M, NODES};
use crate::record::{PARTS, PASSED, ROOTS, RUNNING, STATES, YES};
use crate::rules::build;

#[derive(Clone, Copy, Debug, PartialEq, Eq)]
pub struct Answered {
    pub state: u8,
    pub yes: bool,
    pub parts: u32,
    pub links: u32,
    pub passed: u32,
}

/// The record's counts, if it is in one of these states.
fn made_in(record: &[u8], phases: &[u8]) -> Result<Head, u32> {
    let head = record::head(record)?;
    if phases.contains(&head.phase) {
        Ok(head)
    } else {
        Err(1)
    }
}

pub fn load(
    record: &mut [u8],
    plan: &[u8],
    rules: &[u8],
    node_table: &mut [u16],
    state_table: &mut [u8],
) -> Result<(), u32> {
    made_in(record, &[record::EMPTY, LOADED, ANSWERED])?;
    build(plan, rules, node_table, state_table)?;
    record.fill(0);
    record[0] = LOADED;
    record[2] = number(rules, 0) as u8;
    record[3] = number(rules, 4) as u8;
    record[4..6].copy_from_slice(&(number(plan, 0) as u16).to_le_bytes());
    Ok(())
}

pub fn start(
    record: &mut [u8],
    plan: &[u8],
    rules: &[u8],
    node_table: &[u16],
    state_table: &[u8],
    nodes: &[u16],
    labels: &[u8],
) -> Result<u32, u32> {
    let head = made_in(record, &[LOADED, ANSWERED])?;
    let lent = Lent::new((head.n, head.s, head.k), plan, rules, node_table, state_table)?;
    list(nodes, labels, head.n, head.k)?;
    lent.sound(plan, rules, node_table, state_table)?;
    let (left, count) = lent.left(nodes, labels);
    let roots = lent.roots(&left[..count])?;
    let roots = roots.as_slice();
    record[0] = RUNNING;
    record[YES] = 0;
    record[M..LAST].fill(0);
    record[PASSED..LAST_PASSED].fill(0);
    record[M] = nodes.len() as u8;
    record[PARTS] = roots.len() as u8;
    put_words(&mut record[NODES..], nodes);
    record[LABELS..LABELS + labels.len()].copy_from_slice(labels);
    put_words(&mut record[ROOTS..], roots);
    Ok(roots.len() as u32)
}

fn put_words(bytes: &mut [u8], words: &[u16]) {
    for (to, v) in bytes.chunks_exact_mut(2).zip(words) {
        to.copy_from_slice(&v.to_le_bytes());
    }
}

/// Whether that was the last part.
pub fn advance(
    record: &mut [u8],
    plan: &[u8],
    rules: &[u8],
    node_table: &[u16],
    state_table: &[u8],
) -> Result<bool, u32> {
    let head = made_in(record, &[RUNNING])?;
    let lent = Lent::new((head.n, head.s, head.k), plan, rules, node_table, state_table)?;
    let v = word(record, ROOTS + 2 * head.handled) as usize;
    let listed = (0..head.m).rev().find(|&i| word(record, NODES + 2 * i) as usize == v);
    let a = listed.map_or(lent.labels[v], |i| record[LABELS + i]) as usize;
    let (earlier, states) = (&record[ROOTS..ROOTS + 2 * head.handled], &record[STATES..STATES + head.handled]);
    let part = lent.part(v, a, earlier, states)?;
    let (links, passed) = (head.links + part.links, head.passed + part.passed);
    record[STATES + head.handled] = part.state;
    record[HANDLED] += 1;
    record[LINKS..LINKS + 4].copy_from_slice(&links.to_le_bytes());
    record[PASSED..LAST_PASSED].copy_from_slice(&passed.to_le_bytes());
    let finished = head.handled + 1 == head.parts;
    if finished {
        record[0] = ANSWERED;
        record[YES] = u8::from(lent.marks[part.state as usize] == 1);
        let head = Head { handled: head.parts, links, ..head };
        let answer = record::answer(record, &head);
        record[LAST..PASSED].copy_from_slice(&answer);
        record[LAST_PASSED..].copy_from_slice(&passed.to_le_bytes());
    }
    Ok(finished)
}

pub fn cancel(record: &mut [u8]) -> Result<(), u32> {
    made_in(record, &[RUNNING])?;
    record[0] = LOADED;
    record[M..LAST].fill(0);
    record[PASSED..LAST_PASSED].fill(0);
    Ok(())
}

pub fn read(record: &[u8]) -> Result<Answered, u32> {
    record::head(record)?;
    if record[LAST] == 0 {
        return Err(1);
    }
    let (links, passed) = (double(record, LAST + 4), double(record, LAST_PASSED));
    let (state, yes, parts) = (record[LAST + 1], record[LAST + 2] == 1, record[LAST + 3] as u32);
    Ok(Answered { state, yes, parts, links, passed })
}
