//! Two rule tables merged (document 02, S-6): "one table that clears exactly the plans that both clear". The states are
//! pairs, listed one by one; a pair's number is its place in the list.

use crate::formats::{read_rules, MAX_STATES};
use crate::write;

/// A state of the first table and one of the second.
type Pair = (u8, u8);

/// "State p of the first and q of the second become p×S2+q": all pairs, by p, then by q.
fn pairs(s1: usize, s2: usize) -> Vec<Pair> {
    let mut all = Vec::new();
    for p in 0..s1 as u8 {
        for q in 0..s2 as u8 {
            all.push((p, q));
        }
    }
    all
}

/// The merged table, or the refusal: "6 to 9 for the first table, 6 to 9 for the second, then 23 for unequal K, 24 when the
/// product of the state counts exceeds 16, and 11 for a short output". Of the output only the length matters.
pub fn merge(first: &[u8], second: &[u8], output_len: usize) -> Result<Vec<u8>, u32> {
    let a = read_rules(first)?;
    let b = read_rules(second)?;
    let pairs = pairs(a.states, b.states);
    if a.labels != b.labels {
        return Err(23);
    }
    if pairs.len() > MAX_STATES as usize {
        return Err(24);
    }
    let number = |pair: Pair| pairs.iter().position(|&other| other == pair).expect("a pair of states") as u8;
    let labels = || 0..a.labels as u8;
    let leaf: Vec<u8> = labels().map(|l| number((a.leaf(l), b.leaf(l)))).collect();
    let mut inner = Vec::new();
    for &(p, q) in &pairs {
        for l in labels() {
            for &(p_right, q_right) in &pairs {
                inner.push(number((a.inner(p, l, p_right), b.inner(q, l, q_right))));
            }
        }
    }
    let marks: Vec<u8> = pairs.iter().map(|&(p, q)| (a.accepts(p) && b.accepts(q)) as u8).collect();
    let merged = write::rules(pairs.len(), a.labels, &leaf, &inner, &marks);
    if output_len < merged.len() {
        return Err(11);
    }
    Ok(merged)
}
