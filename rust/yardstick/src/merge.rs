//! Two rule tables merged: rows of the one against rows of the other.

use crate::checks::{self, Rules};

pub fn merge(first: &[u8], second: &[u8], merged: &mut [u8]) -> Result<(), u32> {
    let a = checks::rules(first)?;
    let b = checks::rules(second)?;
    if a.k != b.k {
        return Err(23);
    }
    let (s, k) = (a.s * b.s, a.k);
    if s > 16 {
        return Err(24);
    }
    let marks = 20 + k + s * k * s;
    if merged.len() < marks + s {
        return Err(11);
    }
    for (i, number) in [s, k, 20, 20 + k, marks].into_iter().enumerate() {
        merged[4 * i..4 * i + 4].copy_from_slice(&(number as u32).to_le_bytes());
    }
    let (states, after) = merged[20..marks + s].split_at_mut(marks - 20);
    let (leaf, inner) = states.split_at_mut(k);
    for ((to, &p), &q) in leaf.iter_mut().zip(a.leaf).zip(b.leaf) {
        *to = p * b.s as u8 + q;
    }
    fill_inner(&a, &b, inner);
    for (p, &mark) in a.marks.iter().enumerate() {
        for (q, &other) in b.marks.iter().enumerate() {
            after[p * b.s + q] = mark & other;
        }
    }
    Ok(())
}

/// For each left state and label the right states by rows: one of the first table's for each of the second's whole.
fn fill_inner(a: &Rules, b: &Rules, inner: &mut [u8]) {
    let (k, s2) = (a.k, b.s as u8);
    let mut rows = inner.chunks_exact_mut(b.s);
    for p in 0..a.s {
        for q in 0..b.s {
            for l in 0..k {
                let of_a = &a.inner[(p * k + l) * a.s..(p * k + l + 1) * a.s];
                let of_b = &b.inner[(q * k + l) * b.s..(q * k + l + 1) * b.s];
                for &x in of_a {
                    let row = rows.next().expect("as many rows as there are");
                    for (to, &y) in row.iter_mut().zip(of_b) {
                        *to = x * s2 + y;
                    }
                }
            }
        }
    }
}
