//! The full check of rule tables in the fastest scalar form known without `unsafe`: every test of two children is made at their
//! parent; inner nodes of a block are listed without a branch on the kind; differences are or-ed, and tested once a block; what
//! leads outside is clamped, since another test then fails anyway. For 2, 4, 8 and 16 states a row's length is a constant, and a
//! state, which is known to be below it, is taken by the mask, so that no lookup in a row is tested.
//!
//! What Rust without `unsafe` cannot drop here are the tests of the other indices: one for a node's four numbers, for each row,
//! for each state and for each entry of a left child's step (a column of the rules).

use crate::checks::{all_below, Plan, Rules};
use crate::node_tables::{self, DEPTH, JUMP, SIZE};

const BLOCK: usize = 1024;

/// Whether both tables, cut to their lengths, are what the build writes.
pub fn matches(plan: &Plan, rules: &Rules, node_table: &[u16], state_table: &[u8]) -> bool {
    let (s, root) = (rules.s, plan.n - 1);
    let identity = (0..s).all(|q| state_table[(s + 1) * root + 1 + q] == q as u8);
    if !all_below(state_table, s) || node_table[4 * root..4 * root + 3] != node_tables::root(plan.n) || !identity {
        return false;
    }
    match s {
        2 => blocks(2, plan, rules, node_table, state_table, constant_rows::<2>),
        4 => blocks(4, plan, rules, node_table, state_table, constant_rows::<4>),
        8 => blocks(8, plan, rules, node_table, state_table, constant_rows::<8>),
        16 => blocks(16, plan, rules, node_table, state_table, constant_rows::<16>),
        _ => blocks(s, plan, rules, node_table, state_table, rows),
    }
}

/// The two maps of a pair and where their steps begin; the maps of the parent and of its jump where the children's jump is far.
struct Maps<'a> {
    right: &'a [u8],
    left: &'a [u8],
    of_right: &'a [u8],
    of_left: &'a [u8],
    stride: usize,
    far: Option<(&'a [u8], &'a [u8])>,
}

#[inline(always)]
fn blocks(
    s: usize,
    plan: &Plan,
    rules: &Rules,
    node_table: &[u16],
    state_table: &[u8],
    rows_differ: impl Fn(Maps) -> u8,
) -> bool {
    let (row, n) = (s + 1, plan.n);
    let (kinds, labels) = (&plan.kinds[..n], &plan.labels[..n]);
    let (node_table, state_table) = (&node_table[..4 * n], &state_table[..row * n]);
    let mut list = [0u16; BLOCK];
    for start in (0..n).step_by(BLOCK) {
        let mut count = 0;
        let mut bad = false;
        for v in start..n.min(start + BLOCK) {
            list[count % BLOCK] = v as u16;
            count += kinds[v] as usize;
            let leaf = (node_table[4 * v + SIZE] == 1) & (state_table[row * v] == rules.leaf[labels[v] as usize]);
            bad |= (kinds[v] == 0) & !leaf;
        }
        let mut differences = 0;
        for &v in &list[..count] {
            let v = v as usize;
            bad |= numbers_differ(node_table, n, v);
            differences |= pair(s, rules, labels[v] as usize, node_table, state_table, v, &rows_differ);
        }
        if bad || differences != 0 {
            return false;
        }
    }
    true
}

#[inline(always)]
fn numbers(node_table: &[u16], v: usize) -> [u16; 4] {
    node_table[4 * v..4 * v + 4].try_into().unwrap()
}

/// A number that may lead outside, made safe.
#[inline(always)]
fn inside(x: u16, n: usize) -> usize {
    if (x as usize) < n {
        x as usize
    } else {
        0
    }
}

#[inline(always)]
fn left_of(right: usize, size: u16) -> usize {
    right.saturating_sub(size as usize)
}

#[inline(always)]
fn numbers_differ(node_table: &[u16], n: usize, v: usize) -> bool {
    let [_, jump, depth, size] = numbers(node_table, v);
    let [right_parent, right_jump, right_depth, right_size] = numbers(node_table, v - 1);
    let [left_parent, left_jump, left_depth, left_size] = numbers(node_table, left_of(v - 1, right_size));
    let j = inside(jump, n);
    let (over, e) = (node_table[4 * j + JUMP], node_table[4 * j + DEPTH] as u32);
    let f = node_table[4 * inside(over, n) + DEPTH] as u32;
    let to = if depth as u32 + f == e + e { over } else { v as u16 };
    let of_child = [v as u16, to, depth.wrapping_add(1)];
    ([right_parent, right_jump, right_depth] != of_child)
        | ([left_parent, left_jump, left_depth] != of_child)
        | (size as u32 != left_size as u32 + right_size as u32 + 1)
}

#[inline(always)]
fn pair(
    s: usize,
    rules: &Rules,
    a: usize,
    node_table: &[u16],
    state_table: &[u8],
    v: usize,
    rows_differ: &impl Fn(Maps) -> u8,
) -> u8 {
    let (row, n, right) = (s + 1, node_table.len() / 4, v - 1);
    let left = left_of(right, node_table[4 * right + SIZE]);
    let map = |u: usize| &state_table[row * u + 1..row * u + 1 + s];
    let (p, q) = (state_table[row * left] as usize, state_table[row * right] as usize);
    let of_right = &rules.inner[(p * rules.k + a) * s..][..s];
    let near = node_table[4 * right + JUMP] as usize == v;
    let rows = rows_differ(Maps {
        right: map(right),
        left: map(left),
        of_right,
        of_left: &rules.inner[a * s + q..],
        stride: rules.k * s,
        far: if near { None } else { Some((map(v), map(inside(node_table[4 * v + JUMP], n)))) },
    });
    rows | (of_right[q] ^ state_table[row * v])
}

#[inline(always)]
fn rows(maps: Maps) -> u8 {
    let mut bad = 0;
    for (i, (x, y)) in maps.right.iter().zip(maps.left).enumerate() {
        let (p, q) = (maps.of_right[i], maps.of_left[i * maps.stride]);
        bad |= match maps.far {
            None => (x ^ p) | (y ^ q),
            Some((first, second)) => {
                (x ^ second[first[p as usize] as usize]) | (y ^ second[first[q as usize] as usize])
            }
        };
    }
    bad
}

#[inline(always)]
fn row<const S: usize>(r: &[u8]) -> &[u8; S] {
    r.try_into().unwrap()
}

/// For S a power of 2.
#[inline(always)]
fn constant_rows<const S: usize>(maps: Maps) -> u8 {
    let (right, left, of_right) = (row::<S>(maps.right), row::<S>(maps.left), row::<S>(maps.of_right));
    let of_left = &maps.of_left[..(S - 1) * maps.stride + 1];
    let mut bad = 0;
    match maps.far {
        None => {
            for i in 0..S {
                bad |= (right[i] ^ of_right[i]) | (left[i] ^ of_left[i * maps.stride]);
            }
        }
        Some((first, second)) => {
            let (first, second) = (row::<S>(first), row::<S>(second));
            let on = |x: u8| second[first[x as usize % S] as usize % S];
            for i in 0..S {
                bad |= (right[i] ^ on(of_right[i])) | (left[i] ^ on(of_left[i * maps.stride]));
            }
        }
    }
    bad
}
