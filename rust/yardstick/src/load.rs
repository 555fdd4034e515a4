//! The build of rule tables in the fastest scalar form known without `unsafe`: one pass up (every node a leaf first, then the inner
//! ones, listed without a branch on the kind) and one pass down, both children of an inner node at its turn. In a block the pairs
//! whose jump is the parent are written first and the far ones then, each list made without a branch. For 2, 4, 8 and 16 states a
//! row's length is a constant and a state is taken by the mask; on large plans the columns of the rules are laid out as rows first.
//!
//! What Rust without `unsafe` cannot drop are the tests of the other indices: one for a node's four numbers, for each row and for
//! each state.

use crate::checks::{Plan, Rules};
use crate::node_tables::{self, DEPTH, JUMP, SIZE};

const BLOCK: usize = 1024;

/// Both tables, into buffers cut to their lengths.
pub fn build(plan: &Plan, rules: &Rules, node_table: &mut [u16], state_table: &mut [u8]) {
    let (s, root) = (rules.s, plan.n - 1);
    up(plan, rules, node_table, state_table);
    node_table[4 * root..4 * root + 3].copy_from_slice(&node_tables::root(plan.n));
    for q in 0..s {
        state_table[(s + 1) * root + 1 + q] = q as u8;
    }
    match s {
        2 => down::<2>(2, plan, rules, &Columns::strided(rules), node_table, state_table),
        4 => down::<4>(4, plan, rules, &Columns::strided(rules), node_table, state_table),
        8 => down::<8>(8, plan, rules, &Columns::strided(rules), node_table, state_table),
        16 if plan.n < 4 * 16 * rules.k => {
            down::<16>(16, plan, rules, &Columns::strided(rules), node_table, state_table)
        }
        16 => {
            let mut turned = [0; 16 * 64 * 16];
            down::<16>(16, plan, rules, &Columns::turned(rules, &mut turned), node_table, state_table)
        }
        _ => down::<0>(s, plan, rules, &Columns::strided(rules), node_table, state_table),
    }
}

/// The states for a label and a right state, by the left state.
struct Columns<'a> {
    entries: &'a [u8],
    turned: bool,
    stride: usize,
}

impl<'a> Columns<'a> {
    fn strided(rules: &Rules<'a>) -> Columns<'a> {
        Columns { entries: rules.inner, turned: false, stride: rules.k * rules.s }
    }

    /// Each column as a row.
    fn turned(rules: &Rules, room: &'a mut [u8]) -> Columns<'a> {
        let (s, k) = (rules.s, rules.k);
        for (i, row) in rules.inner.chunks_exact(s).enumerate() {
            let (p, a) = (i / k, i % k);
            for (q, &x) in row.iter().enumerate() {
                room[(q * k + a) * s + p] = x;
            }
        }
        Columns { entries: room, turned: true, stride: 1 }
    }

    #[inline(always)]
    fn start(&self, s: usize, k: usize, a: usize, q: usize) -> usize {
        if self.turned {
            (q * k + a) * s
        } else {
            a * s + q
        }
    }
}

fn up(plan: &Plan, rules: &Rules, node_table: &mut [u16], state_table: &mut [u8]) {
    let (s, k, row, n) = (rules.s, rules.k, rules.s + 1, plan.n);
    let (kinds, labels) = (&plan.kinds[..n], &plan.labels[..n]);
    let (node_table, state_table) = (&mut node_table[..4 * n], &mut state_table[..row * n]);
    let mut list = [0u16; BLOCK];
    for start in (0..n).step_by(BLOCK) {
        let mut count = 0;
        for v in start..n.min(start + BLOCK) {
            list[count % BLOCK] = v as u16;
            count += kinds[v] as usize;
            node_table[4 * v + SIZE] = 1;
            state_table[row * v] = rules.leaf[labels[v] as usize];
        }
        for &v in &list[..count] {
            let v = v as usize;
            let right_size = node_table[4 * v - 4 + SIZE];
            let left = v - 1 - right_size as usize;
            node_table[4 * v + SIZE] = 1 + right_size + node_table[4 * left + SIZE];
            let (p, q) = (state_table[row * left] as usize, state_table[row * v - row] as usize);
            state_table[row * v] = rules.inner[(p * k + labels[v] as usize) * s + q];
        }
    }
}

/// A pair to write: the parent, the left child, where both steps begin, and the parent's jump.
#[derive(Clone, Copy, Default)]
struct Pair {
    parent: u16,
    left: u16,
    jump: u16,
    row: u16,
    column: u16,
}

#[inline(always)]
fn down<const S: usize>(
    s: usize,
    plan: &Plan,
    rules: &Rules,
    columns: &Columns,
    node_table: &mut [u16],
    state_table: &mut [u8],
) {
    let (k, row, n) = (rules.k, s + 1, plan.n);
    let (kinds, labels) = (&plan.kinds[..n], &plan.labels[..n]);
    let (node_table, state_table) = (&mut node_table[..4 * n], &mut state_table[..row * n]);
    let mut list = [0u16; BLOCK];
    let (mut near, mut far) = ([Pair::default(); BLOCK], [Pair::default(); BLOCK]);
    let mut end = n;
    while end > 0 {
        let start = (end - 1) / BLOCK * BLOCK;
        let mut count = 0;
        for (v, &kind) in (start..).zip(&kinds[start..end]) {
            list[count % BLOCK] = v as u16;
            count += kind as usize;
        }
        let (mut nears, mut fars) = (0, 0);
        for &v in list[..count].iter().rev() {
            let (v, right) = (v as usize, v as usize - 1);
            let left = right - node_table[4 * right + SIZE] as usize;
            let (jump, depth) = (node_table[4 * v + JUMP], node_table[4 * v + DEPTH]);
            let (over, e) = (node_table[4 * jump as usize + JUMP], node_table[4 * jump as usize + DEPTH] as u32);
            let is_far = depth as u32 + node_table[4 * over as usize + DEPTH] as u32 == e + e;
            let to = if is_far { over } else { v as u16 };
            for u in [right, left] {
                node_table[4 * u..4 * u + 3].copy_from_slice(&[v as u16, to, depth + 1]);
            }
            let a = labels[v] as usize;
            let (p, q) = (state_table[row * left] as usize, state_table[row * right] as usize);
            let (at, column) = ((p * k + a) * s, columns.start(s, k, a, q));
            if S == 2 {
                two(rules, columns, state_table, [v, left, jump as usize, at, column], is_far);
                continue;
            }
            let pair = Pair { parent: v as u16, left: left as u16, jump, row: at as u16, column: column as u16 };
            near[nears % BLOCK] = pair;
            far[fars % BLOCK] = pair;
            nears += !is_far as usize;
            fars += is_far as usize;
        }
        for pair in &near[..nears] {
            near_rows::<S>(s, rules, columns, state_table, pair);
        }
        for pair in &far[..fars] {
            far_rows::<S>(s, rules, columns, state_table, pair);
        }
        end = start;
    }
}

/// Both rows of two states, without a branch.
#[inline(always)]
fn two(
    rules: &Rules,
    columns: &Columns,
    state_table: &mut [u8],
    [v, left, jump, at, column]: [usize; 5],
    is_far: bool,
) {
    let map = |u: usize| [state_table[3 * u + 1], state_table[3 * u + 2]];
    let (of_v, of_jump, far) = (map(v), map(jump), is_far as u8);
    let (m0, m1) = (of_jump[of_v[0] as usize & 1] & far, of_jump[of_v[1] as usize & 1] | (1 - far));
    let through = |x: u8| m0 ^ (x & (m0 ^ m1));
    let step = &rules.inner[at..at + 2];
    state_table[3 * v - 2] = through(step[0]);
    state_table[3 * v - 1] = through(step[1]);
    state_table[3 * left + 1] = through(columns.entries[column]);
    state_table[3 * left + 2] = through(columns.entries[column + columns.stride]);
}

/// Of a constant length where S is not 0.
#[inline(always)]
fn length<const S: usize>(s: usize) -> usize {
    if S == 0 {
        s
    } else {
        S
    }
}

#[inline(always)]
fn near_rows<const S: usize>(s: usize, rules: &Rules, columns: &Columns, state_table: &mut [u8], pair: &Pair) {
    let s = length::<S>(s);
    let (right, left) = ((pair.parent as usize - 1) * (s + 1) + 1, pair.left as usize * (s + 1) + 1);
    state_table[right..right + s].copy_from_slice(&rules.inner[pair.row as usize..][..s]);
    let row = &mut state_table[left..left + s];
    if columns.turned {
        row.copy_from_slice(&columns.entries[pair.column as usize..][..s]);
    } else {
        let entries = &columns.entries[pair.column as usize..];
        for (q, to) in row.iter_mut().enumerate() {
            *to = entries[q * columns.stride];
        }
    }
}

#[inline(always)]
fn far_rows<const S: usize>(s: usize, rules: &Rules, columns: &Columns, state_table: &mut [u8], pair: &Pair) {
    let s = length::<S>(s);
    let mask = if S == 0 { 15 } else { S - 1 };
    let map = |u: usize| &state_table[u * (s + 1) + 1..][..s];
    let (first, second) = (map(pair.parent as usize), map(pair.jump as usize));
    let mut through = [0; 16];
    for q in 0..s {
        through[q] = second[first[q] as usize & mask];
    }
    let (right, left) = ((pair.parent as usize - 1) * (s + 1) + 1, pair.left as usize * (s + 1) + 1);
    for (to, &x) in state_table[right..right + s].iter_mut().zip(&rules.inner[pair.row as usize..][..s]) {
        *to = through[x as usize & 15];
    }
    let row = &mut state_table[left..left + s];
    if columns.turned {
        for (to, &x) in row.iter_mut().zip(&columns.entries[pair.column as usize..][..s]) {
            *to = through[x as usize & 15];
        }
    } else {
        let entries = &columns.entries[pair.column as usize..];
        for (q, to) in row.iter_mut().enumerate() {
            *to = through[entries[q * columns.stride] as usize & 15];
        }
    }
}
