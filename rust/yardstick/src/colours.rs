//! Colour tables and descents by them, as one would write them in plain fast Rust: for any count of states. Words
//! (`colour_branch`) and sets of states (`colour_rules`) use these.
//!
//! Numbers: for each colour a table of four numbers a node, parent, jump and depth among the nodes where the colour falls,
//! and the colour that it lands on; the lowest colour's is the plan's own node table. Bytes: for each node its states in the
//! order of their colours.

use crate::node_tables::{self, DEPTH, JUMP, PARENT, SIZE};

/// The place of the colour that a colour lands on, in its table.
pub const LANDS: usize = SIZE;

/// For a parent of depth d: all bits where its jump and the jump after it are equally long, so that its children's jump
/// leads over both; else 0. Deeper parents compare depths.
static FAR: [u16; 1023] = far_masks();

const fn far_masks() -> [u16; 1023] {
    let (mut masks, mut jumps, mut d) = ([0; 1023], [0usize; 1024], 0);
    while d < 1023 {
        let j = jumps[d];
        let far = d - j == j - jumps[j];
        masks[d] = if far { u16::MAX } else { 0 };
        jumps[d + 1] = if far { jumps[j] } else { d };
        d += 1;
    }
    masks
}

/// The state q where it is free, else the lowest free one; it is taken.
#[inline(always)]
fn take(free: &mut u16, q: usize) -> usize {
    let taken = if *free >> q & 1 == 1 { q } else { free.trailing_zeros() as usize } & 15;
    *free &= !(1 << taken);
    taken
}

/// Parent, jump and depth of node v among the nodes where colour c falls, below its parent p in the plan. Chosen by masks:
/// whether a colour falls is hard to predict.
#[inline(always)]
fn row_below(table: &[u16], c: usize, v: usize, p: usize) -> [u16; 3] {
    let above = &table[4 * p..][..4];
    let (up, jump, depth) = (above[PARENT], above[JUMP], above[DEPTH]);
    let over = &table[4 * jump as usize..][..4];
    let beyond = over[JUMP];
    let far = match FAR.get(depth as usize) {
        Some(&mask) => mask,
        None => u16::from(depth - over[DEPTH] == over[DEPTH] - table[4 * beyond as usize + DEPTH]).wrapping_neg(),
    };
    let falls = u16::from(usize::from(above[LANDS]) < c).wrapping_neg();
    let none = u16::from(depth == 0).wrapping_neg() & !falls;
    let (v, p) = (v as u16, p as u16);
    let choose = |mask: u16, yes: u16, no: u16| no ^ ((no ^ yes) & mask);
    let to = choose(far, beyond, p);
    [choose(none, v, choose(falls, p, up)), choose(none, v, choose(falls, to, jump)), depth.wrapping_sub(falls)]
}

/// Node v's copy, what each of its colours lands on, and its row in the table of each colour but the lowest; `step` has the
/// state that each state above leads to, `above` the parent's copy. For the root `parent` is none.
#[inline(always)]
pub fn node(
    step: &[u8; 16],
    above: &[u8],
    copy: &mut [u8],
    numbers: &mut [u16],
    n: usize,
    v: usize,
    parent: Option<usize>,
) {
    let (mut owner, mut free) = ([0u8; 16], u16::MAX);
    for (c, ((&state, to), table)) in above.iter().zip(copy).zip(numbers.chunks_exact_mut(4 * n)).enumerate() {
        let q = usize::from(step[usize::from(state & 15)] & 15);
        let taken = take(&mut free, q);
        owner[taken] = c as u8;
        *to = taken as u8;
        if c > 0 {
            let [up, jump, depth] = match parent {
                Some(p) => row_below(table, c, v, p),
                None => node_tables::root(n),
            };
            table[4 * v..][..4].copy_from_slice(&[up, jump, depth, u16::from(owner[q])]);
        }
    }
}

/// The plan's node table: numbers of the lowest colour.
pub fn node_table(kinds: &[u8], numbers: &mut [u16]) {
    let n = kinds.len();
    for v in 0..n {
        if kinds[v] == 0 {
            numbers[4 * v + SIZE] = 1;
        } else {
            let (l, r) = node_tables::children(numbers, v);
            numbers[4 * v + SIZE] = 1 + numbers[4 * l + SIZE] + numbers[4 * r + SIZE];
            numbers[4 * l + PARENT] = v as u16;
            numbers[4 * r + PARENT] = v as u16;
        }
    }
    numbers[4 * (n - 1)..4 * (n - 1) + 3].copy_from_slice(&node_tables::root(n));
    for v in (0..n - 1).rev() {
        let jump = node_tables::jump(numbers, numbers[4 * v + PARENT] as usize);
        numbers[4 * v + JUMP] = jump.to;
        numbers[4 * v + DEPTH] = jump.depth;
    }
}

/// What a descent ends with.
pub struct Way {
    pub colour: usize,
    pub drops: u32,
    pub links: u32,
}

/// From colour c in the copy of node `from`, or in the top copy, down to the copy of node l.
#[inline]
pub fn descend(numbers: &[u16], n: usize, from: Option<usize>, l: usize, c: usize) -> Result<Way, u32> {
    let (mut place, mut way) = (from, Way { colour: c, drops: 0, links: 0 });
    while way.colour > 0 {
        let c = way.colour as u16;
        let table = &numbers[way.colour * 4 * n..(way.colour + 1) * 4 * n];
        let row = |v: usize| &table[4 * v..4 * v + 4];
        let seen = |row: &[u16]| u32::from(row[DEPTH]) + u32::from(row[LANDS] < c);
        let to = place.map_or(0, |z| seen(row(z)));
        let at_l = row(l);
        if seen(at_l) <= to {
            break;
        }
        let mut v = if at_l[LANDS] < c { l } else { at_l[PARENT] as usize };
        if v >= n {
            return Err(18);
        }
        let mut depth = table[4 * v + DEPTH];
        while u32::from(depth) > to {
            let jump = table[4 * v + JUMP] as usize;
            if jump >= n {
                return Err(18);
            }
            let by_jump = u32::from(table[4 * jump + DEPTH]) >= to;
            let next = if by_jump { jump } else { table[4 * v + PARENT] as usize };
            if next >= n || table[4 * next + DEPTH] >= depth {
                return Err(18);
            }
            v = next;
            depth = table[4 * v + DEPTH];
            way.links += 1;
        }
        let lands = table[4 * v + LANDS];
        if lands >= c {
            return Err(18);
        }
        way.colour = lands as usize;
        way.drops += 1;
        place = Some(v);
    }
    Ok(way)
}
