//! Questions by colours, over sets of at most four states as bits of a byte: the build of their tables and the question.

use crate::checks;
use crate::colours::{descend, node};
use crate::count::lent;
use crate::node_tables::{PARENT, SIZE};
use crate::question::Lent;
use crate::rules;

/// The most states of a rule table by colours.
const MOST_STATES: usize = 4;

pub fn colour_build(plan: &[u8], rules: &[u8], numbers: &mut [u16], bytes: &mut [u8]) -> Result<(), u32> {
    let parts = checks::plan(plan)?;
    let table = checks::rules(rules)?;
    let (n, s, k) = (parts.n, table.s, table.k);
    if s > MOST_STATES {
        return Err(27);
    }
    checks::labels(&parts, k)?;
    let (sets, base) = (1 << s, n * (s + 1));
    if numbers.len() < 4 * n * sets || bytes.len() < base + n * sets {
        return Err(11);
    }
    let (numbers, bytes) = (&mut numbers[..4 * n * sets], &mut bytes[..base + n * sets]);
    rules::build(plan, rules, numbers, bytes)?;
    let (states, copies) = bytes.split_at_mut(base);
    let each: [u8; 16] = std::array::from_fn(|set| set as u8);
    node(&each, &each[..sets], &mut copies[(n - 1) * sets..], numbers, n, n - 1, None);
    for v in (0..n - 1).rev() {
        let p = numbers[4 * v + PARENT] as usize;
        let a = parts.labels[p] as usize;
        let right = p == v + 1;
        let sibling = if right { v - numbers[4 * v + SIZE] as usize } else { p - 1 };
        let beside = states[sibling * (s + 1)] as usize;
        let (first, stride) = if right { ((beside * k + a) * s, 1) } else { (a * s + beside, k * s) };
        let step = preimages((0..s).map(|q| table.inner[first + q * stride]));
        let (before, own_on) = copies.split_at_mut(p * sets);
        node(&step, &own_on[..sets], &mut before[v * sets..(v + 1) * sets], numbers, n, v, Some(p));
    }
    Ok(())
}

/// For each set of states at a node, the set of the states at its child that lead into it: eight sets in a number.
#[inline(always)]
fn preimages(ups: impl Iterator<Item = u8>) -> [u8; 16] {
    const ONES: u64 = 0x0101_0101_0101_0101;
    let (mut low, mut high) = (0u64, 0u64);
    for (q, up) in ups.enumerate() {
        low |= ((0x0706_0504_0302_0100 >> (up & 7)) & ONES) << q;
        high |= ((0x0f0e_0d0c_0b0a_0908 >> (up & 7)) & ONES) << q;
    }
    let mut step = [0; 16];
    step[..8].copy_from_slice(&low.to_le_bytes());
    step[8..].copy_from_slice(&high.to_le_bytes());
    step
}

/// What a question by colours tells, or one part of it.
#[derive(Clone, Copy, Debug, PartialEq, Eq)]
pub struct ColourAnswer {
    pub state: u8,
    pub yes: bool,
    pub drops: u32,
    pub links: u32,
    pub parts: u32,
}

struct Tried {
    state: u8,
    drops: u32,
    links: u32,
}

/// The colour tables of a rule table, without the state table in front.
struct Coloured<'a> {
    lent: Lent<'a>,
    numbers: &'a [u16],
    copies: &'a [u8],
    sets: usize,
}

/// The question by colours. 17, 27, 12, 13, 14, 18 or the answer.
#[inline(never)]
#[allow(clippy::too_many_arguments)] // those of the call
pub fn colour_ask(
    plan: &[u8],
    rules: &[u8],
    node_table: &[u16],
    state_table: &[u8],
    numbers: &[u16],
    bytes: &[u8],
    nodes: &[u16],
    labels: &[u8],
) -> Result<ColourAnswer, u32> {
    let lent = lent(plan, rules, node_table, state_table)?;
    if lent.s > MOST_STATES {
        return Err(27);
    }
    let (sets, base) = (1 << lent.s, lent.n * (lent.s + 1));
    if numbers.len() < 4 * lent.n * sets || bytes.len() < base + lent.n * sets {
        return Err(17);
    }
    if nodes.len() != labels.len() || nodes.len() > 64 {
        return Err(12);
    }
    if nodes.iter().any(|&v| v as usize >= lent.n) {
        return Err(13);
    }
    if labels.iter().any(|&a| a as usize >= lent.k) {
        return Err(14);
    }
    let (left, count) = lent.left(nodes, labels);
    let roots = lent.roots(&left[..count])?;
    let roots = roots.as_slice();
    let coloured = Coloured { lent, numbers, copies: &bytes[base..], sets };
    let (mut states, mut drops, mut links) = ([0; 256], 0, 0);
    for (i, &v) in roots.iter().enumerate() {
        let a = coloured.lent.label(v as usize, nodes, labels);
        let part = coloured.part(v as usize, a, &roots[..i], &states)?;
        states[i] = part.state;
        drops += part.drops;
        links += part.links;
    }
    let state = states[roots.len() - 1];
    let yes = coloured.lent.marks[state as usize] == 1;
    Ok(ColourAnswer { state, yes, drops, links, parts: roots.len() as u32 })
}

impl Coloured<'_> {
    fn part(&self, v: usize, a: usize, earlier: &[u16], states: &[u8]) -> Result<Tried, u32> {
        let lent = &self.lent;
        let untried = |state: u8| Tried { state, drops: 0, links: 0 };
        if a >= lent.k {
            return Err(18);
        }
        if lent.kinds[v] == 0 {
            return lent.state(lent.leaf[a]).map(untried);
        }
        let (left, right) = lent.children(v)?;
        let (p, q) = match (lent.last_below(left, earlier), lent.last_below(right, earlier)) {
            (None, None) => (untried(lent.run(left)?), untried(lent.run(right)?)),
            (Some((w, i)), None) => (self.tried(left, w, states[i])?, untried(lent.run(right)?)),
            (None, Some((w, i))) => (untried(lent.run(left)?), self.tried(right, w, states[i])?),
            (Some((_, i)), Some((_, j))) => (untried(states[i]), untried(states[j])),
        };
        let state = lent.rule(p.state, a, q.state)?;
        Ok(Tried { state, drops: p.drops + q.drops, links: p.links + q.links })
    }

    /// Target states at child c in rising order, until the set at w holds q.
    fn tried(&self, c: usize, w: usize, q: u8) -> Result<Tried, u32> {
        let copy = |v: usize| &self.copies[v * self.sets..(v + 1) * self.sets];
        let (mut drops, mut links) = (0, 0);
        for state in 0..self.lent.s as u8 {
            let colour = copy(c).iter().position(|&set| set == 1 << state).ok_or(18u32)?;
            let way = descend(self.numbers, self.lent.n, Some(c), w, colour)?;
            drops += way.drops;
            links += way.links;
            if copy(w)[way.colour] >> q & 1 == 1 {
                return Ok(Tried { state, drops, links });
            }
        }
        Err(18)
    }
}
