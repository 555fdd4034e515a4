//! How many choices end in each state, part by part, on lent tables.

use crate::checks::number;
use crate::question::Lent;

const LIMIT: u64 = 1_000_000_000_000_000_000;

type Counts = [u64; 16];

#[inline]
fn add(to: &mut u64, x: u64) {
    *to = (*to + x).min(LIMIT);
}

/// Many bytes at a time, with no early end.
fn highest(states: &[u8]) -> usize {
    usize::from(states.iter().fold(0, |most, &q| most.max(q)))
}

/// 17: N, S and K from the headers.
pub(crate) fn lent<'a>(
    plan: &'a [u8],
    rules: &'a [u8],
    node_table: &'a [u16],
    state_table: &'a [u8],
) -> Result<Lent<'a>, u32> {
    if plan.len() < 12 || rules.len() < 20 {
        return Err(17);
    }
    let (n, s, k) = (number(plan, 0), number(rules, 0), number(rules, 4));
    if !(1..=65_535).contains(&n) || !(1..=16).contains(&s) || !(1..=64).contains(&k) {
        return Err(17);
    }
    Lent::new((n, s, k), plan, rules, node_table, state_table)
}

/// Writes a count for each state; tells parts and links. 17, 12, 13, 15, 26, 18 or 11.
pub fn count(
    plan: &[u8],
    rules: &[u8],
    node_table: &[u16],
    state_table: &[u8],
    nodes: &[u16],
    counts: &mut [u64],
) -> Result<(u32, u32), u32> {
    let lent = lent(plan, rules, node_table, state_table)?;
    if nodes.len() > 64 {
        return Err(12);
    }
    if nodes.iter().any(|&v| v as usize >= lent.n) {
        return Err(13);
    }
    if (1..nodes.len()).any(|i| nodes[..i].contains(&nodes[i])) {
        return Err(15);
    }
    let all = nodes.iter().try_fold(1u64, |all, _| all.checked_mul(lent.k as u64));
    if all.map_or(true, |all| all > LIMIT) {
        return Err(26);
    }
    if highest(lent.leaf) >= lent.s || highest(lent.inner) >= lent.s {
        return Err(18);
    }
    let roots = lent.roots(nodes)?;
    let roots = roots.as_slice();
    let (mut table, mut links): (Vec<Counts>, u32) = (Vec::with_capacity(roots.len()), 0);
    for (i, &v) in roots.iter().enumerate() {
        let mut own = [0; 16];
        links += lent.counts(v as usize, nodes.contains(&v), &roots[..i], &table, &mut own)?;
        table.push(own);
    }
    if counts.len() < lent.s {
        return Err(11);
    }
    counts[..lent.s].copy_from_slice(&table[roots.len() - 1][..lent.s]);
    Ok((roots.len() as u32, links))
}

impl Lent<'_> {
    /// The counts of the part of root v into `out`, and its links.
    fn counts(&self, v: usize, open: bool, earlier: &[u16], handled: &[Counts], out: &mut Counts) -> Result<u32, u32> {
        let own = self.labels[v] as usize;
        if !open && own >= self.k {
            return Err(18);
        }
        let labels = if open { 0..self.k } else { own..own + 1 };
        if self.kinds[v] == 0 {
            self.leaf[labels].iter().for_each(|&q| out[q as usize] += 1);
            return Ok(0);
        }
        let (left, right) = self.children(v)?;
        let to = u32::from(self.depth(v)) + 1;
        let (below_left, below_right) = (self.last_below(left, earlier), self.last_below(right, earlier));
        let (at_left, on_left) = self.side(left, to, below_left, below_right.is_some(), handled)?;
        let (at_right, on_right) = self.side(right, to, below_right, below_left.is_some(), handled)?;
        for (p, &x) in at_left[..self.s].iter().enumerate().filter(|(_, &x)| x > 0) {
            for (q, &y) in at_right[..self.s].iter().enumerate().filter(|(_, &y)| y > 0) {
                let ways = x.checked_mul(y).map_or(LIMIT, |ways| ways.min(LIMIT));
                for a in labels.clone() {
                    add(&mut out[self.inner[(p * self.k + a) * self.s + q] as usize], ways);
                }
            }
        }
        Ok(on_left + on_right)
    }

    /// The counts at a child: one at its run state, those of the member that it is, or those that one climb carries up.
    fn side(
        &self,
        child: usize,
        to: u32,
        below: Option<(usize, usize)>,
        both: bool,
        handled: &[Counts],
    ) -> Result<(Counts, u32), u32> {
        let mut counts = [0; 16];
        match below {
            None => {
                counts[self.run(child)? as usize] = 1;
                Ok((counts, 0))
            }
            Some((_, i)) if both => Ok((handled[i], 0)),
            Some((w, i)) => {
                let (map, links) = self.climb_map(w, to)?;
                for (&state, &x) in map[..self.s].iter().zip(&handled[i]) {
                    add(&mut counts[state as usize], x);
                }
                Ok((counts, links))
            }
        }
    }
}
