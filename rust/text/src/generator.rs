//! Random trees and rule tables from a seed: the same seed gives the same.

use whatif::{layout, Kind};

/// SplitMix64.
pub struct Random(u64);

impl Random {
    pub fn new(seed: u64) -> Random {
        Random(seed)
    }

    fn word(&mut self) -> u64 {
        self.0 = self.0.wrapping_add(0x9e37_79b9_7f4a_7c15);
        let mut z = self.0;
        z = (z ^ (z >> 30)).wrapping_mul(0xbf58_476d_1ce4_e5b9);
        z = (z ^ (z >> 27)).wrapping_mul(0x94d0_49bb_1331_11eb);
        z ^ (z >> 31)
    }

    /// A number below `n`, which is above 0.
    pub fn below(&mut self, n: usize) -> usize {
        (self.word() % n as u64) as usize
    }

    pub fn bytes_below(&mut self, n: usize, limit: usize) -> Vec<u8> {
        (0..n).map(|_| self.below(limit) as u8).collect()
    }

    fn shuffle<T>(&mut self, list: &mut [T]) {
        for i in (1..list.len()).rev() {
            list.swap(i, self.below(i + 1));
        }
    }
}

/// Every right child is a leaf; the kinds in post-order.
pub fn left_comb(leaves: usize) -> Vec<Kind> {
    let after_the_first = (1..leaves).flat_map(|_| [Kind::Leaf, Kind::Inner]);
    std::iter::once(Kind::Leaf).chain(after_the_first).collect()
}

/// Every left child is a leaf.
pub fn right_comb(leaves: usize) -> Vec<Kind> {
    (0..leaves).map(|_| Kind::Leaf).chain((1..leaves).map(|_| Kind::Inner)).collect()
}

/// Both halves alike, as far as the number of leaves allows.
pub fn balanced(leaves: usize) -> Vec<Kind> {
    if leaves == 1 {
        return vec![Kind::Leaf];
    }
    let mut kinds = balanced(leaves / 2);
    kinds.extend(balanced(leaves - leaves / 2));
    kinds.push(Kind::Inner);
    kinds
}

/// Each tree of that many leaves is as likely as any other. Of all rotations of a shuffled row of kinds exactly one is
/// a tree: the one that begins after the last place where the number of trees waiting is least.
pub fn uniform(leaves: usize, random: &mut Random) -> Vec<Kind> {
    let mut kinds = vec![Kind::Leaf; leaves];
    kinds.resize(2 * leaves - 1, Kind::Inner);
    random.shuffle(&mut kinds);
    let (mut waiting, mut least, mut start) = (0i64, 0, 0);
    for (i, &kind) in kinds.iter().enumerate() {
        waiting += if kind == Kind::Leaf { 1 } else { -1 };
        if waiting <= least {
            least = waiting;
            start = i + 1;
        }
    }
    kinds.rotate_left(start);
    kinds
}

/// A full arch: two combs that meet at the root, the left one with its leaves at the right, the right one at the left.
pub fn arch(leaves: usize) -> Vec<Kind> {
    if leaves == 1 {
        return vec![Kind::Leaf];
    }
    let mut kinds = left_comb(leaves / 2);
    kinds.extend(right_comb(leaves - leaves / 2));
    kinds.push(Kind::Inner);
    kinds
}

/// A rule table of entries without any pattern.
pub fn random_rules(s: usize, k: usize, random: &mut Random) -> Vec<u8> {
    let (leaf, inner) = (random.bytes_below(k, s), random.bytes_below(s * k * s, s));
    layout::rules(s, k, &leaf, &inner, &random.bytes_below(s, 2))
}

/// A rule table under which the state at a node seldom loses its effect on the root: for each right state and label the
/// left states are permuted, and the other way round. (Entries without any pattern soon forget what was below.)
pub fn lasting_rules(s: usize, k: usize, random: &mut Random) -> Vec<u8> {
    let mut inner = vec![0; s * k * s];
    for a in 0..k {
        let (by_left, by_right, name) = (order(s, random), order(s, random), order(s, random));
        for p in 0..s {
            for q in 0..s {
                inner[(p * k + a) * s + q] = name[(by_left[p] + by_right[q]) % s] as u8;
            }
        }
    }
    layout::rules(s, k, &random.bytes_below(k, s), &inner, &random.bytes_below(s, 2))
}

fn order(s: usize, random: &mut Random) -> Vec<usize> {
    let mut states: Vec<usize> = (0..s).collect();
    random.shuffle(&mut states);
    states
}

#[cfg(test)]
mod tests {
    use super::*;
    use std::collections::BTreeMap;
    use whatif::{Plan, Rules};

    fn plan(kinds: &[Kind]) -> Plan {
        Plan::new(&vec![0; kinds.len()], kinds).expect("one tree")
    }

    /// Every shape is one tree of that many leaves; in combs one child is a leaf everywhere.
    #[test]
    fn shapes_are_trees() {
        let random = &mut Random::new(1);
        for leaves in 1..40 {
            for kinds in
                [left_comb(leaves), right_comb(leaves), balanced(leaves), uniform(leaves, random), arch(leaves)]
            {
                assert_eq!(plan(&kinds).nodes(), 2 * leaves - 1);
            }
            let (left, right) = (plan(&left_comb(leaves)), plan(&right_comb(leaves)));
            let leaf_at = |plan: &Plan, v: u16| plan.kind(v) == Some(Kind::Leaf);
            assert!(left.children().iter().flatten().all(|&(_, child)| leaf_at(&left, child)));
            assert!(right.children().iter().flatten().all(|&(child, _)| leaf_at(&right, child)));
        }
    }

    /// There are 14 trees of five leaves.
    #[test]
    fn each_tree_is_as_likely() {
        let (random, mut came) = (&mut Random::new(2), BTreeMap::new());
        for _ in 0..14_000 {
            *came.entry(plan(&uniform(5, random)).into_bytes()).or_insert(0) += 1;
        }
        assert_eq!(came.len(), 14);
        assert!(came.values().all(|&times| (850..1_150).contains(&times)), "{:?}", came.values());
    }

    /// Both kinds of tables are taken; a lasting one permutes the states on either side.
    #[test]
    fn tables() {
        let random = &mut Random::new(3);
        for (s, k) in [(1, 1), (2, 3), (5, 4), (16, 64)] {
            assert!(Rules::from_bytes(random_rules(s, k, random)).is_ok());
            let rules = Rules::from_bytes(lasting_rules(s, k, random)).expect("a rule table");
            for (a, p) in (0..k as u8).flat_map(|a| (0..s as u8).map(move |p| (a, p))) {
                let mut sides = [0, 1].map(|side| {
                    let state = |q: u8| if side == 0 { rules.inner(p, a, q) } else { rules.inner(q, a, p) };
                    (0..s as u8).filter_map(state).collect::<Vec<u8>>()
                });
                sides.iter_mut().for_each(|states| states.sort_unstable());
                assert!(sides.iter().all(|states| states.iter().copied().eq(0..s as u8)));
            }
        }
    }
}
