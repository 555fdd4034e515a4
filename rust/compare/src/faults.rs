//! One fault for each check, laid on an input that has none. Several faults are laid from the last check to the first,
//! so that each still shows where it is the first one.

use crate::calls::Kind;
use crate::inputs::Case;
use crate::random::Random;
use crate::trace;

/// The checks of the builds and of the full checks, in their order.
pub const BUILD_CHECKS: [u32; 10] = [2, 3, 4, 5, 6, 7, 8, 9, 10, 11];
/// The checks of the fresh run, in their order.
pub const FRESH_CHECKS: [u32; 12] = [2, 3, 4, 5, 6, 7, 8, 9, 10, 12, 13, 14];

/// Everything lent to a build, a full check or a fresh run.
#[derive(Clone)]
pub struct Input {
    kind: Kind,
    n: usize,
    s: usize,
    k: usize,
    pub plan: Vec<u8>,
    pub table: Vec<u8>,
    pub node_table_len: usize,
    pub state_table_len: usize,
    pub nodes: Vec<u16>,
    pub labels: Vec<u8>,
}

impl Input {
    /// Without a fault; the list names some nodes, at most 64.
    pub fn new(case: &Case, kind: Kind, random: &mut Random) -> Input {
        let mut nodes: Vec<u16> = (0..case.n as u32).map(|v| v as u16).collect();
        random.shuffle(&mut nodes);
        nodes.truncate(random.between(1, 64));
        let labels = random.bytes_below(nodes.len(), case.k);
        Input {
            kind,
            n: case.n,
            s: case.s,
            k: case.k,
            plan: case.plan.clone(),
            table: case.table(kind).to_vec(),
            node_table_len: case.node_table_len() + random.below(3),
            state_table_len: case.state_table_len() + random.below(3),
            nodes,
            labels,
        }
    }

    /// Lays a fault for each of the given checks.
    pub fn lay(&mut self, checks: &[u32], random: &mut Random) {
        let mut falling = checks.to_vec();
        falling.sort_by(|a, b| b.cmp(a));
        falling.dedup();
        trace::say(format!("faults {:?}", checks));
        for check in falling {
            self.lay_one(check, random);
        }
    }

    fn lay_one(&mut self, check: u32, random: &mut Random) {
        match check {
            2 => self.plan.truncate(*random.pick(&[0, 1, 4, 11])),
            3 => put(
                &mut self.plan,
                0,
                *random.pick(&[0, 65_536, 65_536 + self.n, (1 << 31) + self.n, u32::MAX as usize]),
            ),
            4 => self.plan_layout(random),
            5 => self.tree(random),
            6 => self.table.truncate(*random.pick(&[0, 1, 7, if self.kind == Kind::Rules { 19 } else { 15 }])),
            7 => self.counts(random),
            8 => self.table_layout(random),
            9 => self.entry(random),
            10 => self.plan[12 + random.below(self.n)] = random.between(self.k, 255) as u8,
            11 => self.buffers(random),
            _ => lay_on_list(check, &mut self.nodes, &mut self.labels, (self.n, self.k), random),
        }
    }

    fn plan_layout(&mut self, random: &mut Random) {
        match random.below(6) {
            0 => put(&mut self.plan, 4, *random.pick(&[0, 11, 13, 12 + 65_536])),
            1 => put(&mut self.plan, 8, *random.pick(&[12, 11 + self.n, 13 + self.n, 12 + self.n + 65_536])),
            2 => self.plan.push(0),
            3 => self.plan.truncate(self.plan.len() - 1),
            // another count of nodes; at N 65,535 a smaller one
            4 => put(&mut self.plan, 0, if self.n < 65_535 { self.n + 1 } else { self.n - 2 }),
            // the right offsets of another count of nodes
            _ => {
                put(&mut self.plan, 0, if self.n < 65_535 { self.n + 1 } else { self.n - 2 });
                put(&mut self.plan, 8, if self.n < 65_535 { self.n + 13 } else { self.n + 10 });
            }
        }
    }

    fn tree(&mut self, random: &mut Random) {
        let kinds = &mut self.plan[12 + self.n..];
        let at = random.below(kinds.len());
        match random.below(4) {
            0 => kinds[at] = random.between(2, 255) as u8,
            1 => kinds[at] = 1 - kinds[at],
            // the counts of leaves and inner nodes stay, but no other turn of the row is a tree
            2 if kinds.len() > 1 => kinds.rotate_left(1 + at % (self.n - 1)),
            _ => kinds[0] = 1,
        }
    }

    fn counts(&mut self, random: &mut Random) {
        // one of them or both: no product of theirs may be formed
        let which = random.below(3);
        if which != 1 {
            put(&mut self.table, 0, *random.pick(&[0, 17, 65_536 + self.s, 1 << 24, u32::MAX as usize]));
        }
        if which != 0 {
            put(&mut self.table, 4, *random.pick(&[0, 65, 65_536 + self.k, 1 << 24, u32::MAX as usize]));
        }
    }

    fn table_layout(&mut self, random: &mut Random) {
        let offsets = if self.kind == Kind::Rules { 3 } else { 2 };
        match random.below(offsets + 2) {
            0 => self.table.push(0),
            1 => self.table.truncate(self.table.len() - 1),
            i => {
                let at = 8 + 4 * (i - 2);
                let was = u32::from_le_bytes(self.table[at..at + 4].try_into().unwrap()) as usize;
                put(&mut self.table, at, *random.pick(&[0, was - 1, was + 1, was + 65_536]));
            }
        }
    }

    fn entry(&mut self, random: &mut Random) {
        let first = if self.kind == Kind::Rules { 20 } else { 16 };
        let marks = self.table.len() - self.s;
        if random.below(3) == 0 {
            self.table[marks + random.below(self.s)] = random.between(2, 255) as u8;
        } else {
            self.table[random.between(first, marks - 1)] = random.between(self.s, 255) as u8;
        }
    }

    fn buffers(&mut self, random: &mut Random) {
        let (node_table, state_table) = (4 * self.n, (self.s + 1) * self.n);
        let which = random.below(3);
        if which != 1 {
            self.node_table_len = shorter(node_table, random);
        }
        if which != 0 {
            self.state_table_len = shorter(state_table, random);
        }
    }
}

/// Lays a fault of 12 to 14 on a list that names some nodes of a plan with N nodes, for K labels.
pub fn lay_on_list(
    check: u32,
    nodes: &mut Vec<u16>,
    labels: &mut Vec<u8>,
    (n, k): (usize, usize),
    random: &mut Random,
) {
    match check {
        12 => match random.below(3) {
            0 => nodes.push(0),
            1 => labels.push(0),
            _ => {
                nodes.resize(65, 0);
                labels.resize(65, 0);
            }
        },
        13 => *pick_mut(nodes, random) = random.between(n, 65_535) as u16,
        14 => *pick_mut(labels, random) = random.between(k, 255) as u8,
        _ => panic!("no fault for {}", check),
    }
}

/// Lists some nodes of a list again, with labels below K of their own, at any place: at most 64 entries in all.
pub fn repeat_nodes(nodes: &mut Vec<u16>, labels: &mut Vec<u8>, k: usize, random: &mut Random) {
    for _ in 0..random.between(1, 9) {
        if nodes.is_empty() || nodes.len() > 63 {
            return;
        }
        let (from, to) = (random.below(nodes.len()), random.between(0, nodes.len()));
        nodes.insert(to, nodes[from]);
        labels.insert(to, random.below(k) as u8);
    }
}

fn put(bytes: &mut [u8], at: usize, number: usize) {
    bytes[at..at + 4].copy_from_slice(&(number as u32).to_le_bytes());
}

fn pick_mut<'a, T>(list: &'a mut [T], random: &mut Random) -> &'a mut T {
    let at = random.below(list.len());
    &mut list[at]
}

/// None, one too few, or any number below.
pub fn shorter(len: usize, random: &mut Random) -> usize {
    let any = random.below(len);
    *random.pick(&[0, len - 1, any])
}
