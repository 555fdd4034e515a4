//! The session in place: the record as a struct that the calls alter where it is.
//!
//! Every call checks the whole record first, as the library's calls do, which take any struct.

use crate::fresh::list;
use crate::question::Lent;
use crate::record::{ANSWERED, LOADED, RUNNING};
use crate::session::Answered;

pub struct Session {
    phase: u8,
    yes: bool,
    n: u16,
    s: u8,
    k: u8,
    m: u8,
    parts: u8,
    handled: u8,
    links: u32,
    passed: u32,
    nodes: [u16; 64],
    labels: [u8; 64],
    roots: [u16; 254],
    states: [u8; 254],
    last: Option<Answered>,
}

/// What a call is lent.
#[derive(Clone, Copy)]
pub struct Lends<'a> {
    pub plan: &'a [u8],
    pub rules: &'a [u8],
    pub node_table: &'a [u16],
    pub state_table: &'a [u8],
}

impl Session {
    /// A session that has loaded a plan of n nodes and rules of s states and k labels.
    pub fn loaded(n: u16, s: u8, k: u8) -> Session {
        Session {
            phase: LOADED,
            yes: false,
            n,
            s,
            k,
            m: 0,
            parts: 0,
            handled: 0,
            links: 0,
            passed: 0,
            nodes: [0; 64],
            labels: [0; 64],
            roots: [0; 254],
            states: [0; 254],
            last: None,
        }
    }

    fn lent<'a>(&self, lends: &Lends<'a>) -> Result<Lent<'a>, u32> {
        let sizes = (self.n as usize, self.s as usize, self.k as usize);
        Lent::new(sizes, lends.plan, lends.rules, lends.node_table, lends.state_table)
    }

    /// The number of parts.
    pub fn start(&mut self, lends: &Lends, nodes: &[u16], labels: &[u8]) -> Result<u32, u32> {
        if !(self.phase == LOADED || self.phase == ANSWERED) || !self.valid() {
            return Err(1);
        }
        let lent = self.lent(lends)?;
        list(nodes, labels, lent.n, lent.k)?;
        lent.sound(lends.plan, lends.rules, lends.node_table, lends.state_table)?;
        let (left, count) = lent.left(nodes, labels);
        let roots = lent.roots(&left[..count])?;
        let roots = roots.as_slice();
        *self = Session { last: self.last, ..Session::loaded(self.n, self.s, self.k) };
        self.phase = RUNNING;
        self.m = nodes.len() as u8;
        self.parts = roots.len() as u8;
        self.nodes[..nodes.len()].copy_from_slice(nodes);
        self.labels[..labels.len()].copy_from_slice(labels);
        self.roots[..roots.len()].copy_from_slice(roots);
        Ok(roots.len() as u32)
    }

    /// Whether that was the last part.
    pub fn advance(&mut self, lends: &Lends) -> Result<bool, u32> {
        if self.phase != RUNNING || !self.valid() {
            return Err(1);
        }
        let lent = self.lent(lends)?;
        let (m, handled) = (self.m as usize, self.handled as usize);
        let v = self.roots[handled] as usize;
        let a = lent.label(v, &self.nodes[..m], &self.labels[..m]);
        let part = lent.part(v, a, &self.roots[..handled], &self.states[..handled])?;
        self.states[handled] = part.state;
        self.handled += 1;
        self.links += part.links;
        self.passed += part.passed;
        let finished = self.handled == self.parts;
        if finished {
            self.phase = ANSWERED;
            self.yes = lent.marks[part.state as usize] == 1;
            self.last = Some(self.answer());
        }
        Ok(finished)
    }

    pub fn read(&self) -> Result<Answered, u32> {
        if !self.valid() {
            return Err(1);
        }
        self.last.ok_or(1)
    }

    /// The answer of an answered session.
    fn answer(&self) -> Answered {
        let state = self.states[self.handled as usize - 1];
        Answered { state, yes: self.yes, parts: self.parts as u32, links: self.links, passed: self.passed }
    }

    pub fn links(&self) -> u32 {
        self.links
    }

    /// The conditions of docs/LAYOUT.md.
    fn valid(&self) -> bool {
        let sized = self.n >= 1 && (1..=16).contains(&self.s) && (1..=64).contains(&self.k);
        sized
            && match self.phase {
                LOADED => self.no_question() && self.last(),
                RUNNING => !self.yes && self.handled < self.parts && self.question() && self.last(),
                ANSWERED => self.handled == self.parts && self.question() && self.last == Some(self.answer()),
                _ => false,
            }
    }

    fn last(&self) -> bool {
        let possible = |last: Answered| {
            last.state < self.s
                && (1..=254).contains(&last.parts)
                && last.links <= last.passed
                && last.passed <= 65_535 * last.parts
        };
        self.last.map_or(true, possible)
    }

    fn no_question(&self) -> bool {
        let counts = self.m | self.parts | self.handled | u8::from(self.yes);
        counts == 0
            && self.links == 0
            && self.passed == 0
            && below(&self.nodes, 1)
            && below(&self.labels, 1)
            && below(&self.roots, 1)
            && below(&self.states, 1)
    }

    fn question(&self) -> bool {
        let (m, parts, handled) = (self.m as usize, self.parts as usize, self.handled as usize);
        if m > 64 || !(1..=254).contains(&parts) {
            return false;
        }
        let (nodes, no_nodes) = self.nodes.split_at(m);
        let (labels, no_labels) = self.labels.split_at(m);
        let (roots, no_roots) = self.roots.split_at(parts);
        let (states, no_states) = self.states.split_at(handled);
        below(nodes, self.n)
            && below(labels, self.k)
            && roots.iter().zip(&roots[1..]).fold(true, |ok, (a, b)| ok & (a < b))
            && roots[parts - 1] == self.n - 1
            && below(states, self.s)
            && self.links <= self.passed
            && self.passed as usize <= 65_535 * handled
            && below(no_nodes, 1)
            && below(no_labels, 1)
            && below(no_roots, 1)
            && below(no_states, 1)
    }
}

/// No early end, so that many are tested at a time.
fn below<T: Copy + PartialOrd>(list: &[T], bound: T) -> bool {
    list.iter().fold(true, |ok, &x| ok & (x < bound))
}
