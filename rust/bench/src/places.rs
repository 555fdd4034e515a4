//! Work below the exported calls: roots and one part alone, and the session in place, without the record's bytes.
//!
//! In place are the library's calls on a session that they alter where it is, one after the other (crates/probes); the
//! plain side alters a struct likewise. Both begin with a loaded session made anew.

use crate::cases::List;
use crate::measure::{by_turns, Pair};
use crate::probes;
use crate::sessions::{One, Set, Work};
use yardstick::layers;
use yardstick::place::{Lends, Session};

pub const WORKS: [Work; 4] =
    [("roots", roots), ("part", part), ("Start in place", start), ("question in place", question)];

fn roots(set: &Set) -> Pair {
    let tell = |count: usize, out: &[u16; 254]| count as u32 * 65_536 + u32::from(out[count / 2]);
    set.told(
        |one, (nodes, _)| {
            let mut out = [0; 254];
            tell(probes::roots(one, nodes, &mut out), &out)
        },
        |one, (nodes, _)| {
            let mut out = [0; 254];
            tell(layers::roots(one.case.n, &one.node_table, nodes, &mut out), &out)
        },
    )
}

/// A question with its roots and the states of all its parts.
struct Handled<'a> {
    one: &'a One,
    list: &'a List,
    roots: Vec<u16>,
    states: Vec<u8>,
}

impl<'a> Handled<'a> {
    fn new(one: &'a One, list: &'a List) -> Handled<'a> {
        let mut out = [0; 254];
        let count = probes::roots(one, &list.0, &mut out);
        let mut handled = Handled { one, list, roots: out[..count].to_vec(), states: Vec::new() };
        for i in 0..count {
            let (state, _) = handled.library(i);
            handled.states.push(state as u8);
        }
        handled
    }

    fn library(&self, i: usize) -> (u32, u32) {
        probes::part(self.one, &self.roots, &self.states[..i], self.list)
    }

    fn yardstick(&self, i: usize) -> (u32, u32) {
        let (One { case, node_table, state_table, .. }, (nodes, labels)) = (self.one, self.list);
        let sizes = (case.n, case.s, case.k);
        let states = &self.states[..i];
        let told =
            layers::part(sizes, &case.plan, &case.rules, node_table, state_table, &self.roots, states, nodes, labels);
        let told = told.expect("accepted");
        (u32::from(told.state), told.links)
    }
}

fn part(set: &Set) -> Pair {
    let all: Vec<Handled> = set.lists.iter().map(|(at, list)| Handled::new(&set.plans[*at], list)).collect();
    let count = all.iter().map(|handled| handled.roots.len()).sum();
    let parts = || all.iter().flat_map(|handled| (0..handled.roots.len()).map(move |i| (handled, i)));
    let tell = |(state, links): (u32, u32)| state + 16 * links;
    let (mut library, mut yardstick) = (0, 0);
    let times = by_turns(
        count,
        || library = parts().map(|(handled, i)| tell(handled.library(i))).sum(),
        || yardstick = parts().map(|(handled, i)| tell(handled.yardstick(i))).sum(),
    );
    assert_eq!(library, yardstick, "both tell the same");
    times
}

fn loaded(one: &One) -> (Session, Lends<'_>) {
    let One { case, node_table, state_table, .. } = one;
    let session = Session::loaded(case.n as u16, case.s as u8, case.k as u8);
    (session, Lends { plan: &case.plan, rules: &case.rules, node_table, state_table })
}

fn start(set: &Set) -> Pair {
    set.told_by_few(
        |one, list| probes::steps(one.sizes(), &one.lent(), list, 0).parts,
        |one, (nodes, labels)| {
            let (mut session, lends) = loaded(one);
            session.start(&lends, nodes, labels).expect("accepted")
        },
    )
}

fn ask(one: &One, list: &List) -> u32 {
    let told = probes::question(one.sizes(), &one.lent(), list);
    told.state + 16 * u32::from(told.yes) + 32 * told.links + told.parts
}

fn yardstick_ask(one: &One, (nodes, labels): &List) -> u32 {
    let (mut session, lends) = loaded(one);
    session.start(&lends, nodes, labels).expect("accepted");
    while session.advance(&lends) == Ok(false) {}
    let told = session.read().expect("accepted");
    u32::from(told.state) + 16 * u32::from(told.yes) + 32 * told.links + told.parts
}

fn question(set: &Set) -> Pair {
    set.told_by_few(ask, yardstick_ask)
}

/// A question in place and its roots and parts alone, by both sides.
pub fn once(one: &One, list: &List) {
    assert_eq!(ask(one, list), yardstick_ask(one, list), "both tell the same");
    let handled = Handled::new(one, list);
    let mut roots = [0; 254];
    let count = layers::roots(one.case.n, &one.node_table, &list.0, &mut roots);
    assert_eq!(handled.roots, roots[..count], "both tell the same");
    assert!((0..count).all(|i| handled.states[i] as u32 == handled.yardstick(i).0), "both tell the same");
}
