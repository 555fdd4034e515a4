//! The functions of libprobes_c.a (crates/probes_c): roots and one part; and, made of the calls in place, Start with some
//! advances, a whole question, a life of a session and one of eight screens.

use crate::cases::List;
use crate::sessions::One;
use whatif::Lent;

#[repr(C)]
struct RawPart {
    state: u32,
    links: u32,
}

/// A question's parts (0 where Start is refused), and its links so far.
#[derive(Clone, Copy, Debug, PartialEq, Eq)]
#[repr(C)]
pub struct Steps {
    pub parts: u32,
    pub links: u32,
}

/// What Read tells; state 16 and zeros where it is refused.
#[derive(Clone, Copy, Debug, PartialEq, Eq)]
#[repr(C)]
pub struct Question {
    pub state: u32,
    pub yes: bool,
    pub parts: u32,
    pub links: u32,
}

/// The numbers of Load and Cancel, the parts that the first Start tells (0 where it is refused), and the question again.
#[derive(Clone, Copy, Debug, PartialEq, Eq)]
#[repr(C)]
pub struct Life {
    pub load: u32,
    pub parts: u32,
    pub cancel: u32,
    pub again: Question,
}

/// The parts that Start answers on two screens (0 where it is refused), the screen to try first after the deals, the
/// number of Cancel of the second, and what Read answers of the first.
#[derive(Clone, Copy, Debug, PartialEq, Eq)]
#[repr(C)]
pub struct Eight {
    pub parts: u32,
    pub others: u32,
    pub next: usize,
    pub cancel: u32,
    pub read: Question,
}

/// Which screens a life of eight is about, and how many deals it has.
#[derive(Clone, Copy, Debug)]
pub struct Turns {
    pub screen: usize,
    pub other: usize,
    pub first: usize,
    pub count: u32,
}

// A slice is a pointer, then its count of elements.
extern "C" {
    fn probe_roots(
        n: usize,
        node_table: *const u16,
        node_table_len: usize,
        nodes: *const u16,
        nodes_len: usize,
        out: *mut [u16; 254],
    ) -> usize;

    fn probe_part(
        n: usize,
        s: usize,
        k: usize,
        plan: *const u8,
        plan_len: usize,
        rules: *const u8,
        rules_len: usize,
        node_table: *const u16,
        node_table_len: usize,
        state_table: *const u8,
        state_table_len: usize,
        roots: *const u16,
        roots_len: usize,
        states: *const u8,
        states_len: usize,
        nodes: *const u16,
        nodes_len: usize,
        labels: *const u8,
        labels_len: usize,
    ) -> RawPart;

    fn probe_steps(
        n: u16,
        s: u8,
        k: u8,
        plan: *const u8,
        plan_len: usize,
        rules: *const u8,
        rules_len: usize,
        node_table: *const u16,
        node_table_len: usize,
        state_table: *const u8,
        state_table_len: usize,
        nodes: *const u16,
        nodes_len: usize,
        labels: *const u8,
        labels_len: usize,
        count: u32,
    ) -> Steps;

    fn probe_question(
        n: u16,
        s: u8,
        k: u8,
        plan: *const u8,
        plan_len: usize,
        rules: *const u8,
        rules_len: usize,
        node_table: *const u16,
        node_table_len: usize,
        state_table: *const u8,
        state_table_len: usize,
        nodes: *const u16,
        nodes_len: usize,
        labels: *const u8,
        labels_len: usize,
    ) -> Question;

    fn probe_life(
        plan: *const u8,
        plan_len: usize,
        rules: *const u8,
        rules_len: usize,
        node_table: *mut u16,
        node_table_len: usize,
        state_table: *mut u8,
        state_table_len: usize,
        nodes: *const u16,
        nodes_len: usize,
        labels: *const u8,
        labels_len: usize,
    ) -> Life;

    fn probe_screens(
        n: u16,
        s: u8,
        k: u8,
        plan: *const u8,
        plan_len: usize,
        rules: *const u8,
        rules_len: usize,
        node_table: *const u16,
        node_table_len: usize,
        state_table: *const u8,
        state_table_len: usize,
        nodes: *const u16,
        nodes_len: usize,
        labels: *const u8,
        labels_len: usize,
        screen: usize,
        other: usize,
        first: usize,
        count: u32,
    ) -> Eight;
}

pub fn roots(one: &One, nodes: &[u16], out: &mut [u16; 254]) -> usize {
    let node_table = &one.node_table;
    // SAFETY: each pointer comes with its own slice's length, and `out` is borrowed for writing
    unsafe { probe_roots(one.case.n, node_table.as_ptr(), node_table.len(), nodes.as_ptr(), nodes.len(), out) }
}

/// The part of the root that comes next after those whose states are given: state and links.
pub fn part(one: &One, roots: &[u16], states: &[u8], (nodes, labels): &List) -> (u32, u32) {
    let (case, node_table, state_table) = (&one.case, &one.node_table, &one.state_table);
    // SAFETY: each pointer comes with its own slice's length
    let told = unsafe {
        probe_part(
            case.n,
            case.s,
            case.k,
            case.plan.as_ptr(),
            case.plan.len(),
            case.rules.as_ptr(),
            case.rules.len(),
            node_table.as_ptr(),
            node_table.len(),
            state_table.as_ptr(),
            state_table.len(),
            roots.as_ptr(),
            roots.len(),
            states.as_ptr(),
            states.len(),
            nodes.as_ptr(),
            nodes.len(),
            labels.as_ptr(),
            labels.len(),
        )
    };
    (told.state, told.links)
}

/// N, S and K of a loaded session.
#[derive(Clone, Copy, Debug)]
pub struct Sizes {
    pub n: u16,
    pub s: u8,
    pub k: u8,
}

/// Start on a loaded session, then `count` advances.
pub fn steps(sizes: Sizes, lent: &Lent, (nodes, labels): &List, count: u32) -> Steps {
    let Lent { plan, rules, node_table, state_table } = *lent;
    // SAFETY: each pointer comes with its own slice's length
    unsafe {
        probe_steps(
            sizes.n,
            sizes.s,
            sizes.k,
            plan.as_ptr(),
            plan.len(),
            rules.as_ptr(),
            rules.len(),
            node_table.as_ptr(),
            node_table.len(),
            state_table.as_ptr(),
            state_table.len(),
            nodes.as_ptr(),
            nodes.len(),
            labels.as_ptr(),
            labels.len(),
            count,
        )
    }
}

/// A whole question on a loaded session: Start, as many advances as it has parts, Read.
pub fn question(sizes: Sizes, lent: &Lent, (nodes, labels): &List) -> Question {
    let Lent { plan, rules, node_table, state_table } = *lent;
    // SAFETY: each pointer comes with its own slice's length
    unsafe {
        probe_question(
            sizes.n,
            sizes.s,
            sizes.k,
            plan.as_ptr(),
            plan.len(),
            rules.as_ptr(),
            rules.len(),
            node_table.as_ptr(),
            node_table.len(),
            state_table.as_ptr(),
            state_table.len(),
            nodes.as_ptr(),
            nodes.len(),
            labels.as_ptr(),
            labels.len(),
        )
    }
}

/// A fresh session: Load, Start, Cancel, and the question again.
pub fn life(plan: &[u8], rules: &[u8], node_table: &mut [u16], state_table: &mut [u8], (nodes, labels): &List) -> Life {
    // SAFETY: each pointer comes with its own slice's length, and the borrows keep the buffers apart
    unsafe {
        probe_life(
            plan.as_ptr(),
            plan.len(),
            rules.as_ptr(),
            rules.len(),
            node_table.as_mut_ptr(),
            node_table.len(),
            state_table.as_mut_ptr(),
            state_table.len(),
            nodes.as_ptr(),
            nodes.len(),
            labels.as_ptr(),
            labels.len(),
        )
    }
}

/// Eight loaded screens: Start on two, deals from a first one on, Cancel of the second, Read of the first.
pub fn screens(sizes: Sizes, lent: &Lent, (nodes, labels): &List, turns: Turns) -> Eight {
    let Lent { plan, rules, node_table, state_table } = *lent;
    // SAFETY: each pointer comes with its own slice's length
    unsafe {
        probe_screens(
            sizes.n,
            sizes.s,
            sizes.k,
            plan.as_ptr(),
            plan.len(),
            rules.as_ptr(),
            rules.len(),
            node_table.as_ptr(),
            node_table.len(),
            state_table.as_ptr(),
            state_table.len(),
            nodes.as_ptr(),
            nodes.len(),
            labels.as_ptr(),
            labels.len(),
            turns.screen,
            turns.other,
            turns.first,
            turns.count,
        )
    }
}
