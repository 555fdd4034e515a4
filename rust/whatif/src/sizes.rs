//! Limits and sizes, as the macros of include/whatif.h have them.

/// The most nodes of a plan. An inner node has two children, so a plan has an odd number of them.
pub const MAX_NODES: usize = 65_535;
/// The most states of a table.
pub const MAX_STATES: usize = 16;
/// The most labels of a table.
pub const MAX_LABELS: usize = 64;
/// The most changes in a list.
pub const MAX_CHANGES: usize = 64;
/// The most parts that a question can have: 4 × 64 - 2.
pub const MAX_PARTS: usize = 254;
/// The most lines of a separating plan: a line for each pair of states.
pub const MAX_LINES: usize = 256;
/// The most assignments that are counted: 10 to the power 18.
pub const MAX_ASSIGNMENTS: usize = 1_000_000_000_000_000_000;
/// The greatest depth of a node, root 0. It follows from the limit on nodes.
pub const MAX_DEPTH: usize = 32_767;
/// The most states of a rule table by colours.
pub const MAX_COLOUR_STATES: usize = 4;
/// The number of changes that the fewest changes have where no relabelling does it: more than any plan has nodes.
pub const NO_WAY: usize = 65_536;
/// The most nodes of a planner's file: its plan has twice as many and one.
pub const MAX_PLANNER_NODES: usize = 32_767;

/// Bytes of a session's record.
pub const RECORD_BYTES: usize = 983;
/// The version of the record's layout. Records of different versions differ in length.
pub const RECORD_LAYOUT: usize = 3;

/// Screens on one mill.
pub const SCREENS: usize = 8;
/// Bytes of the run of their records.
pub const SCREENS_BYTES: usize = SCREENS * RECORD_BYTES;

/// Bytes of a plan of `n` nodes.
#[must_use]
pub const fn plan_bytes(n: usize) -> usize {
    12 + 2 * n
}

/// Bytes of a rule table of `s` states and `k` labels.
#[must_use]
pub const fn rules_bytes(s: usize, k: usize) -> usize {
    20 + k + s * k * s + s
}

/// Bytes of a branch table of `s` states and `k` labels.
#[must_use]
pub const fn branch_bytes(s: usize, k: usize) -> usize {
    16 + s * k + s
}

/// 16-bit numbers of the node table for `n` nodes.
#[must_use]
pub const fn node_table_len(n: usize) -> usize {
    4 * n
}

/// Bytes of the state table for `n` nodes and `s` states.
#[must_use]
pub const fn state_table_len(n: usize, s: usize) -> usize {
    (s + 1) * n
}

/// 32-bit numbers of the work space of the fewest changes, for `n` nodes and `s` states.
#[must_use]
pub const fn fewest_work(n: usize, s: usize) -> usize {
    (s + 1) * n
}

/// Bytes of a planner's file of `n` nodes.
#[must_use]
pub const fn planner_bytes(n: usize) -> usize {
    12 + 2 * n
}

/// Bytes of the plan of a planner's file of `n` nodes: it has 2n+1.
#[must_use]
pub const fn planner_plan_bytes(n: usize) -> usize {
    14 + 4 * n
}

/// 16-bit numbers of the colour tables for `n` nodes and a branch table of `s` states.
#[must_use]
pub const fn colour_branch_numbers(n: usize, s: usize) -> usize {
    4 * n * s
}

/// Bytes of the colour tables for `n` nodes and a branch table of `s` states.
#[must_use]
pub const fn colour_branch_bytes(n: usize, s: usize) -> usize {
    n * s
}

/// 16-bit numbers of the colour tables for `n` nodes and a rule table of `s` states, at most 4.
#[must_use]
pub const fn colour_numbers(n: usize, s: usize) -> usize {
    (4 * n) << s
}

/// Bytes of the colour tables for `n` nodes and a rule table of `s` states, at most 4.
#[must_use]
pub const fn colour_bytes(n: usize, s: usize) -> usize {
    n * (s + 1) + (n << s)
}
