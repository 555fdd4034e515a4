//! The calls on colour tables.

use super::tables::build_by;
use whatif_sys as raw;

type ColourBranch = unsafe extern "C" fn(
    *const u8,
    usize,
    *const u8,
    usize,
    *const u16,
    usize,
    *const u16,
    usize,
    *const u8,
    usize,
    u32,
    u32,
    *mut u32,
    *mut u32,
    *mut u32,
    *mut u32,
) -> u32;

pub fn colour_branch_build(plan: &[u8], branch: &[u8], numbers: &mut [u16], bytes: &mut [u8]) -> u32 {
    build_by(raw::whatif_colour_branch_build, plan, branch, numbers, bytes)
}

/// Writes state, yes, drops and links to `out`.
#[inline]
pub fn colour_branch(
    plan: &[u8],
    branch: &[u8],
    node_table: &[u16],
    numbers: &[u16],
    bytes: &[u8],
    [upper, lower]: [u32; 2],
    out: &mut [u32; 4],
) -> u32 {
    colour_branch_by(raw::whatif_colour_branch, plan, branch, node_table, numbers, bytes, [upper, lower], out)
}

/// The same with the upper node's label.
#[inline]
pub fn colour_branch_with_upper(
    plan: &[u8],
    branch: &[u8],
    node_table: &[u16],
    numbers: &[u16],
    bytes: &[u8],
    [upper, lower]: [u32; 2],
    out: &mut [u32; 4],
) -> u32 {
    colour_branch_by(
        raw::whatif_colour_branch_with_upper,
        plan,
        branch,
        node_table,
        numbers,
        bytes,
        [upper, lower],
        out,
    )
}

#[inline(always)]
#[allow(clippy::too_many_arguments)] // those of the call
fn colour_branch_by(
    ask: ColourBranch,
    plan: &[u8],
    branch: &[u8],
    node_table: &[u16],
    numbers: &[u16],
    bytes: &[u8],
    [upper, lower]: [u32; 2],
    out: &mut [u32; 4],
) -> u32 {
    let [state, yes, drops, links] = out;
    // SAFETY: each pointer comes with its own slice's count, and the borrows keep the buffers apart
    unsafe {
        ask(
            plan.as_ptr(),
            plan.len(),
            branch.as_ptr(),
            branch.len(),
            node_table.as_ptr(),
            node_table.len(),
            numbers.as_ptr(),
            numbers.len(),
            bytes.as_ptr(),
            bytes.len(),
            upper,
            lower,
            state,
            yes,
            drops,
            links,
        )
    }
}

pub fn colour_build(plan: &[u8], rules: &[u8], numbers: &mut [u16], bytes: &mut [u8]) -> u32 {
    build_by(raw::whatif_colour_build, plan, rules, numbers, bytes)
}

/// Writes state, yes, drops, links and parts to `out`.
#[allow(clippy::too_many_arguments)] // those of the call
pub fn colour_ask(
    plan: &[u8],
    rules: &[u8],
    node_table: &[u16],
    state_table: &[u8],
    numbers: &[u16],
    bytes: &[u8],
    nodes: &[u16],
    labels: &[u8],
    out: &mut [u32; 5],
) -> u32 {
    let [state, yes, drops, links, parts] = out;
    // SAFETY: each pointer comes with its own slice's count, and the borrows keep the buffers apart
    unsafe {
        raw::whatif_colour_ask(
            plan.as_ptr(),
            plan.len(),
            rules.as_ptr(),
            rules.len(),
            node_table.as_ptr(),
            node_table.len(),
            state_table.as_ptr(),
            state_table.len(),
            numbers.as_ptr(),
            numbers.len(),
            bytes.as_ptr(),
            bytes.len(),
            nodes.as_ptr(),
            nodes.len(),
            labels.as_ptr(),
            labels.len(),
            state,
            yes,
            drops,
            links,
            parts,
        )
    }
}
