//! The calls on tables, on rule tables, on a planner's file and on two lists.

use whatif_sys as raw;

type Build = unsafe extern "C" fn(*const u8, usize, *const u8, usize, *mut u16, usize, *mut u8, usize) -> u32;
type Check =
    unsafe extern "C" fn(*const u8, usize, *const u8, usize, *const u16, usize, *const u8, usize, *mut u32) -> u32;

type Branch = unsafe extern "C" fn(
    *const u8,
    usize,
    *const u8,
    usize,
    *const u16,
    usize,
    *const u8,
    usize,
    u32,
    u32,
    *mut u32,
    *mut u32,
    *mut u32,
    *mut u32,
) -> u32;

pub fn build(plan: &[u8], rules: &[u8], node_table: &mut [u16], state_table: &mut [u8]) -> u32 {
    build_by(raw::whatif_build, plan, rules, node_table, state_table)
}

pub fn branch_build(plan: &[u8], branch: &[u8], node_table: &mut [u16], state_table: &mut [u8]) -> u32 {
    build_by(raw::whatif_branch_build, plan, branch, node_table, state_table)
}

pub(super) fn build_by(build: Build, plan: &[u8], table: &[u8], node_table: &mut [u16], state_table: &mut [u8]) -> u32 {
    // SAFETY: one of the builds; each pointer comes with its own slice's count, and the borrows keep the buffers apart
    unsafe {
        build(
            plan.as_ptr(),
            plan.len(),
            table.as_ptr(),
            table.len(),
            node_table.as_mut_ptr(),
            node_table.len(),
            state_table.as_mut_ptr(),
            state_table.len(),
        )
    }
}

pub fn check(plan: &[u8], rules: &[u8], node_table: &[u16], state_table: &[u8], yes: &mut u32) -> u32 {
    check_by(raw::whatif_check, plan, rules, node_table, state_table, yes)
}

pub fn branch_check(plan: &[u8], branch: &[u8], node_table: &[u16], state_table: &[u8], yes: &mut u32) -> u32 {
    check_by(raw::whatif_branch_check, plan, branch, node_table, state_table, yes)
}

fn check_by(check: Check, plan: &[u8], table: &[u8], node_table: &[u16], state_table: &[u8], yes: &mut u32) -> u32 {
    // SAFETY: as in `build_by`
    unsafe {
        check(
            plan.as_ptr(),
            plan.len(),
            table.as_ptr(),
            table.len(),
            node_table.as_ptr(),
            node_table.len(),
            state_table.as_ptr(),
            state_table.len(),
            yes,
        )
    }
}

/// Writes state and yes to `out`.
pub fn fresh_run(plan: &[u8], rules: &[u8], nodes: &[u16], labels: &[u8], out: &mut [u32; 2]) -> u32 {
    let [state, yes] = out;
    // SAFETY: as in `build_by`
    unsafe {
        raw::whatif_fresh_run(
            plan.as_ptr(),
            plan.len(),
            rules.as_ptr(),
            rules.len(),
            nodes.as_ptr(),
            nodes.len(),
            labels.as_ptr(),
            labels.len(),
            state,
            yes,
        )
    }
}

/// Writes state, yes, links and nodes passed over to `out`.
pub fn branch(
    plan: &[u8],
    branch: &[u8],
    node_table: &[u16],
    state_table: &[u8],
    [upper, lower]: [u32; 2],
    out: &mut [u32; 4],
) -> u32 {
    branch_by(raw::whatif_branch, plan, branch, node_table, state_table, [upper, lower], out)
}

/// The same with the upper node's label.
pub fn branch_with_upper(
    plan: &[u8],
    branch: &[u8],
    node_table: &[u16],
    state_table: &[u8],
    [upper, lower]: [u32; 2],
    out: &mut [u32; 4],
) -> u32 {
    branch_by(raw::whatif_branch_with_upper, plan, branch, node_table, state_table, [upper, lower], out)
}

fn branch_by(
    ask: Branch,
    plan: &[u8],
    branch: &[u8],
    node_table: &[u16],
    state_table: &[u8],
    [upper, lower]: [u32; 2],
    out: &mut [u32; 4],
) -> u32 {
    let [state, yes, links, passed] = out;
    // SAFETY: as in `build_by`
    unsafe {
        ask(
            plan.as_ptr(),
            plan.len(),
            branch.as_ptr(),
            branch.len(),
            node_table.as_ptr(),
            node_table.len(),
            state_table.as_ptr(),
            state_table.len(),
            upper,
            lower,
            state,
            yes,
            links,
            passed,
        )
    }
}

/// Writes parts and links to `out`.
pub fn count(
    plan: &[u8],
    rules: &[u8],
    node_table: &[u16],
    state_table: &[u8],
    nodes: &[u16],
    counts: &mut [u64],
    out: &mut [u32; 2],
) -> u32 {
    let [parts, links] = out;
    // SAFETY: as in `build_by`
    unsafe {
        raw::whatif_count(
            plan.as_ptr(),
            plan.len(),
            rules.as_ptr(),
            rules.len(),
            node_table.as_ptr(),
            node_table.len(),
            state_table.as_ptr(),
            state_table.len(),
            nodes.as_ptr(),
            nodes.len(),
            counts.as_mut_ptr(),
            counts.len(),
            parts,
            links,
        )
    }
}

pub fn merge(first: &[u8], second: &[u8], merged: &mut [u8]) -> u32 {
    // SAFETY: as in `build_by`
    unsafe {
        raw::whatif_merge(first.as_ptr(), first.len(), second.as_ptr(), second.len(), merged.as_mut_ptr(), merged.len())
    }
}

/// Writes whether they agree, and the count of lines, to `out`.
pub fn agree(first: &[u8], second: &[u8], lines: &mut [u16], out: &mut [u32; 2]) -> u32 {
    let [agree, count] = out;
    // SAFETY: as in `build_by`
    unsafe {
        raw::whatif_agree(
            first.as_ptr(),
            first.len(),
            second.as_ptr(),
            second.len(),
            lines.as_mut_ptr(),
            lines.len(),
            agree,
            count,
        )
    }
}

pub fn plan_of_planner(file: &[u8], plan: &mut [u8], places: &mut [u16]) -> u32 {
    // SAFETY: as in `build_by`
    unsafe {
        raw::whatif_plan_of_planner(
            file.as_ptr(),
            file.len(),
            plan.as_mut_ptr(),
            plan.len(),
            places.as_mut_ptr(),
            places.len(),
        )
    }
}

pub fn planner_of_plan(plan: &[u8], file: &mut [u8]) -> u32 {
    // SAFETY: as in `build_by`
    unsafe { raw::whatif_planner_of_plan(plan.as_ptr(), plan.len(), file.as_mut_ptr(), file.len()) }
}

/// A list is its nodes and its labels; `count` takes the count of nodes that remain.
pub fn lay_over(
    lower: (&[u16], &[u8]),
    upper: (&[u16], &[u8]),
    nodes: &mut [u16],
    labels: &mut [u8],
    count: &mut u32,
) -> u32 {
    // SAFETY: as in `build_by`
    unsafe {
        raw::whatif_lay_over(
            lower.0.as_ptr(),
            lower.0.len(),
            lower.1.as_ptr(),
            lower.1.len(),
            upper.0.as_ptr(),
            upper.0.len(),
            upper.1.as_ptr(),
            upper.1.len(),
            nodes.as_mut_ptr(),
            nodes.len(),
            labels.as_mut_ptr(),
            labels.len(),
            count,
        )
    }
}
