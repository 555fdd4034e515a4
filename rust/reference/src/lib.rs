//! The what-if checker again, written from documents 01 and 02 alone and for clarity: the library is compared with it.
//!
//! Order: `write` (plans and tables made into bytes), `sample` (document 01's sample clearance);
//! `formats` (bytes and checks 2 to 10), `tree` (parents, depths, sizes, jumps), `tables` (run, maps, both table
//! buffers), `climb` (moves), `branch` (branch questions), `fresh` (fresh run), `allowed` and `fewest` (what would clear a
//! plan, by trying), `merge` and `agree` (two rule tables), `planner` (the bridge planner's files); `ready` (the ready set), `parts` (the
//! rule for a part, on a tree), `count` (how many choices end in each state), `lent` (parts on lent tables, whatever they
//! hold); `panel` (the session's calls and
//! answers), `record` (its record as bytes), `session` (the five calls), `causes` (what 18 is given for), `model` (the
//! panel book), `screens` (eight of both); `colours` (document 02's colours, by the path and on lent tables), `colour_branch` (branch questions by
//! them), `colour_rules` (questions by them, over sets of states).
//! The calls without a session are in this file.
//! A refusal is its number. Nothing here is fast, and nothing is shared with the library.

pub mod agree;
pub mod allowed;
pub mod branch;
pub mod causes;
pub mod climb;
pub mod colour_branch;
pub mod colour_rules;
pub mod colours;
pub mod count;
pub mod fewest;
pub mod formats;
pub mod fresh;
pub mod lent;
pub mod lists;
pub mod merge;
pub mod model;
pub mod panel;
pub mod parts;
pub mod planner;
pub mod ready;
pub mod record;
pub mod sample;
pub mod screens;
pub mod session;
pub mod tables;
pub mod tree;
pub mod whole;
pub mod write;

use formats::{read_branch, read_plan, read_rules, Plan};
use tables::Tables;

/// The tables of a plan and a rule table, or the first of 2 to 11.
/// Of the buffers only the lengths matter: count of 16-bit numbers, count of bytes.
pub fn build(plan: &[u8], rules: &[u8], node_table_len: usize, state_table_len: usize) -> Result<Tables, u32> {
    build_checks(plan, rules, node_table_len, state_table_len)?;
    Ok(tables::rule_tables(&read_plan(plan)?, &read_rules(rules)?))
}

/// 2 to 11 of a build of rule tables.
pub fn build_checks(plan: &[u8], rules: &[u8], node_table_len: usize, state_table_len: usize) -> Result<(), u32> {
    let plan = read_plan(plan)?;
    let rules = read_rules(rules)?;
    labels_and_buffers(&plan, rules.states, rules.labels, node_table_len, state_table_len)
}

/// The tables of a plan and a branch table, or the first of 2 to 11.
pub fn branch_build(plan: &[u8], branch: &[u8], node_table_len: usize, state_table_len: usize) -> Result<Tables, u32> {
    let plan = read_plan(plan)?;
    let branch = read_branch(branch)?;
    labels_and_buffers(&plan, branch.states, branch.labels, node_table_len, state_table_len)?;
    Ok(tables::branch_tables(&plan, &branch))
}

/// Are the lent tables what `build` writes? Or the first of 2 to 11.
pub fn check(plan: &[u8], rules: &[u8], node_table: &[u16], state_table: &[u8]) -> Result<bool, u32> {
    let built = build(plan, rules, node_table.len(), state_table.len())?;
    Ok(built.starts(node_table, state_table))
}

/// Are the lent tables what `branch_build` writes? Or the first of 2 to 11.
pub fn branch_check(plan: &[u8], branch: &[u8], node_table: &[u16], state_table: &[u8]) -> Result<bool, u32> {
    let built = branch_build(plan, branch, node_table.len(), state_table.len())?;
    Ok(built.starts(node_table, state_table))
}

/// "every plan label below K? 10; both table buffers long enough? 11"
fn labels_and_buffers(
    plan: &Plan,
    states: usize,
    labels: usize,
    node_table_len: usize,
    state_table_len: usize,
) -> Result<(), u32> {
    plan.labels_below(labels)?;
    let n = plan.nodes();
    if node_table_len < 4 * n || state_table_len < (states + 1) * n {
        return Err(11);
    }
    Ok(())
}
