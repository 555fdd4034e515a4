//! Build of rule tables (`load`) and their full check (`full_check`), after checks 2 to 11.

use crate::{checks, full_check, load};

pub fn build(plan: &[u8], rules: &[u8], node_table: &mut [u16], state_table: &mut [u8]) -> Result<(), u32> {
    let plan = checks::plan(plan)?;
    let rules = checks::rules(rules)?;
    checks::labels(&plan, rules.k)?;
    checks::buffers(plan.n, rules.s, node_table.len(), state_table.len())?;
    let row = rules.s + 1;
    let (node_table, state_table) = (&mut node_table[..4 * plan.n], &mut state_table[..row * plan.n]);
    load::build(&plan, &rules, node_table, state_table);
    Ok(())
}

pub fn check(plan: &[u8], rules: &[u8], node_table: &[u16], state_table: &[u8]) -> Result<bool, u32> {
    let plan = checks::plan(plan)?;
    let rules = checks::rules(rules)?;
    checks::labels(&plan, rules.k)?;
    checks::buffers(plan.n, rules.s, node_table.len(), state_table.len())?;
    let row = rules.s + 1;
    let (node_table, state_table) = (&node_table[..4 * plan.n], &state_table[..row * plan.n]);
    Ok(full_check::matches(&plan, &rules, node_table, state_table))
}
