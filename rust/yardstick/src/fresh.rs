//! The fresh run, over a copy of the labels with the changes laid on and a stack of the states that wait, the last in a
//! local. Safe code: places and rules are looked up with a test of the index.

use crate::checks;

/// The root's state and its yes or no, or the first of 2 to 10 and 12 to 14.
pub fn fresh_run(plan: &[u8], rules: &[u8], nodes: &[u16], changes: &[u8]) -> Result<(u8, bool), u32> {
    let plan = checks::plan(plan)?;
    let rules = checks::rules(rules)?;
    checks::labels(&plan, rules.k)?;
    list(nodes, changes, plan.n, rules.k)?;
    let mut labels = plan.labels.to_vec();
    for (&v, &a) in nodes.iter().zip(changes) {
        labels[v as usize] = a;
    }
    // the last state in a local: the places hold those before it, from place 1 on
    let mut waiting = vec![0u8; (plan.n + 1) / 2 + 1];
    let mut count = 0;
    let mut state = 0u8;
    for (&kind, &a) in plan.kinds.iter().zip(&labels) {
        let a = a as usize;
        if kind == 0 {
            waiting[count] = state;
            count += 1;
            state = rules.leaf[a];
        } else {
            count -= 1;
            state = rules.inner[(waiting[count] as usize * rules.k + a) * rules.s + state as usize];
        }
    }
    Ok((state, rules.marks[state as usize] == 1))
}

pub fn list(nodes: &[u16], changes: &[u8], n: usize, k: usize) -> Result<(), u32> {
    if nodes.len() != changes.len() || nodes.len() > 64 {
        return Err(12);
    }
    if nodes.iter().any(|&v| v as usize >= n) {
        return Err(13);
    }
    if changes.iter().any(|&a| a as usize >= k) {
        return Err(14);
    }
    Ok(())
}
