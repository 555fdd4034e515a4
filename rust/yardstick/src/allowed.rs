//! Which labels may each node take, and which states clear the plan at each node: a run up, then a pass down.

use crate::checks::{self, Plan, Rules};

/// The run's state of each node, and the left child of each inner node.
struct Run {
    states: Vec<u8>,
    left: Vec<u16>,
}

fn run(plan: &Plan, rules: &Rules) -> Run {
    let (mut states, mut left, mut waiting) = (vec![0; plan.n], vec![0; plan.n], Vec::with_capacity(plan.n / 2 + 1));
    for v in 0..plan.n {
        let a = plan.labels[v] as usize;
        states[v] = if plan.kinds[v] == 0 {
            rules.leaf[a]
        } else {
            waiting.pop();
            let l: u16 = waiting.pop().expect("a tree in post-order");
            left[v] = l;
            rules.inner[(states[l as usize] as usize * rules.k + a) * rules.s + states[v - 1] as usize]
        };
        waiting.push(v as u16);
    }
    Run { states, left }
}

/// The clearing states of each node, from the root down.
fn sets(plan: &Plan, rules: &Rules, run: &Run, sets: &mut [u16]) {
    let mark = |all: u16, (q, &mark): (usize, &u8)| all | u16::from(mark) << q;
    sets[plan.n - 1] = rules.marks.iter().enumerate().fold(0, mark);
    for v in (0..plan.n).rev().filter(|&v| plan.kinds[v] == 1) {
        let (l, r, a) = (run.left[v] as usize, v - 1, plan.labels[v] as usize);
        let (p, q) = (run.states[l] as usize, run.states[r] as usize);
        let (mut at_left, mut at_right) = (0, 0);
        for x in 0..rules.s {
            at_left |= (sets[v] >> rules.inner[(x * rules.k + a) * rules.s + q] & 1) << x;
            at_right |= (sets[v] >> rules.inner[(p * rules.k + a) * rules.s + x] & 1) << x;
        }
        (sets[l], sets[r]) = (at_left, at_right);
    }
}

fn checked<'a>(plan: &'a [u8], rules: &'a [u8], room: usize) -> Result<(Plan<'a>, Rules<'a>), u32> {
    let (plan, rules) = (checks::plan(plan)?, checks::rules(rules)?);
    checks::labels(&plan, rules.k)?;
    if room < plan.n {
        return Err(11);
    }
    Ok((plan, rules))
}

pub fn clearing(plan: &[u8], rules: &[u8], out: &mut [u16]) -> Result<(), u32> {
    let (plan, rules) = checked(plan, rules, out.len())?;
    sets(&plan, &rules, &run(&plan, &rules), out);
    Ok(())
}

pub fn allowed(plan: &[u8], rules: &[u8], masks: &mut [u64]) -> Result<(), u32> {
    let (plan, rules) = checked(plan, rules, masks.len())?;
    let (run, mut clears) = (run(&plan, &rules), vec![0; plan.n]);
    sets(&plan, &rules, &run, &mut clears);
    for v in 0..plan.n {
        let bit = |q: u8| u64::from(clears[v] >> q & 1);
        masks[v] = if plan.kinds[v] == 0 {
            rules.leaf.iter().enumerate().fold(0, |mask, (a, &q)| mask | bit(q) << a)
        } else {
            let (p, q) = (run.states[run.left[v] as usize] as usize, run.states[v - 1] as usize);
            (0..rules.k).fold(0, |mask, a| mask | bit(rules.inner[(p * rules.k + a) * rules.s + q]) << a)
        };
    }
    Ok(())
}
