//! The bridge planner's files, out and home: one pass over the nodes with a stack.

use crate::checks::{self, number, Plan};

const EMPTY: u8 = 63;

fn put_header(bytes: &mut [u8], n: usize) {
    for (i, number) in [n, 12, 12 + n].into_iter().enumerate() {
        bytes[4 * i..4 * i + 4].copy_from_slice(&(number as u32).to_le_bytes());
    }
}

/// 19.
fn runs(file: &[u8]) -> Option<(&[u8], &[u8])> {
    if file.len() < 12 {
        return None;
    }
    let n = number(file, 0);
    if n == 0 || number(file, 4) != 12 || number(file, 8) != 12 + n || file.len() != 12 + 2 * n {
        return None;
    }
    let (labels, counts) = file[12..].split_at(n);
    let mut waiting = 1;
    for &count in counts {
        if waiting == 0 {
            return None;
        }
        waiting += count as usize;
        waiting -= 1;
    }
    (waiting == 0).then_some((labels, counts))
}

/// A node whose later siblings are still to come.
struct Waiting {
    node: u16,
    /// How many siblings come after it.
    after: u8,
    /// Is it the first of its list?
    first: bool,
}

pub fn plan_of_planner(file: &[u8], plan: &mut [u8], places: &mut [u16]) -> Result<(), u32> {
    let (labels, counts) = runs(file).ok_or(19u32)?;
    if labels.iter().any(|&label| label >= EMPTY) {
        return Err(20);
    }
    let n = labels.len();
    let size = 2 * n + 1;
    if n > 32_767 || plan.len() < 12 + 2 * size || places.len() < n {
        return Err(21);
    }
    put_header(plan, size);
    let (to_labels, to_kinds) = plan[12..12 + 2 * size].split_at_mut(size);
    to_labels.fill(EMPTY);
    to_kinds.fill(0);
    let mut stack: Vec<Waiting> = Vec::with_capacity(n);
    let (mut at, mut left, mut first) = (0, 1, true);
    for (v, &count) in counts.iter().enumerate() {
        stack.push(Waiting { node: v as u16, after: left - 1, first });
        if count > 0 {
            (left, first) = (count, true);
            continue;
        }
        at += 1;
        // lists that are at their end: a leaf, then their nodes from the last to the first
        while stack.last().map_or(false, |top| top.after == 0) {
            at += 1;
            while let Some(top) = stack.pop() {
                let node = top.node as usize;
                places[node] = at as u16;
                to_labels[at] = labels[node];
                to_kinds[at] = 1;
                at += 1;
                if top.first {
                    break;
                }
            }
        }
        (left, first) = (stack.last().map_or(0, |top| top.after), false);
    }
    Ok(())
}

/// 19 going home, where 2 to 5 pass.
fn comes_from_file(labels: &[u8], kinds: &[u8]) -> bool {
    let n = kinds.len();
    let fits = |(&label, &kind): (&u8, &u8)| if kind == 0 { label == EMPTY } else { label < EMPTY };
    if n < 3 || kinds[n - 2] != 0 || !labels.iter().zip(kinds).all(fits) {
        return false;
    }
    let mut run = 0;
    kinds.iter().all(|&kind| {
        run = if kind == 0 { 0 } else { run + 1 };
        run < 256
    })
}

pub fn planner_of_plan(plan: &[u8], file: &mut [u8]) -> Result<(), u32> {
    let Plan { labels, kinds, .. } = checks::plan(plan).map_err(|_| 19u32)?;
    if !comes_from_file(labels, kinds) {
        return Err(19);
    }
    let n = labels.len() / 2;
    if file.len() < 12 + 2 * n {
        return Err(21);
    }
    put_header(file, n);
    let (to_labels, to_counts) = file[12..12 + 2 * n].split_at_mut(n);
    // read from the right and written from the right: label, count of children, first of its list
    let mut stack: Vec<(u8, u8, bool)> = Vec::with_capacity(n);
    let (mut at, mut run) = (n, 0);
    for (&label, &kind) in labels.iter().zip(kinds).rev() {
        if kind != 0 {
            stack.push((label, 0, run == 0));
            run += 1;
            continue;
        }
        if run > 0 {
            // the list that was read is that of the node below it
            if let Some(above) = stack.len().checked_sub(run + 1) {
                stack[above].1 = run as u8;
            }
            run = 0;
            continue;
        }
        while let Some((label, count, first)) = stack.pop() {
            at -= 1;
            to_labels[at] = label;
            to_counts[at] = count;
            if !first {
                break;
            }
        }
    }
    Ok(())
}
