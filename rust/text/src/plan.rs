//! A plan: a line for each node, in post-order.

use crate::lines::{all_raw, raw_text, Line, Wrong};
use whatif::{layout, Plan};

const KINDS: [&str; 2] = ["leaf", "inner"];

/// No line, no byte. Whether the nodes are those of a tree is not asked.
pub fn to_bytes(lines: &[Line]) -> Result<Vec<u8>, Wrong> {
    if let Some(bytes) = all_raw(lines)? {
        return Ok(bytes);
    }
    let (mut labels, mut kinds) = (Vec::new(), Vec::new());
    for line in lines {
        let kind = KINDS.iter().position(|&kind| line.words[0] == kind);
        match (kind, &line.words[..]) {
            (Some(kind), [_, label]) => {
                kinds.push(kind as u8);
                labels.push(line.byte(label)?);
            }
            _ => return Err(line.wrong("a line of the plan is 'leaf LABEL', 'inner LABEL' or 'bytes ..'")),
        }
    }
    Ok(layout::plan(&labels, &kinds))
}

pub fn to_text(bytes: &[u8]) -> String {
    match nodes(bytes) {
        Some((labels, kinds)) => {
            let abouts = abouts(bytes, labels.len());
            let node = |v: usize| format!("{} {}", KINDS[kinds[v] as usize], labels[v]);
            let line = |v: usize| format!("{:<11}# {}\n", node(v), abouts[v]);
            (0..labels.len()).map(line).collect()
        }
        None => raw_text(bytes),
    }
}

/// Labels and kinds, where lines can say them.
fn nodes(bytes: &[u8]) -> Option<(&[u8], &[u8])> {
    let (labels, kinds) = bytes.get(12..)?.split_at((bytes.len() - 12) / 2);
    let as_many = !labels.is_empty() && labels.len() == kinds.len();
    let said = as_many && kinds.iter().all(|&kind| kind <= 1) && layout::plan(labels, kinds) == bytes;
    said.then_some((labels, kinds))
}

/// The number of each node and, in a tree, those of its children.
fn abouts(bytes: &[u8], n: usize) -> Vec<String> {
    let children = Plan::from_bytes(bytes).map_or(vec![None; n], |plan| plan.children());
    let about = |v: usize| match children[v] {
        Some((left, right)) => format!("node {}, over {} and {}", v, left, right),
        None => format!("node {}", v),
    };
    (0..n).map(about).collect()
}
