//! Lists of changes laid over one another (document 02, S-4), and what a list leaves in W (S-5), by a map from nodes to
//! labels.

use crate::fresh::MAX_CHANGES;
use std::collections::BTreeMap;

/// "All nodes of both, the upper list's label where both name one, .. in rising node number", or the refusal: 12 for either
/// list, 22 "when more than 64 nodes would remain", then 11 where the buffers of these lengths are too short.
pub fn lay_over(lower: (&[u16], &[u8]), upper: (&[u16], &[u8]), room: (usize, usize)) -> Result<Vec<(u16, u8)>, u32> {
    for (nodes, labels) in [lower, upper] {
        if nodes.len() != labels.len() || nodes.len() > MAX_CHANGES {
            return Err(12);
        }
    }
    let mut laid = BTreeMap::new();
    for (nodes, labels) in [lower, upper] {
        // a later entry takes the place of an earlier one
        laid.extend(nodes.iter().copied().zip(labels.iter().copied()));
    }
    if laid.len() > MAX_CHANGES {
        return Err(22);
    }
    if room.0.min(room.1) < laid.len() {
        return Err(11);
    }
    Ok(laid.into_iter().collect())
}

/// "A listed node whose label equals the plan's is left out of W from now on, after superseding": the nodes that are left,
/// rising. `own` are the plan's labels.
pub fn differing(own: &[u8], nodes: &[u16], labels: &[u8]) -> Vec<u16> {
    let mut last = BTreeMap::new();
    for (&v, &a) in nodes.iter().zip(labels) {
        last.insert(v, a);
    }
    last.into_iter().filter(|&(v, a)| a != own[v as usize]).map(|(v, _)| v).collect()
}
