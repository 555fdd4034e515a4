//! One list of changes laid over another, by one sort.

/// The nodes of both lists, rising, with the last label of each; how many there are. 12, 12, 22 or 11.
pub fn lay_over(
    lower: (&[u16], &[u8]),
    upper: (&[u16], &[u8]),
    nodes: &mut [u16],
    labels: &mut [u8],
) -> Result<usize, u32> {
    for (nodes, labels) in [lower, upper] {
        if nodes.len() != labels.len() || nodes.len() > 64 {
            return Err(12);
        }
    }
    // node, then place in the two lists, then label: of a node the last entry holds
    let mut keys = [0u32; 128];
    let entries = lower.0.iter().zip(lower.1).chain(upper.0.iter().zip(upper.1));
    let mut all = 0;
    for (i, (&v, &a)) in (0..).zip(entries) {
        keys[all] = u32::from(v) << 16 | i << 8 | u32::from(a);
        all += 1;
    }
    let keys = &mut keys[..all];
    keys.sort_unstable();
    let mut count = 0;
    for i in 0..keys.len() {
        if keys.get(i + 1).map_or(true, |next| next >> 16 != keys[i] >> 16) {
            keys[count] = keys[i];
            count += 1;
        }
    }
    if count > 64 {
        return Err(22);
    }
    if nodes.len() < count || labels.len() < count {
        return Err(11);
    }
    for (i, &key) in keys[..count].iter().enumerate() {
        (nodes[i], labels[i]) = ((key >> 16) as u16, key as u8);
    }
    Ok(count)
}
