//! A whole question on lent tables.

use whatif_sys as raw;

/// Writes state, yes, parts, links and nodes passed over to `out`.
#[inline]
pub fn ask(
    plan: &[u8],
    rules: &[u8],
    node_table: &[u16],
    state_table: &[u8],
    nodes: &[u16],
    labels: &[u8],
    out: &mut [u32; 5],
) -> u32 {
    let [state, yes, parts, links, passed] = out;
    // SAFETY: each pointer comes with its own slice's count, and the borrows keep the buffers apart
    unsafe {
        raw::whatif_ask(
            plan.as_ptr(),
            plan.len(),
            rules.as_ptr(),
            rules.len(),
            node_table.as_ptr(),
            node_table.len(),
            state_table.as_ptr(),
            state_table.len(),
            nodes.as_ptr(),
            nodes.len(),
            labels.as_ptr(),
            labels.len(),
            state,
            yes,
            parts,
            links,
            passed,
        )
    }
}
