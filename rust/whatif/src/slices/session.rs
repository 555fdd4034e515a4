//! The calls of the panel session.

use whatif_sys as raw;

pub fn load(record: &mut [u8], plan: &[u8], rules: &[u8], node_table: &mut [u16], state_table: &mut [u8]) -> u32 {
    // SAFETY: each pointer comes with its own slice's count, and the borrows keep the buffers apart
    unsafe {
        raw::whatif_load(
            record.as_mut_ptr(),
            record.len(),
            plan.as_ptr(),
            plan.len(),
            rules.as_ptr(),
            rules.len(),
            node_table.as_mut_ptr(),
            node_table.len(),
            state_table.as_mut_ptr(),
            state_table.len(),
        )
    }
}

#[allow(clippy::too_many_arguments)] // those of the call
pub fn start(
    record: &mut [u8],
    plan: &[u8],
    rules: &[u8],
    node_table: &[u16],
    state_table: &[u8],
    nodes: &[u16],
    labels: &[u8],
    parts: &mut u32,
) -> u32 {
    // SAFETY: as in `load`
    unsafe {
        raw::whatif_start(
            record.as_mut_ptr(),
            record.len(),
            plan.as_ptr(),
            plan.len(),
            rules.as_ptr(),
            rules.len(),
            node_table.as_ptr(),
            node_table.len(),
            state_table.as_ptr(),
            state_table.len(),
            nodes.as_ptr(),
            nodes.len(),
            labels.as_ptr(),
            labels.len(),
            parts,
        )
    }
}

pub fn advance(
    record: &mut [u8],
    plan: &[u8],
    rules: &[u8],
    node_table: &[u16],
    state_table: &[u8],
    finished: &mut u32,
) -> u32 {
    // SAFETY: as in `load`
    unsafe {
        raw::whatif_advance(
            record.as_mut_ptr(),
            record.len(),
            plan.as_ptr(),
            plan.len(),
            rules.as_ptr(),
            rules.len(),
            node_table.as_ptr(),
            node_table.len(),
            state_table.as_ptr(),
            state_table.len(),
            finished,
        )
    }
}

pub fn cancel(record: &mut [u8]) -> u32 {
    // SAFETY: as in `load`
    unsafe { raw::whatif_cancel(record.as_mut_ptr(), record.len()) }
}

/// Writes state, yes, parts, links and nodes passed over to `out`.
pub fn read(record: &[u8], out: &mut [u32; 5]) -> u32 {
    let [state, yes, parts, links, passed] = out;
    // SAFETY: as in `load`
    unsafe { raw::whatif_read(record.as_ptr(), record.len(), state, yes, parts, links, passed) }
}
