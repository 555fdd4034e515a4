//! The calls of the eight screens.

use whatif_sys as raw;

/// `next` takes the screen to try first.
pub fn screens_load(
    records: &mut [u8],
    plan: &[u8],
    rules: &[u8],
    node_table: &mut [u16],
    state_table: &mut [u8],
    next: &mut u32,
) -> u32 {
    // SAFETY: each pointer comes with its own slice's count, and the borrows keep the buffers apart
    unsafe {
        raw::whatif_screens_load(
            records.as_mut_ptr(),
            records.len(),
            plan.as_ptr(),
            plan.len(),
            rules.as_ptr(),
            rules.len(),
            node_table.as_mut_ptr(),
            node_table.len(),
            state_table.as_mut_ptr(),
            state_table.len(),
            next,
        )
    }
}

#[allow(clippy::too_many_arguments)] // those of the call
pub fn screens_start(
    records: &mut [u8],
    screen: u32,
    plan: &[u8],
    rules: &[u8],
    node_table: &[u16],
    state_table: &[u8],
    nodes: &[u16],
    labels: &[u8],
    parts: &mut u32,
) -> u32 {
    // SAFETY: as in `screens_load`
    unsafe {
        raw::whatif_screens_start(
            records.as_mut_ptr(),
            records.len(),
            screen,
            plan.as_ptr(),
            plan.len(),
            rules.as_ptr(),
            rules.len(),
            node_table.as_ptr(),
            node_table.len(),
            state_table.as_ptr(),
            state_table.len(),
            nodes.as_ptr(),
            nodes.len(),
            labels.as_ptr(),
            labels.len(),
            parts,
        )
    }
}

/// Writes the screen to try first, and whether the question is finished, to `out`.
pub fn screens_deal(
    records: &mut [u8],
    first: u32,
    plan: &[u8],
    rules: &[u8],
    node_table: &[u16],
    state_table: &[u8],
    out: &mut [u32; 2],
) -> u32 {
    let [next, finished] = out;
    // SAFETY: as in `screens_load`
    unsafe {
        raw::whatif_screens_deal(
            records.as_mut_ptr(),
            records.len(),
            first,
            plan.as_ptr(),
            plan.len(),
            rules.as_ptr(),
            rules.len(),
            node_table.as_ptr(),
            node_table.len(),
            state_table.as_ptr(),
            state_table.len(),
            next,
            finished,
        )
    }
}

pub fn screens_cancel(records: &mut [u8], screen: u32) -> u32 {
    // SAFETY: as in `screens_load`
    unsafe { raw::whatif_screens_cancel(records.as_mut_ptr(), records.len(), screen) }
}

/// Writes state, yes, parts, links and nodes passed over to `out`.
pub fn screens_read(records: &[u8], screen: u32, out: &mut [u32; 5]) -> u32 {
    let [state, yes, parts, links, passed] = out;
    // SAFETY: as in `screens_load`
    unsafe { raw::whatif_screens_read(records.as_ptr(), records.len(), screen, state, yes, parts, links, passed) }
}
