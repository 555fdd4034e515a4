//! The fewest changes.

use whatif_sys as raw;

/// Writes the changes that are listed to the nodes and labels of `list`, the least number and their count to `out`.
pub fn fewest(
    plan: &[u8],
    rules: &[u8],
    may: &[u64],
    want: u32,
    work: &mut [u32],
    list: (&mut [u16], &mut [u8]),
    out: &mut [u32; 2],
) -> u32 {
    let ((nodes, labels), [least, count]) = (list, out);
    // SAFETY: each pointer comes with its own slice's count, and the borrows keep the buffers apart
    unsafe {
        raw::whatif_fewest(
            plan.as_ptr(),
            plan.len(),
            rules.as_ptr(),
            rules.len(),
            may.as_ptr(),
            may.len(),
            want,
            work.as_mut_ptr(),
            work.len(),
            nodes.as_mut_ptr(),
            nodes.len(),
            labels.as_mut_ptr(),
            labels.len(),
            least,
            count,
        )
    }
}
