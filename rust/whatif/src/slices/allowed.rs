//! The calls that answer for every node at once.

use whatif_sys as raw;

pub fn allowed(plan: &[u8], rules: &[u8], masks: &mut [u64]) -> u32 {
    // SAFETY: each pointer comes with its own slice's count, and the borrows keep the buffers apart
    unsafe {
        raw::whatif_allowed(plan.as_ptr(), plan.len(), rules.as_ptr(), rules.len(), masks.as_mut_ptr(), masks.len())
    }
}

pub fn clearing(plan: &[u8], rules: &[u8], sets: &mut [u16]) -> u32 {
    // SAFETY: as in `allowed`
    unsafe {
        raw::whatif_clearing(plan.as_ptr(), plan.len(), rules.as_ptr(), rules.len(), sets.as_mut_ptr(), sets.len())
    }
}
