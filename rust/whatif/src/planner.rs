//! The bridge planner's files: out to our plans, and home.

use crate::{accepted, sizes, slices, Refusal};

/// Writes our plan of a planner's file, and for each of the file's nodes its node in that plan. Returns n, the number
/// of the file's nodes: `places` has as many numbers then, and the plan is the first
/// [`planner_plan_bytes(n)`](sizes::planner_plan_bytes) bytes of `plan`; the rest of both stays.
/// [`Planned`](crate::Planned) has buffers of its own.
///
/// # Errors
/// The first of 19, 20, 21; both buffers are unchanged then.
///
/// ```
/// let file = whatif::layout::planner_file(&[5], &[0]); // one node with label 5
/// let (mut plan, mut places) = ([0; whatif::sizes::planner_plan_bytes(1)], [0; 1]);
/// assert_eq!(whatif::plan_of_planner(&file, &mut plan, &mut places)?, 1);
/// assert_eq!((&plan[12..15], places), (&[63, 63, 5][..], [2]));
/// # Ok::<(), whatif::Refusal>(())
/// ```
pub fn plan_of_planner(file: &[u8], plan: &mut [u8], places: &mut [u16]) -> Result<usize, Refusal> {
    accepted(slices::plan_of_planner(file, plan, places))?;
    Ok((file.len() - sizes::planner_bytes(0)) / 2)
}

/// Writes the planner's file of our plan, and returns n, the number of its nodes: the file is the first
/// [`planner_bytes(n)`](sizes::planner_bytes) bytes of `file`, and the rest stays.
///
/// # Errors
/// 19 for every plan but those that [`plan_of_planner`] writes, then 21; the buffer is unchanged then.
///
/// ```
/// // a plan of one leaf has no planner's node
/// let plan = whatif::layout::plan(&[63], &[0]);
/// assert_eq!(whatif::planner_of_plan(&plan, &mut [0; 14]), Err(whatif::Refusal::PlannerFile));
/// ```
pub fn planner_of_plan(plan: &[u8], file: &mut [u8]) -> Result<usize, Refusal> {
    accepted(slices::planner_of_plan(plan, file))?;
    // a plan of N nodes has 12+2N bytes, and N is 2n+1
    Ok((plan.len() - sizes::planner_plan_bytes(0)) / 4)
}
