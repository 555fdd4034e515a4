//! A whole question on lent tables, outside the session.

use crate::count::lent;
use crate::fresh::list;
use crate::question::Part;

/// State, yes, parts, links and nodes passed over. 17, 12, 13, 14, 18 or the answer.
#[inline(never)]
pub fn ask_whole(
    plan: &[u8],
    rules: &[u8],
    node_table: &[u16],
    state_table: &[u8],
    nodes: &[u16],
    labels: &[u8],
) -> Result<[u32; 5], u32> {
    let lent = lent(plan, rules, node_table, state_table)?;
    list(nodes, labels, lent.n, lent.k)?;
    let (left, count) = lent.left(nodes, labels);
    let roots = lent.roots(&left[..count])?;
    let roots = roots.as_slice();
    let (mut states, mut links, mut passed) = ([0; 256], 0, 0);
    for (i, &v) in roots.iter().enumerate() {
        let a = lent.label(v as usize, nodes, labels);
        let part: Part = lent.part(v as usize, a, &roots[..i], &states)?;
        states[i] = part.state;
        links += part.links;
        passed += part.passed;
    }
    let state = states[roots.len() - 1];
    let yes = lent.marks[state as usize] == 1;
    Ok([u32::from(state), u32::from(yes), roots.len() as u32, links, passed])
}
