//! A whole question at once, outside the session: "17, 12, 13, 14, 18", and what Read tells after a Start with this list
//! and all its advances.

use crate::count::named;
use crate::formats::{read_plan, read_rules};
use crate::fresh::{changed, check_list};
use crate::lists::differing;
use crate::panel::{Inputs, Outcome, Sizes};
use crate::parts::{totals, Given};
use crate::ready::by_marks;
use crate::tables::Tables;
use crate::tree::Tree;

/// What the documents say of a call.
#[derive(Clone, Copy, Debug, PartialEq, Eq)]
pub enum Said {
    Refused(u32),
    Answered(Outcome),
    /// The node table is not as built, or some value is not one below S: 18 with a cause, or an answer of the program's own.
    Left,
}

/// 17 from the headers, then the list's.
pub fn checks(inputs: &Inputs, nodes: &[u16], labels: &[u8]) -> Result<Sizes, u32> {
    let sizes = named(inputs).ok_or(17u32)?;
    sizes.fit(inputs)?;
    check_list(nodes, labels, sizes.n, sizes.k)?;
    Ok(sizes)
}

pub fn ask(inputs: &Inputs, nodes: &[u16], labels: &[u8]) -> Said {
    let sizes = match checks(inputs, nodes, labels) {
        Err(number) => return Said::Refused(number),
        Ok(sizes) => sizes,
    };
    let (plan, rules) = match (read_plan(inputs.plan), read_rules(inputs.rules)) {
        (Ok(plan), Ok(rules)) if plan.labels_below(rules.labels).is_ok() => (plan, rules),
        _ => return Said::Left,
    };
    let tree = Tree::of(&plan);
    let state_table = &inputs.state_table[..(sizes.s + 1) * sizes.n];
    let right = inputs.node_table.starts_with(&Tables::node_table(&tree));
    if !right || state_table.iter().any(|&q| q as usize >= sizes.s) {
        return Said::Left;
    }
    let changed = changed(plan.labels, nodes, labels);
    let members = by_marks(&tree, &differing(plan.labels, nodes, labels));
    let given = Given { tree: &tree, labels: plan.labels, changed: &changed, rules: &rules, state_table };
    let parts = given.parts(&members);
    let state = parts[parts.len() - 1].state;
    let (links, passed) = totals(&parts);
    let yes = rules.accepts(state);
    Said::Answered(Outcome { state: state.into(), yes, parts: parts.len() as u32, links, passed })
}
