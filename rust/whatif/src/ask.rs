//! A whole question at once, outside the session.

use crate::{accepted, slices, Answer, Lent, Refusal};

/// What would the plan's state be if node `nodes[i]` took `labels[i]`? The whole question at once, outside the session:
/// the answer is the one that a session reads after a Start with this list and all its advances. It reads only the
/// values of the tables that it needs: a Start also checks them all. [`Panel::what_if`](crate::Panel::what_if) has
/// tables of its own.
///
/// # Errors
/// The first of 17, 12, 13, 14, 18; never 18 on tables that [`build`](crate::build) wrote for this plan and rule table.
/// On other tables an answer may be wrong: [`check`](crate::check) tables that somebody else may have altered.
#[inline]
pub fn ask(lent: &Lent<'_>, nodes: &[u16], labels: &[u8]) -> Result<Answer, Refusal> {
    let mut out = [0; 5];
    accepted(slices::ask(lent.plan, lent.rules, lent.node_table, lent.state_table, nodes, labels, &mut out))?;
    Ok(Answer::of(out))
}
