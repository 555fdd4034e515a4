//! The least that must change where a question leaves the plan not cleared, and the mended plan: a section of its page.
//!
//! The list is the answer of `whatif_fewest` on the plan with the question's changes made, whose nodes keep these labels:
//! as `whatif-text mend QUESTION` has it. The verdict is a fresh run's, the picture that of the list as a question.

use super::advance::fault;
use super::html::{escaped, paragraph};
use super::walk::Walk;
use crate::drawing::Question;
use crate::loaded::Loaded;
use crate::outcome::Failure;
use crate::picture::Picture;
use crate::questions::Change;
use crate::sentences::{answer, count, verdict};
use crate::{dot, outline, svg, DRAWN_WHOLE};
use whatif::{Fewest, Want};

/// Nothing where the plan is cleared.
pub fn section(walk: &Walk) -> Result<String, Failure> {
    if walk.answer.yes {
        return Ok(String::new());
    }
    let changed = walk.loaded.changed(walk.changes)?;
    let fewest = fewest(walk, &changed).map_err(Failure::refused)?;
    let said = paragraph(&sentence(walk, &fewest)?);
    let mended = match fewest {
        Fewest::Changes(list) => mended(changed, walk.number, &list)?,
        _ => String::new(),
    };
    Ok(format!("<section id=\"mend\">\n<h2>The least that must change</h2>\n{}{}</section>\n", said, mended))
}

fn fewest(walk: &Walk, changed: &Loaded) -> Result<Fewest, whatif::Refusal> {
    let listed: Vec<u16> = walk.changes.iter().map(|change| change.0).collect();
    let all = changed.panel.may_change();
    let may = if listed.is_empty() { all } else { all.keep(&listed)? };
    changed.panel.fewest(Want::Cleared, &may)
}

fn sentence(walk: &Walk, fewest: &Fewest) -> Result<String, Failure> {
    let kept = if walk.changes.is_empty() { "" } else { "With the question's changes kept, " };
    let changes = |number: usize| count(number, if walk.changes.is_empty() { "change" } else { "more change" });
    let said = match fewest {
        Fewest::AsItIs => return Err(fault("a plan that is not cleared is said to need no change")),
        Fewest::NoWay if walk.changes.is_empty() => "Nothing clears the plan.".to_string(),
        Fewest::NoWay => "nothing clears the plan.".to_string(),
        Fewest::Changes(list) if list.len() == 1 => format!("{} clears the plan.", changes(1)),
        Fewest::Changes(list) => format!("{} clear the plan, and no fewer do.", changes(list.len())),
        Fewest::Number(least) => {
            format!("{} clear the plan, and no fewer do: too many to be listed.", changes(*least as usize))
        }
    };
    Ok(format!("{}{}", kept, said))
}

/// The list, the verdict and the picture, on the plan with the question's changes.
fn mended(mut changed: Loaded, number: usize, list: &[Change]) -> Result<String, Failure> {
    let fresh = changed.panel.fresh_run(list).map_err(Failure::refused)?;
    if !fresh.yes {
        return Err(fault("the fewest changes do not clear the plan by a fresh run"));
    }
    let names = &changed.names;
    let item = |&(v, to): &Change| {
        let from = names.label(changed.labels()[usize::from(v)]);
        format!("<li>{}</li>\n", escaped(&format!("node {} from label {} to {}", v, from, names.label(to))))
    };
    let items: String = list.iter().map(item).collect();
    let then = format!("Then the plan is {}, state {}.", verdict(fresh.yes), names.state(fresh.state));
    let by =
        "<p class=\"quiet\">The list is the library's answer, by whatif_fewest; the verdict is a fresh run's.</p>\n";
    let picture = svg::of(&picture(&mut changed, number, list)?);
    Ok(format!("<ul>\n{}</ul>\n{}{}<figure>\n{}</figure>\n", items, paragraph(&then), by, picture))
}

/// A small plan whole, else the parts.
fn picture(changed: &mut Loaded, number: usize, list: &[Change]) -> Result<Picture, Failure> {
    let asked = changed.ask(list)?;
    let question = Question { loaded: changed, asked: &asked, number, changes: list };
    let mut picture = match changed.nodes() <= DRAWN_WHOLE {
        true => dot::picture(&question)?,
        false => outline::picture(&question, 1)?,
    };
    let before = "(before: the plan with the question's changes)".to_string();
    picture.title = vec![format!("The mended plan: {}", answer(&asked.answer, &changed.names)), before];
    Ok(picture)
}
