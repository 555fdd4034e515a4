//! The words of answers and refusals.

use crate::json::Object;
use crate::loaded::Loaded;
use crate::names::Names;
use crate::outcome::{Failure, Refused};
use crate::questions::Change;
use whatif::layout::number;
use whatif::sizes::plan_bytes;
use whatif::{Answer, LabelSet, Refusal, Rules, StateSet};

/// `1 part`, `2 parts`.
pub fn count(number: usize, what: &str) -> String {
    format!("{} {}{}", number, what, if number == 1 { "" } else { "s" })
}

pub fn verdict(yes: bool) -> &'static str {
    if yes {
        "cleared"
    } else {
        "not cleared"
    }
}

pub fn answer(answer: &Answer, names: &Names) -> String {
    let (state, parts) = (names.state(answer.state), count(answer.parts as usize, "part"));
    format!("{}, state {}, {}, {}", verdict(answer.yes), state, parts, climbed(answer.links, answer.passed))
}

/// What a call says: in words, and as fields.
pub type Said = (String, Object);

/// A line of a script with what its call says, or its refusal.
pub fn call(words: &str, said: Result<Said, Failure>, json: bool) -> String {
    let object = Object::new().text("call", words);
    match (json, said) {
        (true, Ok((_, fields))) => object.and(fields).line(),
        (true, Err(failure)) => object.failure(&failure).line(),
        (false, Ok((said, _))) => format!("{}: {}\n", words, said),
        (false, Err(failure)) => format!("{}: {}\n", words, failure.what()),
    }
}

/// The moves of climbs, and the nodes that they passed over.
pub fn climbed(links: u32, passed: u32) -> String {
    format!("{}, {} passed over", count(links as usize, "link"), count(passed as usize, "node"))
}

/// A question as the text has it.
pub fn changes(changes: &[Change]) -> String {
    let said: Vec<String> = changes.iter().map(|(node, label)| format!("{}->{}", node, label)).collect();
    if said.is_empty() {
        "none".to_string()
    } else {
        said.join(" ")
    }
}

/// So many of a long list stand in a sentence.
const SHOWN: usize = 8;

/// The same where it stands in a sentence: of a long one the first changes.
pub fn question(number: usize, list: &[Change]) -> String {
    let more = list.len().saturating_sub(SHOWN);
    let rest = if more == 0 { String::new() } else { format!(" and {} more", more) };
    format!("question {}, {}{}", number, changes(&list[..list.len() - more]), rest)
}

/// `before to after`, or that it is as before.
pub fn state(before: u8, after: u8, names: &Names) -> String {
    if before == after {
        format!("state {}, as before", names.state(after))
    } else {
        format!("state {} to {}", names.state(before), names.state(after))
    }
}

/// `no label`, `label 3`, `labels 0, 3` or `every label`, and how a verb after it ends.
pub fn labels(labels: LabelSet, loaded: &Loaded) -> (String, &'static str) {
    let names = labels.iter().map(|label| loaded.names.label(label)).collect();
    members("label", names, loaded.rules().labels())
}

/// `only label 3 clears`, `no label clears`, `labels 0, 3 clear`.
pub fn clears(set: LabelSet, loaded: &Loaded) -> String {
    let (said, s) = labels(set, loaded);
    format!("{}{} clear{}", if set.len() == 1 { "only " } else { "" }, said, s)
}

/// The same of states.
pub fn states(states: StateSet, loaded: &Loaded) -> (String, &'static str) {
    let names = states.iter().map(|state| loaded.names.state(state)).collect();
    members("state", names, loaded.rules().states())
}

/// Of more than eight the first ones.
fn members(what: &str, names: Vec<String>, all: usize) -> (String, &'static str) {
    let more = names.len().saturating_sub(SHOWN);
    match names.len() {
        0 => (format!("no {}", what), "s"),
        1 => (format!("{} {}", what, names[0]), "s"),
        some if some == all => (format!("every {}", what), "s"),
        _ if more == 0 => (format!("{}s {}", what, names.join(", ")), ""),
        _ => (format!("{}s {} and {} more", what, names[..SHOWN].join(", "), more), ""),
    }
}

/// A refusal, and which entry it is about where that is found.
pub fn refused(refusal: Refusal, about: Option<String>) -> Failure {
    Failure::Refused(Refused { refusal, about })
}

/// Of a plan and rules.
pub fn load_refused(refusal: Refusal, plan: &[u8], rules: &[u8]) -> Failure {
    let about = match refusal {
        Refusal::PlanShort if plan.is_empty() => Some("there is no plan".to_string()),
        Refusal::TableShort if rules.is_empty() => Some("there are no rules".to_string()),
        Refusal::PlanTree => Some(where_no_tree(&plan[(plan.len() + plan_bytes(0)) / 2..])),
        Refusal::PlanLabel => label_too_great(plan, rules),
        _ => None,
    };
    refused(refusal, about)
}

/// Of kinds that are not those of one tree.
fn where_no_tree(kinds: &[u8]) -> String {
    let mut waiting = 0;
    for (v, kind) in kinds.iter().enumerate() {
        match kind {
            0 => waiting += 1,
            1 if waiting >= 2 => waiting -= 1,
            1 => return format!("node {} is an inner node, and fewer than two trees stand before it", v),
            _ => return format!("node {} has kind {}, and 0 and 1 are all there are", v, kind),
        }
    }
    format!("{} are left at the end, and one is to be", count(waiting, "tree"))
}

fn label_too_great(plan: &[u8], rules: &[u8]) -> Option<String> {
    let k = Rules::from_bytes(rules).ok()?.labels();
    let labels = plan.get(plan_bytes(0)..plan_bytes(0) + number(plan, 0)? as usize)?;
    let v = labels.iter().position(|&label| label as usize >= k)?;
    Some(format!("node {} has label {}, and the rules have labels 0 to {}", v, labels[v], k - 1))
}

/// Of a list of changes, on a plan of n nodes and rules of k labels.
pub fn list_refused(refusal: Refusal, list: &[Change], n: usize, k: usize) -> Failure {
    let about = match refusal {
        Refusal::ListLength => Some(format!("{} changes", list.len())),
        Refusal::Node => list
            .iter()
            .find(|change| change.0 as usize >= n)
            .map(|change| format!("node {}; the plan's are 0 to {}", change.0, n - 1)),
        Refusal::Label => list
            .iter()
            .find(|change| change.1 as usize >= k)
            .map(|change| format!("label {} for node {}; the table's are 0 to {}", change.1, change.0, k - 1)),
        Refusal::NodeTwice => (1..list.len())
            .find(|&i| list[..i].iter().any(|change| change.0 == list[i].0))
            .map(|i| format!("node {}", list[i].0)),
        _ => None,
    };
    refused(refusal, about)
}
