//! `whatif-text count`: how many choices of labels for some open nodes end in each state, what share of them clears the
//! plan, and one that does.
//!
//! The counts are the library's. The choice is made node by node: each keeps its own label where some choice for the
//! nodes after it still clears the plan, by the library's count, else it takes the first label with which one does.

use crate::input::Input;
use crate::json::Object;
use crate::loaded::Loaded;
use crate::outcome::Failure;
use crate::progress::Progress;
use crate::questions::Change;
use crate::sentences::{self, count, refused, verdict};
use whatif::{Counts, Refusal};

/// Of the given nodes, each open to all labels of the rules.
pub fn of_nodes(input: &Input, nodes: &[usize], json: bool) -> Result<String, Failure> {
    let loaded = Loaded::of(input)?;
    let open = as_nodes(&loaded, nodes)?;
    let told = loaded.panel.count(&open).map_err(|refusal| count_refused(refusal, &loaded, &open))?;
    let chosen = choice(&loaded, &open, &told)?;
    if json {
        return Ok(objects(&loaded, &open, &told, chosen.as_deref()));
    }
    let chosen = chosen.map_or(String::new(), |c| format!("a choice that clears it: {}\n", sentences::changes(&c)));
    Ok(head(&loaded, &open, &told) + &table(&loaded, &told) + &clears(&loaded, &told) + &chosen)
}

/// One for the whole, then one for each state.
fn objects(loaded: &Loaded, open: &[u16], told: &Counts, chosen: Option<&[Change]>) -> String {
    let whole = Object::new().list("open", open.iter().map(u16::to_string)).count("labels", loaded.rules().labels());
    let whole = whole.number("choices", told.all()).number("clearing", told.clearing());
    let whole = whole.number("parts", told.parts).number("links", told.links);
    let whole = whole.truth("was_cleared", loaded.is_cleared()).state(
        "was_state",
        loaded.before(loaded.nodes() - 1),
        &loaded.names,
    );
    let whole = chosen.into_iter().fold(whole, |whole, chosen| whole.changes("choice", chosen, &loaded.names));
    let state = |(state, &number): (usize, &u64)| {
        let cleared = loaded.rules().accepts(state as u8);
        Object::new()
            .state("state", state as u8, &loaded.names)
            .number("choices", number)
            .truth("cleared", cleared)
            .line()
    };
    whole.line() + &told.by_state().iter().enumerate().map(state).collect::<String>()
}

/// As 16-bit numbers; a greater one is no node of any plan.
fn as_nodes(loaded: &Loaded, nodes: &[usize]) -> Result<Vec<u16>, Failure> {
    let known = |v: usize| u16::try_from(v).map_err(|_| refused(Refusal::Node, Some(no_node(loaded, v))));
    nodes.iter().map(|&v| known(v)).collect()
}

fn no_node(loaded: &Loaded, v: usize) -> String {
    format!("node {}; the plan's are 0 to {}", v, loaded.nodes() - 1)
}

fn count_refused(refusal: Refusal, loaded: &Loaded, open: &[u16]) -> Failure {
    let about = match refusal {
        Refusal::ListLength => Some(count(open.len(), "node")),
        Refusal::Node => open.iter().find(|&&v| v as usize >= loaded.nodes()).map(|&v| no_node(loaded, v as usize)),
        Refusal::NodeTwice => {
            (1..open.len()).find(|&i| open[..i].contains(&open[i])).map(|i| format!("node {}", open[i]))
        }
        Refusal::Assignments => {
            Some(format!("{} at {}", count(loaded.rules().labels(), "label"), count(open.len(), "node")))
        }
        _ => None,
    };
    refused(refusal, about)
}

fn head(loaded: &Loaded, open: &[u16], told: &Counts) -> String {
    let (parts, links) = (count(told.parts as usize, "part"), count(told.links as usize, "link"));
    let (nodes, labels) = (count(open.len(), "open node"), count(loaded.rules().labels(), "label"));
    format!("{}, {}: {}, {}, {}\n\n", nodes, labels, choices(told.all()), parts, links)
}

/// A line for each state.
fn table(loaded: &Loaded, told: &Counts) -> String {
    let (rules, all) = (loaded.rules(), told.all());
    let numbers: Vec<String> = told.by_state().iter().map(|&number| grouped(number)).collect();
    let wide = numbers.iter().map(String::len).max().unwrap_or(0).max("choices".len());
    let mut text = format!("state  {:>wide$}  {:>12}\n", "choices", "share", wide = wide);
    for (state, number) in numbers.iter().enumerate() {
        let (share, clears) = (share(told.by_state()[state], all), verdict(rules.accepts(state as u8)));
        let named = loaded.names.state_name(state as u8).map_or(String::new(), |name| format!(" ({})", name));
        text += &format!("{:>5}  {:>wide$}  {:>12}  {}{}\n", state, number, share, clears, named, wide = wide);
    }
    text + "\n"
}

fn clears(loaded: &Loaded, told: &Counts) -> String {
    let (clearing, all) = (told.clearing(), told.all());
    let said = match clearing {
        0 => "no choice clears the plan".to_string(),
        _ if clearing == all => "every choice clears the plan".to_string(),
        _ => format!("{} of {} clear the plan: {}", grouped(clearing), choices(all), share(clearing, all)),
    };
    let before = loaded.names.state(loaded.before(loaded.nodes() - 1));
    format!("{}\nas it is: {}, state {}\n", said, verdict(loaded.is_cleared()), before)
}

/// A choice that clears the plan; none where none does.
fn choice(loaded: &Loaded, open: &[u16], told: &Counts) -> Result<Option<Vec<Change>>, Failure> {
    if told.clearing() == 0 {
        return Ok(None);
    }
    let chosen = a_clearing_choice(loaded, open)?;
    if !loaded.panel.fresh_run(&chosen).map_or(false, |fresh| fresh.yes) {
        return Err(Failure::wrong("a fault of whatif-text: its choice does not clear the plan by the library"));
    }
    Ok(Some(chosen))
}

/// Of nodes of which some choice clears the plan.
fn a_clearing_choice(loaded: &Loaded, open: &[u16]) -> Result<Vec<Change>, Failure> {
    let mut progress = Progress::of(open.len(), "nodes");
    let mut chosen: Vec<Change> = Vec::new();
    for (i, &v) in open.iter().enumerate() {
        progress.done(i);
        let label = clearing_label(loaded, &chosen, v, &open[i + 1..])?;
        chosen.push((v, label));
    }
    Ok(chosen)
}

/// The node's own label where it will do, else the first that does.
fn clearing_label(loaded: &Loaded, chosen: &[Change], v: u16, rest: &[u16]) -> Result<u8, Failure> {
    let own = loaded.labels()[usize::from(v)];
    let others = (0..loaded.rules().labels() as u8).filter(|&label| label != own);
    for label in std::iter::once(own).chain(others) {
        if some_choice_clears(loaded, chosen, (v, label), rest)? {
            return Ok(label);
        }
    }
    Err(Failure::wrong("a fault of whatif-text: the library counts choices that clear the plan, and none is found"))
}

/// With what is chosen so far and one more change, and any labels for the rest.
fn some_choice_clears(loaded: &Loaded, chosen: &[Change], next: Change, rest: &[u16]) -> Result<bool, Failure> {
    let changed = loaded.changed(&[chosen, &[next]].concat())?;
    let counted = changed.panel.count(rest).map_err(|refusal| count_refused(refusal, &changed, rest))?;
    Ok(counted.clearing() > 0)
}

fn choices(number: u64) -> String {
    format!("{} choice{}", grouped(number), if number == 1 { "" } else { "s" })
}

/// `1,000,000`.
pub(crate) fn grouped(number: u64) -> String {
    let digits = number.to_string();
    let comma = |i: usize| i > 0 && (digits.len() - i) % 3 == 0;
    digits.chars().enumerate().flat_map(|(i, c)| comma(i).then_some(',').into_iter().chain([c])).collect()
}

/// `12.5 %`, to the nearest; none and all are said so, and what is near them is not.
fn share(number: u64, all: u64) -> String {
    if number == 0 {
        return "none".to_string();
    }
    if number == all {
        return "all".to_string();
    }
    match (u128::from(number) * 2_000 + u128::from(all)) / (2 * u128::from(all)) {
        0 => "below 0.1 %".to_string(),
        1_000 => "above 99.9 %".to_string(),
        tenths => format!("{}.{} %", tenths / 10, tenths % 10),
    }
}

#[cfg(test)]
mod tests {
    use super::{grouped, share};

    #[test]
    fn numbers_in_groups() {
        let of = |number: u64| grouped(number);
        assert_eq!([of(0), of(999), of(1_000), of(1_234_567)].join(" "), "0 999 1,000 1,234,567");
        assert_eq!(of(1_000_000_000_000_000_000), "1,000,000,000,000,000,000");
    }

    #[test]
    fn shares() {
        let most = 1_000_000_000_000_000_000;
        let told = [(0, 4), (4, 4), (1, 4), (1, 3), (2, 3), (1, 2_000), (1, 2_001), (1, most), (most - 1, most)];
        let wanted =
            ["none", "all", "25.0 %", "33.3 %", "66.7 %", "0.1 %", "below 0.1 %", "below 0.1 %", "above 99.9 %"];
        assert_eq!(told.map(|(number, all)| share(number, all)), wanted);
    }
}
