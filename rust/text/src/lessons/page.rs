//! `whatif-text page`: a question as a page to step through, in one file.
//!
//! What the page says of a place is in the page: page.js shows it and works out nothing but where nodes are drawn.

use super::advance::Advance;
use super::html::{self, escaped, paragraph};
use super::mended;
use super::walk::{Place, Walk};
use crate::count::grouped;
use crate::drawing::{NO_LABEL_CLEARS, ONE_LABEL_CLEARS, OTHER_STATE_WHERE_MARKED};
use crate::input::Input;
use crate::json::{string, Object};
use crate::outcome::Failure;
use crate::sentences::{self, count, verdict};
use crate::DRAWN_WHOLE;
use std::collections::{BTreeMap, BTreeSet};
use whatif::{Kind, LabelSet};

pub(super) const STYLE: &str = include_str!("page.css");
const SCRIPT: &str = include_str!("page.js");

/// Of one of the questions, counted from 1. With `allowed` the nodes are marked that may take one label alone, or none,
/// with the changes made.
pub fn of_question(input: &Input, number: usize, allowed: bool) -> Result<String, Failure> {
    let walk = Walk::of(input, number)?;
    let marks = if allowed { Some(Marks::of(&walk)?) } else { None };
    let title = format!("What if {}?", sentences::changes(walk.changes));
    let body = format!("<h1>{}</h1>\n", escaped(&title))
        + &about(&walk)
        + CONTROLS
        + &legend(allowed)
        + &parts(&walk)
        + &mended::section(&walk)?
        + &html::scripted(&data(&walk, marks), SCRIPT);
    Ok(html::page(&title, STYLE, &body))
}

/// What is asked of which plan.
fn about(walk: &Walk) -> String {
    let names = &walk.loaded.names;
    let [n, s, k] = counts(walk);
    let plan = format!("A plan of {}, rules of {} and {}.", nodes(n), count(s, "state"), count(k, "label"));
    let change = |&(v, to): &(u16, u8)| match walk.loaded.labels().get(usize::from(v)) {
        Some(&label) => format!("node {} from label {} to {}", v, names.label(label), names.label(to)),
        None => String::new(),
    };
    let changes: Vec<String> = walk.changes.iter().map(change).collect();
    let asked = if changes.is_empty() { "none".to_string() } else { changes.join("; ") };
    paragraph(&format!("{} The changes: {}.", plan, asked))
}

const CONTROLS: &str = include_str!("page.html");

/// The looks, each in words; with those of the marks where they are shown.
fn legend(allowed: bool) -> String {
    let other = if allowed { OTHER_STATE_WHERE_MARKED } else { "thicker border: another state than before" };
    let marks = [("one", ONE_LABEL_CLEARS), ("none", NO_LABEL_CLEARS)];
    let looks = [
        ("changed", "square corners: a listed node, with the label that it takes"),
        ("root", "two borders: the root of a part, with its number"),
        ("now", "▶, thick border: the part handled last"),
        ("done", "violet, 'as before': a part that is handled, with the same state"),
        ("other", other),
        ("pass", "dashed: passed over by a climb, not worked out"),
    ];
    let item = |boxes: &str, words: &str| format!("<li>{}{}</li>\n", boxes, escaped(words));
    let a_box = |class: &str| format!("<span class=\"box {}\"></span>", class);
    let verdicts = item(&(a_box("yes") + &a_box("no")), "the plan's root: cleared or not, in words");
    let looks = looks.iter().chain(marks.iter().filter(|_| allowed));
    let items: String = looks.map(|(class, words)| item(&a_box(class), words)).collect();
    format!("<ul class=\"legend\">\n{}{}</ul>\n", items, verdicts)
}

/// The labels that each node may take, with the changes made: by `whatif_allowed`.
struct Marks {
    /// Of each node the place of its set below.
    of: Vec<usize>,
    /// Each set once: its class and its words.
    sets: Vec<String>,
}

impl Marks {
    fn of(walk: &Walk) -> Result<Marks, Failure> {
        let allowed = walk.loaded.changed(walk.changes)?.allowed()?;
        let different: BTreeSet<u64> = allowed.iter().map(|set| set.bits()).collect();
        let places: BTreeMap<u64, usize> = different.iter().copied().zip(0..).collect();
        let set = |&bits: &u64| {
            let set = LabelSet::from_bits(bits);
            let class = ["none", "one"].get(set.len()).unwrap_or(&"");
            Object::new().text("class", class).text("words", &sentences::clears(set, &walk.loaded)).inner()
        };
        Ok(Marks {
            of: allowed.iter().map(|set| places[&set.bits()]).collect(),
            sets: different.iter().map(set).collect(),
        })
    }
}

/// Every part in words, shown as far as it is handled; without a script all of them.
fn parts(walk: &Walk) -> String {
    let item = |advance: &Advance| format!("<li>{}</li>\n", escaped(&advance.sentence(&walk.loaded.names)));
    let items: String = walk.advances.iter().map(item).collect();
    let said = escaped(&finished(walk));
    format!(
        "<section id=\"walk\">\n<h2>The walk in words</h2>\n<ol id=\"parts\">\n{}</ol>\n</section>\n\
         <noscript>{}</noscript>\n",
        items,
        format_args!("<p>{}</p>", said)
    )
}

fn finished(walk: &Walk) -> String {
    let state = walk.loaded.names.state(walk.answer.state);
    format!("Finished: the plan is {}, state {}.", verdict(walk.answer.yes), state)
}

fn counts(walk: &Walk) -> [usize; 3] {
    [walk.loaded.nodes(), walk.loaded.rules().states(), walk.loaded.rules().labels()]
}

/// With commas between the thousands.
pub(super) fn nodes(number: usize) -> String {
    format!("{} node{}", grouped(number as u64), if number == 1 { "" } else { "s" })
}

/// What the script reads.
fn data(walk: &Walk, marks: Option<Marks>) -> String {
    let (loaded, [n, s, k]) = (&walk.loaded, counts(walk));
    let kinds: String = loaded.panel.plan().kinds().map(|kind| if kind == Kind::Leaf { 'l' } else { 'i' }).collect();
    let takes = |v: usize| walk.takes(v).map(|label| format!("[{},{}]", v, label));
    let listed: BTreeSet<u16> = walk.changes.iter().map(|change| change.0).collect();
    let climb = |advance: &Advance| match advance.climb {
        None => "null".to_string(),
        Some(climb) => Object::new()
            .number("from", climb.from)
            .number("to", climb.to)
            .number("state", climb.state)
            .number("links", climb.links)
            .inner(),
    };
    let runs = walk.runs.iter().map(|places| {
        format!(
            "[{}]",
            places.iter().enumerate().map(|(i, place)| place_of(walk, i, place)).collect::<Vec<_>>().join(",")
        )
    });
    let marks = marks.iter().fold(Object::new(), |object, marks| {
        object.list("allowed", marks.of.iter().map(usize::to_string)).list("sets", marks.sets.iter().cloned())
    });
    Object::new()
        .count("nodes", n)
        .count("whole", DRAWN_WHOLE)
        .text("kinds", &kinds)
        .list("labels", loaded.labels().iter().map(u8::to_string))
        .list("before", (0..n).map(|v| loaded.before(v).to_string()))
        .list("labelNames", (0..k).map(|label| string(&loaded.names.label(label as u8))))
        .list("stateNames", (0..s).map(|state| string(&loaded.names.state(state as u8))))
        .list("takes", listed.into_iter().filter_map(|v| takes(v.into())))
        .list("roots", walk.roots.iter().map(u16::to_string))
        .list("after", walk.advances.iter().map(|advance| advance.part.state.to_string()))
        .list("climbs", walk.advances.iter().map(climb))
        .list("runs", runs)
        .and(marks)
        .line()
}

/// A place of a run: 0 is loaded, 1 started, then one for each part.
fn place_of(walk: &Walk, at: usize, place: &Place) -> String {
    let calls = ["start", "advance", "cancel"].into_iter().zip(&place.refused);
    let refused = calls.filter_map(|(call, refused)| refused.as_ref().map(|refused| (call, refused)));
    let refused = refused.fold(Object::new(), |object, (call, refused)| object.text(call, refused));
    let (root, class) = verdict_at_root(walk, place.state);
    let object = Object::new()
        .text("state", place.state)
        .number("done", place.done)
        .text("say", &say(walk, at, place))
        .text("worked", &worked(walk, place))
        .text("root", &root)
        .text("verdict", &verdict_of(walk, place.state))
        .text("verdictClass", class)
        .text("read", &place.read)
        .object("refused", refused);
    place.cancelled.iter().fold(object, |object, cancelled| object.text("cancelled", cancelled)).inner()
}

/// The sentence of a place.
pub fn say(walk: &Walk, at: usize, place: &Place) -> String {
    let [n, s, k] = counts(walk);
    match at {
        0 => {
            let loaded = format!("Loaded: {}, {}, {}.", nodes(n), count(s, "state"), count(k, "label"));
            format!("{} {} Press start.", loaded, verdict_of(walk, "loaded"))
        }
        1 => {
            let roots = format!("Their roots, in the order of the advances: {}.", listed(&walk.roots));
            let parts = count(walk.roots.len(), "part");
            format!("Started: {}. {} Nothing is worked out again yet.", parts, roots)
        }
        _ => {
            let said = walk.advances[at - 2].sentence(&walk.loaded.names);
            if place.state == "answered" {
                format!("{} {}", said, finished(walk))
            } else {
                said
            }
        }
    }
}

/// Of many the first ones.
fn listed(roots: &[u16]) -> String {
    const SHOWN: usize = 16;
    let shown: Vec<String> = roots.iter().take(SHOWN).map(u16::to_string).collect();
    let more = roots.len().saturating_sub(SHOWN);
    let rest = if more == 0 { String::new() } else { format!(" and {} more", more) };
    format!("node{} {}{}", if roots.len() == 1 { "" } else { "s" }, shown.join(", "), rest)
}

/// `15 of 61,471 nodes worked out again; 78 links, 30,412 nodes passed over`
pub fn worked(walk: &Walk, place: &Place) -> String {
    let all = walk.loaded.nodes();
    let (links, passed) = (count(place.links as usize, "link"), nodes(place.passed as usize));
    format!("{} of {} worked out again; {}, {} passed over", place.done, nodes(all), links, passed)
}

/// In words, for a session in this state.
pub fn verdict_of(walk: &Walk, state: &str) -> String {
    let (loaded, names) = (&walk.loaded, &walk.loaded.names);
    let as_it_is = format!(
        "the plan is {}, state {}",
        verdict(loaded.is_cleared()),
        names.state(loaded.before(loaded.nodes() - 1))
    );
    match state {
        "answered" => format!("The plan is {}, state {}.", verdict(walk.answer.yes), names.state(walk.answer.state)),
        "running" => "Not answered yet.".to_string(),
        _ => format!("As it is, {}.", as_it_is),
    }
}

/// What the plan's root says, and the class of the verdict.
pub fn verdict_at_root(walk: &Walk, state: &str) -> (String, &'static str) {
    let class = |yes: bool| if yes { "yes" } else { "no" };
    match state {
        "answered" => (verdict(walk.answer.yes).to_string(), class(walk.answer.yes)),
        "running" => ("not answered yet".to_string(), "open"),
        _ => (verdict(walk.loaded.is_cleared()).to_string(), class(walk.loaded.is_cleared())),
    }
}
