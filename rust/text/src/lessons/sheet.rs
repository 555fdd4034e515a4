//! `whatif-text sheet`: a question to work out by hand, as a page to print; the solution is on the next page.
//!
//! What the solution says is what the page of the question says: the record after each call, and the library's runs.

use super::advance::{Advance, Rule};
use super::html::{self, escaped, paragraph};
use super::page::nodes as nodes_of;
use super::walk::Walk;
use crate::dot::from_the_top;
use crate::input::Input;
use crate::loaded::Loaded;
use crate::names::Names;
use crate::outcome::Failure;
use crate::picture::{Edge, Look, Node, Picture, Stroke, PLAIN_LOOK};
use crate::sentences::{changes, climbed, count, state, verdict};
use crate::DRAWN_WHOLE;
use std::collections::BTreeSet;

pub(super) const STYLE: &str = include_str!("sheet.css");
/// Where something is to be written.
pub(super) const WRITE: &str = "<span class=\"write\">&nbsp;</span>";
const BOX: &str = "▢";
/// A place for a state, in a picture.
const STATE: &str = "____";

/// Of one of the questions, counted from 1.
pub fn of_question(input: &Input, number: usize) -> Result<String, Failure> {
    let walk = Walk::of(input, number)?;
    let loaded = &walk.loaded;
    let title = format!("What if {}?", changes(walk.changes));
    let head = format!("<h1>{}</h1>\n", escaped(&title));
    let (plan, rules) = (plan(&walk, false), rules(loaded, &labels(&walk)));
    let task = if loaded.nodes() <= DRAWN_WHOLE { TASK } else { TASK_LARGE };
    let task = paragraph(task) + &plan + &rules + &parts(&walk, false) + &asked(&walk);
    let solved = self::plan(&walk, true) + &parts(&walk, true) + &answered(&walk);
    let body = head + &task + &solution(&format!("Solution: {}", title), &solved);
    Ok(html::page(&title, STYLE, &body))
}

const TASK: &str =
    "Some nodes take another label: the new one is behind the old one. Write the state of each node, first as \
    the plan is, then with the changes. Fill in a row for each part, in rising order of their root nodes.";

const TASK_LARGE: &str =
    "Some nodes take another label: the new one is behind the old one. Of this large plan the roots of the parts are \
    drawn, with their states as the plan is. Step through the page of the question, which shows what each climb carries \
    up. Write each state with the changes. Fill in a row for each part, in rising order of their root nodes.";

/// A picture; one that is taller than half a page may fill a page in print.
fn figure(picture: &Picture) -> String {
    let svg = crate::svg::of(picture);
    let height = svg.split("height=\"").nth(1).and_then(|rest| rest.split('"').next()?.parse().ok()).unwrap_or(0);
    let class = if height > TALL { " class=\"tall\"" } else { "" };
    format!("<figure{}>\n{}</figure>\n", class, svg)
}

/// In pixels, 96 of them an inch.
const TALL: usize = 600;

/// On the next page.
pub(super) fn solution(title: &str, solved: &str) -> String {
    format!("<section class=\"solution\">\n<h1>{}</h1>\n{}</section>\n", escaped(title), solved)
}

fn asked(walk: &Walk) -> String {
    let parts = format!("<p>Parts: {}, links: {}, nodes passed over: {}.</p>\n", WRITE, WRITE, WRITE);
    let nodes = nodes_of(walk.loaded.nodes());
    let worked = format!("<p>Worked out again: {} of {}.</p>\n", WRITE, nodes);
    parts + &worked + &format!("<p>The plan is cleared: {} yes {} no</p>\n", BOX, BOX)
}

fn answered(walk: &Walk) -> String {
    let (answer, names) = (&walk.answer, &walk.loaded.names);
    let parts = count(answer.parts as usize, "part");
    let worked = format!("{} of {} worked out again.", answer.parts, nodes_of(walk.loaded.nodes()));
    let says = format!("The plan is {}, state {}.", verdict(answer.yes), names.state(answer.state));
    let climbs = format!("{}, {}.", parts, climbed(answer.links, answer.passed));
    [climbs, worked, says].iter().map(|words| paragraph(words)).collect()
}

/// Every label of the nodes that are drawn, before and after.
fn labels(walk: &Walk) -> BTreeSet<u8> {
    let drawn = drawn(walk);
    let own = drawn.iter().map(|&v| walk.loaded.labels()[v]);
    own.chain(walk.changes.iter().map(|change| change.1)).collect()
}

/// The nodes of a small plan, or the roots of the parts, from the top.
fn drawn(walk: &Walk) -> Vec<usize> {
    let below = |v: usize| below(walk, v);
    from_the_top(walk.loaded.nodes() - 1, below)
}

/// The nodes drawn right below one: its children, or of a large plan the next roots of parts.
fn below(walk: &Walk, v: usize) -> Vec<usize> {
    let loaded = &walk.loaded;
    if loaded.nodes() <= DRAWN_WHOLE {
        return walk.children[v].map_or(vec![], |(left, right)| vec![left.into(), right.into()]);
    }
    let first = v + 1 - loaded.size(v);
    let inside: Vec<usize> = walk.roots.iter().map(|&root| root.into()).filter(|&w| first <= w && w < v).collect();
    let is_highest = |&w: &usize| !inside.iter().any(|&u| u > w && w + loaded.size(u) > u);
    inside.iter().copied().filter(is_highest).collect()
}

/// The plan with boxes for the states, or with the states.
fn plan(walk: &Walk, solved: bool) -> String {
    let order = drawn(walk);
    let nodes = order.iter().map(|&v| node(walk, v, solved)).collect();
    let place = |v: usize| order.iter().position(|&w| w == v).unwrap_or(0);
    let mut edges = Vec::new();
    for &v in &order {
        for w in below(walk, v) {
            let between = walk.loaded.node(w).depth - walk.loaded.node(v).depth - 1;
            let words = if between == 0 { String::new() } else { format!("{} between", count(between.into(), "node")) };
            let stroke = if between == 0 { Stroke::Plain } else { Stroke::Climb };
            edges.push(Edge { from: place(v), to: place(w), stroke, words });
        }
    }
    edges.sort_by_key(|edge| (edge.from, edge.to));
    let title = vec![format!("The plan, {}", nodes_of(walk.loaded.nodes()))];
    figure(&Picture { name: "sheet", title, nodes, edges, legend: vec![] })
}

fn node(walk: &Walk, v: usize, solved: bool) -> Node {
    let (loaded, names) = (&walk.loaded, &walk.loaded.names);
    let takes = walk.takes(v).map_or(String::new(), |to| format!(" to {}", names.label(to)));
    let label = format!("label {}{}", names.label(loaded.labels()[v]), takes);
    let part = walk.advances.iter().find(|advance| usize::from(advance.part.root) == v);
    let before = names.state(loaded.before(v));
    let states = match (solved, part) {
        (true, Some(advance)) => state(advance.before, advance.part.state, names),
        (true, None) => format!("state {}", before),
        (false, _) if loaded.nodes() > DRAWN_WHOLE => format!("state {} to {}", before, STATE),
        (false, _) => format!("state {} to {}", STATE, STATE),
    };
    let number = part.filter(|_| solved).map_or(String::new(), |advance| format!(", part {}", advance.part.number));
    let lines = vec![format!("node {}{}", v, number), label, states];
    let look = Look { square: walk.takes(v).is_some(), double: solved && part.is_some(), ..PLAIN_LOOK };
    Node { tip: lines.join(", "), lines, look }
}

/// A row for each part, empty or filled in. The empty rows are two more than needed, so that their number
/// gives nothing away.
fn parts(walk: &Walk, solved: bool) -> String {
    let heads = ["Part", "Node", "State before", "Left state", "Label", "Right state", "State after", "Climb"];
    let cells: String = heads.iter().map(|head| format!("<th scope=\"col\">{}</th>", head)).collect();
    let head = format!("<thead><tr>{}</tr></thead>\n", cells);
    let mut rows = String::new();
    if solved {
        rows.extend(walk.advances.iter().map(|advance| row(&cells_of(advance, &walk.loaded.names))));
    } else {
        let empty = |i: usize| row(&[&[i.to_string()][..], &vec![String::new(); heads.len() - 1]].concat());
        rows.extend((1..=walk.advances.len() + 2).map(empty));
    }
    format!("<h2>The parts</h2>\n<table>\n{}<tbody>\n{}</tbody></table>\n", head, rows)
}

fn row(cells: &[String]) -> String {
    let cell = |cell: &String| match cell.is_empty() {
        true => "<td class=\"empty\"></td>".to_string(),
        false => format!("<td>{}</td>", escaped(cell)),
    };
    format!("<tr>{}</tr>\n", cells.iter().map(cell).collect::<String>())
}

fn cells_of(advance: &Advance, names: &Names) -> Vec<String> {
    let [left, label, right] = match advance.rule {
        Rule::Leaf { label } => ["leaf".to_string(), names.label(label), "leaf".to_string()],
        Rule::Inner { left, label, right } => [names.state(left), names.label(label), names.state(right)],
    };
    let climb = advance.climb.map_or("none".to_string(), |climb| {
        format!("node {} to {}: {}", climb.from, climb.to, climbed(climb.links, climb.passed))
    });
    let (number, root) = (advance.part.number.to_string(), advance.part.root.to_string());
    let (before, after) = (names.state(advance.before), names.state(advance.part.state));
    vec![number, root, before, left, label, right, after, climb]
}

/// The rules of these labels, a grid each, and the states that clear a plan.
pub(super) fn rules(loaded: &Loaded, labels: &BTreeSet<u8>) -> String {
    let (rules, names) = (loaded.rules(), &loaded.names);
    let states: Vec<u8> = (0..rules.states() as u8).collect();
    let known = |state: Option<u8>| state.map_or(String::new(), |state| escaped(&names.state(state)));
    let leaf = |&a: &u8| {
        format!("<tr><th scope=\"row\">{}</th><td>{}</td></tr>\n", escaped(&names.label(a)), known(rules.leaf(a)))
    };
    let leaves: String = labels.iter().map(leaf).collect();
    let mut grids =
        format!("<table><caption>A leaf</caption>\n<tr><th>label</th><th>state</th></tr>\n{}</table>\n", leaves);
    let heads: String =
        states.iter().map(|&q| format!("<th scope=\"col\">{}</th>", escaped(&names.state(q)))).collect();
    for &a in labels {
        let row = |&p: &u8| {
            let cells: String = states.iter().map(|&q| format!("<td>{}</td>", known(rules.inner(p, a, q)))).collect();
            format!("<tr><th scope=\"row\">{}</th>{}</tr>\n", escaped(&names.state(p)), cells)
        };
        let rows: String = states.iter().map(row).collect();
        let caption = format!("<caption>Label {}</caption>", escaped(&names.label(a)));
        grids += &format!("<table>{}\n<tr><th>left \\ right</th>{}</tr>\n{}</table>\n", caption, heads, rows);
    }
    let marked: Vec<String> = states.iter().filter(|&&p| rules.accepts(p)).map(|&p| names.state(p)).collect();
    let noun = if marked.len() == 1 { "this state" } else { "these states" };
    let marked = if marked.is_empty() { "none".to_string() } else { marked.join(", ") };
    let clears = paragraph(&format!("A plan is cleared where its root has {}: {}.", noun, marked));
    format!("<h2>The rules</h2>\n<div class=\"rules\">\n{}</div>\n{}", grids, clears)
}

/// The plan as it is, with boxes for the states or with the states.
pub(super) fn plan_as_it_is(loaded: &Loaded, solved: bool) -> String {
    let children = loaded.panel.plan().children();
    let below = |v: usize| children[v].map_or(vec![], |(left, right)| vec![usize::from(left), usize::from(right)]);
    let order = from_the_top(loaded.nodes() - 1, below);
    let names = &loaded.names;
    let node = |&v: &usize| {
        let state = if solved { names.state(loaded.before(v)) } else { STATE.to_string() };
        let label = format!("label {}", names.label(loaded.labels()[v]));
        let lines = vec![format!("node {}", v), label, format!("state {}", state)];
        Node { tip: lines.join(", "), lines, look: PLAIN_LOOK }
    };
    let place = |v: usize| order.iter().position(|&w| w == v).unwrap_or(0);
    let edge = |from: usize, to: usize| Edge { from, to, stroke: Stroke::Plain, words: String::new() };
    let mut edges: Vec<Edge> = order
        .iter()
        .flat_map(|&v| below(v).into_iter().map(move |w| (v, w)))
        .map(|(v, w)| edge(place(v), place(w)))
        .collect();
    edges.sort_by_key(|edge| (edge.from, edge.to));
    let (nodes, title) = (order.iter().map(node).collect(), vec![format!("The plan, {}", nodes_of(loaded.nodes()))]);
    figure(&Picture { name: "sheet", title, nodes, edges, legend: vec![] })
}
