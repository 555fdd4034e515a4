//! `whatif-text branch` and `branch-with-upper`: what a branch table makes of the labels down to a node, step by step
//! or as a picture of the path.

use crate::input::Input;
use crate::json::Object;
use crate::names::Names;
use crate::outcome::Failure;
use crate::picture::{Drawn, Edge, Look, Node, Picture, Stroke, CLEARED, NOT_CLEARED, PLAIN_LOOK};
use crate::sentences::{climbed, count};
use whatif::{BranchTable, BranchVerdict, Branches, Plan, Refusal};

/// Of a longer path the first and the last nodes are told.
pub(crate) const NODES: usize = 12;
pub(crate) const FIRST: usize = 6;
pub(crate) const LAST: usize = 4;

/// A branch table's bytes, and its names.
pub type Table = (Vec<u8>, Names);

/// Which word is read: whether the upper node's label is its first letter.
#[derive(Clone, Copy, PartialEq, Eq)]
pub enum Reading {
    BelowUpper,
    WithUpper,
}

/// A branch question that was answered: its nodes from the upper down, and the state after each letter.
pub struct Asked {
    pub(crate) reading: Reading,
    pub(crate) verdict: BranchVerdict,
    pub(crate) path: Vec<usize>,
    pub(crate) labels: Vec<u8>,
    /// After each node's label; none for an upper node that is not read.
    pub(crate) states: Vec<Option<u8>>,
    /// Of the plan's labels and the table's states.
    pub(crate) names: Names,
}

/// By the library: the answer, and the state at each node of the path by a question of its own.
pub fn ask(input: &Input, table: &Table, nodes: [usize; 2], reading: Reading) -> Result<Asked, Failure> {
    let asked = by_library(input, table, nodes, reading).map_err(Failure::refused)?;
    let last = asked.states[asked.states.len() - 1].unwrap_or(0);
    if last != asked.verdict.state {
        return Err(Failure::wrong("a fault of whatif-text: its last step and the library's answer differ"));
    }
    Ok(asked)
}

fn by_library(input: &Input, (table, names): &Table, nodes: [usize; 2], reading: Reading) -> Result<Asked, Refusal> {
    let branches = Branches::build(Plan::from_bytes(&input.plan[..])?, BranchTable::from_bytes(&table[..])?)?;
    let [upper, lower] = nodes.map(|v| u32::try_from(v).unwrap_or(u32::MAX));
    let down_to = |lower: u32| match reading {
        Reading::BelowUpper => branches.ask(upper, lower),
        Reading::WithUpper => branches.ask_with_upper(upper, lower),
    };
    let verdict = down_to(lower)?;
    let path = branches.path(upper, lower)?;
    let states = path.iter().map(|&v| match reading == Reading::BelowUpper && u32::from(v) == upper {
        true => Ok(None),
        false => down_to(v.into()).map(|verdict| Some(verdict.state)),
    });
    let states = states.collect::<Result<Vec<_>, Refusal>>()?;
    let path: Vec<usize> = path.into_iter().map(usize::from).collect();
    let labels: Vec<u8> = path.iter().map(|&v| branches.plan().labels()[v]).collect();
    let names = Names::labels_and_states(&names.clone().or(&input.names), names);
    Ok(Asked { reading, verdict, states, labels, path, names })
}

impl Asked {
    fn sentence(&self) -> String {
        let BranchVerdict { links, passed, .. } = self.verdict;
        format!("{}, {}", self.found(), climbed(links, passed))
    }

    /// The question, and its state and verdict.
    pub(crate) fn found(&self) -> String {
        let from = if self.reading == Reading::WithUpper { "from" } else { "from below" };
        let (upper, lower) = (self.path[0], self.path[self.path.len() - 1]);
        let yes = if self.verdict.yes { "yes" } else { "no" };
        format!(
            "{} node {} down to node {}: {}, state {}",
            from,
            upper,
            lower,
            yes,
            self.names.state(self.verdict.state)
        )
    }

    /// The places on the path that are told, and how many are left out after the first of them.
    fn told(&self, whole: bool) -> (Vec<usize>, usize) {
        let nodes = self.path.len();
        if whole || nodes <= NODES {
            return ((0..nodes).collect(), 0);
        }
        ((0..FIRST).chain(nodes - LAST..nodes).collect(), nodes - FIRST - LAST)
    }

    /// A line a node.
    pub fn text(&self, whole: bool) -> String {
        let (told, left_out) = self.told(whole);
        let mut text = self.sentence() + "\n";
        for (i, &at) in told.iter().enumerate() {
            if left_out > 0 && i == FIRST {
                text += &format!("  .. {}\n", count(left_out, "node"));
            }
            let state = self.states[at].map_or("not read".into(), |state| format!("state {}", self.names.state(state)));
            text += &format!("  node {}, label {}: {}\n", self.path[at], self.names.label(self.labels[at]), state);
        }
        text
    }

    /// One for the question, then one for each node of the path.
    pub fn objects(&self) -> String {
        let node = |at: usize| self.node_object(at).line();
        self.object().line() + &(0..self.path.len()).map(node).collect::<String>()
    }

    pub(crate) fn object(&self) -> Object {
        let BranchVerdict { links, passed, state, yes } = self.verdict;
        let (upper, lower) = (self.path[0], self.path[self.path.len() - 1]);
        let asked = Object::new().count("upper", upper).count("lower", lower);
        let asked = asked.truth("with_upper", self.reading == Reading::WithUpper);
        asked.truth("yes", yes).state("state", state, &self.names).number("links", links).number("passed", passed)
    }

    pub(crate) fn node_object(&self, at: usize) -> Object {
        let node = Object::new().count("node", self.path[at]).label("label", self.labels[at], &self.names);
        self.states[at].into_iter().fold(node, |node, state| node.state("state", state, &self.names))
    }

    /// The path; the lower node has the answer's colour.
    pub fn picture(&self, how: Drawn) -> String {
        let (told, left_out) = self.told(false);
        let node = |&at: &usize| {
            let look = self.look(at);
            let fill = if at + 1 == self.path.len() { self.verdict_fill() } else { look.fill };
            self.drawn_node(at, Look { fill, ..look }, None)
        };
        let edge = |i: usize| match left_out > 0 && i + 1 == FIRST {
            true => Edge { from: i, to: i + 1, stroke: Stroke::Dashed, words: count(left_out, "node") },
            false => Edge { from: i, to: i + 1, stroke: Stroke::Plain, words: String::new() },
        };
        let (nodes, edges) = (told.iter().map(node).collect(), (0..told.len() - 1).map(edge).collect());
        Picture { name: "branch", title: vec![self.sentence()], nodes, edges, legend: self.legend() }.drawn(how)
    }

    pub(crate) fn legend(&self) -> Vec<(Look, &'static str)> {
        vec![
            (Look { light: true, ..PLAIN_LOOK }, "grey and dashed: not read"),
            (Look { fill: CLEARED, ..PLAIN_LOOK }, "green: the answer is yes"),
            (Look { fill: NOT_CLEARED, ..PLAIN_LOOK }, "red: the answer is no"),
        ]
    }

    pub(crate) fn look(&self, at: usize) -> Look {
        let last = at + 1 == self.path.len();
        Look { light: self.states[at].is_none(), double: last, ..PLAIN_LOOK }
    }

    pub(crate) fn verdict_fill(&self) -> &'static str {
        if self.verdict.yes {
            CLEARED
        } else {
            NOT_CLEARED
        }
    }

    /// A node of the path, with another line where one is given.
    pub(crate) fn drawn_node(&self, at: usize, look: Look, more: Option<String>) -> Node {
        let mut lines = vec![format!("node {}", self.path[at]), format!("label {}", self.names.label(self.labels[at]))];
        lines.push(self.states[at].map_or("not read".into(), |state| format!("state {}", self.names.state(state))));
        lines.extend(more);
        if at + 1 == self.path.len() {
            lines.push(format!("answer: {}", if self.verdict.yes { "yes" } else { "no" }));
        }
        let tip = lines.join(", ");
        Node { lines, look, tip }
    }
}
