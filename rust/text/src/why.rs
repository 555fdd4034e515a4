//! `whatif-text why`: the states along the path from each changed node, until they rejoin the old run; and with which
//! states and labels of a node the plan would be cleared, in repairs.rs.

use crate::input::Input;
use crate::json::Object;
use crate::loaded::Loaded;
use crate::outcome::Failure;
use crate::questions::Change;
use crate::repairs::Repairs;
use crate::sentences::{self, count};
use std::collections::BTreeSet;

/// Of more steps than these between two listed nodes the first and the last are told.
const STEPS: usize = 8;
const FIRST: usize = 4;
const LAST: usize = 2;

/// Of one of the questions, counted from 1; every step where `whole`.
pub fn of_question(input: &Input, question: usize, whole: bool, json: bool) -> Result<String, Failure> {
    let list = input.question(question)?;
    let loaded = Loaded::of(input)?;
    let answer = loaded.what_if(list)?;
    let changed = loaded.changed(list)?;
    let root = loaded.nodes() - 1;
    if changed.before(root) != answer.state {
        return Err(Failure::wrong("a fault of whatif-text: the changed plan's run and the library's answer differ"));
    }
    let repairs = Repairs::of(&changed, list)?;
    let paths = Paths { loaded: &loaded, changed: &changed, list, whole, told: BTreeSet::new() };
    if json {
        let asked = Object::new()
            .count("question", question)
            .changes("changes", list, &input.names)
            .answer(&answer, &input.names);
        return Ok(repairs.fields(loaded.as_it_is(asked)).line() + &paths.objects());
    }
    let was = sentences::verdict(loaded.is_cleared());
    let (said, before) = (sentences::answer(&answer, &input.names), input.names.state(loaded.before(root)));
    let head = format!("{}: {}\nas it is: {}, state {}\n", sentences::question(question, list), said, was, before);
    Ok(head + &paths.all() + &repairs.text())
}

struct Paths<'a> {
    loaded: &'a Loaded,
    /// The plan with the changes made.
    changed: &'a Loaded,
    list: &'a [Change],
    whole: bool,
    /// The nodes of the paths before.
    told: BTreeSet<usize>,
}

/// Nodes one above the other with the same states: the lowest, the highest and how many.
struct Step {
    from: usize,
    to: usize,
    nodes: usize,
}

impl Paths<'_> {
    fn all(mut self) -> String {
        let listed: BTreeSet<u16> = self.list.iter().map(|change| change.0).collect();
        listed.into_iter().map(|v| self.from(v as usize)).collect()
    }

    /// Every listed node and every one above it whose state is another, by rising number: an object each.
    fn objects(&self) -> String {
        let mut nodes = BTreeSet::new();
        for &(v, _) in self.list {
            let mut at = usize::from(v);
            while nodes.insert(at) && self.differs(at) && at + 1 < self.loaded.nodes() {
                at = self.loaded.parent(at);
            }
        }
        nodes.into_iter().map(|v| self.object(v)).collect()
    }

    fn object(&self, v: usize) -> String {
        let (before, after) = self.states(v);
        let names = &self.loaded.names;
        let object = Object::new().count("node", v).label("label", self.loaded.labels()[v], names);
        let object = self.takes(v).into_iter().fold(object, |object, to| object.label("to", to, names));
        let object = object.state("before", before, names).state("after", after, names);
        object.truth("root", v + 1 == self.loaded.nodes()).line()
    }

    /// From a listed node up.
    fn from(&mut self, v: usize) -> String {
        if self.told.contains(&v) {
            return self.line(v, "; its path is told above");
        }
        let mut text = self.line(v, "");
        let mut at = v;
        while self.differs(at) && at + 1 < self.loaded.nodes() {
            self.told.insert(at);
            let (steps, next) = self.steps(self.loaded.parent(at));
            text += &self.shortened(&steps);
            if self.told.contains(&next) {
                return text + &format!("  node {}: from here as above\n", next);
            }
            let rejoins = if self.differs(next) { "" } else { ": it rejoins the old run" };
            text += &format!("  {}", self.line(next, rejoins));
            at = next;
        }
        self.told.insert(at);
        text
    }

    /// The steps from a node up to the next one that has a line of its own, and that one: a node that is listed, told
    /// before, as before, or the root.
    fn steps(&mut self, first: usize) -> (Vec<Step>, usize) {
        let (mut steps, mut at): (Vec<Step>, usize) = (Vec::new(), first);
        while self.differs(at) && at + 1 < self.loaded.nodes() && self.takes(at).is_none() && self.told.insert(at) {
            match steps.last_mut() {
                Some(step) if self.states(step.to) == self.states(at) => {
                    step.to = at;
                    step.nodes += 1;
                }
                _ => steps.push(Step { from: at, to: at, nodes: 1 }),
            }
            at = self.loaded.parent(at);
        }
        (steps, at)
    }

    fn shortened(&self, steps: &[Step]) -> String {
        let all = |steps: &[Step]| steps.iter().map(|step| self.step(step)).collect::<String>();
        if self.whole || steps.len() <= STEPS {
            return all(steps);
        }
        let (first, rest) = steps.split_at(FIRST);
        let (between, last) = rest.split_at(rest.len() - LAST);
        let nodes: usize = between.iter().map(|step| step.nodes).sum();
        all(first) + &format!("  .. {} more ..\n", count(nodes, "node")) + &all(last)
    }

    fn step(&self, step: &Step) -> String {
        let (before, after) = self.states(step.from);
        let states = sentences::state(before, after, &self.loaded.names);
        match step.nodes {
            1 => format!("  node {}: {}\n", step.from, states),
            nodes => format!("  nodes {} up to {}, {} of them: {}\n", step.from, step.to, nodes, states),
        }
    }

    fn line(&self, v: usize, end: &str) -> String {
        let (before, after) = self.states(v);
        let label = self.takes(v).map_or(String::new(), |to| {
            let names = &self.loaded.names;
            format!(", label {} to {}", names.label(self.loaded.labels()[v]), names.label(to))
        });
        let root = if v + 1 == self.loaded.nodes() { ", the root" } else { "" };
        format!("node {}{}{}: {}{}\n", v, root, label, sentences::state(before, after, &self.loaded.names), end)
    }

    /// The label that a listed node is to take.
    fn takes(&self, v: usize) -> Option<u8> {
        self.list.iter().rev().find(|change| change.0 as usize == v).map(|change| change.1)
    }

    fn states(&self, v: usize) -> (u8, u8) {
        (self.loaded.before(v), self.changed.before(v))
    }

    fn differs(&self, v: usize) -> bool {
        let (before, after) = self.states(v);
        before != after
    }
}
