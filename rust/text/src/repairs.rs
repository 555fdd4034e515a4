//! Why a repair is possible where it is: with which states of a node the plan is cleared, and which labels lead there.
//! Both are the library's sets on the plan with a question's changes made, `whatif_clearing` and `whatif_allowed`. A label
//! is allowed exactly where its state is one that clears.

use crate::json::Object;
use crate::loaded::Loaded;
use crate::outcome::Failure;
use crate::questions::Change;
use crate::sentences::{count, labels, states};
use std::collections::BTreeSet;
use whatif::{LabelSet, StateSet};

pub struct Repairs<'a> {
    changed: &'a Loaded,
    listed: BTreeSet<usize>,
    clearing: Vec<StateSet>,
    allowed: Vec<LabelSet>,
}

impl Repairs<'_> {
    /// Of a plan with the changes of a list made.
    pub fn of<'a>(changed: &'a Loaded, list: &[Change]) -> Result<Repairs<'a>, Failure> {
        let listed = list.iter().map(|change| usize::from(change.0)).collect();
        Ok(Repairs { changed, listed, clearing: changed.clearing()?, allowed: changed.allowed()? })
    }

    /// Where the plan is not cleared: how many nodes can repair it alone, and the nearest to the root of them.
    fn possible(&self) -> Option<(usize, Option<usize>)> {
        let nodes = || (0..self.changed.nodes()).filter(|&v| !self.allowed[v].is_empty());
        let nearest = || nodes().min_by_key(|&v| self.changed.node(v).depth);
        (!self.changed.is_cleared()).then(|| (nodes().count(), nearest()))
    }

    /// A line for each listed node, and one on where a repair is possible.
    pub fn text(&self) -> String {
        let listed: String = self.listed.iter().map(|&v| format!("  {}\n", self.sentence(v))).collect();
        let head = if listed.is_empty() { "" } else { "all else as the question has it:\n" };
        let possible = match self.possible() {
            None => String::new(),
            Some((number, Some(nearest))) => {
                let nodes = count(number, "node");
                format!("one more change clears it at {}; nearest to the root {}\n", nodes, self.sentence(nearest))
            }
            Some((_, None)) => "no single change more clears it\n".into(),
        };
        head.to_string() + &listed + &possible
    }

    fn sentence(&self, v: usize) -> String {
        let (states, clear) = states(self.clearing[v], self.changed);
        let (labels, lead) = labels(self.allowed[v], self.changed);
        let end = match self.clearing[v].is_empty() {
            true => String::new(),
            false => format!(", {} lead{} there", labels, lead),
        };
        format!("node {}: {} clear{} the plan{}", v, states, clear, end)
    }

    /// The same as fields.
    pub fn fields(&self, object: Object) -> Object {
        let object = object.list("listed", self.listed.iter().map(|&v| self.object(v)));
        match self.possible() {
            None => object,
            Some((number, nearest)) => object.count("repairs", number).list("nearest", nearest.map(|v| self.object(v))),
        }
    }

    fn object(&self, v: usize) -> String {
        let object = Object::new().count("node", v);
        let object = object.list("clearing", self.clearing[v].iter().map(|state| state.to_string()));
        object.list("allowed", self.allowed[v].iter().map(|label| label.to_string())).inner()
    }
}
