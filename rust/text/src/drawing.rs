//! What the pictures of a question share: the words and the look of a node, the title and the legend. Roots of parts are
//! those of the record after Start, states those of the library's runs.

use crate::loaded::{Asked, Loaded};
use crate::picture::{Look, Node, CHANGED, CLEARED, NOT_CLEARED, NO_LABEL, ONE_LABEL, PLAIN, PLAIN_LOOK};
use crate::questions::Change;
use crate::sentences::{self, clears, count};
use whatif::LabelSet;

/// Where the labels that nodes may take are marked: the legend, in pictures and on pages.
pub const OTHER_STATE_WHERE_MARKED: &str = "thick border, orange unless it is blue or grey: another state than before";
pub const ONE_LABEL_CLEARS: &str =
    "blue, 'only label ..': with the changes made, no other label of the node clears the plan";
pub const NO_LABEL_CLEARS: &str =
    "filled grey, 'no label': with the changes made, no label of the node clears the plan";

/// A question with its answer, on a loaded plan.
pub struct Question<'a> {
    pub loaded: &'a Loaded,
    pub asked: &'a Asked,
    pub number: usize,
    pub changes: &'a [Change],
}

impl Question<'_> {
    /// The label that a listed node is to take.
    fn takes(&self, v: usize) -> Option<u8> {
        self.changes.iter().rev().find(|change| usize::from(change.0) == v).map(|change| change.1)
    }

    fn part(&self, v: usize) -> Option<usize> {
        self.asked.roots.binary_search(&v).ok()
    }

    pub fn title(&self) -> Vec<String> {
        let (root, names) = (self.loaded.nodes() - 1, &self.loaded.names);
        let (was, before) = (sentences::verdict(self.loaded.is_cleared()), names.state(self.loaded.before(root)));
        let told = sentences::answer(&self.asked.answer, names);
        let as_it_is = format!("as it is: {}, state {}, {}", was, before, count(root + 1, "node"));
        vec![format!("Question {}: {}", self.number, told), format!("({})", as_it_is)]
    }

    /// A node with its state after the changes. Of the plan's root the verdict is said and drawn.
    pub fn node(&self, v: usize, after: u8, light: bool) -> Node {
        let (loaded, names, to) = (self.loaded, &self.loaded.names, self.takes(v));
        let (before, is_root) = (loaded.before(v), v + 1 == loaded.nodes());
        let takes = to.map_or(String::new(), |to| format!(" to {}", names.label(to)));
        let label = format!("label {}{}", names.label(loaded.labels()[v]), takes);
        let part = self.part(v).map_or(String::new(), |part| format!(", part {}", part + 1));
        let mut lines = vec![format!("node {}{}", v, part), label, sentences::state(before, after, names)];
        lines.extend(is_root.then(|| format!("the root: {}", sentences::verdict(self.asked.answer.yes))));
        let allowed = self.allowed(v);
        lines.extend(allowed.filter(|labels| labels.len() <= 1).map(|labels| clears(labels, loaded)));
        let fill = match (is_root, self.asked.answer.yes, allowed.map(LabelSet::len)) {
            (true, true, _) => CLEARED,
            (true, false, _) => NOT_CLEARED,
            (_, _, Some(0)) => NO_LABEL,
            (_, _, Some(1)) => ONE_LABEL,
            _ if before != after => CHANGED,
            _ => PLAIN,
        };
        let thick = before != after;
        let look = Look { fill, square: to.is_some(), double: self.part(v).is_some(), thick, light, point: false };
        let place = format!("depth {}, {} at and below it", loaded.node(v).depth, count(loaded.size(v), "node"));
        let passed = if light { ", passed over" } else { "" };
        let several = allowed.filter(|labels| labels.len() > 1);
        let several = several.map_or(String::new(), |labels| format!("; {}", clears(labels, loaded)));
        let tip = format!("{}; {}{}{}", lines.join(", "), place, passed, several);
        Node { lines, look, tip }
    }

    /// The labels that a node may take, where they are shown.
    fn allowed(&self, v: usize) -> Option<LabelSet> {
        self.asked.allowed.as_ref().map(|allowed| allowed[v])
    }

    /// The looks, with those of the labels that nodes may take where they are shown.
    pub fn legend(&self) -> Vec<(Look, &'static str)> {
        let mut legend = legend();
        if self.asked.allowed.is_some() {
            legend[1].1 = OTHER_STATE_WHERE_MARKED;
            let [one, none] = [ONE_LABEL, NO_LABEL].map(|fill| Look { fill, ..PLAIN_LOOK });
            legend.extend([(one, ONE_LABEL_CLEARS), (none, NO_LABEL_CLEARS)]);
        }
        legend
    }
}

/// The looks, each in words.
pub fn legend() -> Vec<(Look, &'static str)> {
    vec![
        (Look { square: true, ..PLAIN_LOOK }, "square corners: a listed node, with the label that it takes"),
        (Look { fill: CHANGED, thick: true, ..PLAIN_LOOK }, "orange, thick border: another state than before"),
        (Look { double: true, ..PLAIN_LOOK }, "two borders: the root of a part, with its number"),
        (Look { light: true, ..PLAIN_LOOK }, "grey and dashed: passed over by a climb, not looked at anew"),
        (Look { fill: CLEARED, ..PLAIN_LOOK }, "green: the plan is cleared"),
        (Look { fill: NOT_CLEARED, ..PLAIN_LOOK }, "red: the plan is not cleared"),
    ]
}
