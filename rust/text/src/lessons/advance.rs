//! What an advance did: the node, its state before and after, the rule used and the climb.
//!
//! Root and state of the part, links and nodes passed over come from the record; the states of the children from the
//! library's run on the changed plan. The rule used, applied to them, is compared with the part's state, and the ends of
//! the climb with the nodes passed over. A difference ends the program.

use crate::json::Object;
use crate::names::Names;
use crate::outcome::Failure;
use crate::questions::Change;
use crate::sentences::{climbed, state};
use whatif::layout::number;
use whatif::{Panel, Part, Refusal, Session};

/// Where a record has the links and the nodes passed over so far: docs/LAYOUT.md.
const LINKS: usize = 9;
const PASSED: usize = 975;

/// The entry of the rule table that gave a state.
#[derive(Clone, Copy, Debug, PartialEq, Eq)]
pub enum Rule {
    Leaf { label: u8 },
    Inner { left: u8, label: u8, right: u8 },
}

/// From the root of the part below up to a child of this part's root.
#[derive(Clone, Copy, Debug, PartialEq, Eq)]
pub struct Climb {
    pub from: u16,
    pub to: u16,
    /// That it carried up.
    pub state: u8,
    pub links: u32,
    pub passed: u32,
}

#[derive(Clone, Copy, Debug, PartialEq, Eq)]
pub struct Advance {
    pub part: Part,
    pub before: u8,
    pub rule: Rule,
    pub climb: Option<Climb>,
}

/// A question that is asked: what its advances did is looked up here.
pub struct Advances {
    /// A panel of its own with the changes made.
    changed: Panel,
    children: Vec<Option<(u16, u16)>>,
}

impl Advances {
    pub fn of(panel: &Panel, changes: &[Change]) -> Result<Advances, Refusal> {
        let changed = Panel::new(panel.changed_plan(changes)?, panel.rules().clone())?;
        Ok(Advances { children: panel.plan().children(), changed })
    }

    /// The state of a node with the changes made.
    pub fn after(&self, v: u16) -> u8 {
        self.changed.node(v).map_or(0, |node| node.state)
    }

    /// The left and the right child of each node.
    pub fn children(&self) -> &[Option<(u16, u16)>] {
        &self.children
    }

    /// What the last advance did, by the records before and after it.
    pub fn last(&self, panel: &Panel, before: &Session) -> Result<Advance, Failure> {
        let after = panel.session();
        let part = after.handled().last().ok_or_else(|| fault("no part is handled"))?;
        let (links, passed) = (gained(before, after, LINKS), gained(before, after, PASSED));
        let rule = self.rule(part.root).ok_or_else(|| fault("a root is no node"))?;
        if rule.state(panel) != Some(part.state) {
            return Err(fault("the rule used does not give the part's state"));
        }
        let roots: Vec<u16> = after.roots().collect();
        let ends = self.climbs(panel, &roots, part.root);
        let risen = ends.map_or(0, |(from, to)| u32::from(depth(panel, from) - depth(panel, to)));
        if risen != passed || (risen == 0) != (links == 0) {
            return Err(fault("the ends of a climb are not those of the nodes passed over"));
        }
        let climb = ends.map(|(from, to)| Climb { from, to, state: self.after(to), links, passed });
        let before = panel.node(part.root).map_or(0, |node| node.state);
        Ok(Advance { part, before, rule, climb })
    }

    fn rule(&self, v: u16) -> Option<Rule> {
        let label = self.changed.node(v)?.label;
        Some(match self.children[usize::from(v)] {
            None => Rule::Leaf { label },
            Some((left, right)) => Rule::Inner { left: self.after(left), label, right: self.after(right) },
        })
    }

    /// Both ends of the climb of a part: the highest root below a child, where that is not the child itself. Of two
    /// children with roots below them both are roots, so there is one climb at most.
    fn climbs(&self, panel: &Panel, roots: &[u16], root: u16) -> Option<(u16, u16)> {
        let (left, right) = self.children[usize::from(root)]?;
        [left, right].into_iter().find_map(|child| {
            // in post-order the nodes below a node stand right before it
            let first = child + 1 - panel.node(child)?.size;
            let highest = roots.iter().rev().copied().find(|&v| first <= v && v <= child)?;
            (highest != child).then_some((highest, child))
        })
    }
}

fn depth(panel: &Panel, v: u16) -> u16 {
    panel.node(v).map_or(0, |node| node.depth)
}

fn gained(before: &Session, after: &Session, at: usize) -> u32 {
    let of = |session: &Session| number(session.as_bytes(), at).unwrap_or(0) as u32;
    of(after).wrapping_sub(of(before))
}

/// Links and nodes passed over so far.
pub fn so_far(session: &Session) -> (u32, u32) {
    let of = |at: usize| number(session.as_bytes(), at).unwrap_or(0) as u32;
    (of(LINKS), of(PASSED))
}

pub fn fault(what: &str) -> Failure {
    Failure::wrong(format!("a fault of whatif-text: {}", what))
}

impl Rule {
    fn state(&self, panel: &Panel) -> Option<u8> {
        match *self {
            Rule::Leaf { label } => panel.rules().leaf(label),
            Rule::Inner { left, label, right } => panel.rules().inner(left, label, right),
        }
    }

    /// The rule in words, up to the state that it gives.
    pub fn words(&self, names: &Names) -> String {
        match *self {
            Rule::Leaf { label } => format!("a leaf with label {} has state", names.label(label)),
            Rule::Inner { left, label, right } => {
                let (left, label, right) = (names.state(left), names.label(label), names.state(right));
                format!("left state {}, label {} and right state {} give", left, label, right)
            }
        }
    }
}

impl Advance {
    /// `Part 5 of 8: at node 27 state 0 becomes 3, because left state 0, label 3 and right state 0 give 3. No climb.`
    pub fn sentence(&self, names: &Names) -> String {
        let Part { number, of, root, state } = self.part;
        let (was, is) = (names.state(self.before), names.state(state));
        let becomes = if self.before == state { "stays".to_string() } else { format!("becomes {}", is) };
        let because = format!("because {} {}", self.rule.words(names), is);
        let climb = self.climb.map_or("No climb.".to_string(), |climb| climb.sentence(names));
        format!("Part {} of {}: at node {} state {} {}, {}. {}", number, of, root, was, becomes, because, climb)
    }

    /// The same, after what `session` says of an advance.
    pub fn clause(&self, names: &Names) -> String {
        let states = state(self.before, self.part.state, names);
        let climb = self.climb.map_or("no climb".to_string(), |climb| {
            format!("climb from node {} to node {}: {}", climb.from, climb.to, climbed(climb.links, climb.passed))
        });
        let rule = format!("{} {}", self.rule.words(names), names.state(self.part.state));
        format!("node {}: {}; {}; {}", self.part.root, states, rule, climb)
    }

    /// Its fields.
    pub fn object(&self, names: &Names) -> Object {
        let object = Object::new().number("root", self.part.root).state("state", self.part.state, names);
        let object = object.state("before", self.before, names);
        let object = match self.rule {
            Rule::Leaf { label } => object.label("label", label, names),
            Rule::Inner { left, label, right } => {
                object.state("left", left, names).label("label", label, names).state("right", right, names)
            }
        };
        let (links, passed) = self.climb.map_or((0, 0), |climb| (climb.links, climb.passed));
        let object = object.number("links", links).number("passed", passed);
        self.climb.into_iter().fold(object, |object, climb| object.number("from", climb.from).number("to", climb.to))
    }
}

impl Climb {
    pub fn sentence(&self, names: &Names) -> String {
        let carried = format!("Its climb carried state {} up", names.state(self.state));
        let said = climbed(self.links, self.passed);
        format!("{} from node {} to node {}: {}.", carried, self.from, self.to, said)
    }
}
