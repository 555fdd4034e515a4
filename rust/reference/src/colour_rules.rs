//! Questions by colours over sets of states (document 02, S-14): "For rule tables with S up to 4 the same goes top down over
//! sets of states, numbered by adding 2 to the power k for each member k".
//!
//! By the path itself (`by_path`, what holds on tables as built). On other tables the documents leave the answer to the
//! program, which may be 18; `question` says what is settled.

use crate::colour_branch::ColourTables;
use crate::colours::{colour_of, Colours};
use crate::count::named;
use crate::formats::{read_plan, read_rules, Plan, Rules};
use crate::fresh::{changed, check_list};
use crate::lists::differing;
use crate::panel;
use crate::ready::by_marks;
use crate::tables::{rule_tables, run};
use crate::tree::Tree;

/// "rule tables with S up to 4"
pub const MOST_STATES: usize = 4;

#[derive(Clone, Copy, Debug, PartialEq, Eq)]
pub struct Answer {
    pub state: u8,
    pub yes: bool,
    pub drops: usize,
    pub links: usize,
    pub parts: usize,
}

/// A plan with its rule table, its run and the colours of its sets.
pub struct Coloured<'a> {
    pub tree: Tree,
    plan: Plan<'a>,
    rules: Rules<'a>,
    states: Vec<u8>,
    pub colours: Colours,
}

/// What one part is found with.
#[derive(Clone, Debug, PartialEq, Eq)]
pub struct Tried {
    pub state: u8,
    /// The links of each search of all its trials.
    pub searches: Vec<usize>,
}

impl<'a> Coloured<'a> {
    /// Of a plan and a rule table of at most four states that passed 2 to 10.
    pub fn new(plan: Plan<'a>, rules: Rules<'a>) -> Coloured<'a> {
        let tree = Tree::of(&plan);
        let states = run(plan.kinds, plan.labels, &rules);
        let colours = Colours::of(&tree, 1 << rules.states, |v, set| led(&tree, &plan, &rules, &states, v, set));
        Coloured { tree, plan, rules, states, colours }
    }

    /// The question on tables as built, with the listed labels changed; the parts, rising, too.
    pub fn by_path(&self, nodes: &[u16], labels: &[u8]) -> (Answer, Vec<Tried>) {
        let members = by_marks(&self.tree, &differing(self.plan.labels, nodes, labels));
        let changed = changed(self.plan.labels, nodes, labels);
        let mut parts: Vec<Tried> = Vec::new();
        for &v in &members {
            let part = self.part(&members, &parts, changed[v], v);
            parts.push(part);
        }
        let state = parts[parts.len() - 1].state;
        let answer = Answer {
            state,
            yes: self.rules.accepts(state),
            drops: parts.iter().map(|part| part.searches.len()).sum(),
            links: parts.iter().flat_map(|part| &part.searches).sum(),
            parts: parts.len(),
        };
        (answer, parts)
    }

    /// The part that v roots, of label a; `handled` are those of the members before it.
    fn part(&self, members: &[usize], handled: &[Tried], a: u8, v: usize) -> Tried {
        let untried = |state: u8| Tried { state, searches: Vec::new() };
        let (left, right) = match self.tree.children[v] {
            None => return untried(self.rules.leaf(a)),
            Some(children) => children,
        };
        let of = |w: usize| handled[members.binary_search(&w).expect("a member")].state;
        let at_run = |child: usize| untried(self.states[child]);
        let (l, r) = match (self.highest(members, left), self.highest(members, right)) {
            (None, None) => (at_run(left), at_run(right)),
            (Some(_), Some(_)) => (untried(of(left)), untried(of(right))),
            (Some(w), None) => (self.tried(left, w, of(w)), at_run(right)),
            (None, Some(w)) => (at_run(left), self.tried(right, w, of(w))),
        };
        let state = self.rules.inner(l.state, a, r.state);
        Tried { state, searches: [l.searches, r.searches].concat() }
    }

    fn highest(&self, members: &[usize], child: usize) -> Option<usize> {
        let below = |&&v: &&usize| v <= child && child < v + self.tree.size[child];
        members.iter().filter(below).copied().min_by_key(|&v| self.tree.depth[v])
    }

    /// "where a part has members below one child only, the state its climb gives is found by trying target states in rising
    /// order up to it, and the drops add up": the state at child c, where node w below it is in state q.
    fn tried(&self, c: usize, w: usize, q: u8) -> Tried {
        let mut searches = Vec::new();
        for x in 0..self.rules.states as u8 {
            let colour = colour_of(&self.colours.copies[c], 1 << x);
            let way = self.colours.down(&self.tree, Some(c), w, colour);
            let holds = holds(self.colours.copies[w][way.colour], q);
            searches.extend(way.searches);
            if holds {
                return Tried { state: x, searches };
            }
        }
        panic!("one of the states is led to")
    }
}

fn holds(set: u8, state: u8) -> bool {
    set >> state & 1 == 1
}

/// "a step down takes a set to the states at the child that lead into it": with the parent's label and the run state of the
/// other child. The root's own copy is the top copy.
fn led(tree: &Tree, plan: &Plan, rules: &Rules, states: &[u8], v: usize, set: u8) -> u8 {
    if v == tree.root() {
        return set;
    }
    let p = tree.parent[v];
    let (left, right) = tree.children[p].expect("a parent is an inner node");
    let is_left = v == left;
    let up = |q: u8| match is_left {
        true => rules.inner(q, plan.labels[p], states[right]),
        false => rules.inner(states[left], plan.labels[p], q),
    };
    (0..rules.states as u8).filter(|&q| holds(set, up(q))).map(|q| 1 << q).sum()
}

/// The colour tables of a plan and a rule table, or the first of 2 to 9, 27, 10, 11. Of the buffers only the lengths matter.
pub fn build(plan: &[u8], rules: &[u8], numbers_len: usize, bytes_len: usize) -> Result<ColourTables, u32> {
    let plan = read_plan(plan)?;
    let rules = read_rules(rules)?;
    if rules.states > MOST_STATES {
        return Err(27);
    }
    plan.labels_below(rules.labels)?;
    let (n, s) = (plan.nodes(), rules.states);
    let (numbers, bytes) = lens(n, s);
    if numbers_len < numbers || bytes_len < bytes {
        return Err(11);
    }
    let tables = rule_tables(&plan, &rules);
    let coloured = Coloured::new(plan, rules);
    let numbers = [tables.node_table, coloured.colours.tables(&coloured.tree, 1 << s)].concat();
    Ok(ColourTables { numbers, bytes: [tables.state_table, coloured.colours.bytes()].concat() })
}

/// The numbers and the bytes that colour tables need: a table for each of 2 to the power S colours; the state table, then a
/// set for each colour and node.
pub fn lens(n: usize, s: usize) -> (usize, usize) {
    ((4 * n) << s, n * (s + 1) + (n << s))
}

/// What is lent: that of a question in the session, and the colour tables.
#[derive(Clone, Copy)]
pub struct Inputs<'a> {
    pub tables: panel::Inputs<'a>,
    pub numbers: &'a [u16],
    pub bytes: &'a [u8],
}

/// What the documents say of a call.
#[derive(Clone, Debug, PartialEq, Eq)]
pub enum Said {
    Refused(u32),
    Answered(Answer, Vec<Tried>),
    /// The tables are not as built: 18, or an answer of the program's own.
    Left,
}

/// "A rule table with S above 4 gives 27, .. after 17 in a question, which goes on with 12 to 14 and 18." With S above 4 no
/// length is asked of the colour tables.
pub fn question(inputs: &Inputs, nodes: &[u16], labels: &[u8]) -> Said {
    if let Err(number) = checks(inputs, nodes, labels) {
        return Said::Refused(number);
    }
    let (plan, rules) = (inputs.tables.plan, inputs.tables.rules);
    match build(plan, rules, inputs.numbers.len(), inputs.bytes.len()) {
        Ok(built) if is_as_built(inputs, &built) => {
            let coloured = Coloured::new(read_plan(plan).expect("built"), read_rules(rules).expect("built"));
            let (answer, parts) = coloured.by_path(nodes, labels);
            Said::Answered(answer, parts)
        }
        _ => Said::Left,
    }
}

fn checks(inputs: &Inputs, nodes: &[u16], labels: &[u8]) -> Result<(), u32> {
    let sizes = named(&inputs.tables).ok_or(17u32)?;
    sizes.fit(&inputs.tables)?;
    if sizes.s > MOST_STATES {
        return Err(27);
    }
    let (numbers, bytes) = lens(sizes.n, sizes.s);
    if inputs.numbers.len() < numbers || inputs.bytes.len() < bytes {
        return Err(17);
    }
    check_list(nodes, labels, sizes.n, sizes.k)
}

fn is_as_built(inputs: &Inputs, built: &ColourTables) -> bool {
    let rules = read_rules(inputs.tables.rules).expect("built");
    let n = (built.numbers.len() / 4) >> rules.states;
    // both begin with the session's tables
    inputs.numbers.starts_with(&built.numbers)
        && inputs.bytes.starts_with(&built.bytes)
        && inputs.tables.node_table.starts_with(&built.numbers[..4 * n])
        && inputs.tables.state_table.starts_with(&built.bytes[..n * (rules.states + 1)])
}
