//! Branch questions by colours, twice: by the path itself (`by_path`, what holds on tables as built), and on lent tables,
//! whatever they hold (`on_tables`). For words the top copy is above the root, and a label leads from state to state.

use crate::branch::Reading;
use crate::colours::{colour_of, Colours, LentColours, Place, Way};
use crate::formats::{number, read_branch, read_plan, Branch, Plan, MAX_LABELS, MAX_NODES, MAX_STATES};
use crate::tables::Tables;
use crate::tree::Tree;

#[derive(Clone, Copy, Debug, PartialEq, Eq)]
pub struct Answer {
    pub state: u8,
    pub yes: bool,
    pub drops: usize,
    pub links: usize,
}

/// The colour tables: numbers and bytes, exactly as long as they need to be.
#[derive(Clone, Debug, PartialEq, Eq)]
pub struct ColourTables {
    pub numbers: Vec<u16>,
    pub bytes: Vec<u8>,
}

/// The colours of a plan's nodes under a branch table.
pub fn colours(tree: &Tree, plan: &Plan, branch: &Branch) -> Colours {
    Colours::of(tree, branch.states, |v, q| branch.step(q, plan.labels[v]))
}

/// The colour tables of a plan and a branch table, or the first of 2 to 11. Of the buffers only the lengths matter.
pub fn build(plan: &[u8], branch: &[u8], numbers_len: usize, bytes_len: usize) -> Result<ColourTables, u32> {
    let plan = read_plan(plan)?;
    let branch = read_branch(branch)?;
    plan.labels_below(branch.labels)?;
    let (n, s) = (plan.nodes(), branch.states);
    if numbers_len < 4 * n * s || bytes_len < n * s {
        return Err(11);
    }
    let tree = Tree::of(&plan);
    let colours = colours(&tree, &plan, &branch);
    // the lowest colour never falls: its table is the plan's own node table
    let numbers = [Tables::node_table(&tree), colours.tables(&tree, s)].concat();
    Ok(ColourTables { numbers, bytes: colours.bytes() })
}

/// What holds on tables as built: 13, 16 or the answer. Tree and colours are the plan's.
pub fn by_path(
    reading: Reading,
    tree: &Tree,
    colours: &Colours,
    branch: &Branch,
    upper: u32,
    lower: u32,
) -> Result<Answer, u32> {
    let (upper, lower) = (upper as usize, lower as usize);
    if upper > tree.root() || lower > tree.root() {
        return Err(13);
    }
    if !tree.at_or_below(lower, upper) {
        return Err(16);
    }
    let above = || if upper == tree.root() { None } else { Some(tree.parent[upper]) };
    let from = match reading {
        Reading::WithUpper => above(),
        Reading::BelowUpper => Some(upper),
    };
    let start = match from {
        None => 0,
        Some(z) => colour_of(&colours.copies[z], 0),
    };
    let way = colours.down(tree, from, lower, start);
    Ok(answer(colours.copies[lower][way.colour], &way, |state| branch.accepts(state)))
}

fn answer(state: u8, way: &Way, accepts: impl Fn(u8) -> bool) -> Answer {
    Answer { state, yes: accepts(state), drops: way.drops(), links: way.links() }
}

/// What is lent: plan, branch table, node table, colour numbers, colour bytes.
#[derive(Clone, Copy)]
pub struct Inputs<'a> {
    pub plan: &'a [u8],
    pub branch: &'a [u8],
    pub node_table: &'a [u16],
    pub numbers: &'a [u16],
    pub bytes: &'a [u8],
}

/// N, S and K of the lent headers; 17 "also for a header cut short or a number outside its limits" and "a short one gives
/// 17 in a question".
fn named(inputs: &Inputs) -> Result<(usize, usize, usize), u32> {
    if inputs.plan.len() < 12 || inputs.branch.len() < 16 {
        return Err(17);
    }
    let (n, s, k) = (number(inputs.plan, 0), number(inputs.branch, 0), number(inputs.branch, 4));
    if !(1..=MAX_NODES).contains(&n) || !(1..=MAX_STATES).contains(&s) || !(1..=MAX_LABELS).contains(&k) {
        return Err(17);
    }
    let (n, s, k) = (n as usize, s as usize, k as usize);
    let exact = inputs.plan.len() == 12 + 2 * n && inputs.branch.len() == 16 + s * k + s;
    let short = inputs.node_table.len() < 4 * n || inputs.numbers.len() < 4 * n * s || inputs.bytes.len() < n * s;
    if !exact || short {
        return Err(17);
    }
    Ok((n, s, k))
}

/// 17, 13, 16, 18 or the answer.
pub fn on_tables(reading: Reading, inputs: Inputs, upper: u32, lower: u32) -> Result<Answer, u32> {
    let (n, s, k) = named(&inputs)?;
    let [upper, lower] = [upper, lower].map(|v| v as usize);
    if upper >= n || lower >= n {
        return Err(13);
    }
    let cell = |v: usize, which: usize| inputs.node_table[4 * v + which] as usize;
    if lower > upper || upper >= lower + cell(upper, 3) {
        return Err(16);
    }
    let from: Place = match reading {
        Reading::BelowUpper => Some(upper),
        Reading::WithUpper if upper + 1 == n => None,
        Reading::WithUpper => Some(cell(upper, 0)),
    };
    if from.map_or(false, |z| z >= n) {
        return Err(18);
    }
    let start = match from {
        None => 0,
        Some(z) => inputs.bytes[z * s..(z + 1) * s].iter().position(|&q| q == 0).ok_or(18u32)?,
    };
    let way = LentColours { nodes: n, numbers: &inputs.numbers[..4 * n * s] }.down(from, lower, start)?;
    let state = inputs.bytes[lower * s + way.colour];
    if state as usize >= s {
        return Err(18);
    }
    let mark = inputs.branch[16 + s * k + state as usize];
    Ok(answer(state, &way, |_| mark == 1))
}
