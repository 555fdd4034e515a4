//! `whatif-text suggest --robust`: the nodes of a cleared plan where every other label loses the clearance, nearest to
//! the root first. There a single wrong label is enough, whichever it is. By `whatif_allowed` alone.

use crate::input::Input;
use crate::json::Object;
use crate::loaded::Loaded;
use crate::outcome::Failure;
use crate::sentences::{count, verdict};
use whatif::LabelSet;

/// Of the given nodes; of all where none is given. With `first` no more than so many.
pub fn of_nodes(input: &Input, nodes: &[usize], first: Option<usize>, json: bool) -> Result<String, Failure> {
    let loaded = Loaded::of(input)?;
    let nodes = loaded.these_or_all(nodes)?;
    let mut fragile = fragile(&loaded, &nodes)?;
    let all = fragile.len();
    fragile.truncate(first.unwrap_or(all));
    let told = if json { objects } else { text };
    Ok(told(&loaded, [nodes.len(), all], &fragile))
}

/// The nodes whose own label alone is allowed, nearest to the root first. With one label there is no wrong one.
pub fn fragile(loaded: &Loaded, nodes: &[usize]) -> Result<Vec<usize>, Failure> {
    let (allowed, labels) = (loaded.allowed()?, loaded.labels());
    let only_its_own = |v: &usize| allowed[*v] == LabelSet::from_bits(1 << labels[*v]);
    let mut fragile: Vec<usize> = match loaded.rules().labels() {
        1 => vec![],
        _ => nodes.iter().copied().filter(only_its_own).collect(),
    };
    fragile.sort_by_key(|&v| (loaded.node(v).depth, v));
    Ok(fragile)
}

/// One for the whole, then one for each node.
fn objects(loaded: &Loaded, [nodes, all]: [usize; 2], fragile: &[usize]) -> String {
    let whole = loaded.as_it_is(Object::new()).count("nodes", nodes).count("fragile", all).count("told", fragile.len());
    let node = |&v: &usize| {
        let object = Object::new().count("node", v).label("label", loaded.labels()[v], &loaded.names);
        object.number("depth", loaded.node(v).depth).line()
    };
    whole.line() + &fragile.iter().map(node).collect::<String>()
}

fn text(loaded: &Loaded, [nodes, all]: [usize; 2], fragile: &[usize]) -> String {
    let state = loaded.names.state(loaded.before(loaded.nodes() - 1));
    let head = format!("as it is: {}, state {}\n", verdict(loaded.is_cleared()), state);
    if !loaded.is_cleared() {
        return head + "there is no clearance to lose\n";
    }
    let found = format!("at {} of {} every other label loses the clearance\n", all, count(nodes, "node"));
    let first = match fragile.len() {
        told if told < all => format!("the first {}, nearest to the root\n", told),
        _ => String::new(),
    };
    let line = |&v: &usize| {
        let label = loaded.names.label(loaded.labels()[v]);
        format!("  node {}, depth {}: label {} alone\n", v, loaded.node(v).depth, label)
    };
    let by = "this is the library's answer, by whatif_allowed\n";
    head + &found + &first + by + &fragile.iter().map(line).collect::<String>()
}
