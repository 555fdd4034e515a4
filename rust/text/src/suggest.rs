//! `whatif-text suggest`: every single change that turns the verdict, as questions to paste.
//!
//! What is shown is the library's answer alone. `whatif_allowed` has for each node the labels with which the plan is
//! cleared, all other nodes as they are. Where the plan is not cleared these are the changes; where it is, the others.

use crate::input::Input;
use crate::json::Object;
use crate::loaded::Loaded;
use crate::outcome::Failure;
use crate::sentences::{count, verdict};

/// A change that turns the verdict.
#[derive(Clone, Copy, Debug, PartialEq, Eq)]
pub struct Turn {
    pub node: u16,
    pub label: u8,
}

/// Of the given nodes; of all where none is given. With `first` the nearest to the root alone, so many.
pub fn of_nodes(input: &Input, nodes: &[usize], first: Option<usize>, json: bool) -> Result<String, Failure> {
    let loaded = Loaded::of(input)?;
    let nodes = loaded.these_or_all(nodes)?;
    let mut turns = turns(&loaded, &nodes)?;
    let all = turns.len();
    if let Some(first) = first {
        turns.sort_by_key(|turn| loaded.node(turn.node.into()).depth);
        turns.truncate(first);
    }
    let tried = nodes.len() * (loaded.rules().labels() - 1);
    let told = if json { objects } else { text };
    Ok(told(&loaded, [nodes.len(), tried, all], &turns))
}

/// The changes to another label that turn the verdict, in the order of the nodes.
pub fn turns(loaded: &Loaded, nodes: &[usize]) -> Result<Vec<Turn>, Failure> {
    let (allowed, labels, now) = (loaded.allowed()?, loaded.labels(), loaded.is_cleared());
    let mut turns = Vec::new();
    for &v in nodes {
        let others = (0..loaded.rules().labels() as u8).filter(|&label| label != labels[v]);
        let turning = others.filter(|&label| allowed[v].contains(label) != now);
        turns.extend(turning.map(|label| Turn { node: v as u16, label }));
    }
    Ok(turns)
}

/// One for the whole, then one for each change.
fn objects(loaded: &Loaded, [nodes, tried, all]: [usize; 3], turns: &[Turn]) -> String {
    let whole = loaded.as_it_is(Object::new()).count("nodes", nodes).count("tried", tried).count("turn", all);
    let whole = whole.count("told", turns.len()).count("asked", turns.len());
    let change = |turn: &Turn| {
        let object = Object::new().number("node", turn.node).label("label", turn.label, &loaded.names);
        object.number("depth", loaded.node(turn.node.into()).depth).line()
    };
    whole.line() + &turns.iter().map(change).collect::<String>()
}

fn text(loaded: &Loaded, [nodes, tried, all]: [usize; 3], turns: &[Turn]) -> String {
    let now = loaded.is_cleared();
    let root = loaded.names.state(loaded.before(loaded.nodes() - 1));
    let head = format!("# as it is: {}, state {}\n", verdict(now), root);
    let (tried, nodes) = (count(tried, "change"), count(nodes, "node"));
    let told = match all {
        0 if now => format!("# none of {} at {} turns that\n", tried, nodes),
        0 => format!("# none of {} at {} turns that: whatif-text mend finds the least that does\n", tried, nodes),
        some => {
            let (turn, each) = if some == 1 { ("turns", "it") } else { ("turn", "each") };
            let then = format!("with {} alone the plan is {}", each, verdict(!now));
            format!("# {} of {} at {} {} that: {}\n", some, tried, nodes, turn, then)
        }
    };
    let first = match turns.len() {
        told if told < all => format!("# the first {}, nearest to the root\n", told),
        _ => String::new(),
    };
    let line = |turn: &Turn| {
        let (own, to) = (loaded.labels()[usize::from(turn.node)], turn.label);
        let named = [own, to].iter().any(|&label| loaded.names.label_name(label).is_some());
        let names = format!("  # label {} to {}", loaded.names.label(own), loaded.names.label(to));
        format!("{}->{}{}\n", turn.node, to, if named { names } else { String::new() })
    };
    let by = "# this is the library's answer, by whatif_allowed\nquestions\n";
    head + &told + &first + by + &turns.iter().map(line).collect::<String>()
}
