//! What `whatif-text agree` says of two tables: a separating plan as lines, as a plan to paste, and as a picture.

use crate::json::Object;
use crate::names::Names;
use crate::outcome::Failure;
use crate::picture::{Drawn, Edge, Look, Node, Picture, Stroke, PLAIN_LOOK};
use crate::plan;
use whatif::{Line, Plan, Rules};

/// The lines that the root needs, numbered anew in their order.
pub fn needed(lines: &[Line]) -> Vec<Line> {
    let mut used = vec![false; lines.len()];
    if let Some(root) = used.last_mut() {
        *root = true;
    }
    for at in (0..lines.len()).rev() {
        if let (true, Line::Inner { left, right, .. }) = (used[at], lines[at]) {
            used[left] = true;
            used[right] = true;
        }
    }
    let number = |line: usize| used[..line].iter().filter(|used| **used).count();
    let anew = |line: Line| match line {
        Line::Inner { label, left, right } => Line::Inner { label, left: number(left), right: number(right) },
        leaf => leaf,
    };
    lines.iter().zip(&used).filter(|(_, used)| **used).map(|(line, _)| anew(*line)).collect()
}

/// Do the rules clear the plan? By the library's fresh run; of a plan that has more nodes than a plan can have by plain
/// Rust, from the lines.
pub fn verdict(rules: &Rules, lines: &[Line], plan: Option<&Plan>) -> Result<bool, Failure> {
    match plan {
        None => Ok(clears(rules, lines)),
        Some(plan) => {
            let fresh = whatif::fresh_run(plan.as_bytes(), rules.as_bytes(), &[], &[]);
            fresh.map(|fresh| fresh.yes).map_err(Failure::refused)
        }
    }
}

/// Do the rules, which have the labels of these lines, clear their plan? By plain Rust.
pub fn clears(rules: &Rules, lines: &[Line]) -> bool {
    let mut states: Vec<u8> = Vec::new();
    for line in lines {
        let state = match *line {
            Line::Leaf { label } => rules.leaf(label),
            Line::Inner { label, left, right } => rules.inner(states[left], label, states[right]),
        };
        states.push(state.expect("a label of the rules"));
    }
    states.last().map_or(false, |&state| rules.accepts(state))
}

/// Text that can be pasted: the lines as comments, then their plan; none where it would have too many nodes.
pub fn text(lines: &[Line], plan: Option<&Plan>, names: &Names) -> String {
    let line = |(i, line): (usize, &Line)| match *line {
        Line::Leaf { label } => format!("# line {}: leaf {}\n", i, names.label(label)),
        Line::Inner { label, left, right } => {
            format!("# line {}: inner {} over {} and {}\n", i, names.label(label), left, right)
        }
    };
    let said: String = lines.iter().enumerate().map(line).collect();
    match plan {
        Some(plan) => format!("{}plan\n{}", said, plan::to_text(plan.as_bytes())),
        None => {
            let most = "# as a tree it has more than 65,535 nodes, the most that a plan can have";
            format!("{}{}\n# so the two verdicts are worked out by whatif-text, not by the library\n", said, most)
        }
    }
}

/// The same as an object.
pub fn object(yes: [bool; 2], lines: &[Line], plan: Option<&Plan>, names: &Names) -> String {
    let line = |line: &Line| match *line {
        Line::Leaf { label } => Object::new().label("label", label, names).inner(),
        Line::Inner { label, left, right } => {
            Object::new().label("label", label, names).count("left", left).count("right", right).inner()
        }
    };
    let object = Object::new().truth("agree", false).truth("first", yes[0]).truth("second", yes[1]);
    let object = object.list("lines", lines.iter().map(line));
    plan.into_iter().fold(object, |object, plan| object.count("nodes", plan.nodes())).line()
}

/// The lines as a picture: a node for each, also where several lead to it.
pub fn picture(lines: &[Line], names: &Names, how: Drawn) -> String {
    let at = |line: usize| lines.len() - 1 - line;
    let (mut nodes, mut edges) = (Vec::new(), Vec::new());
    for (i, line) in lines.iter().enumerate().rev() {
        let (label, square) = match *line {
            Line::Leaf { label } => (label, true),
            Line::Inner { label, left, right } => {
                let twice = [(left, "left and right")];
                let apart = [(left, "left"), (right, "right")];
                for &(child, words) in if left == right { &twice[..] } else { &apart } {
                    edges.push(Edge { from: at(i), to: at(child), stroke: Stroke::Plain, words: words.into() });
                }
                (label, false)
            }
        };
        let said = vec![format!("line {}", i), format!("label {}", names.label(label))];
        nodes.push(Node { tip: said.join(", "), lines: said, look: Look { square, ..PLAIN_LOOK } });
    }
    let legend = vec![(Look { square: true, ..PLAIN_LOOK }, "square corners: a leaf")];
    let title = vec!["A plan that the two rules judge differently".to_string()];
    Picture { name: "separating", title, nodes, edges, legend }.drawn(how)
}
