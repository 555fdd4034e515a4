//! `whatif-text dot` and `svg`: a small plan whole, with the parts of a question.

use crate::drawing::Question;
use crate::loaded::Loaded;
use crate::outcome::Failure;
use crate::picture::{Edge, Picture, Stroke};

/// Of a question that the library answered; the states after the changes are those of its run on the changed plan.
pub fn picture(question: &Question) -> Result<Picture, Failure> {
    let loaded = question.loaded;
    let changed = loaded.changed(question.changes)?;
    let root = loaded.nodes() - 1;
    if changed.before(root) != question.asked.answer.state {
        return Err(Failure::wrong("a fault of whatif-text: the changed plan's run and the library's answer differ"));
    }
    let roots = &question.asked.roots;
    let (parts, passed) = (parts(loaded, roots), passed_over(loaded, roots));
    let children = loaded.panel.plan().children();
    let order = from_the_top(root, |v| children[v].map_or(vec![], |(left, right)| vec![left.into(), right.into()]));
    let mut places = vec![0; root + 1];
    order.iter().enumerate().for_each(|(i, &v)| places[v] = i);
    let mut edges = Vec::new();
    for &v in &order {
        for child in children[v].iter().flat_map(|&(left, right)| [left, right].map(usize::from)) {
            let stroke = match (parts[v] == parts[child], passed[v]) {
                (true, true) if passed[child] => Stroke::Climb,
                (true, _) => Stroke::Plain,
                (false, true) => Stroke::Climb,
                (false, false) => Stroke::Dashed,
            };
            edges.push(Edge { from: places[v], to: places[child], stroke, words: String::new() });
        }
    }
    let nodes = order.iter().map(|&v| question.node(v, changed.before(v), passed[v])).collect();
    Ok(Picture { name: "plan", title: question.title(), nodes, edges, legend: question.legend() })
}

/// A tree's nodes: each before those below it, from left to right.
pub fn from_the_top(root: usize, children: impl Fn(usize) -> Vec<usize>) -> Vec<usize> {
    let (mut order, mut waiting) = (Vec::new(), vec![root]);
    while let Some(v) = waiting.pop() {
        order.push(v);
        waiting.extend(children(v).into_iter().rev());
    }
    order
}

/// The part of each node, by its place in the list of roots: that of the lowest root at or above it.
fn parts(loaded: &Loaded, roots: &[usize]) -> Vec<usize> {
    let n = loaded.nodes();
    let mut parts = vec![roots.len() - 1; n];
    for v in (0..n - 1).rev() {
        parts[v] = roots.binary_search(&v).unwrap_or(parts[loaded.parent(v)]);
    }
    parts
}

/// Which nodes are passed over: from each root up to a child of the next root above, without the root itself. Their
/// number is that of the answer.
pub fn passed_over(loaded: &Loaded, roots: &[usize]) -> Vec<bool> {
    let mut passed = vec![false; loaded.nodes()];
    for &root in &roots[..roots.len() - 1] {
        let mut v = loaded.parent(root);
        while roots.binary_search(&v).is_err() {
            passed[v] = true;
            v = loaded.parent(v);
        }
    }
    passed
}
