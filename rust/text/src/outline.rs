//! `whatif-text outline`: the parts of a question as a picture, one node each, so that any plan can be looked at. Above
//! 25 parts or 12 rows it has pages: a node with parts below it that stand on another page says on which.

use crate::dot::from_the_top;
use crate::drawing::Question;
use crate::loaded::Loaded;
use crate::outcome::Failure;
use crate::picture::{climbed, Edge as Line, Look, Node, Picture, Stroke, PLAIN_LOOK};
use crate::sentences::count;

/// The most parts of a page, and the most rows of them: more would be too small in print.
pub const MOST: usize = 25;
const ROWS: usize = 12;

/// An edge of the outline: from the next root above down to a root, which is its child or is climbed from.
pub struct Edge {
    pub above: usize,
    pub root: usize,
    /// The nodes passed over up to the child of `above`, and the links that lead there.
    pub climb: Option<(usize, usize)>,
}

/// For each root but the plan's, the first one above it.
pub fn edges(loaded: &Loaded, roots: &[usize]) -> Vec<Edge> {
    let depth = |v: usize| usize::from(loaded.node(v).depth);
    let mut edges = Vec::new();
    for (i, &root) in roots.iter().enumerate().take(roots.len() - 1) {
        // in post-order the nodes below a node stand right before it, and those above it rise
        let is_above = |&v: &usize| v < root + loaded.size(v);
        let above = roots[i + 1..].iter().copied().find(is_above).expect("the plan's root is above all");
        let up = depth(root) - depth(above) - 1;
        let links = links(loaded, root, loaded.node(above).depth + 1);
        edges.push(Edge { above, root, climb: (up > 0).then_some((up, links)) });
    }
    edges
}

/// The moves of a climb to a depth: "while deeper than t, take the jump if its depth is at least t, else the parent."
fn links(loaded: &Loaded, from: usize, t: u16) -> usize {
    let (mut node, mut links) = (loaded.node(from), 0);
    while node.depth > t {
        let jump = loaded.node(node.jump.into());
        node = if jump.depth >= t { jump } else { loaded.node(node.parent.into()) };
        links += 1;
    }
    links
}

/// A page of the outline, from 1 on.
pub fn picture(question: &Question, page: usize) -> Result<Picture, Failure> {
    let (loaded, roots) = (question.loaded, &question.asked.roots);
    let edges = edges(loaded, roots);
    let climbs: usize = edges.iter().filter_map(|edge| edge.climb).map(|climb| climb.1).sum();
    if climbs != question.asked.answer.links as usize {
        return Err(Failure::wrong("a fault of whatif-text: the links of its climbs are not those of the answer"));
    }
    let below = below(roots, &edges);
    let pages = Pages::of(&below);
    let first = pages.firsts.get(page.wrapping_sub(1)).copied();
    let last = pages.firsts.len();
    let first = first
        .ok_or_else(|| Failure::wrong(format!("there is no page {}: the outline has {}", page, count(last, "page"))))?;
    let shown = from_the_top(first, |i| match i != first && pages.number(i).is_some() {
        true => vec![],
        false => below[i].clone(),
    });
    let mut title = question.title();
    if last > 1 {
        let here = shown.iter().filter(|&&i| i == first || pages.number(i).is_none()).count();
        title.push(format!("page {} of {}: {}", page, last, count(here, "part")));
    }
    let lines = lines(&edges, &shown.iter().map(|&i| roots[i]).collect::<Vec<_>>());
    let node = |&i: &usize| match pages.number(i).filter(|_| i != first) {
        Some(page) => elsewhere(roots[i], page),
        None => question.node(roots[i], question.asked.states[i], false),
    };
    let nodes = shown.iter().map(node).collect();
    let mut explained = question.legend();
    explained[3].1 = "grey and dashed: a climb, or what stands on another page";
    Ok(Picture { name: "outline", title, nodes, edges: lines, legend: explained })
}

/// The edges between roots that are shown, by their places.
fn lines(edges: &[Edge], shown: &[usize]) -> Vec<Line> {
    let at = |root: usize| shown.iter().position(|&v| v == root);
    let line = |edge: &Edge| {
        let (from, to) = (at(edge.above)?, at(edge.root)?);
        let stroke = if edge.climb.is_some() { Stroke::Climb } else { Stroke::Plain };
        let words = edge.climb.map_or(String::new(), |(passed, links)| climbed(passed, links));
        Some(Line { from, to, stroke, words })
    };
    let mut lines: Vec<Line> = edges.iter().filter_map(line).collect();
    lines.sort_by_key(|line| (line.from, line.to));
    lines
}

/// A root whose parts stand on another page.
fn elsewhere(root: usize, page: usize) -> Node {
    let lines = vec![format!("node {}", root), format!("on page {}", page)];
    let tip = lines.join(", ");
    Node { lines, look: Look { light: true, ..PLAIN_LOOK }, tip }
}

/// The roots right below each root, by their places.
fn below(roots: &[usize], edges: &[Edge]) -> Vec<Vec<usize>> {
    let mut below = vec![Vec::new(); roots.len()];
    for (i, edge) in edges.iter().enumerate() {
        below[roots.binary_search(&edge.above).expect("a root")].push(i);
    }
    below
}

/// Where the outline is cut: the first root of each page, the plan's first of all.
struct Pages {
    firsts: Vec<usize>,
}

impl Pages {
    /// From below: where a page would have too many parts, the largest tree on it goes to a page of its own.
    fn of(below: &[Vec<usize>]) -> Pages {
        // of each root what is at and below it on its page: parts, and rows
        let (mut parts, mut rows, mut cut) = (vec![1; below.len()], vec![1; below.len()], Vec::new());
        for v in 0..below.len() {
            loop {
                parts[v] = 1 + below[v].iter().map(|&w| parts[w]).sum::<usize>();
                rows[v] = 1 + below[v].iter().map(|&w| rows[w]).max().unwrap_or(0);
                let too_tall = rows[v] > ROWS;
                let by = if too_tall { &rows } else { &parts };
                let largest = below[v].iter().copied().max_by_key(|&w| by[w]).filter(|&w| parts[w] > 1);
                match largest {
                    Some(largest) if too_tall || parts[v] > MOST => {
                        parts[largest] = 1;
                        rows[largest] = 1;
                        cut.push(largest);
                    }
                    _ => break,
                }
            }
        }
        let whole = from_the_top(below.len() - 1, |v| below[v].clone());
        Pages { firsts: whole.into_iter().filter(|v| *v + 1 == below.len() || cut.contains(v)).collect() }
    }

    /// The page that begins with a root.
    fn number(&self, root: usize) -> Option<usize> {
        self.firsts.iter().position(|&first| first == root).map(|i| i + 1)
    }
}
