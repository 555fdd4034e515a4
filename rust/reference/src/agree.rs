//! Do two rule tables agree (document 02, S-13)? "Two tables agree when every plan, of any size, gets yes from both or no
//! from both." By rounds: the pairs of states that plans of height 0, 1, 2, .. reach, until no new one comes.
//! "Which separating plan is shown may be left to the program": here is only what its lines must be.

use crate::formats::{read_rules, Rules, MAX_NODES};
use crate::write;

type Pair = (u8, u8);

/// Four numbers: 0 leaf or 1 inner, label, left line, right line.
pub type Line = [u16; 4];

pub const MAX_LINES: usize = 256;

/// "The tables pass 6 to 9 in turn, then 23."
fn both<'a>(first: &'a [u8], second: &'a [u8]) -> Result<(Rules<'a>, Rules<'a>), u32> {
    let a = read_rules(first)?;
    let b = read_rules(second)?;
    if a.labels == b.labels {
        Ok((a, b))
    } else {
        Err(23)
    }
}

fn differ(a: &Rules, b: &Rules, (p, q): Pair) -> bool {
    a.accepts(p) != b.accepts(q)
}

/// Pairs of states, each once, in the order in which they came.
#[derive(Default)]
struct Pairs {
    list: Vec<Pair>,
    has: [[bool; 16]; 16],
}

impl Pairs {
    fn add(&mut self, (p, q): Pair) {
        let has = &mut self.has[p as usize][q as usize];
        if !*has {
            *has = true;
            self.list.push((p, q));
        }
    }
}

/// The pairs that plans of height h reach and lower ones do not, for h 0, 1, 2, ..
fn by_height(a: &Rules, b: &Rules) -> Vec<Vec<Pair>> {
    let labels = || 0..a.labels as u8;
    let mut known = Pairs::default();
    labels().for_each(|l| known.add((a.leaf(l), b.leaf(l))));
    let mut heights = vec![known.list.clone()];
    while let Some(newest) = heights.last().filter(|newest| !newest.is_empty()) {
        let lower = known.list.clone();
        // one child at least is among the newest
        for &(p, q) in newest {
            for &(p2, q2) in &lower {
                for l in labels() {
                    known.add((a.inner(p, l, p2), b.inner(q, l, q2)));
                    known.add((a.inner(p2, l, p), b.inner(q2, l, q)));
                }
            }
        }
        heights.push(known.list[lower.len()..].to_vec());
    }
    heights
}

/// The least height of a plan on which the tables differ, none where they agree; or the refusal.
pub fn least_height(first: &[u8], second: &[u8]) -> Result<Option<usize>, u32> {
    let (a, b) = both(first, second)?;
    Ok(by_height(&a, &b).iter().position(|pairs| pairs.iter().any(|&pair| differ(&a, &b, pair))))
}

/// How many pairs of states plans reach.
pub fn reached(first: &[u8], second: &[u8]) -> Result<usize, u32> {
    let (a, b) = both(first, second)?;
    Ok(by_height(&a, &b).iter().map(Vec::len).sum())
}

/// "a separating plan as at most 256 lines, each a leaf's label or a label with two earlier lines as left and right; the last
/// line is the root": its height, or what is wrong with these lines. Every line is run through both tables.
pub fn separates(first: &[u8], second: &[u8], lines: &[Line]) -> Result<usize, String> {
    let (a, b) = both(first, second).map_err(|number| format!("the tables are refused with {}", number))?;
    if lines.is_empty() || lines.len() > MAX_LINES {
        return Err(format!("{} lines", lines.len()));
    }
    let mut trees: Vec<(Pair, usize)> = Vec::new();
    for (i, &[kind, label, left, right]) in lines.iter().enumerate() {
        let wrong = |what: &str| Err(format!("line {} of {}: {}", i, lines.len(), what));
        if label as usize >= a.labels {
            return wrong("a label that the tables do not have");
        }
        let label = label as u8;
        let tree = match (kind, trees.get(left as usize), trees.get(right as usize)) {
            (0, ..) if (left, right) == (0, 0) => ((a.leaf(label), b.leaf(label)), 0),
            (0, ..) => return wrong("a leaf with children"),
            (1, Some(&((p, q), low)), Some(&((p2, q2), other))) => {
                ((a.inner(p, label, p2), b.inner(q, label, q2)), 1 + low.max(other))
            }
            (1, ..) => return wrong("a child that is no earlier line"),
            _ => return wrong("neither leaf nor inner"),
        };
        trees.push(tree);
    }
    match trees.last() {
        Some(&(pair, height)) if differ(&a, &b, pair) => Ok(height),
        _ => Err("the tables do not differ on it".to_string()),
    }
}

/// The plan of good lines; none where it would have more nodes than a plan can have.
pub fn plan(lines: &[Line]) -> Option<Vec<u8>> {
    let mut sizes: Vec<u64> = Vec::new();
    for &[kind, _, left, right] in lines {
        let below = |line: u16| sizes[line as usize];
        let size = if kind == 0 { 1 } else { 1 + below(left) + below(right) };
        sizes.push(size.min(u64::from(MAX_NODES) + 1));
    }
    if sizes.last()? > &u64::from(MAX_NODES) {
        return None;
    }
    let (mut labels, mut kinds) = (Vec::new(), Vec::new());
    post_order(lines, lines.len() - 1, &mut |kind, label| {
        kinds.push(kind as u8);
        labels.push(label as u8);
    });
    Some(write::plan(&labels, &kinds))
}

/// Kind and label of every node of a line's tree, children first.
fn post_order(lines: &[Line], at: usize, node: &mut impl FnMut(u16, u16)) {
    let [kind, label, left, right] = lines[at];
    if kind != 0 {
        post_order(lines, left as usize, node);
        post_order(lines, right as usize, node);
    }
    node(kind, label);
}
