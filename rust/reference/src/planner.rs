//! The bridge planner's files (document 02, S-2), out to our plans and home, on trees that are built node by node.
//! A planner's tree is kept as lists of children; ours is its image, one inner node for each of its nodes.

use crate::formats::{number, read_plan, Plan};
use crate::tree::Tree;
use crate::write;

/// "an empty list becomes a leaf with label 63"
pub const EMPTY: u8 = 63;
/// Above it 2n+1 nodes would be too many for a plan.
pub const MAX_NODES: usize = 32_767;
/// "any number of children from 0 to 255"
const MAX_CHILDREN: usize = 255;

/// A planner's tree: labels and children of its nodes, which are numbered in pre-order.
struct Planned {
    labels: Vec<u8>,
    children: Vec<Vec<usize>>,
}

/// What going out writes: our plan, and for each planner's node its node in the plan.
#[derive(Debug, PartialEq, Eq)]
pub struct Out {
    pub plan: Vec<u8>,
    pub places: Vec<u16>,
}

/// 19 of a planner's file: "a header of count n, offset of labels (12) and offset of child counts (12+n), each 32-bit, then
/// n labels and n counts in pre-order of one tree"; "n of 0 included".
fn read_file(file: &[u8]) -> Result<Planned, u32> {
    if file.len() < 12 {
        return Err(19);
    }
    let [n, labels_at, counts_at] = [0, 4, 8].map(|at| number(file, at) as u64);
    let exact = labels_at == 12 && counts_at == 12 + n && file.len() as u64 == 12 + 2 * n;
    if n == 0 || !exact {
        return Err(19);
    }
    let (labels, counts) = file[12..].split_at(n as usize);
    let children = children(counts).ok_or(19u32)?;
    Ok(Planned { labels: labels.to_vec(), children })
}

/// The children of each node; none where the counts are not those of one tree.
fn children(counts: &[u8]) -> Option<Vec<Vec<usize>>> {
    let mut children: Vec<Vec<usize>> = vec![Vec::new(); counts.len()];
    // nodes that still wait for children, the lowest last
    let mut open: Vec<usize> = Vec::new();
    for v in 0..counts.len() {
        match open.last() {
            Some(&above) => children[above].push(v),
            None if v > 0 => return None,
            None => {}
        }
        open.push(v);
        while open.last().map_or(false, |&w| children[w].len() == counts[w] as usize) {
            open.pop();
        }
    }
    open.is_empty().then_some(children)
}

/// What is to be written next in post-order: the list of siblings from this one on, or the node of that first one.
enum Task<'a> {
    List(&'a [usize]),
    Node(usize),
}

/// "A list of siblings becomes an inner node with the first one's label, its children's list at the left and the rest at
/// the right". Labels and kinds of our plan, and the places.
fn image(planned: &Planned) -> Out {
    let (mut labels, mut kinds) = (Vec::new(), Vec::new());
    let mut places = vec![0; planned.labels.len()];
    let mut tasks = vec![Task::List(&[0][..])];
    while let Some(task) = tasks.pop() {
        match task {
            Task::List([]) => {
                labels.push(EMPTY);
                kinds.push(0);
            }
            Task::List(list) => {
                let (first, rest) = (list[0], &list[1..]);
                let (left, right) = (Task::List(&planned.children[first]), Task::List(rest));
                tasks.push(Task::Node(first));
                tasks.push(right);
                tasks.push(left);
            }
            Task::Node(v) => {
                places[v] = labels.len() as u16;
                labels.push(planned.labels[v]);
                kinds.push(1);
            }
        }
    }
    Out { plan: write::plan(&labels, &kinds), places }
}

/// Out, or the refusal: "a malformed file, n of 0 included, .. with 19, a label of 63 or more in a planner's file with 20, and
/// n above 32,767 or a short output with 21, in that order". Of the outputs only the lengths matter.
pub fn out(file: &[u8], plan_len: usize, places_len: usize) -> Result<Out, u32> {
    let planned = read_file(file)?;
    let n = planned.labels.len();
    let room = n <= MAX_NODES && plan_len >= 12 + 2 * (2 * n + 1) && places_len >= n;
    if planned.labels.iter().any(|&label| label >= EMPTY) {
        return Err(20);
    }
    if !room {
        return Err(21);
    }
    Ok(image(&planned))
}

/// Home, or the refusal: "only plans that come from such a file may go home", else 19; 21 for a short output.
pub fn home(plan: &[u8], file_len: usize) -> Result<Vec<u8>, u32> {
    let plan = read_plan(plan).map_err(|_| 19u32)?;
    let file = file_of(&plan).ok_or(19u32)?;
    if file_len < file.len() {
        return Err(21);
    }
    Ok(file)
}

/// The file whose image the plan is; none where there is none.
fn file_of(plan: &Plan) -> Option<Vec<u8>> {
    let fits = |v: usize| if plan.kinds[v] == 0 { plan.labels[v] == EMPTY } else { plan.labels[v] < EMPTY };
    if !(0..plan.nodes()).all(fits) {
        return None;
    }
    let tree = Tree::of(plan);
    let (mut labels, mut counts) = (Vec::new(), Vec::new());
    let top = siblings(&tree, tree.root());
    if top.len() != 1 {
        return None;
    }
    // nodes of our plan still to be written, the next one last
    let mut waiting: Vec<usize> = top.into_iter().rev().collect();
    while let Some(v) = waiting.pop() {
        let (left, _) = tree.children[v]?;
        let below = siblings(&tree, left);
        labels.push(plan.labels[v]);
        counts.push(u8::try_from(below.len()).ok().filter(|&count| usize::from(count) <= MAX_CHILDREN)?);
        waiting.extend(below.into_iter().rev());
    }
    Some(write::plan(&labels, &counts))
}

/// The list that a node of our plan stands for: down the right children to a leaf.
fn siblings(tree: &Tree, from: usize) -> Vec<usize> {
    let (mut list, mut v) = (Vec::new(), from);
    while let Some((_, right)) = tree.children[v] {
        list.push(v);
        v = right;
    }
    list
}
