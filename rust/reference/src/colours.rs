//! Colours (document 02, S-14): "At each node colours take states in turn", for any count of states and any steps. Words
//! (`colour_branch`) and sets of states (`colour_rules`) are told apart by their steps alone.
//!
//! Twice: by the path itself, node after node (`Colours`), and on lent colour tables, whatever they hold (`LentColours`).
//! Colours are numbered from 0 here: document 02's colour is one more. None of the numbers is told.

use crate::climb::{climb, Lent, Links, Move};
use crate::tree::Tree;

/// The colours of all nodes.
pub struct Colours {
    /// For each node its states in the order of their colours.
    pub copies: Vec<Vec<u8>>,
    /// For each node and each colour: the colour, at the node, of the state that the colour's state above leads to.
    pub lands: Vec<Vec<usize>>,
}

/// A place on the way: the copy of a node, or the top copy above the root.
pub type Place = Option<usize>;

/// A way down: the colour at its end, and for each drop the links of the search for it.
#[derive(Clone, Debug, PartialEq, Eq)]
pub struct Way {
    pub colour: usize,
    pub searches: Vec<usize>,
}

impl Way {
    pub fn drops(&self) -> usize {
        self.searches.len()
    }

    pub fn links(&self) -> usize {
        self.searches.iter().sum()
    }
}

/// "the state that the colour's state above leads to, or, if a lower colour has it, the lowest state that no lower colour
/// has": `led` are the states led to, in the order of the colours.
fn taken(led: &[u8]) -> Vec<u8> {
    let mut taken: Vec<u8> = Vec::new();
    for &q in led {
        let lowest = || (0..).find(|x| !taken.contains(x)).expect("a state is free");
        taken.push(if taken.contains(&q) { lowest() } else { q });
    }
    taken
}

/// "every copy has one vertex of each of the colors": the colour of a state.
pub fn colour_of(copy: &[u8], state: u8) -> usize {
    copy.iter().position(|&q| q == state).expect("each state has a colour")
}

impl Colours {
    /// For `states` states, of which `leads(v, q)` is the one at node v that q of the copy above it leads to. "In the top
    /// copy state s has colour s+1."
    pub fn of(tree: &Tree, states: usize, leads: impl Fn(usize, u8) -> u8) -> Colours {
        let nodes = tree.root() + 1;
        let mut colours = Colours { copies: vec![Vec::new(); nodes], lands: vec![Vec::new(); nodes] };
        for v in (0..nodes).rev() {
            let led: Vec<u8> = colours.above(tree, states, v).iter().map(|&q| leads(v, q)).collect();
            let copy = taken(&led);
            colours.lands[v] = led.iter().map(|&q| colour_of(&copy, q)).collect();
            colours.copies[v] = copy;
        }
        colours
    }

    /// The copy above node v: its parent's, or the top copy.
    pub fn above(&self, tree: &Tree, states: usize, v: usize) -> Vec<u8> {
        if v == tree.root() {
            (0..states as u8).collect()
        } else {
            self.copies[tree.parent[v]].clone()
        }
    }

    /// "the places on the path where the colour falls": a lower colour has the state that it leads to.
    fn falls(&self, v: usize, c: usize) -> bool {
        self.lands[v][c] < c
    }

    /// From colour c in a copy down to the copy of node l, node after node.
    pub fn down(&self, tree: &Tree, from: Place, l: usize, c: usize) -> Way {
        let line = line_to(tree, l);
        let begin = from.map_or(0, |z| tree.depth[z] + 1);
        let mut way = Way { colour: c, searches: Vec::new() };
        for (at, &v) in line.iter().enumerate().skip(begin) {
            if self.falls(v, way.colour) {
                way.searches.push(self.search(&line, at, way.colour));
            }
            way.colour = self.lands[v][way.colour];
        }
        way
    }

    /// "A next drop is found by 01's jumps and climb among the nodes where that colour falls, depth being their number
    /// above, from the lowest left on the path to the highest; the moves are the links": to the drop at a place of the line
    /// from the root down. Such a node's depth is its place among those of the line.
    fn search(&self, line: &[usize], at: usize, c: usize) -> usize {
        let falling: Vec<usize> = (0..line.len()).filter(|&i| self.falls(line[i], c)).collect();
        let to = falling.binary_search(&at).expect("it falls there");
        climb(&Numbered::new(falling.len()), falling.len() - 1, to).expect("a climb among them").len()
    }

    /// The tables of the colours from 1 on, each with four numbers a node: "parent, jump and depth among the nodes where the
    /// colour falls, and the colour it lands on". A node with none of them above is its own parent and jump.
    pub fn tables(&self, tree: &Tree, states: usize) -> Vec<u16> {
        (1..states).flat_map(|c| self.table(tree, c)).collect()
    }

    fn table(&self, tree: &Tree, c: usize) -> Vec<u16> {
        let root = tree.root();
        let (mut parent, mut jump, mut depth) =
            ((0..=root).collect::<Vec<_>>(), vec![root; root + 1], vec![0; root + 1]);
        for v in (0..=root).rev() {
            jump[v] = v;
            if v == root {
                continue;
            }
            let above = tree.parent[v];
            depth[v] = depth[above] + usize::from(self.falls(above, c));
            if self.falls(above, c) {
                parent[v] = above;
            } else if depth[above] > 0 {
                parent[v] = parent[above];
            }
            if parent[v] != v {
                let p = parent[v];
                let (j, jj) = (jump[p], jump[jump[p]]);
                jump[v] = if depth[p] - depth[j] == depth[j] - depth[jj] { jj } else { p };
            }
        }
        let row = |v: usize| [parent[v], jump[v], depth[v], self.lands[v][c]].map(|number| number as u16);
        (0..=root).flat_map(row).collect()
    }

    /// The copies, node after node.
    pub fn bytes(&self) -> Vec<u8> {
        self.copies.concat()
    }
}

/// The nodes from the root down to node l.
fn line_to(tree: &Tree, l: usize) -> Vec<usize> {
    let mut line = vec![l];
    while line[line.len() - 1] != tree.root() {
        line.push(tree.parent[line[line.len() - 1]]);
    }
    line.reverse();
    line
}

/// Nodes one below the other, each numbered by its depth.
struct Numbered(Vec<usize>);

impl Numbered {
    fn new(nodes: usize) -> Numbered {
        let mut jumps: Vec<usize> = vec![0];
        for depth in 1..nodes {
            let p = depth - 1;
            let (j, jj) = (jumps[p], jumps[jumps[p]]);
            jumps.push(if p - j == j - jj { jj } else { p });
        }
        Numbered(jumps)
    }
}

impl Links for Numbered {
    fn nodes(&self) -> usize {
        self.0.len()
    }
    fn parent(&self, v: usize) -> usize {
        v.saturating_sub(1)
    }
    fn jump(&self, v: usize) -> usize {
        self.0[v]
    }
    fn depth(&self, v: usize) -> usize {
        v
    }
}

/// Lent colour numbers of `nodes` nodes, whatever they hold.
pub struct LentColours<'a> {
    pub nodes: usize,
    pub numbers: &'a [u16],
}

impl LentColours<'_> {
    /// Colour c's own table; the colour that it lands on stands in the place of the size.
    fn table(&self, c: usize) -> Lent<'_> {
        let len = 4 * self.nodes;
        Lent { nodes: self.nodes, node_table: &self.numbers[c * len..(c + 1) * len] }
    }

    /// From colour c in a copy down to the copy of node l; 18 where a search leads outside or does not rise, or ends where
    /// the colour does not fall. Of the lowest colour nothing is read.
    pub fn down(&self, from: Place, l: usize, c: usize) -> Result<Way, u32> {
        let (mut place, mut way) = (from, Way { colour: c, searches: Vec::new() });
        while way.colour > 0 {
            let (c, table) = (way.colour, self.table(way.colour));
            let falls = |v: usize| table.size(v) < c;
            let seen = |v: usize| table.depth(v) + usize::from(falls(v));
            let to = place.map_or(0, seen);
            if seen(l) <= to {
                break;
            }
            let lowest = if falls(l) { l } else { table.parent(l) };
            if lowest >= self.nodes {
                return Err(18);
            }
            let moves = climb(&table, lowest, to)?;
            let x = end(&table, lowest, &moves);
            if !falls(x) {
                return Err(18);
            }
            way.searches.push(moves.len());
            way.colour = table.size(x);
            place = Some(x);
        }
        Ok(way)
    }
}

/// Where the moves from node w end.
fn end(links: &impl Links, w: usize, moves: &[Move]) -> usize {
    moves.last().map_or(w, |&last| match last {
        Move::ByJump(v) => links.jump(v),
        Move::ToParent(v) => links.parent(v),
    })
}
