//! Climbs: "while deeper than t, take the jump if its depth is at least t, else the parent. Each move is one link."

/// Parents, jumps and depths of `nodes` nodes, by a tree or by a lent table.
pub trait Links {
    fn nodes(&self) -> usize;
    fn parent(&self, v: usize) -> usize;
    fn jump(&self, v: usize) -> usize;
    fn depth(&self, v: usize) -> usize;
}

/// A move from a node.
#[derive(Clone, Copy, Debug, PartialEq, Eq)]
pub enum Move {
    ByJump(usize),
    ToParent(usize),
}

/// The moves from node w to depth t, in order; 18 where one "leads outside the plan" or "doesn't rise".
pub fn climb(links: &impl Links, w: usize, t: usize) -> Result<Vec<Move>, u32> {
    let mut moves = Vec::new();
    let mut v = w;
    while links.depth(v) > t {
        let jump = links.jump(v);
        if jump >= links.nodes() {
            return Err(18);
        }
        let reaches = links.depth(jump) >= t;
        let (one, next) = if reaches { (Move::ByJump(v), jump) } else { (Move::ToParent(v), links.parent(v)) };
        if next >= links.nodes() || links.depth(next) >= links.depth(v) {
            return Err(18);
        }
        moves.push(one);
        v = next;
    }
    Ok(moves)
}

/// "How many nodes it passed over: the depth of its start less the depth of its end", by the depths of what is climbed on.
pub fn passed(links: &impl Links, w: usize, moves: &[Move]) -> usize {
    let end = moves.last().map_or(w, |&last| match last {
        Move::ByJump(v) => links.jump(v),
        Move::ToParent(v) => links.parent(v),
    });
    links.depth(w) - links.depth(end)
}

impl Links for crate::tree::Tree {
    fn nodes(&self) -> usize {
        self.parent.len()
    }
    fn parent(&self, v: usize) -> usize {
        self.parent[v]
    }
    fn jump(&self, v: usize) -> usize {
        self.jump[v]
    }
    fn depth(&self, v: usize) -> usize {
        self.depth[v]
    }
}

/// A lent node table, for its first `nodes` nodes.
pub struct Lent<'a> {
    pub nodes: usize,
    pub node_table: &'a [u16],
}

impl Lent<'_> {
    pub fn size(&self, v: usize) -> usize {
        self.node_table[4 * v + 3] as usize
    }
}

impl Links for Lent<'_> {
    fn nodes(&self) -> usize {
        self.nodes
    }
    fn parent(&self, v: usize) -> usize {
        self.node_table[4 * v] as usize
    }
    fn jump(&self, v: usize) -> usize {
        self.node_table[4 * v + 1] as usize
    }
    fn depth(&self, v: usize) -> usize {
        self.node_table[4 * v + 2] as usize
    }
}
