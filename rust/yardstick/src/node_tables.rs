//! The 16-bit numbers of a node table: parent, jump, depth and size, four for each node.

pub const PARENT: usize = 0;
pub const JUMP: usize = 1;
pub const DEPTH: usize = 2;
pub const SIZE: usize = 3;

/// In post-order the right child of inner node v is v - 1, and the left one ends where the right one begins.
#[inline]
pub fn children(node_table: &[u16], v: usize) -> (usize, usize) {
    let right = v - 1;
    (right - node_table[4 * right + SIZE] as usize, right)
}

/// A node's jump and depth by its parent p, and whether the jump is far: jump, depth, the parent's jump if far.
pub struct Jump {
    pub to: u16,
    pub depth: u16,
    pub over: Option<usize>,
}

#[inline]
pub fn jump(node_table: &[u16], p: usize) -> Jump {
    let j = node_table[4 * p + JUMP] as usize;
    let jj = node_table[4 * j + JUMP] as usize;
    let (dp, dj, djj) = (node_table[4 * p + DEPTH], node_table[4 * j + DEPTH], node_table[4 * jj + DEPTH]);
    if dp - dj == dj - djj {
        Jump { to: jj as u16, depth: dp + 1, over: Some(j) }
    } else {
        Jump { to: p as u16, depth: dp + 1, over: None }
    }
}

/// The root's parent and jump are itself.
pub fn root(n: usize) -> [u16; 3] {
    [n as u16 - 1, n as u16 - 1, 0]
}
