//! A case with the tables that the library built for it.

use crate::calls::{self, Kind, Lent};
use crate::inputs::Case;
use crate::random::Random;
use reference::formats::read_plan;
use reference::tree::Tree;

#[derive(Clone)]
pub struct Built {
    pub kind: Kind,
    pub case: Case,
    pub node_table: Vec<u16>,
    pub state_table: Vec<u8>,
}

impl Built {
    /// In buffers that are exactly long enough.
    pub fn new(kind: Kind, case: Case, random: &mut Random) -> Built {
        let lens = (case.node_table_len(), case.state_table_len());
        let (node_table, state_table) =
            calls::build(kind, &case.plan, case.table(kind), lens, random).expect("accepted");
        Built { kind, case, node_table, state_table }
    }

    /// In longer buffers, with anything behind the tables.
    pub fn with_excess(kind: Kind, case: Case, random: &mut Random) -> Built {
        let mut built = Built::new(kind, case, random);
        let (more_nodes, more_states) = (random.below(3), random.below(3));
        built.node_table.extend(random.numbers(more_nodes));
        built.state_table.extend(random.bytes(more_states));
        built
    }

    pub fn tree(&self) -> Tree {
        Tree::of(&read_plan(&self.case.plan).expect("accepted"))
    }

    /// What the full check says of some tables with this case's plan and table.
    pub fn says(&self, node_table: &[u16], state_table: &[u8], random: &mut Random) -> bool {
        let table = self.case.table(self.kind);
        calls::library_check(self.kind, &self.case.plan, table, node_table, state_table, random).expect("accepted")
    }

    /// For a branch question.
    pub fn lent(&self) -> Lent<'_> {
        Lent {
            plan: &self.case.plan,
            branch: &self.case.branch,
            node_table: &self.node_table,
            state_table: &self.state_table,
        }
    }

    /// A random node and one of the nodes from it up to the root: lower, upper.
    pub fn pair(&self, tree: &Tree, random: &mut Random) -> (u32, u32) {
        let lower = random.below(self.case.n);
        let mut upper = lower;
        for _ in 0..random.below(tree.depth[lower] + 1) {
            upper = tree.parent[upper];
        }
        (lower as u32, upper as u32)
    }
}
