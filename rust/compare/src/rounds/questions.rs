//! Questions on tables as built, through the session's calls: roots, states, answer, parts, links and nodes passed over. The reference model holds
//! every answer to a fresh run of the changed plan; here the record is looked at too.

use super::any_case;
use crate::counts::Counts;
use crate::faults::repeat_nodes;
use crate::inputs::Case;
use crate::panel::{Lent, Panel};
use crate::random::Random;
use reference::formats::{read_plan, read_rules};
use reference::fresh::changed;
use reference::lists::differing;
use reference::model::Settlement;
use reference::panel::{Answer, Outcome};
use reference::ready::{by_marks, closure};
use reference::tables::run;
use reference::tree::Tree;
use std::collections::BTreeSet;

pub fn round(random: &mut Random, counts: &mut Counts) {
    let mut asked = Asked::new(any_case(random), random);
    for _ in 0..2 {
        let m = *random.pick(&[0, 1, 2, 3, 5, 8, 16, 64]);
        asked.both_ways(m, random, counts);
        asked.own_labels(m, random, counts);
    }
}

/// A case, its tables, and a panel that has loaded it.
pub struct Asked {
    pub case: Case,
    pub lent: Lent,
    pub tree: Tree,
    pub panel: Panel,
}

impl Asked {
    pub fn new(case: Case, random: &mut Random) -> Asked {
        let lent = Lent::built(&case, random);
        let tree = Tree::of(&read_plan(&case.plan).unwrap());
        let panel = Panel::loaded(&lent, random);
        Asked { case, lent, tree, panel }
    }

    /// A question of at most `m` changes; the other way round it is the same question.
    pub fn both_ways(&mut self, m: usize, random: &mut Random, counts: &mut Counts) {
        let (mut nodes, mut labels) = self.case.list(m, random);
        let told = self.ask(&nodes, &labels, random);
        nodes.reverse();
        labels.reverse();
        assert_eq!(self.ask(&nodes, &labels, random), told, "the same changes in another order");
        self.repeated(nodes.clone(), labels.clone(), random);
        counts.add(format!("changes: {}", if nodes.len() < m { "all nodes".to_string() } else { m.to_string() }));
    }

    /// A question in which most nodes, after superseding, have their own label.
    pub fn own_labels(&mut self, m: usize, random: &mut Random, counts: &mut Counts) {
        let (mut nodes, mut labels) = self.case.list(m, random);
        if random.below(2) == 0 {
            repeat_nodes(&mut nodes, &mut labels, self.case.k, random);
        }
        for (v, a) in nodes.iter().zip(&mut labels) {
            if random.below(4) > 0 {
                *a = self.case.labels()[*v as usize];
            }
        }
        self.ask(&nodes, &labels, random);
        let left = differing(self.case.labels(), &nodes, &labels).len();
        counts.add(format!("left of {}: {}", m, if left == 0 { "none" } else { "some" }));
    }

    /// The nodes passed over, step by step to the parent: for each root, from the highest root below a child up to that child,
    /// unless there are roots below both children.
    fn passed(&self, members: &[usize]) -> usize {
        let below = |v: usize, c: usize| v <= c && c < v + self.tree.size[c];
        let steps = |from: usize, to: usize| {
            let mut v = from;
            let mut count = 0;
            while v != to {
                v = self.tree.parent[v];
                count += 1;
            }
            count
        };
        let of = |root: usize| match self.tree.children[root] {
            None => 0,
            Some((left, right)) => {
                let highest = |c: usize| members.iter().copied().rfind(|&v| below(v, c));
                match (highest(left), highest(right)) {
                    (Some(w), None) => steps(w, left),
                    (None, Some(w)) => steps(w, right),
                    _ => 0,
                }
            }
        };
        members.iter().map(|&root| of(root)).sum()
    }

    /// With nodes listed again the answer is that of the list after superseding.
    pub fn repeated(&mut self, mut nodes: Vec<u16>, mut labels: Vec<u8>, random: &mut Random) {
        repeat_nodes(&mut nodes, &mut labels, self.case.k, random);
        let told = self.ask(&nodes, &labels, random);
        let laid = reference::lists::lay_over((&[], &[]), (&nodes, &labels), (64, 64)).expect("accepted");
        let (nodes, labels): (Vec<u16>, Vec<u8>) = laid.into_iter().unzip();
        assert_eq!(self.ask(&nodes, &labels, random), told, "the list after superseding");
    }

    /// A whole question; every part's state is the changed run's at its root, and its root is the ready set's.
    pub fn ask(&mut self, nodes: &[u16], labels: &[u8], random: &mut Random) -> Outcome {
        let plan = read_plan(&self.case.plan).unwrap();
        let labels_then = changed(plan.labels, nodes, labels);
        // "A listed node whose label equals the plan's is left out of W"
        let differs = |v: usize| plan.labels[v] != labels_then[v];
        let left: BTreeSet<u16> = nodes.iter().copied().filter(|&v| differs(v as usize)).collect();
        let left: Vec<u16> = left.into_iter().collect();
        let members = if self.case.n < 80 { closure(&self.tree, &left) } else { by_marks(&self.tree, &left) };
        let parts = members.len() as u32;
        assert_eq!(self.panel.start(&self.lent, nodes, labels, random), Answer::Parts(parts));
        assert_eq!(self.panel.says().states, [], "no state yet");
        let (advances, told) = self.panel.finish(&self.lent, random);
        assert_eq!((advances, told.parts), (parts, parts));
        assert_eq!(self.panel.model.settlement(), Some(Settlement::Clean));
        let record = self.panel.says();
        assert!(record.roots.iter().map(|&v| v as usize).eq(members.iter().copied()));
        assert_eq!((&record.nodes[..], &record.labels[..]), (nodes, labels), "the changes as listed");
        let states = run(plan.kinds, &labels_then, &read_rules(&self.case.rules).unwrap());
        assert!(members.iter().map(|&v| states[v]).eq(record.states), "the states at the roots");
        let deepest = *self.tree.depth.iter().max().unwrap();
        let digits = usize::BITS - deepest.leading_zeros();
        assert!(told.links <= 3 * digits * parts);
        assert!(
            told.links <= told.passed && told.passed <= parts * deepest as u32,
            "links <= passed <= parts x height"
        );
        assert_eq!(told.passed as usize, self.passed(&members), "the nodes passed over");
        assert!(parts as usize <= if left.is_empty() { 1 } else { 4 * left.len() - 2 });
        assert!(parts as usize <= by_marks(&self.tree, nodes).len(), "parts never rise");
        told
    }
}
