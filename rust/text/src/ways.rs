//! Ways to clear a plan, best first. Each is a least list of changes that contains none of the ways before it, so no
//! way contains another, and none can do without one of its changes. Each list is the library's answer to a subproblem.
//!
//! A subproblem has changes that are made and changes that are not permitted. After a way Q = q1 .. qm of it the other
//! relabellings are in m subproblems: in the i-th q1 .. q(i-1) are made and qi is not permitted. Their union is every
//! relabelling of the subproblem that does not contain all of Q. A list that contains an earlier way is not shown, and
//! what contains that way is left out in the same manner.

use crate::loaded::Loaded;
use crate::outcome::Failure;
use crate::questions::Change;
use std::cmp::Reverse;
use std::collections::BinaryHeap;
use whatif::sizes::{fewest_work, MAX_CHANGES};
use whatif::{Fewest, LabelSet, MayChange, Want};

/// In the order in which they are looked at: fewest changes first, and of these the ones that have an answer.
#[derive(Debug, PartialEq, Eq, PartialOrd, Ord)]
struct Subproblem {
    /// The changes of its least list; while it is open those of the list that it comes from, which are not more.
    number: usize,
    /// It was not asked yet.
    open: bool,
    made: Vec<Change>,
    without: Vec<Change>,
    /// Its least list, beside what is made.
    list: Vec<Change>,
}

pub struct Ways<'a> {
    loaded: &'a Loaded,
    may: MayChange,
    work: Vec<u32>,
    waiting: BinaryHeap<Reverse<Subproblem>>,
    found: Vec<Vec<Change>>,
    /// Is there a way with more changes than a question can have?
    pub too_long: bool,
}

impl Ways<'_> {
    /// Of a plan that is not cleared, as far as it may change; the library's answer is the whole problem's.
    pub fn new<'a>(loaded: &'a Loaded, may: MayChange) -> Result<(Ways<'a>, Fewest), Failure> {
        let work = vec![0; fewest_work(loaded.nodes(), loaded.rules().states())];
        let mut ways = Ways { loaded, may, work, waiting: BinaryHeap::new(), found: Vec::new(), too_long: false };
        let fewest = ways.fewest(&[], &[])?;
        ways.answered(Vec::new(), Vec::new(), &fewest);
        Ok((ways, fewest))
    }

    /// The least list of changes that clears the plan with some changes made and others not permitted.
    fn fewest(&mut self, made: &[Change], without: &[Change]) -> Result<Fewest, Failure> {
        let plan = self.loaded.panel.changed_plan(made).map_err(Failure::refused)?;
        let nodes: Vec<u16> = made.iter().map(|change| change.0).collect();
        let mut may = self.may.clone();
        for &(node, label) in without {
            let labels = may.labels_of(node).unwrap_or_default().iter().filter(|&b| b != label);
            may = may.at(node, labels.collect::<LabelSet>()).map_err(Failure::refused)?;
        }
        if !nodes.is_empty() {
            may = may.keep(&nodes).map_err(Failure::refused)?;
        }
        let rules = self.loaded.rules().as_bytes();
        whatif::fewest(plan.as_bytes(), rules, may.as_bits(), Want::Cleared, &mut self.work).map_err(Failure::refused)
    }

    fn answered(&mut self, made: Vec<Change>, without: Vec<Change>, fewest: &Fewest) {
        let number = fewest.least().map(|least| least as usize + made.len());
        self.too_long |= number.map_or(false, |number| number > MAX_CHANGES);
        if let (Some(number @ 1..=MAX_CHANGES), Some(list)) = (number, fewest.changes()) {
            self.waiting.push(Reverse(Subproblem { number, open: false, made, without, list: list.to_vec() }));
        }
    }

    /// The subproblems of one without what contains all of these changes.
    fn split(&mut self, of: &Subproblem, changes: &[Change]) {
        for (i, &change) in changes.iter().enumerate() {
            let made = [&of.made[..], &changes[..i]].concat();
            let without = [&of.without[..], &[change]].concat();
            self.waiting.push(Reverse(Subproblem { number: of.number, open: true, made, without, list: Vec::new() }));
        }
    }

    /// The next way; none where there is no other one that a question can have.
    pub fn next_way(&mut self) -> Result<Option<Vec<Change>>, Failure> {
        while let Some(Reverse(best)) = self.waiting.pop() {
            if best.open {
                let fewest = self.fewest(&best.made, &best.without)?;
                self.answered(best.made, best.without, &fewest);
                continue;
            }
            let mut way = [&best.made[..], &best.list[..]].concat();
            way.sort_unstable();
            match self.found.iter().find(|earlier| earlier.iter().all(|change| way.contains(change))) {
                Some(earlier) => {
                    let rest: Vec<Change> = earlier.iter().copied().filter(|one| !best.made.contains(one)).collect();
                    self.split(&best, &rest);
                }
                None => {
                    self.split(&best, &best.list);
                    self.found.push(way.clone());
                    return self.confirmed(way).map(Some);
                }
            }
        }
        Ok(None)
    }

    /// A fresh run of the whole list says the same.
    fn confirmed(&self, way: Vec<Change>) -> Result<Vec<Change>, Failure> {
        match self.loaded.panel.fresh_run(&way).map_or(false, |run| run.yes) {
            true => Ok(way),
            false => Err(Failure::wrong("a fault of whatif-text: its list does not clear the plan by the library")),
        }
    }
}
