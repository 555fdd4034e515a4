//! How often each thing came.

use std::collections::BTreeMap;
use std::fmt;

#[derive(Default)]
pub struct Counts(BTreeMap<String, usize>);

impl Counts {
    pub fn add(&mut self, what: impl Into<String>) {
        *self.0.entry(what.into()).or_default() += 1;
    }

    pub fn of(&self, what: &str) -> usize {
        self.0.get(what).copied().unwrap_or(0)
    }

    pub fn total(&self) -> usize {
        self.0.values().sum()
    }
}

/// A line for each, and 9 before 10.
impl fmt::Display for Counts {
    fn fmt(&self, f: &mut fmt::Formatter<'_>) -> fmt::Result {
        let mut lines: Vec<_> = self.0.iter().collect();
        lines.sort_by_key(|(what, _)| by_number(what));
        lines.into_iter().try_for_each(|(what, count)| writeln!(f, "{:>12}  {}", count, what))
    }
}

/// The words, with numbers wide enough to be in order.
fn by_number(what: &str) -> String {
    what.split(' ').map(|word| if word.len() == 1 { format!(" {} ", word) } else { format!("{} ", word) }).collect()
}
