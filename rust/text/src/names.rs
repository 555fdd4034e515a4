//! Names of labels and states, for people: they stand beside the numbers in every sentence and picture, and change no
//! byte.
//!
//! ```text
//! names
//! label 3 fine-bur
//! state 1 cleared
//! ```

use crate::lines::{Line, Wrong};
use std::collections::BTreeMap;

/// By number; what has no name has its number alone.
#[derive(Clone, Debug, Default, PartialEq, Eq)]
pub struct Names {
    labels: BTreeMap<u8, String>,
    states: BTreeMap<u8, String>,
}

/// Longer names would not fit a node of a picture.
const MOST: usize = 32;

impl Names {
    pub fn of(lines: &[Line]) -> Result<Names, Wrong> {
        let mut names = Names::default();
        for line in lines {
            let (numbers, number, name) = match line.words[..] {
                ["label", number, name] => (&mut names.labels, line.byte(number)?, name),
                ["state", number, name] => (&mut names.states, line.byte(number)?, name),
                _ => return Err(line.wrong("a line of the names is 'label NUMBER NAME' or 'state NUMBER NAME'")),
            };
            if name.chars().count() > MOST {
                return Err(line.wrong(format!("'{}' is longer than {} letters", name, MOST)));
            }
            if let Some(before) = numbers.insert(number, name.into()) {
                return Err(line.wrong(format!("{} {} has a name already, '{}'", line.words[0], number, before)));
            }
        }
        Ok(names)
    }

    pub fn is_empty(&self) -> bool {
        self.labels.is_empty() && self.states.is_empty()
    }

    /// Those of another one where this has none.
    pub fn or(mut self, other: &Names) -> Names {
        for (own, others) in [(&mut self.labels, &other.labels), (&mut self.states, &other.states)] {
            for (&number, name) in others {
                own.entry(number).or_insert_with(|| name.clone());
            }
        }
        self
    }

    /// The labels of one, the states of another.
    pub fn labels_and_states(labels: &Names, states: &Names) -> Names {
        Names { labels: labels.labels.clone(), states: states.states.clone() }
    }

    pub fn label_name(&self, label: u8) -> Option<&str> {
        self.labels.get(&label).map(String::as_str)
    }

    pub fn state_name(&self, state: u8) -> Option<&str> {
        self.states.get(&state).map(String::as_str)
    }

    /// `3 (fine-bur)`, or `3`.
    pub fn label(&self, label: u8) -> String {
        named(label, self.label_name(label))
    }

    /// `1 (cleared)`, or `1`.
    pub fn state(&self, state: u8) -> String {
        named(state, self.state_name(state))
    }
}

fn named(number: u8, name: Option<&str>) -> String {
    name.map_or(number.to_string(), |name| format!("{} ({})", number, name))
}

#[cfg(test)]
mod tests {
    use super::Names;
    use crate::lines;

    fn names(text: &str) -> Result<Names, lines::Wrong> {
        Names::of(&lines::of(text).collect::<Vec<_>>())
    }

    #[test]
    fn by_number() {
        let names = names("label 3 fine-bur\nstate 1 cleared # a comment").unwrap();
        let said = [names.label(3), names.label(1), names.state(1), names.state(3)];
        assert_eq!(said, ["3 (fine-bur)", "1", "1 (cleared)", "3"]);
    }

    #[test]
    fn wrong_lines() {
        let rows = [
            ("label 3", "a line of the names"),
            ("bur 3 x", "a line of the names"),
            ("label 256 x", "'256' is not a number from 0 to 255"),
            ("label 1 a\nstate 1 b\nlabel 1 c", "label 1 has a name already, 'a'"),
            ("state 0 abcdefghijklmnopqrstuvwxyzabcdefg", "longer than 32 letters"),
        ];
        for (text, what) in rows {
            assert!(names(text).unwrap_err().what.contains(what), "{}", text);
        }
    }
}
