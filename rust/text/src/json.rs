//! One JSON object a line: for whoever reads answers by a program.

use crate::names::Names;
use crate::outcome::{Failure, Refused};
use crate::questions::Change;
use std::fmt::Display;
use whatif::Answer;

/// An object while it is written: its fields, in their order.
#[derive(Clone, Debug, Default)]
pub struct Object(String);

impl Object {
    pub fn new() -> Object {
        Object::default()
    }

    fn field(mut self, name: &str, value: impl Display) -> Object {
        let comma = if self.0.is_empty() { "" } else { "," };
        self.0 += &format!("{}{}:{}", comma, string(name), value);
        self
    }

    pub fn number(self, name: &str, value: impl Into<u64>) -> Object {
        self.field(name, value.into())
    }

    pub fn count(self, name: &str, value: usize) -> Object {
        self.field(name, value)
    }

    pub fn truth(self, name: &str, value: bool) -> Object {
        self.field(name, value)
    }

    pub fn text(self, name: &str, value: &str) -> Object {
        self.field(name, string(value))
    }

    pub fn list(self, name: &str, values: impl IntoIterator<Item = String>) -> Object {
        self.field(name, format!("[{}]", values.into_iter().collect::<Vec<_>>().join(",")))
    }

    pub fn object(self, name: &str, value: Object) -> Object {
        self.field(name, value.inner())
    }

    /// A state, and its name where it has one.
    pub fn state(self, name: &str, state: u8, names: &Names) -> Object {
        self.number(name, state).named(name, names.state_name(state))
    }

    /// A label, and its name where it has one.
    pub fn label(self, name: &str, label: u8, names: &Names) -> Object {
        self.number(name, label).named(name, names.label_name(label))
    }

    fn named(self, name: &str, of: Option<&str>) -> Object {
        of.into_iter().fold(self, |object, of| object.text(&format!("{}_name", name), of))
    }

    /// A list of changes, an object each.
    pub fn changes(self, name: &str, changes: &[Change], names: &Names) -> Object {
        let change = |&(node, label): &Change| Object::new().number("node", node).label("label", label, names).inner();
        self.list(name, changes.iter().map(change))
    }

    /// What a question is answered.
    pub fn answer(self, answer: &Answer, names: &Names) -> Object {
        let counts = [("parts", answer.parts), ("links", answer.links), ("passed", answer.passed)];
        let told = self.truth("cleared", answer.yes).state("state", answer.state, names);
        counts.into_iter().fold(told, |told, (name, count)| told.number(name, count))
    }

    /// Why nothing is answered.
    pub fn failure(self, failure: &Failure) -> Object {
        match failure {
            Failure::Wrong(what) => self.text("wrong", what),
            Failure::Usage(what) => self.text("usage", what),
            Failure::Refused(Refused { refusal, about }) => {
                let told = self.number("refused", refusal.number()).text("sentence", refusal.sentence());
                about.iter().fold(told, |told, about| told.text("about", about))
            }
        }
    }

    /// The fields of another one after these.
    pub fn and(self, other: Object) -> Object {
        let comma = if self.0.is_empty() || other.0.is_empty() { "" } else { "," };
        Object(self.0 + comma + &other.0)
    }

    /// Inside another one.
    pub fn inner(self) -> String {
        format!("{{{}}}", self.0)
    }

    pub fn line(self) -> String {
        self.inner() + "\n"
    }
}

pub(crate) fn string(text: &str) -> String {
    let letter = |c: char| match c {
        '"' => "\\\"".to_string(),
        '\\' => "\\\\".to_string(),
        c if (c as u32) < 0x20 => format!("\\u{:04x}", c as u32),
        c => c.to_string(),
    };
    format!("\"{}\"", text.chars().map(letter).collect::<String>())
}

#[cfg(test)]
mod tests {
    use super::{string, Names, Object};

    #[test]
    fn strings() {
        assert_eq!(string("a \"b\" \\ c\nd é"), "\"a \\\"b\\\" \\\\ c\\u000ad é\"");
    }

    #[test]
    fn fields() {
        let object =
            Object::new().number("a", 1u8).truth("b", true).text("c", "x").changes("d", &[(1, 2)], &Names::default());
        assert_eq!(object.line(), "{\"a\":1,\"b\":true,\"c\":\"x\",\"d\":[{\"node\":1,\"label\":2}]}\n");
        assert_eq!(Object::new().and(Object::new().count("a", 1)).and(Object::new()).inner(), "{\"a\":1}");
    }
}
