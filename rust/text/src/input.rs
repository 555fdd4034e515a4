//! The input of a verb, from whatever files it comes: files.rs reads them.

use crate::names::Names;
use crate::outcome::Failure;
use crate::questions::{self, Change};
use crate::{parts_of, sections, write};
use whatif::layout::{number, with_header};

/// Plan and rules as bytes, whatever they hold, and the questions.
pub struct Input {
    pub plan: Vec<u8>,
    pub rules: Vec<u8>,
    pub questions: Vec<Vec<Change>>,
    pub names: Names,
}

impl Input {
    pub fn of_text(text: &str) -> Result<Input, Failure> {
        let bytes = write(text)?;
        let [plan, rules, questions] = parts_of(&bytes).expect("as it was written");
        let (names, questions) = (Names::of(&sections(text)?.names)?, questions::of_bytes(questions));
        Ok(Input { plan: plan.to_vec(), rules: rules.to_vec(), questions, names })
    }

    /// "three 32-bit lengths (plan, rules, questions), then those bytes"
    pub fn as_bytes(&self) -> Vec<u8> {
        let questions = questions::as_bytes(&self.questions);
        let lengths = [self.plan.len(), self.rules.len(), questions.len()];
        with_header(&lengths, &[&self.plan, &self.rules, &questions])
    }

    /// N, S and K, as the headers have them; 0 where a header is cut short.
    pub fn counts(&self) -> [usize; 3] {
        [(&self.plan, 0), (&self.rules, 0), (&self.rules, 4)].map(|(bytes, at)| number(bytes, at).unwrap_or(0) as usize)
    }

    /// One of the questions, counted from 1.
    pub fn question(&self, number: usize) -> Result<&[Change], Failure> {
        let question = number.checked_sub(1).and_then(|i| self.questions.get(i));
        let there = self.questions.len();
        question
            .map(Vec::as_slice)
            .ok_or_else(|| Failure::wrong(format!("there is no question {}: the input has {}", number, there)))
    }
}
