//! A rule table: its counts, a line for each state of a leaf and of an inner node, and the states that are accepted.

use crate::lines::{all_raw, raw_text, Line, Wrong};
use std::ops::Range;
use whatif::layout::{self, number};

/// The entries said so far.
struct Table {
    s: usize,
    k: usize,
    leaf: Vec<Option<u8>>,
    inner: Vec<Option<u8>>,
    marks: Vec<u8>,
}

/// No line, no byte. A state of the table may be any byte.
pub fn to_bytes(lines: &[Line]) -> Result<Vec<u8>, Wrong> {
    if let Some(bytes) = all_raw(lines)? {
        return Ok(bytes);
    }
    let (s, k) = (count(lines, 0, "states")?, count(lines, 1, "labels")?);
    let mut table = Table { s, k, leaf: vec![None; k], inner: vec![None; s * k * s], marks: vec![0; s] };
    for line in &lines[2..] {
        table.take(line)?;
    }
    table.bytes().map_err(|missing| lines[lines.len() - 1].wrong(missing))
}

/// The count that stands in one of the first two lines.
pub(crate) fn count(lines: &[Line], at: usize, name: &str) -> Result<usize, Wrong> {
    let line = &lines[at.min(lines.len() - 1)];
    match &line.words[..] {
        [word, number] if *word == name => match line.number(number, 255)? {
            0 => Err(line.wrong(format!("'{} 0': there is one at least", name))),
            number => Ok(number),
        },
        _ => Err(line.wrong("a table begins with 'states NUMBER' and 'labels NUMBER', or with 'bytes ..'")),
    }
}

impl Table {
    fn take(&mut self, line: &Line) -> Result<(), Wrong> {
        match &line.words[..] {
            ["leaf", a, "->", state] => {
                for a in some(line, a, self.k)? {
                    self.leaf[a] = Some(line.byte(state)?);
                }
            }
            ["inner", p, a, q, "->", state] => self.take_inner(line, [p, a, q], state)?,
            ["accept", states @ ..] => {
                for state in states {
                    self.marks[line.number(state, self.s - 1)?] = 1;
                }
            }
            _ => {
                let forms = "'leaf LABEL -> STATE', 'inner STATE LABEL STATE -> STATE' or 'accept STATE ..'";
                return Err(line.wrong(format!("a line of the rules is {}", forms)));
            }
        }
        Ok(())
    }

    fn take_inner(&mut self, line: &Line, [p, a, q]: [&str; 3], state: &str) -> Result<(), Wrong> {
        for p in some(line, p, self.s)? {
            for a in some(line, a, self.k)? {
                for q in some(line, q, self.s)? {
                    self.inner[(p * self.k + a) * self.s + q] = Some(line.byte(state)?);
                }
            }
        }
        Ok(())
    }

    /// Or which entry is missing.
    fn bytes(&self) -> Result<Vec<u8>, String> {
        let (s, k) = (self.s, self.k);
        let leaf_said =
            |(a, state): (usize, &Option<u8>)| state.ok_or_else(|| format!("no line says 'leaf {} -> ..'", a));
        let leaf: Result<Vec<u8>, String> = self.leaf.iter().enumerate().map(leaf_said).collect();
        let inner_said = |(i, state): (usize, &Option<u8>)| {
            state.ok_or_else(|| format!("no line says 'inner {} {} {} -> ..'", i / s / k, i / s % k, i % s))
        };
        let inner: Result<Vec<u8>, String> = self.inner.iter().enumerate().map(inner_said).collect();
        Ok(layout::rules(s, k, &leaf?, &inner?, &self.marks))
    }
}

/// One of so many, or all of them.
pub(crate) fn some(line: &Line, word: &str, count: usize) -> Result<Range<usize>, Wrong> {
    if word == "*" {
        return Ok(0..count);
    }
    let one = line.number(word, count - 1)?;
    Ok(one..one + 1)
}

pub fn to_text(bytes: &[u8]) -> String {
    table_text(bytes).unwrap_or_else(|| raw_text(bytes))
}

/// None where lines can't say them: other offsets or another length, no or too many states or labels, other marks.
fn table_text(bytes: &[u8]) -> Option<String> {
    let (s, k) = (number(bytes, 0)? as usize, number(bytes, 4)? as usize);
    if !(1..=255).contains(&s) || !(1..=255).contains(&k) || bytes.len() != 20 + k + s * k * s + s {
        return None;
    }
    let (leaf, rest) = bytes[20..].split_at(k);
    let (inner, marks) = rest.split_at(s * k * s);
    if layout::rules(s, k, leaf, inner, marks) != bytes || marks.iter().any(|&mark| mark > 1) {
        return None;
    }
    let leaf_line = |(a, state): (usize, &u8)| format!("leaf {} -> {}\n", a, state);
    let inner_line = |(i, state): (usize, &u8)| format!("inner {} {} {} -> {}\n", i / s / k, i / s % k, i % s, state);
    let mut text = format!("states {}\nlabels {}\n", s, k);
    text.extend(leaf.iter().enumerate().map(leaf_line));
    text.extend(inner.iter().enumerate().map(inner_line));
    let accepted = (0..s).filter(|&state| marks[state] == 1).map(|state| format!(" {}", state));
    Some(text + "accept" + &accepted.collect::<String>() + "\n")
}
