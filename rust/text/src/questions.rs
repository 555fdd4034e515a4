//! Questions: "a question is a 16-bit m and m times a 16-bit node and an 8-bit label". A line each.

use crate::lines::{raw_text, Line, Wrong};
use crate::sentences;
pub use whatif::Change;

pub fn to_bytes(lines: &[Line]) -> Result<Vec<u8>, Wrong> {
    let mut bytes = Vec::new();
    for line in lines {
        match line.raw()? {
            Some(raw) => bytes.extend(raw),
            None => bytes.extend(question(&changes(line)?)),
        }
    }
    Ok(bytes)
}

/// The changes of a line.
pub fn changes(line: &Line) -> Result<Vec<Change>, Wrong> {
    if line.words == ["none"] {
        return Ok(vec![]);
    }
    if line.words.len() > 65_535 {
        return Err(line.wrong("a question has at most 65,535 changes"));
    }
    line.words.iter().map(|word| change(line, word)).collect()
}

fn change(line: &Line, word: &str) -> Result<Change, Wrong> {
    match word.split_once("->") {
        Some((node, label)) => Ok((line.number(node, 65_535)? as u16, line.byte(label)?)),
        None => Err(line.wrong(format!("'{}' is not NODE->LABEL, 'none' or 'bytes ..'", word))),
    }
}

fn question(changes: &[Change]) -> Vec<u8> {
    let mut bytes = (changes.len() as u16).to_le_bytes().to_vec();
    for (node, label) in changes {
        bytes.extend(node.to_le_bytes());
        bytes.push(*label);
    }
    bytes
}

/// One question after the other.
pub fn as_bytes(questions: &[Vec<Change>]) -> Vec<u8> {
    questions.iter().flat_map(|changes| question(changes)).collect()
}

pub fn to_text(bytes: &[u8]) -> String {
    let (whole, rest) = split(bytes);
    let lines: String = whole.iter().map(|changes| sentences::changes(changes) + "\n").collect();
    lines + &raw_text(rest)
}

/// The questions; a last one that is cut short is dropped.
pub fn of_bytes(bytes: &[u8]) -> Vec<Vec<Change>> {
    split(bytes).0
}

/// How many bytes the whole questions take: all of them where the last one is not cut short.
pub fn whole_bytes(bytes: &[u8]) -> usize {
    bytes.len() - split(bytes).1.len()
}

/// The whole questions, and what stands after them.
fn split(bytes: &[u8]) -> (Vec<Vec<Change>>, &[u8]) {
    let (mut whole, mut rest) = (Vec::new(), bytes);
    while let Some((changes, after)) = first(rest) {
        whole.push(changes);
        rest = after;
    }
    (whole, rest)
}

/// The first question and what stands after it; none where it is cut short.
fn first(bytes: &[u8]) -> Option<(Vec<Change>, &[u8])> {
    let m = u16::from_le_bytes(bytes.get(..2)?.try_into().ok()?) as usize;
    let listed = bytes.get(2..2 + 3 * m)?;
    let change = |entry: &[u8]| (u16::from_le_bytes([entry[0], entry[1]]), entry[2]);
    Some((listed.chunks(3).map(change).collect(), &bytes[2 + 3 * m..]))
}
