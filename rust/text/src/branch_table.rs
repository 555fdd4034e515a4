//! A branch table: its counts, a line for each step, and the states that are marked.
//!
//! ```text
//! states 2
//! labels 2
//! step * 0 -> 0     # state and label, and the state after it; * is any of them
//! step * 1 -> 1     # a later line counts
//! accept 1
//! names             # may be left out; those of labels are the input's where this has none
//! state 1 worn
//! ```

use crate::lines::{self, all_raw, raw_text, Line, Wrong};
use crate::names::Names;
use crate::rules::{count, some};
use whatif::{layout, BranchTable};

/// The bytes of a text, and its names.
pub fn of(text: &str) -> Result<(Vec<u8>, Names), Wrong> {
    let lines: Vec<Line> = lines::of(text).collect();
    let at = lines.iter().position(|line| line.words == ["names"]);
    let (table, names) = lines.split_at(at.unwrap_or(lines.len()));
    Ok((to_bytes(table)?, Names::of(names.get(1..).unwrap_or_default())?))
}

fn to_bytes(lines: &[Line]) -> Result<Vec<u8>, Wrong> {
    if lines.is_empty() {
        return Ok(Vec::new());
    }
    if let Some(bytes) = all_raw(lines)? {
        return Ok(bytes);
    }
    let (s, k) = (count(lines, 0, "states")?, count(lines, 1, "labels")?);
    let (mut steps, mut marks) = (vec![None; s * k], vec![0; s]);
    for line in &lines[2..] {
        match &line.words[..] {
            ["step", p, a, "->", state] => {
                for p in some(line, p, s)? {
                    for a in some(line, a, k)? {
                        steps[p * k + a] = Some(line.byte(state)?);
                    }
                }
            }
            ["accept", states @ ..] => {
                for state in states {
                    marks[line.number(state, s - 1)?] = 1;
                }
            }
            _ => return Err(line.wrong("a line of a branch table is 'step STATE LABEL -> STATE' or 'accept STATE ..'")),
        }
    }
    let said = |(i, state): (usize, Option<u8>)| {
        state.ok_or_else(|| lines[lines.len() - 1].wrong(format!("no line says 'step {} {} -> ..'", i / k, i % k)))
    };
    let steps = steps.into_iter().enumerate().map(said).collect::<Result<Vec<u8>, Wrong>>()?;
    Ok(layout::branch_table(s, k, &steps, &marks))
}

/// Text of a table that the library takes; of other bytes lines of bytes.
pub fn to_text(bytes: &[u8]) -> String {
    let table = match BranchTable::from_bytes(bytes) {
        Ok(table) => table,
        Err(_) => return raw_text(bytes),
    };
    let (s, k) = (table.states() as u8, table.labels() as u8);
    let mut text = format!("states {}\nlabels {}\n", s, k);
    for state in 0..s {
        for label in 0..k {
            text += &format!("step {} {} -> {}\n", state, label, table.step(state, label).unwrap_or(0));
        }
    }
    let accepted = (0..s).filter(|&state| table.accepts(state)).map(|state| format!(" {}", state));
    text + "accept" + &accepted.collect::<String>() + "\n"
}
