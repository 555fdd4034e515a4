//! What a file's bytes look like, by their header, and where bytes of a known form break off. This is plain Rust's
//! guess, for messages and for telling text from bytes: whether a plan or a table is one the library decides.

use crate::parts_of;
use crate::sentences::count;
use whatif::layout::number;
use whatif::sizes::{branch_bytes, plan_bytes, rules_bytes};

/// The forms that are known.
#[derive(Clone, Copy, Debug, PartialEq, Eq)]
pub enum Form {
    /// Sections of text: plan, rules, questions, names.
    Text,
    /// A planner's tree as text.
    PlannerText,
    /// A branch table as text.
    BranchText,
    /// A script of session or screens.
    Script,
    /// Text that begins with none of the words that these begin with.
    OtherText,
    /// Three lengths, then plan, rules and questions: the bytes that the program `whatif` reads.
    Whole,
    Plan,
    Planner,
    Rules,
    Branch,
    Unknown,
}

impl Form {
    pub fn name(self) -> &'static str {
        match self {
            Form::Text => "text with sections",
            Form::PlannerText => "a planner's tree as text",
            Form::BranchText => "a branch table as text",
            Form::Script => "a script",
            Form::OtherText => "text of no known form",
            Form::Whole => "the input of whatif: plan, rules and questions as bytes",
            Form::Plan => "a plan's bytes",
            Form::Planner => "a planner's file",
            Form::Rules => "a rule table's bytes",
            Form::Branch => "a branch table's bytes",
            Form::Unknown => "no form that is known",
        }
    }

    pub fn is_text(self) -> bool {
        matches!(self, Form::Text | Form::PlannerText | Form::BranchText | Form::Script | Form::OtherText)
    }
}

/// The text of bytes that are one, without a byte-order mark. No text has a zero byte, and every header has.
pub fn text_of(bytes: &[u8]) -> Option<&str> {
    let text = std::str::from_utf8(bytes).ok().filter(|text| !text.contains('\0'))?;
    Some(text.strip_prefix('\u{feff}').unwrap_or(text))
}

/// By the header alone: the lengths of what follows it are looked at by `breaks_off`.
pub fn form(bytes: &[u8]) -> Form {
    match text_of(bytes) {
        Some(text) => form_of_text(text),
        None => form_of_bytes(bytes),
    }
}

fn form_of_text(text: &str) -> Form {
    let first = crate::lines::of(text).next();
    match first.and_then(|line| line.words.first().copied()) {
        None | Some("plan" | "rules" | "questions" | "names") => Form::Text,
        Some("planner") => Form::PlannerText,
        Some("states" | "labels" | "step" | "bytes") => Form::BranchText,
        Some("load" | "start" | "advance" | "deal" | "cancel" | "read") => Form::Script,
        Some(_) => Form::OtherText,
    }
}

/// A header of offsets that fit its counts is that of a table or a plan; no plan that short could stand in an input.
fn form_of_bytes(bytes: &[u8]) -> Form {
    let header: Vec<u128> = (0..5).map_while(|i| number(bytes, 4 * i)).map(u128::from).collect();
    match header[..] {
        [s, k, 20, d, e] if d == 20 + k && e == d + s * k * s => Form::Rules,
        [s, k, 16, d, ..] if d == 16 + s * k => Form::Branch,
        [n, 12, after, ..] if after == 12 + n => match bytes.get(after as usize) {
            // a plan begins with a leaf, a planner's file of two nodes or more with a node that has children
            Some(1..) => Form::Planner,
            _ => Form::Plan,
        },
        _ if parts_of(bytes).is_some() => Form::Whole,
        _ => Form::Unknown,
    }
}

/// For bytes whose header is that of a form: what is said of their length where it is another than the header's.
pub fn breaks_off(bytes: &[u8], form: Form) -> Option<String> {
    let [a, b] = [0, 4].map(|at| number(bytes, at).unwrap_or(0) as usize);
    let (what, whole) = match form {
        Form::Plan => (format!("a plan of {}", count(a, "node")), plan_bytes(a)),
        Form::Planner => (format!("a planner's file of {}", count(a, "node")), plan_bytes(a)),
        Form::Rules => (format!("a rule table of {}", states_and_labels(a, b)), rules_bytes(a, b)),
        Form::Branch => (format!("a branch table of {}", states_and_labels(a, b)), branch_bytes(a, b)),
        _ => return None,
    };
    let has = |end: String| Some(format!("{} has {}, and this {}", what, count(whole, "byte"), end));
    match bytes.len() {
        len if len < whole => has(format!("breaks off at byte {}", len)),
        len if len > whole => has(format!("goes on to byte {}", len)),
        _ => None,
    }
}

fn states_and_labels(states: usize, labels: usize) -> String {
    format!("{} and {}", count(states, "state"), count(labels, "label"))
}

/// For bytes of no known form: the first byte at which they are not of the form that is wanted.
pub fn first_wrong_byte(bytes: &[u8], wanted: Form) -> String {
    let header = |i: usize| number(bytes, 4 * i).map(u128::from);
    let (a, b) = (header(0).unwrap_or(0), header(1).unwrap_or(0));
    let numbers: Vec<(usize, u128)> = match wanted {
        Form::Plan | Form::Planner => vec![(1, 12), (2, 12 + a)],
        Form::Rules => vec![(2, 20), (3, 20 + b), (4, 20 + b + a * b * a)],
        Form::Branch => vec![(2, 16), (3, 16 + a * b)],
        _ => return whole_breaks_off(bytes),
    };
    let last = numbers[numbers.len() - 1].0;
    if bytes.len() < 4 * (last + 1) {
        return format!("it breaks off at byte {}, in a header of {} bytes", bytes.len(), 4 * (last + 1));
    }
    let wrong = numbers.into_iter().find(|&(i, should)| header(i) != Some(should));
    let said = wrong.map(|(i, should)| (4 * i, header(i).unwrap_or(0), should));
    said.map_or_else(String::new, |(at, is, should)| {
        format!("at byte {} it has {}, and should have {}", at, is, should)
    })
}

/// For bytes that are to be an input of three lengths.
fn whole_breaks_off(bytes: &[u8]) -> String {
    let lengths: Vec<u64> = (0..3).map_while(|i| number(bytes, 4 * i)).map(u64::from).collect();
    match lengths[..] {
        [plan, rules, questions] => {
            let whole = 12 + plan + rules + questions;
            let end = if (bytes.len() as u64) < whole { "breaks off at" } else { "goes on to" };
            let lengths = format!("of {}, {} and {} bytes", plan, rules, questions);
            format!("plan, rules and questions {} would make {}, and it {} byte {}", lengths, whole, end, bytes.len())
        }
        _ => format!("it breaks off at byte {}, in three lengths of 12 bytes", bytes.len()),
    }
}
