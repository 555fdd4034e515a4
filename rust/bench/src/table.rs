//! The rows, what is wanted of them, and the table in two forms: lines of text, and Markdown for docs/PERFORMANCE.md.

use crate::measure::{median, Pair};
use std::fmt::Write;

/// Places of the smaller and of the larger plans.
pub const SMALL: usize = 0;
pub const LARGE: usize = 1;

/// Which rows a goal is for.
#[derive(Clone, Copy, PartialEq)]
enum For {
    All,
    /// With 64 changes.
    Longest,
    /// At the larger size.
    Largest,
}

struct Work {
    name: &'static str,
    /// The greatest ratio that is wanted.
    goal: Option<f64>,
    of: For,
}

const fn work(name: &'static str, goal: Option<f64>, of: For) -> Work {
    Work { name, goal, of }
}

/// What is measured, in the order of the table. All but two are compared with plain Rust.
const WORKS: [Work; 16] = [
    work("Load", Some(1.5), For::All),
    work("full check", Some(1.1), For::All),
    work("fresh run", Some(1.1), For::All),
    work("roots", Some(2.0), For::All),
    work("part", Some(2.0), For::All),
    work("Start in place", Some(1.5), For::All),
    work("question in place", Some(1.5), For::Longest),
    work("Start", Some(1.5), For::All),
    work("advance", Some(4.0), For::All),
    work("question", Some(4.0), For::Longest),
    work(START_BESIDE, None, For::Largest),
    work(ADVANCES_BESIDE, Some(1.0), For::Largest),
    work("branch build", Some(2.0), For::All),
    work("branch check", Some(1.1), For::All),
    work("branch question", Some(1.3), For::All),
    work("branch question with upper", Some(1.3), For::All),
];

/// A Start of the library, and all advances of its question, in ratio to a fresh run of the library.
pub const START_BESIDE: &str = "Start : fresh run";
pub const ADVANCES_BESIDE: &str = "all advances : fresh run";

/// What was measured on what: nanoseconds of a call of library and plain, for the smaller and the larger plans.
pub struct Row {
    pub work: &'static str,
    /// Changes in the list, where there is one.
    pub m: Option<usize>,
    pub shape: &'static str,
    pub s: usize,
    pub times: [Pair; 2],
}

impl Row {
    fn ratio(&self, at: usize) -> f64 {
        self.times[at].0 / self.times[at].1
    }

    /// Is it one of the rows, and sizes, that its work's goal is for?
    fn counts(&self, at: usize) -> bool {
        match WORKS[self.place()].of {
            For::All => true,
            For::Longest => self.m == Some(64),
            For::Largest => at == LARGE,
        }
    }

    fn goal(&self, at: usize) -> Option<f64> {
        WORKS[self.place()].goal.filter(|_| self.counts(at))
    }

    fn over(&self, at: usize) -> bool {
        self.goal(at).map_or(false, |goal| self.ratio(at) > goal)
    }

    fn place(&self) -> usize {
        WORKS.iter().position(|work| work.name == self.work).expect("one of the table's works")
    }

    fn name(&self) -> String {
        self.m.map_or(self.work.to_string(), |m| format!("{}, m {}", self.work, m))
    }
}

/// By work, then by m; otherwise as measured.
pub fn in_order(mut rows: Vec<Row>) -> Vec<Row> {
    rows.sort_by_key(|row| (row.place(), row.m));
    rows
}

fn goal_of(goal: Option<f64>) -> String {
    goal.map_or("-".to_string(), |goal| format!("{:.1}", goal))
}

/// The head of the table as text.
pub fn head() -> String {
    let mut out = format!("{:<39} {:^27} {:^27}\n", "", "N 1,001", "N 65,535");
    let head = ["library", "plain", "ratio"];
    writeln!(
        out,
        "{:<24} {:<10} {:>3} {:>9} {:>9} {:>7} {:>9} {:>9} {:>7} {:>6}",
        "", "shape", "S", head[0], head[1], head[2], head[0], head[1], head[2], "goal"
    )
    .unwrap();
    out
}

/// A row as a line of text.
pub fn line(row: &Row) -> String {
    let mut out = format!("{:<24} {:<10} {:>3}", row.name(), row.shape, row.s);
    for at in [SMALL, LARGE] {
        let (library, yardstick) = row.times[at];
        write!(out, " {:>9} {:>9} {:>7.2}", short(library), short(yardstick), row.ratio(at)).unwrap();
    }
    let over = if row.over(SMALL) || row.over(LARGE) { " over" } else { "" };
    writeln!(out, " {:>6}{}", goal_of(row.goal(LARGE)), over).unwrap();
    out
}

/// Nanoseconds with three digits and a unit.
pub fn short(time: f64) -> String {
    let (number, unit) = match time {
        t if t < 999.5 => (t, "ns"),
        t if t < 999_500.0 => (t / 1e3, "µs"),
        t => (t / 1e6, "ms"),
    };
    let places = if number < 9.995 {
        2
    } else if number < 99.95 {
        1
    } else {
        0
    };
    format!("{:.*} {}", places, number, unit)
}

/// For each work: goal, median and greatest ratio of the rows that the goal is for, and how many are over.
pub fn summary(rows: &[Row]) -> String {
    let mut out = "| work | goal | median | greatest | over |\n|---|---|---|---|---|\n".to_string();
    for work in &WORKS {
        let both = rows.iter().filter(|row| row.work == work.name).flat_map(|row| [(row, SMALL), (row, LARGE)]);
        let counted: Vec<_> = both.filter(|(row, at)| row.counts(*at)).collect();
        if counted.is_empty() {
            continue;
        }
        let ratios: Vec<f64> = counted.iter().map(|(row, at)| row.ratio(*at)).collect();
        let greatest = ratios.iter().copied().fold(0.0, f64::max);
        let over = counted.iter().filter(|(row, at)| row.over(*at)).count();
        let over = work.goal.map_or("-".to_string(), |_| format!("{} of {}", over, counted.len()));
        let name = match work.of {
            For::All => work.name.to_string(),
            For::Longest => format!("{}, m 64", work.name),
            For::Largest => format!("{}, N 65,535", work.name),
        };
        let goal = goal_of(work.goal);
        writeln!(out, "| {} | {} | {:.2} | {:.2} | {} |", name, goal, median(ratios), greatest, over).unwrap();
    }
    out + &without_climb(rows)
}

/// An advance through bytes should cost less than half a microsecond beside its climb; with m 0 there is none.
fn without_climb(rows: &[Row]) -> String {
    let advances = rows.iter().filter(|row| row.work == "advance" && row.m == Some(0));
    let times: Vec<f64> = advances.flat_map(|row| row.times).map(|times| times.0).collect();
    if times.is_empty() {
        return String::new();
    }
    let greatest = times.iter().copied().fold(0.0, f64::max);
    let (median, greatest) = (short(median(times)), short(greatest));
    format!("\nAn advance through bytes that does not climb takes {}, at most {} (goal: 500 ns).\n", median, greatest)
}

/// A work that is not in the table by shapes: on what, the greatest ratio that is wanted (infinite where none is), nanoseconds
/// of a call of library and plain; of two calls of the library, as the name has them.
pub struct Single {
    pub work: &'static str,
    pub on: &'static str,
    pub goal: f64,
    pub times: Pair,
}

/// A line for each; the ratio is bold where it is over the goal.
pub fn singles(singles: &[Single]) -> String {
    if singles.is_empty() {
        return String::new();
    }
    let mut out = "\n| work | on | goal | ratio | library | plain |\n|---|---|---|---|---|---|\n".to_string();
    for Single { work, on, goal, times: (library, plain) } in singles {
        let ratio = library / plain;
        let bold = if ratio > *goal { "**" } else { "" };
        let times = (short(*library), short(*plain));
        let places = if (goal * 10.0).fract() < 0.01 { 1 } else { 2 };
        let goal = if goal.is_finite() { format!("{:.*}", places, goal) } else { "-".to_string() };
        writeln!(out, "| {} | {} | {} | {}{:.2}{} | {} | {} |", work, on, goal, bold, ratio, bold, times.0, times.1)
            .unwrap();
    }
    out
}

/// A line for each work and m; in a cell the ratios at both sizes, in bold where one is over the goal.
pub fn markdown(rows: &[Row]) -> String {
    let mut out = String::new();
    let first: Vec<&Row> = rows.iter().take_while(|row| row.name() == rows[0].name()).collect();
    let head: Vec<String> = first.iter().map(|row| format!("{}, S {}", row.shape, row.s)).collect();
    writeln!(out, "| work | goal | {} | time of the library, {} |", head.join(" | "), head[head.len() - 1]).unwrap();
    writeln!(out, "|---|---|{}---|", "---|".repeat(head.len())).unwrap();
    let mut rest = rows;
    while let Some(row) = rest.first() {
        let (line, after) = rest.split_at(first.len());
        let cells: Vec<String> = line.iter().map(cell).collect();
        let last = &line[line.len() - 1].times;
        let times = format!("{} / {}", short(last[SMALL].0), short(last[LARGE].0));
        writeln!(out, "| {} | {} | {} | {} |", row.name(), goal_of(row.goal(LARGE)), cells.join(" | "), times).unwrap();
        rest = after;
    }
    out
}

fn cell(row: &Row) -> String {
    let ratio = |at| match row.over(at) {
        true => format!("**{:.2}**", row.ratio(at)),
        false => format!("{:.2}", row.ratio(at)),
    };
    format!("{} / {}", ratio(SMALL), ratio(LARGE))
}
