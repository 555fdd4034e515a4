//! The library's speed against plain Rust, in one process, from rust/:
//!
//!     cargo run --release --offline -p bench --features probes
//!
//! For each row both sides do the same work by turns, 31 turns each, and the median counts. The work is one plan of
//! 65,535 nodes, or 65 plans of 1,001 nodes one after the other (so that neither side learns a plan by heart). Times are
//! for one call. Rows are printed as they are measured. USAGE has the words.

mod arch;
mod calls;
mod cases;
mod choices;
mod colours;
mod fewest;
#[cfg(feature = "probes")]
mod in_place;
mod measure;
#[cfg(feature = "probes")]
mod places;
mod planner;
mod plot;
#[cfg(feature = "probes")]
mod probes;
mod rule_tables;
mod screens;
mod sessions;
mod table;
mod tables;
mod whole;

use std::process::exit;
use table::{Row, Single};

const USAGE: &str = "usage: bench                      the whole table, in some minutes
       bench only TEXT            the rows whose work has this text in its name
       bench --markdown FILE      the table as Markdown, between the two lines of FILE that mark its place
       bench arch [FILE]          times of the library's calls on a full arch, as Markdown; with FILE between its marks
       bench plot FILE.svg        time of a Start, of all advances and of a fresh run over N
       bench calls SHAPE N S M    nothing but 20 calls of each kind; bench/instructions counts their instructions
       bench screens KIND SHAPE N S M
                                  nothing but 4 times all advances or all deals of eight questions, load or
                                  load-of-eight, by KIND: advance, deal, ..; for the same
       bench descents DEPTH S FALLS
                                  nothing but branch questions by colours and by the climb, on a comb of this depth, under a
                                  table whose colours fall often, seldom or never; bench/colours counts their instructions
       bench in-place --seed S --count C
                                  nothing is measured: C cases of calls in place against the same calls on record bytes
       bench --help
Without the feature 'probes' roots, part, the rows in place and 'in-place' are missing.";

fn main() {
    let words: Vec<String> = std::env::args().skip(1).collect();
    let words: Vec<&str> = words.iter().map(String::as_str).collect();
    match words[..] {
        [] => print(""),
        ["only", wanted] => print(wanted),
        ["--markdown", file] => put_between_marks(file, "bench", whole_table),
        ["arch"] => print!("{}", arch::table()),
        ["arch", file] => put_between_marks(file, "arch", arch::table),
        ["plot", file] => std::fs::write(file, plot::svg()).expect(file),
        ["calls", shape, n, s, m] => {
            calls::make(shape, [n, s, m].map(|number| number.parse().unwrap_or_else(|_| usage())))
        }
        ["screens", kind, shape, n, s, m] => {
            let numbers = [n, s, m].map(|number| number.parse().unwrap_or_else(|_| usage()));
            screens::calls(kind, shape, numbers).unwrap_or_else(|| usage())
        }
        ["descents", depth, s, falls] => descents([depth, s].map(|word| word.parse().ok()), falls),
        #[cfg(feature = "probes")]
        ["in-place", "--seed", seed, "--count", count] => {
            let [seed, count] = [seed, count].map(|number| number.parse().unwrap_or_else(|_| usage()));
            if let Err(found) = in_place::compare(seed, count) {
                eprintln!("{}", found);
                exit(1);
            }
        }
        ["--help"] => println!("{}", USAGE),
        _ => usage(),
    }
}

/// Prints how many questions there were, their drops and links, and the links of the climbs.
fn descents(numbers: [Option<usize>; 2], falls: &str) {
    const QUESTIONS: usize = 500;
    let made = match (numbers, colours::Falls::named(falls)) {
        ([Some(depth @ 1..=32_767), Some(s @ 1..=16)], Some(falls)) => {
            colours::Branches::new(compare::shapes::Shape::LeftComb, depth + 1, s, falls, QUESTIONS).once()
        }
        _ => usage(),
    };
    println!("{}", made.map(|number| number.to_string()).join(" "));
}

fn usage() -> ! {
    eprintln!("{}", USAGE);
    exit(2)
}

/// All rows, each handed to `measured` when it is there; by work in the end.
fn rows(wanted: &str, mut measured: impl FnMut(&Row)) -> Vec<Row> {
    let mut rows = Vec::new();
    let mut keep = |row: Row| {
        measured(&row);
        rows.push(row);
    };
    tables::rows(wanted, &mut keep);
    sessions::rows(wanted, &mut keep);
    table::in_order(rows)
}

/// What is measured without a session: whole questions, allowed labels, the fewest changes, counts of choices, on rule
/// tables alone, on planner's files; eight screens beside single sessions; and by colours.
fn singles(wanted: &str) -> Vec<Single> {
    let mut singles = Vec::new();
    whole::singles(wanted, &mut |single| singles.push(single));
    fewest::singles(wanted, &mut |single| singles.push(single));
    choices::singles(wanted, &mut |single| singles.push(single));
    rule_tables::singles(wanted, &mut |single| singles.push(single));
    planner::singles(wanted, &mut |single| singles.push(single));
    screens::singles(wanted, &mut |single| singles.push(single));
    colours::singles(wanted, &mut |single| singles.push(single));
    singles
}

fn print(wanted: &str) {
    println!("what-if checker {}: library against plain Rust, times for one call", whatif::VERSION);
    println!("plain Rust: opt-level 3, codegen-units 1, plain x86-64 (no target-cpu); K 64");
    println!("random: all trees of that size alike; m: changes in the list");
    println!();
    print!("{}", table::head());
    let rows = rows(wanted, |row| print!("{}", table::line(row)));
    let singles = singles(wanted);
    println!();
    print!("{}", table::summary(&rows));
    print!("{}", table::singles(&singles));
}

/// The whole table as Markdown; its rows are shown as they are measured.
fn whole_table() -> String {
    let rows = rows("", |row| eprint!("{}", table::line(row)));
    let singles = table::singles(&singles(""));
    format!("{}\n{}{}", table::summary(&rows), table::markdown(&rows), singles)
}

/// Puts a table between the two lines of a file that mark its place.
fn put_between_marks(file: &str, name: &str, table: fn() -> String) {
    let [begin, end] = ["begin", "end"].map(|mark| format!("<!-- {}: {} -->\n", name, mark));
    let text = std::fs::read_to_string(file).expect(file);
    let (before, rest) = text.split_once(&begin).expect(&begin);
    let (_, after) = rest.split_once(&end).expect(&end);
    std::fs::write(file, [before, &begin, &table(), &end, after].concat()).expect(file);
}
