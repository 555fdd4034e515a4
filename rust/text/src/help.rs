//! The help: of the program, and of each verb.

use crate::verbs::{Verb, ALL};

const HEAD: &str = "usage: whatif-text VERB [OPTION ..] [WORD ..] < INPUT

INPUT is text or the bytes that the program whatif reads, a plan of up to 65,535 nodes. QUESTION is a number, from 1.
";

const TAIL: &str = "
Files, each as text or as the library's own bytes, - for standard input:

  --plan FILE, --rules FILE, --questions FILE, --branch FILE, --names FILE
                        that section alone
  --planner FILE        the plan of a planner's tree
  --input FILE          every section that no other option names; without options: standard input

Verbs that answer:

  --json                an object a line in place of sentences
  --colour WHEN         auto (on a terminal, unless NO_COLOR is set), always or never

  help [VERB], -h       this, or a verb's own help with an example
  -V                    the version

The status is 0 where all is answered, 1 where the input is wrong (with its line or byte) or the output can't be
written, 2 for other words than these, 3 where something is refused (by number, as docs/REFUSALS.md has them), 4 where
check or agree say no.
";

/// Every verb in a line or two.
pub fn all() -> String {
    let (with, without): (Vec<&Verb>, Vec<&Verb>) = ALL.iter().partition(|verb| verb.input);
    let lines = |verbs: &[&Verb]| verbs.iter().map(|verb| line(verb)).collect::<String>();
    format!("{}\n{}\nWithout INPUT:\n\n{}{}", HEAD, lines(&with), lines(&without), TAIL)
}

fn line(verb: &Verb) -> String {
    let begins = format!("  {} {}", verb.name, verb.form);
    match begins.trim_end() {
        short if short.len() < 24 => format!("{:<24}{}\n", short, verb.what),
        long => format!("{}\n{:24}{}\n", long, "", verb.what),
    }
}

/// One verb, with its example.
pub fn of(verb: &Verb) -> String {
    let form = format!("usage: whatif-text {} {}", verb.name, verb.form);
    let input = if verb.input { " [OPTION ..] < INPUT" } else { "" };
    let more = if verb.more.is_empty() { String::new() } else { format!("{}\n", verb.more) };
    let options = crate::args::options(verb);
    let options = match options.is_empty() {
        true => String::new(),
        false => format!("\nOptions, as 'whatif-text help' explains them:\n  {}\n", options.join(" ")),
    };
    format!("{}{}\n\n{}.\n{}{}\nExample:\n\n  {}\n", form.trim_end(), input, verb.what, more, options, verb.example)
}
