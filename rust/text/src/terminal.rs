//! Colours of verdicts on a terminal, and on a terminal alone.

use std::os::raw::c_int;

extern "C" {
    /// POSIX: 1 where the descriptor is a terminal's.
    fn isatty(descriptor: c_int) -> c_int;
}

/// When verdicts are coloured.
#[derive(Clone, Copy, Debug, Default, PartialEq, Eq)]
pub enum Colour {
    /// On a terminal, unless NO_COLOR is set.
    #[default]
    Auto,
    Always,
    Never,
}

impl Colour {
    pub fn is_on(self) -> bool {
        match self {
            Colour::Always => true,
            Colour::Never => false,
            Colour::Auto => is_terminal(1) && !std::env::var_os("NO_COLOR").map_or(false, |value| !value.is_empty()),
        }
    }
}

pub fn is_terminal(descriptor: i32) -> bool {
    // SAFETY: it takes any number, and only looks
    unsafe { isatty(descriptor) == 1 }
}

const GREEN: &str = "\x1b[32m";
const RED: &str = "\x1b[31m";
const BOLD: &str = "\x1b[1m";
const PLAIN: &str = "\x1b[0m";

/// What sentences say of a plan, where they say it: behind a colon, or at the end of a row.
const WORDS: [(&str, &str); 5] =
    [(": not cleared", RED), (": cleared", GREEN), (": refused", BOLD), ("  not cleared", RED), ("  cleared", GREEN)];

/// The text with its verdicts in colours.
pub fn painted(text: &str) -> String {
    text.split_inclusive('\n').map(line).collect()
}

fn line(line: &str) -> String {
    let found = WORDS.iter().filter_map(|&(words, colour)| line.find(words).map(|at| (at, words, colour)));
    match found.min_by_key(|&(at, _, _)| at) {
        None => line.to_string(),
        Some((at, words, colour)) => {
            let (from, to) = (at + 2, at + words.len());
            format!("{}{}{}{}{}", &line[..from], colour, &line[from..to], PLAIN, &line[to..])
        }
    }
}

#[cfg(test)]
mod tests {
    use super::{line, painted};

    #[test]
    fn verdicts() {
        assert_eq!(line("question 1, none: cleared, state 1\n"), "question 1, none: \x1b[32mcleared\x1b[0m, state 1\n");
        assert_eq!(line("as it is: not cleared, state 0"), "as it is: \x1b[31mnot cleared\x1b[0m, state 0");
        assert_eq!(line("read: refused 1: The .."), "read: \x1b[1mrefused\x1b[0m 1: The ..");
        assert_eq!(painted("    0  25.0 %  not cleared\nx\n"), "    0  25.0 %  \x1b[31mnot cleared\x1b[0m\nx\n");
    }
}
