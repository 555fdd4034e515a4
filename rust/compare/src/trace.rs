//! The case at work and its last few calls, in short: told where a difference is found.

use crate::inputs::Case;
use std::cell::RefCell;

/// So many lines are kept.
const KEPT: usize = 8;
/// Bytes of a plan or a table are told up to this length.
const SHOWN: usize = 64;

thread_local! {
    static LINES: RefCell<Vec<String>> = const { RefCell::new(Vec::new()) };
}

pub fn say(line: String) {
    LINES.with(|lines| {
        let mut lines = lines.borrow_mut();
        if lines.len() == KEPT {
            lines.remove(0);
        }
        lines.push(line);
    });
}

pub fn say_case(case: &Case) {
    let Case { n, s, k, plan, rules, branch } = case;
    let bytes = [("plan", plan), ("rules", rules), ("branch", branch)].map(|(name, bytes)| shown(name, bytes));
    say(format!("N {}, S {}, K {}; {}", n, s, k, bytes.join("; ")));
}

fn shown(name: &str, bytes: &[u8]) -> String {
    if bytes.len() <= SHOWN {
        format!("{} {:?}", name, bytes)
    } else {
        format!("{} of {} bytes", name, bytes.len())
    }
}

/// The lines, which are forgotten then.
pub fn take() -> Vec<String> {
    LINES.with(RefCell::take)
}
