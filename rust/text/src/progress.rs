//! Lines on standard error while something takes long: the first within two seconds.

use std::io::{self, Write};
use std::time::{Duration, Instant};

const PAUSE: Duration = Duration::from_secs(1);

pub struct Progress {
    told: Instant,
    what: &'static str,
    total: usize,
}

impl Progress {
    /// So many of what, at no time done yet.
    pub fn of(total: usize, what: &'static str) -> Progress {
        Progress { told: Instant::now(), what, total }
    }

    pub fn done(&mut self, done: usize) {
        if self.told.elapsed() >= PAUSE {
            self.told = Instant::now();
            let _ = writeln!(io::stderr(), "whatif-text: {} of {} {}", done, self.total, self.what);
        }
    }
}
