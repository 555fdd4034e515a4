//! Whether two rule tables agree: a search of the pairs of states that plans reach, in the library's order. It ends at the
//! first pair whose marks differ.

use crate::checks::{self, Rules};

struct Search<'a> {
    a: &'a Rules<'a>,
    b: &'a Rules<'a>,
    /// Kind, label, left line, right line.
    lines: [[u8; 4]; 256],
    /// The pair of states of each line, as a number.
    codes: [u8; 256],
    seen: [bool; 256],
    count: usize,
}

impl Search<'_> {
    /// A line for the states x and y, if there is none yet. Do their marks differ?
    #[inline]
    fn found(&mut self, x: u8, y: u8, line: [u8; 4]) -> bool {
        let code = x * self.b.s as u8 + y;
        if self.seen[code as usize] {
            return false;
        }
        self.seen[code as usize] = true;
        self.lines[self.count] = line;
        self.codes[self.count] = code;
        self.count += 1;
        self.a.marks[x as usize] != self.b.marks[y as usize]
    }

    /// Every label over two lines, until a pair differs.
    fn over_labels(&mut self, left: usize, right: usize) -> bool {
        let (p, q) = (self.codes[left] as usize, self.codes[right] as usize);
        let (k, s1, s2) = (self.a.k, self.a.s, self.b.s);
        (0..k).any(|l| {
            let x = self.a.inner[((p / s2) * k + l) * s1 + q / s2];
            let y = self.b.inner[((p % s2) * k + l) * s2 + q % s2];
            self.found(x, y, [1, l as u8, left as u8, right as u8])
        })
    }

    /// Does some plan separate the tables? Then the last line is its root.
    fn separates(&mut self) -> bool {
        if (0..self.a.k).any(|l| self.found(self.a.leaf[l], self.b.leaf[l], [0, l as u8, 0, 0])) {
            return true;
        }
        let mut n = 0;
        while n < self.count {
            if (0..=n).any(|j| self.over_labels(n, j) || self.over_labels(j, n)) {
                return true;
            }
            n += 1;
        }
        false
    }
}

/// Whether they agree, and how many lines of a separating plan were written.
pub fn agree(first: &[u8], second: &[u8], lines: &mut [u16]) -> Result<(bool, usize), u32> {
    let a = checks::rules(first)?;
    let b = checks::rules(second)?;
    if a.k != b.k {
        return Err(23);
    }
    let mut search = Search { a: &a, b: &b, lines: [[0; 4]; 256], codes: [0; 256], seen: [false; 256], count: 0 };
    if !search.separates() {
        return Ok((true, 0));
    }
    if lines.len() < 4 * search.count {
        return Err(11);
    }
    for (to, line) in lines.chunks_exact_mut(4).zip(&search.lines[..search.count]) {
        to.iter_mut().zip(line).for_each(|(to, &number)| *to = u16::from(number));
    }
    Ok((false, search.count))
}
