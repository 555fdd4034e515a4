//! Lines of words, with their numbers, and what is wrong with one.

use std::fmt;

/// The words of a line, its comment left out.
pub struct Line<'a> {
    pub number: usize,
    pub words: Vec<&'a str>,
}

/// What is wrong, and in which line.
#[derive(Debug, PartialEq, Eq)]
pub struct Wrong {
    pub line: usize,
    pub what: String,
}

impl fmt::Display for Wrong {
    fn fmt(&self, f: &mut fmt::Formatter<'_>) -> fmt::Result {
        write!(f, "line {}: {}", self.line, self.what)
    }
}

/// The lines that have words, counted from 1.
pub fn of(text: &str) -> impl Iterator<Item = Line<'_>> {
    text.lines()
        .enumerate()
        .map(|(i, line)| Line { number: i + 1, words: words_of(line) })
        .filter(|l| !l.words.is_empty())
}

fn words_of(line: &str) -> Vec<&str> {
    let before_comment = line.split('#').next().unwrap_or("");
    before_comment.split_whitespace().collect()
}

impl Line<'_> {
    pub fn wrong(&self, what: impl Into<String>) -> Wrong {
        Wrong { line: self.number, what: what.into() }
    }

    /// A number up to `most`.
    pub fn number(&self, word: &str, most: usize) -> Result<usize, Wrong> {
        match word.parse() {
            Ok(number) if number <= most => Ok(number),
            _ => Err(self.wrong(format!("'{}' is not a number from 0 to {}", word, most))),
        }
    }

    pub fn byte(&self, word: &str) -> Result<u8, Wrong> {
        Ok(self.number(word, 255)? as u8)
    }

    /// The bytes of a line that begins with the word `bytes`, none of another line.
    pub fn raw(&self) -> Result<Option<Vec<u8>>, Wrong> {
        if self.words[0] != "bytes" {
            return Ok(None);
        }
        self.words[1..].iter().map(|word| self.digits(word)).collect::<Result<Vec<u8>, Wrong>>().map(Some)
    }

    fn digits(&self, word: &str) -> Result<u8, Wrong> {
        let two = word.len() == 2 && word.bytes().all(|digit| digit.is_ascii_hexdigit());
        let wrong = || self.wrong(format!("'{}' is not two hexadecimal digits", word));
        if two {
            u8::from_str_radix(word, 16).map_err(|_| wrong())
        } else {
            Err(wrong())
        }
    }
}

/// The bytes of lines that all begin with the word `bytes`; none where the first does not.
pub fn all_raw(lines: &[Line]) -> Result<Option<Vec<u8>>, Wrong> {
    let mut bytes = Vec::new();
    for (i, line) in lines.iter().enumerate() {
        match line.raw()? {
            Some(more) => bytes.extend(more),
            None if i == 0 => return Ok(None),
            None => return Err(line.wrong("a section that begins with 'bytes' has nothing else")),
        }
    }
    Ok(Some(bytes))
}

/// Lines of the word `bytes`, 16 bytes each.
pub fn raw_text(bytes: &[u8]) -> String {
    let line =
        |part: &[u8]| part.iter().fold("bytes".to_string(), |line, byte| format!("{} {:02x}", line, byte)) + "\n";
    bytes.chunks(16).map(line).collect()
}
