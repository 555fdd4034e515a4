//! What a verb makes of its input: what it writes and its status, or why it writes nothing.

use crate::lines::Wrong;
use crate::terminal::painted;
use std::fmt;
use whatif::Refusal;

/// Answered.
pub const ANSWERED: i32 = 0;
/// The input is wrong, or the output can't be written whole.
pub const WRONG: i32 = 1;
/// Other words than those of the usage.
pub const USAGE: i32 = 2;
/// Something is refused, by the library's number.
pub const REFUSED: i32 = 3;
/// Answered with no: two tables do not agree, or tables are not as built.
pub const NO: i32 = 4;

/// What is written, and the status where that goes well.
#[derive(Debug, PartialEq, Eq)]
pub struct Made {
    pub bytes: Vec<u8>,
    pub status: i32,
}

impl Made {
    pub fn answered(text: impl Into<Vec<u8>>) -> Made {
        Made { bytes: text.into(), status: ANSWERED }
    }

    /// With verdicts in colours.
    pub fn painted(self) -> Made {
        let text = String::from_utf8(self.bytes).map(|text| painted(&text).into_bytes());
        Made { bytes: text.unwrap_or_else(|error| error.into_bytes()), status: self.status }
    }

    /// Text in which a refusal is told, or none.
    pub fn with_refusals(text: String, refused: bool) -> Made {
        Made { bytes: text.into(), status: if refused { REFUSED } else { ANSWERED } }
    }
}

/// A refusal of the library, and which entry it is about where that is found.
#[derive(Clone, Debug, PartialEq, Eq)]
pub struct Refused {
    pub refusal: Refusal,
    pub about: Option<String>,
}

impl fmt::Display for Refused {
    fn fmt(&self, f: &mut fmt::Formatter<'_>) -> fmt::Result {
        match &self.about {
            Some(about) => write!(f, "{} ({})", self.refusal, about),
            None => self.refusal.fmt(f),
        }
    }
}

/// Why nothing is written, as a sentence.
#[derive(Clone, Debug, PartialEq, Eq)]
pub enum Failure {
    Wrong(String),
    Refused(Refused),
    Usage(String),
}

impl Failure {
    pub fn wrong(what: impl Into<String>) -> Failure {
        Failure::Wrong(what.into())
    }

    pub fn refused(refusal: Refusal) -> Failure {
        Failure::Refused(Refused { refusal, about: None })
    }

    /// With the entry that the refusal is about.
    pub fn refused_about(refusal: Refusal, about: impl Into<String>) -> Failure {
        Failure::Refused(Refused { refusal, about: Some(about.into()) })
    }

    pub fn what(&self) -> String {
        match self {
            Failure::Wrong(what) | Failure::Usage(what) => what.clone(),
            Failure::Refused(refused) => refused.to_string(),
        }
    }

    pub fn status(&self) -> i32 {
        match self {
            Failure::Wrong(_) => WRONG,
            Failure::Refused(_) => REFUSED,
            Failure::Usage(_) => USAGE,
        }
    }
}

impl From<Wrong> for Failure {
    fn from(wrong: Wrong) -> Failure {
        Failure::Wrong(wrong.to_string())
    }
}
