//! What may change: `--keep` names nodes that keep their labels, `--burs` the labels at hand.

use crate::json::Object;
use crate::loaded::Loaded;
use crate::outcome::Failure;
use crate::sentences::{count, labels};
use whatif::{LabelSet, MayChange};

/// What the command line says of it: each word is a number, several with commas between them, or FIRST-LAST.
#[derive(Clone, Copy, Debug, Default)]
pub struct Limits<'a> {
    pub keep: &'a [&'a str],
    pub burs: &'a [&'a str],
}

/// The same of a plan: its nodes that keep their labels, rising, and the labels at hand where they are limited.
pub struct Changeable {
    pub kept: Vec<u16>,
    pub burs: Option<LabelSet>,
}

impl Changeable {
    pub fn of(loaded: &Loaded, limits: Limits) -> Result<Changeable, Failure> {
        let (n, k) = (loaded.nodes(), loaded.rules().labels());
        let a_node = Words { what: "node", whose: "the plan's", limit: n, named: &|_| None };
        let named = |word: &str| (0..k).find(|&label| loaded.names.label_name(label as u8) == Some(word));
        let a_label = Words { what: "label", whose: "the rules'", limit: k, named: &named };
        let kept = a_node.numbers(limits.keep)?.into_iter().map(|v| v as u16);
        let burs = a_label.numbers(limits.burs)?.into_iter().map(|label| label as u8).collect();
        let none = Changeable { kept: Vec::new(), burs: (!limits.burs.is_empty()).then_some(burs) };
        Ok(none.and_keep(kept))
    }

    /// These nodes keep their labels too.
    pub fn and_keep(mut self, nodes: impl Iterator<Item = u16>) -> Changeable {
        self.kept.extend(nodes);
        self.kept.sort_unstable();
        self.kept.dedup();
        self
    }

    /// As the library takes it.
    pub fn may_change(&self, loaded: &Loaded) -> Result<MayChange, Failure> {
        let every = loaded.panel.may_change();
        let may = self.burs.map_or(every.clone(), |burs| every.labels(burs));
        match self.kept.is_empty() {
            true => Ok(may),
            false => may.keep(&self.kept).map_err(Failure::refused),
        }
    }

    /// A line on what is limited; none where nothing is.
    pub fn line(&self, loaded: &Loaded) -> String {
        let kept = match self.kept.len() {
            0 => None,
            1 => Some(format!("node {} keeps its label", self.kept[0])),
            some => Some(format!("{} keep their labels", count(some, "node"))),
        };
        let burs = self.burs.map(|burs| format!("at hand: {}", labels(burs, loaded).0));
        let said: Vec<String> = kept.into_iter().chain(burs).collect();
        match said.is_empty() {
            true => String::new(),
            false => format!("# {}\n", said.join("; ")),
        }
    }

    pub fn fields(&self, object: Object) -> Object {
        let object = object.count("kept", self.kept.len());
        self.burs.into_iter().fold(object, |object, burs| object.list("burs", burs.iter().map(|b| b.to_string())))
    }
}

/// How words are read: numbers below a limit, some of which may have names.
struct Words<'a> {
    what: &'static str,
    whose: &'static str,
    limit: usize,
    named: &'a dyn Fn(&str) -> Option<usize>,
}

impl Words<'_> {
    fn number(&self, word: &str) -> Option<usize> {
        (self.named)(word).or_else(|| word.parse().ok())
    }

    /// `3`, `3,5` or `0-6`.
    fn numbers(&self, words: &[&str]) -> Result<Vec<usize>, Failure> {
        let mut found = Vec::new();
        for word in words.iter().flat_map(|word| word.split(',')) {
            let ends =
                || word.split_once('-').and_then(|(first, last)| Some((self.number(first)?, self.number(last)?)));
            let (first, last) = self
                .number(word)
                .map(|number| (number, number))
                .or_else(ends)
                .ok_or_else(|| Failure::wrong(format!("'{}' is not a {}, and not FIRST-LAST", word, self.what)))?;
            if last >= self.limit {
                let Words { what, whose, limit, .. } = self;
                return Err(Failure::wrong(format!("there is no {} {}: {} are 0 to {}", what, last, whose, limit - 1)));
            }
            found.extend(first..=last);
        }
        Ok(found)
    }
}
