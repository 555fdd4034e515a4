//! The words of the command line: a verb, its words and its options. What is wrong is one line that names the word and
//! the nearest right one.

use crate::files::Files;
use crate::nearest::nearest;
use crate::outcome::Failure;
use crate::terminal::Colour;
use crate::verbs::{self, Verb};

/// Options with a value, and which field they fill.
pub(crate) const FILES: [&str; 7] = ["--input", "--plan", "--planner", "--rules", "--questions", "--branch", "--names"];

/// When verdicts have colours: each verb that answers takes it.
const COLOURS: [(&str, Colour); 3] = [("auto", Colour::Auto), ("always", Colour::Always), ("never", Colour::Never)];

/// What the command line asks for.
pub struct Args<'a> {
    pub verb: &'static Verb,
    pub words: Vec<&'a str>,
    pub files: Files<'a>,
    /// Bytes are written in place of text.
    pub bytes: bool,
    /// An object a line in place of sentences.
    pub json: bool,
    pub colour: Colour,
    /// So many of what is found.
    pub first: Option<usize>,
    /// A page of an outline, from 1 on.
    pub page: usize,
    /// The nodes where every other label loses the clearance, in place of changes.
    pub robust: bool,
    /// Nodes that may take one label alone, or none, are marked.
    pub allowed: bool,
    /// Nodes that keep their labels, and labels at hand, as they were written.
    pub keep: Vec<&'a str>,
    pub burs: Vec<&'a str>,
    /// Further ways.
    pub next: usize,
}

/// All options of a verb.
pub fn options(verb: &Verb) -> Vec<&'static str> {
    let files = if verb.input { &FILES[..] } else { &[] };
    let answers = if verb.answers { &["--json", "--colour"][..] } else { &[] };
    files.iter().chain(verb.options).chain(answers).copied().collect()
}

impl<'a> Args<'a> {
    /// Of the words after the program's name, the first of which is no option.
    pub fn of(words: &[&'a str]) -> Result<Args<'a>, Failure> {
        let (name, rest) = words.split_first().ok_or_else(|| usage("a verb is missing: whatif-text help"))?;
        let verb = verb(name)?;
        let (words, files, colour) = (Vec::new(), Files::default(), Colour::Auto);
        let (bytes, json, robust, allowed) = (false, false, false, false);
        let (keep, burs, first) = (Vec::new(), Vec::new(), None);
        let (page, next) = (1, 0);
        let mut args = Args { verb, words, files, bytes, json, colour, first, page, robust, allowed, keep, burs, next };
        if verb.own_options {
            args.words = rest.to_vec();
            return Ok(args);
        }
        let mut rest = rest.iter().copied();
        while let Some(word) = rest.next() {
            match word {
                "--" => args.words.extend(rest.by_ref()),
                "-" => args.words.push(word),
                option if option.starts_with('-') => args.take(option, &mut rest)?,
                word => args.words.push(word),
            }
        }
        args.counted()
    }

    /// `--option value`, `--option=value` or `--flag`.
    fn take(&mut self, word: &'a str, rest: &mut impl Iterator<Item = &'a str>) -> Result<(), Failure> {
        let (name, value) = word.split_once('=').map_or((word, None), |(name, value)| (name, Some(value)));
        let known = options(self.verb);
        if !known.contains(&name) {
            let what = format!("'{}' is no option of '{}'", name, self.verb.name);
            return Err(usage(what + &meant(nearest(name, known), self.verb.name)));
        }
        let flag = match name {
            "--bytes" => Some(&mut self.bytes),
            "--json" => Some(&mut self.json),
            "--robust" => Some(&mut self.robust),
            "--allowed" => Some(&mut self.allowed),
            _ => None,
        };
        if let Some(flag) = flag {
            *flag = true;
            return value.map_or(Ok(()), |value| Err(usage(format!("'{}' takes no value: '{}'", name, value))));
        }
        let value = value.or_else(|| rest.next());
        let value = value.ok_or_else(|| usage(format!("'{}' needs a value", name)))?;
        let number = || value.parse().map_err(|_| usage(format!("{} {}: this is no number", name, value)));
        match name {
            "--first" => self.first = Some(number()?),
            "--page" => self.page = number()?,
            "--next" => self.next = number()?,
            "--keep" => self.keep.push(value),
            "--burs" => self.burs.push(value),
            "--colour" => self.colour = one_of(value, &COLOURS)?,
            file => return self.take_file(file, value),
        }
        Ok(())
    }

    fn take_file(&mut self, name: &str, value: &'a str) -> Result<(), Failure> {
        let Files { input, plan, planner, rules, questions, branch, names } = &mut self.files;
        let place = match name {
            "--input" => input,
            "--plan" => plan,
            "--planner" => planner,
            "--rules" => rules,
            "--questions" => questions,
            "--names" => names,
            _ => branch,
        };
        match place.replace(value) {
            Some(before) => Err(usage(format!("'{}' stands twice: {} and {}", name, before, value))),
            None => Ok(()),
        }
    }

    /// Neither fewer words than the verb needs nor more than it takes.
    fn counted(self) -> Result<Args<'a>, Failure> {
        let Verb { name, form, least, most, .. } = *self.verb;
        // the branch table is a word, or an option
        let fewer = usize::from(self.files.branch.is_some() && form.starts_with("[TABLE]"));
        if self.words.len() < least - fewer {
            return Err(usage(format!("'{}' needs more words: whatif-text {} {}", name, name, form)));
        }
        match self.words.get(most.saturating_sub(fewer)) {
            Some(word) => {
                let takes = if form.is_empty() { "no words".into() } else { format!("the words {}", form) };
                Err(usage(format!("'{}' is one word too many: '{}' takes {}", word, name, takes)))
            }
            None => Ok(self),
        }
    }
}

/// By its name.
pub fn verb(name: &str) -> Result<&'static Verb, Failure> {
    let known = || verbs::ALL.iter().map(|verb| verb.name);
    verbs::ALL.iter().find(|verb| verb.name == name).ok_or_else(|| match name.starts_with('-') {
        true => usage(format!("'{}' stands before a verb: whatif-text VERB ..", name)),
        false => usage(format!("'{}' is no verb", name) + &meant(nearest(name, known()), "")),
    })
}

/// One of a few words; else which it can be.
pub fn one_of<T: Copy>(word: &str, known: &[(&'static str, T)]) -> Result<T, Failure> {
    let names = || known.iter().map(|(name, _)| *name).filter(|name| !name.is_empty());
    known.iter().find(|(name, _)| *name == word).map(|&(_, value)| value).ok_or_else(|| {
        let all = names().collect::<Vec<_>>().join(", ");
        usage(format!("'{}' is none of {}", word, all) + &nearest(word, names()).map_or(String::new(), did_you_mean))
    })
}

fn meant(near: Option<&str>, verb: &str) -> String {
    let help = if verb.is_empty() { "whatif-text help".into() } else { format!("whatif-text help {}", verb) };
    near.map_or(format!(": {}", help), |near| format!("{} ({})", did_you_mean(near), help))
}

fn did_you_mean(near: &str) -> String {
    format!("; did you mean '{}'?", near)
}

pub fn usage(what: impl Into<String>) -> Failure {
    Failure::Usage(what.into())
}
