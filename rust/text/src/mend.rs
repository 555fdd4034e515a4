//! `whatif-text mend`: the least that must change so that the plan is cleared, as a question to paste; further ways.

use crate::changeable::{Changeable, Limits};
use crate::input::Input;
use crate::json::Object;
use crate::loaded::Loaded;
use crate::outcome::Failure;
use crate::progress::Progress;
use crate::questions::Change;
use crate::sentences::{self, count, verdict};
use crate::ways::Ways;
use whatif::sizes::MAX_CHANGES;
use whatif::Fewest;

/// The plan as it is, or with a question's changes made: then its nodes keep what the question gives them.
pub struct Subject {
    pub question: Option<(usize, Vec<Change>)>,
    pub loaded: Loaded,
}

impl Subject {
    pub fn of(input: &Input, question: Option<usize>) -> Result<Subject, Failure> {
        let loaded = Loaded::of(input)?;
        match question {
            None => Ok(Subject { question: None, loaded }),
            Some(number) => {
                let list = input.question(number)?;
                Ok(Subject { loaded: loaded.changed(list)?, question: Some((number, list.to_vec())) })
            }
        }
    }

    /// `as it is: cleared, state 1`, or the same of the question.
    pub fn head(&self) -> String {
        let what = self.question.as_ref().map(|(number, list)| sentences::question(*number, list));
        let state = self.loaded.names.state(self.loaded.before(self.loaded.nodes() - 1));
        let what = what.unwrap_or_else(|| "as it is".into());
        format!("# {}: {}, state {}\n", what, verdict(self.loaded.is_cleared()), state)
    }

    pub fn fields(&self) -> Object {
        let object = self.question.iter().fold(Object::new(), |object, (number, _)| object.count("question", *number));
        let state = self.loaded.before(self.loaded.nodes() - 1);
        object.truth("cleared", self.loaded.is_cleared()).state("state", state, &self.loaded.names)
    }

    /// The question's changes with these after them, each node once; none where a question can't have as many.
    fn with(&self, changes: &[Change]) -> Option<Vec<Change>> {
        let mut list: Vec<Change> = Vec::new();
        for &change in self.question.iter().flat_map(|(_, list)| list).chain(changes) {
            list.retain(|earlier| earlier.0 != change.0);
            list.push(change);
        }
        Some(list).filter(|list| list.len() <= MAX_CHANGES)
    }

    /// A line in words for each change, then all as a question to paste.
    pub fn lines(&self, changes: &[Change]) -> String {
        let names = &self.loaded.names;
        let word = |&(node, label): &Change| {
            let own = self.loaded.labels()[usize::from(node)];
            format!("# node {}: label {} to {}\n", node, names.label(own), names.label(label))
        };
        let paste = match self.with(changes) {
            Some(list) => sentences::changes(&list) + "\n",
            None => format!("# with the question's own more than {} changes\n", MAX_CHANGES),
        };
        changes.iter().map(word).collect::<String>() + &paste
    }
}

/// The least way, and up to `next` further ones, fewest changes first.
pub fn of_plan(
    input: &Input,
    question: Option<usize>,
    limits: Limits,
    next: usize,
    json: bool,
) -> Result<String, Failure> {
    let subject = Subject::of(input, question)?;
    let listed = subject.question.iter().flat_map(|(_, list)| list.iter().map(|change| change.0));
    let limited = Changeable::of(&subject.loaded, limits)?.and_keep(listed);
    let (mut ways, fewest) = Ways::new(&subject.loaded, limited.may_change(&subject.loaded)?)?;
    let (mut shown, mut progress) = (Vec::new(), Progress::of(next + 1, "ways"));
    while shown.len() <= next {
        progress.done(shown.len());
        match ways.next_way()? {
            Some(way) => shown.push(way),
            None => break,
        }
    }
    shown.sort_by_key(|way| (way.len(), way.clone()));
    let found = Found { fewest, all: shown.len() <= next, ways: shown, too_long: ways.too_long };
    let told = if json { objects } else { text };
    Ok(told(&subject, &limited, &found))
}

/// What is found: the library's answer, the ways that are shown, and whether they are all that a question can have.
struct Found {
    fewest: Fewest,
    ways: Vec<Vec<Change>>,
    all: bool,
    too_long: bool,
}

/// One for the whole, then one for each way.
fn objects(subject: &Subject, limited: &Changeable, found: &Found) -> String {
    let (fewest, names) = (&found.fewest, &subject.loaded.names);
    let whole = limited.fields(subject.fields()).truth("no_way", *fewest == Fewest::NoWay);
    let whole = fewest.least().into_iter().fold(whole, |whole, least| whole.number("least", least));
    let whole = whole.count("ways", found.ways.len()).truth("all", found.all && !found.too_long);
    let way = |(i, way): (usize, &Vec<Change>)| {
        let object = Object::new().count("way", i + 1).changes("changes", way, names);
        let asked = subject.question.as_ref().and_then(|_| subject.with(way));
        asked.iter().fold(object, |object, list| object.changes("asked", list, names)).line()
    };
    whole.line() + &found.ways.iter().enumerate().map(way).collect::<String>()
}

fn text(subject: &Subject, limited: &Changeable, found: &Found) -> String {
    let more = if subject.question.is_some() { "more change" } else { "change" };
    let said = match &found.fewest {
        Fewest::AsItIs => "nothing must change".to_string(),
        Fewest::NoWay => "nothing that may change clears it".to_string(),
        Fewest::Number(least) => {
            let changes = count(*least as usize, more);
            format!("{} clear it, and no fewer do: too many for a question, so they are not listed", changes)
        }
        Fewest::Changes(list) if list.len() == 1 => format!("1 {} clears it", more),
        Fewest::Changes(list) => format!("{} clear it, and no fewer do", count(list.len(), more)),
    };
    let by = "# this is the library's answer, by whatif_fewest\n";
    let head = format!("{}{}# {}\n{}", subject.head(), limited.line(&subject.loaded), said, by);
    let none = match found.fewest {
        Fewest::AsItIs => format!("questions\n{}", subject.lines(&[])),
        Fewest::Changes(_) => "questions\n".into(),
        Fewest::Number(_) | Fewest::NoWay => String::new(),
    };
    let way = |(i, way): (usize, &Vec<Change>)| {
        let another = if i == 0 { String::new() } else { format!("# another way, {}\n", count(way.len(), more)) };
        another + &subject.lines(way)
    };
    let end = match (found.all && !found.ways.is_empty(), found.too_long) {
        (false, _) => "",
        (true, true) => "# every other way has too many changes for a question\n",
        (true, false) => "# there is no other way\n",
    };
    head + &none + &found.ways.iter().enumerate().map(way).collect::<String>() + end
}
