//! The files that a verb is given: each as text or as the library's own bytes, told apart by their headers. `-` is
//! standard input. Sections may come from several files.
//!
//! | Option | What is taken of the file |
//! |---|---|
//! | `--plan`, `--rules`, `--questions` | that section of a text, that part of the bytes of `whatif`, or such bytes alone |
//! | `--planner` | the plan of a planner's tree, as text (with its rules and questions) or as its file |
//! | `--names` | the names of a text |
//! | `--input` | every section that no other option names |
//!
//! Without any of these the input is standard input.

use crate::formats::{breaks_off, first_wrong_byte, form, text_of, Form};
use crate::input::Input;
use crate::lines::{self, Line, Wrong};
use crate::names::Names;
use crate::outcome::Failure;
use crate::{parts_of, plan, planner, questions, rules, sections, Sections};
use std::io::{self, Read};
use whatif::Planned;

/// The names of files, as the options have them.
#[derive(Clone, Copy, Debug, Default)]
pub struct Files<'a> {
    pub input: Option<&'a str>,
    pub plan: Option<&'a str>,
    pub planner: Option<&'a str>,
    pub rules: Option<&'a str>,
    pub questions: Option<&'a str>,
    pub branch: Option<&'a str>,
    pub names: Option<&'a str>,
}

/// What was found so far.
#[derive(Default)]
struct Found {
    plan: Option<Vec<u8>>,
    rules: Option<Vec<u8>>,
    questions: Option<Vec<u8>>,
    /// Of a planner's file: the place of each of its nodes in our plan.
    places: Option<Vec<u16>>,
    names: Names,
}

impl Files<'_> {
    /// Where none is named the input is standard input.
    fn input(&self) -> Option<&str> {
        let named = [self.plan, self.planner, self.rules, self.questions];
        match named.iter().any(Option::is_some) {
            true => self.input,
            false => Some(self.input.unwrap_or("-")),
        }
    }

    /// For a branch table alone.
    pub fn branch_or_input(&self) -> &str {
        self.branch.or(self.input).unwrap_or("-")
    }

    /// Plan, rules and questions, from wherever they come; `beside` may be files, too, that are read after them.
    pub fn read(&self, beside: &[&str]) -> Result<Input, Failure> {
        let all = [self.input(), self.plan, self.planner, self.rules, self.questions, self.branch, self.names];
        let all = all.into_iter().flatten().chain(beside.iter().copied());
        once_standard_input(&all.collect::<Vec<_>>())?;
        if let (Some(plan), Some(planner)) = (self.plan, self.planner) {
            return Err(Failure::Usage(format!("--plan {} and --planner {}: only one can be the plan", plan, planner)));
        }
        let mut found = Found::default();
        if let Some(path) = self.planner {
            found.take_planner(path)?;
        }
        if let Some(path) = self.plan {
            found.plan = Some(plan_of(path)?);
        }
        if let Some(path) = self.rules {
            found.rules = Some(rules_of(path)?);
        }
        if let Some(path) = self.questions {
            found.questions = Some(questions_of(path, found.places.as_deref())?);
        }
        if let Some(path) = self.names {
            found.names = names_of(path)?.or(&found.names);
        }
        if let Some(path) = self.input() {
            found.take_rest(path)?;
        }
        let [plan, rules, questions] = [found.plan, found.rules, found.questions].map(Option::unwrap_or_default);
        Ok(Input { plan, rules, questions: questions::of_bytes(&questions), names: found.names })
    }
}

fn once_standard_input(paths: &[&str]) -> Result<(), Failure> {
    match paths.iter().filter(|&&path| path == "-").count() {
        0 | 1 => Ok(()),
        times => Err(Failure::Usage(format!("'-' stands {} times, and standard input can be read once", times))),
    }
}

impl Found {
    /// All sections that are not there yet.
    fn take_rest(&mut self, path: &str) -> Result<(), Failure> {
        let bytes = file(path)?;
        let [plan, rules, questions] = rest(&bytes).map_err(|what| of_input(path, what))?;
        if form(&bytes) == Form::Text {
            let named = sections(text_of(&bytes).unwrap_or_default()).and_then(|found| Names::of(&found.names));
            self.names = std::mem::take(&mut self.names).or(&named.map_err(|w| of_input(path, w.to_string()))?);
        }
        self.plan = self.plan.take().or(plan);
        self.rules = self.rules.take().or(rules);
        self.questions = self.questions.take().or(questions);
        Ok(())
    }

    fn take_planner(&mut self, path: &str) -> Result<(), Failure> {
        let bytes = file(path)?;
        let planned = match form(&bytes) {
            Form::PlannerText => {
                let text =
                    planner::Text::of(text_of(&bytes).unwrap_or_default(), "planner").map_err(|w| wrong(path, w))?;
                let planned = planner::of_text(&text).map_err(|failed| named(path, failed.into()))?;
                let [rules, questions] = text.rest_as_bytes(planned.places()).map_err(|w| wrong(path, w))?;
                self.rules = rules;
                self.questions = questions;
                self.names = text.names().map_err(|w| wrong(path, w))?;
                planned
            }
            // a plan of one node is a planner's file of one node
            _ => {
                let bytes = held_to(path, bytes, Form::Planner)?;
                Planned::out(bytes).map_err(Failure::refused)?
            }
        };
        self.plan = Some(planned.plan().as_bytes().to_vec());
        self.places = Some(planned.places().to_vec());
        Ok(())
    }
}

/// Bytes of any form as text.
pub fn show(files: &Files) -> Result<String, Failure> {
    if [files.plan, files.planner, files.rules, files.questions].iter().any(Option::is_some) {
        let input = files.read(&[])?;
        return Ok(crate::show(&input.as_bytes()).expect("as it was written"));
    }
    if let Some(path) = files.branch {
        return Ok(crate::branch_table::to_text(&branch_of(path)?.0));
    }
    let path = files.input.unwrap_or("-");
    let bytes = file(path)?;
    let form = form(&bytes);
    if let Some(off) = breaks_off(&bytes, form) {
        return Err(of_input(path, off));
    }
    match form {
        Form::Branch => Ok(crate::branch_table::to_text(&bytes)),
        Form::Planner => Ok(String::from_utf8_lossy(&planner::made("import", &bytes, false)?).into_owned()),
        form if form.is_text() => Err(of_input(path, looks(form, "'show' takes bytes"))),
        _ => {
            let parts = rest(&bytes).map_err(|what| of_input(path, what))?;
            Ok(crate::shown(&[0, 1, 2].map(|i| parts[i].as_deref())))
        }
    }
}

/// The sections that bytes of any form have.
fn rest(bytes: &[u8]) -> Result<[Option<Vec<u8>>; 3], String> {
    let form = form(bytes);
    if let Some(off) = breaks_off(bytes, form) {
        return Err(off);
    }
    Ok(match form {
        Form::Whole => parts_of(bytes).expect("asked by its form").map(|part| Some(part.to_vec())),
        Form::Plan => [Some(bytes.to_vec()), None, None],
        Form::Rules => [None, Some(bytes.to_vec()), None],
        Form::Planner | Form::PlannerText => return Err(looks(form, "take --planner FILE, or 'planner import'")),
        Form::Branch | Form::BranchText => return Err(looks(form, "take --branch FILE")),
        Form::Script => return Err(looks(form, "the script is a word of 'session' and 'screens'")),
        Form::Text | Form::OtherText => of_sections(text_of(bytes).unwrap_or_default()).map_err(|w| w.to_string())?,
        Form::Unknown => {
            let neither = "this is neither text nor bytes that are as long as their three lengths say";
            return Err(format!("{}: {}", neither, first_wrong_byte(bytes, Form::Whole)));
        }
    })
}

fn of_sections(text: &str) -> Result<[Option<Vec<u8>>; 3], Wrong> {
    let Sections { plan, rules, questions, .. } = sections(text)?;
    Ok([Some(plan::to_bytes(&plan)?), Some(rules::to_bytes(&rules)?), Some(questions::to_bytes(&questions)?)])
}

fn looks(form: Form, advice: &str) -> String {
    format!("this looks like {}: {}", form.name(), advice)
}

/// The plan of a file.
pub fn plan_of(path: &str) -> Result<Vec<u8>, Failure> {
    section(path, 0, Form::Plan, plan::to_bytes)
}

/// The rules of a file.
pub fn rules_of(path: &str) -> Result<Vec<u8>, Failure> {
    section(path, 1, Form::Rules, rules::to_bytes)
}

/// The names that stand beside the rules of a text; none of bytes, and of standard input, which is read once.
pub fn names_beside(path: &str) -> Names {
    if path == "-" {
        return Names::default();
    }
    let text = file(path).ok().and_then(|bytes| text_of(&bytes).map(String::from)).unwrap_or_default();
    sections(&text).and_then(|found| Names::of(&found.names)).unwrap_or_default()
}

/// One of plan and rules: of a text, of the bytes of `whatif`, or alone.
fn section(
    path: &str,
    which: usize,
    wanted: Form,
    of_lines: impl Fn(&[Line]) -> Result<Vec<u8>, Wrong>,
) -> Result<Vec<u8>, Failure> {
    let bytes = file(path)?;
    match form(&bytes) {
        Form::Text => {
            let found = sections(text_of(&bytes).unwrap_or_default()).map_err(|w| wrong(path, w))?;
            let lines = [&found.plan, &found.rules][which];
            if lines.is_empty() {
                return Err(of_file(path, format!("this text has no section '{}'", crate::NAMES[which])));
            }
            of_lines(lines).map_err(|w| wrong(path, w))
        }
        Form::Whole => Ok(parts_of(&bytes).expect("asked by its form")[which].to_vec()),
        _ => held_to(path, bytes, wanted),
    }
}

/// Questions have no header: what is neither text nor the bytes of `whatif` is taken for them. A planner's node is named
/// `pNODE` where the plan is a planner's.
pub fn questions_of(path: &str, places: Option<&[u16]>) -> Result<Vec<u8>, Failure> {
    let bytes = file(path)?;
    let form = form(&bytes);
    match form {
        Form::Text => {
            let found = sections(text_of(&bytes).unwrap_or_default()).map_err(|w| wrong(path, w))?;
            let placed = |line: &Line| planner::by_places(line, places.unwrap_or(&[]));
            let said = found.questions.iter().map(placed).collect::<Result<Vec<String>, Wrong>>();
            let said = said.map_err(|w| wrong(path, w))?;
            let lines: Vec<Line> = said.iter().flat_map(|line| lines::of(line)).collect();
            questions::to_bytes(&lines).map_err(|w| wrong(path, w))
        }
        Form::Whole => Ok(parts_of(&bytes).expect("asked by its form")[2].to_vec()),
        Form::Unknown | Form::Plan => {
            let whole = questions::whole_bytes(&bytes);
            match whole == bytes.len() {
                true => Ok(bytes),
                false => {
                    let number = questions::of_bytes(&bytes).len() + 1;
                    let said = format!("question {} begins at byte {} and breaks off at byte", number, whole);
                    Err(of_file(path, format!("{} {}", said, bytes.len())))
                }
            }
        }
        other => Err(of_file(path, format!("this looks like {}, and has no questions", other.name()))),
    }
}

/// The names of a text.
fn names_of(path: &str) -> Result<Names, Failure> {
    let text = text(path)?;
    sections(&text).and_then(|found| Names::of(&found.names)).map_err(|w| wrong(path, w))
}

/// A branch table's bytes, of text or as they are, with the names that a text has.
pub fn branch_of(path: &str) -> Result<(Vec<u8>, Names), Failure> {
    let bytes = file(path)?;
    match form(&bytes) {
        Form::BranchText => crate::branch_table::of(text_of(&bytes).unwrap_or_default()).map_err(|w| wrong(path, w)),
        _ => Ok((held_to(path, bytes, Form::Branch)?, Names::default())),
    }
}

/// Bytes of the wanted form, as long as their header says; else what they look like, or where they break off.
fn held_to(path: &str, bytes: Vec<u8>, wanted: Form) -> Result<Vec<u8>, Failure> {
    let found = form(&bytes);
    let fits = found == wanted || (wanted == Form::Planner && found == Form::Plan && bytes.len() == 14);
    if fits {
        return breaks_off(&bytes, wanted).map_or(Ok(bytes), |off| Err(of_file(path, off)));
    }
    let what = match found {
        Form::Unknown => format!("these are not {}: {}", plural(wanted), first_wrong_byte(&bytes, wanted)),
        Form::OtherText => {
            let line = lines::of(text_of(&bytes).unwrap_or_default()).next().map_or(1, |line| line.number);
            format!("line {}: this is text of no known form, not {}", line, wanted.name())
        }
        other => format!("this looks like {}, not {}", other.name(), wanted.name()),
    };
    Err(of_file(path, what))
}

fn plural(form: Form) -> &'static str {
    match form {
        Form::Rules => "the bytes of a rule table",
        Form::Branch => "the bytes of a branch table",
        Form::Planner => "the bytes of a planner's file",
        _ => "the bytes of a plan",
    }
}

/// A file's bytes; `-` is standard input.
pub fn file(path: &str) -> Result<Vec<u8>, Failure> {
    if path != "-" {
        return std::fs::read(path).map_err(|error| of_file(path, error.to_string()));
    }
    let mut bytes = Vec::new();
    io::stdin().read_to_end(&mut bytes).map_err(|error| Failure::Wrong(error.to_string()))?;
    Ok(bytes)
}

/// A file's text, without a byte-order mark.
pub fn text(path: &str) -> Result<String, Failure> {
    let bytes = file(path)?;
    let no_text = || format!("this is no text; it looks like {}", form(&bytes).name());
    text_of(&bytes).map(String::from).ok_or_else(|| of_input(path, no_text()))
}

pub fn of_file(path: &str, what: impl Into<String>) -> Failure {
    let path = if path == "-" { "standard input" } else { path };
    Failure::Wrong(format!("{}: {}", path, what.into()))
}

/// Standard input needs no name where it is the whole input.
fn of_input(path: &str, what: String) -> Failure {
    match path {
        "-" => Failure::Wrong(what),
        path => of_file(path, what),
    }
}

fn wrong(path: &str, wrong: Wrong) -> Failure {
    of_file(path, wrong.to_string())
}

/// A failure with the file's name, where the text is wrong.
fn named(path: &str, failure: Failure) -> Failure {
    match failure {
        Failure::Wrong(what) => of_file(path, what),
        other => other,
    }
}
