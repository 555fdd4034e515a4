//! `whatif-text exercise`: a plan with a stated property, as a sheet with its solution or as text.
//!
//! ```text
//! exercise fault          # not cleared, and one node alone can mend it by a label of its own
//! exercise mend 3         # not cleared, and exactly three single changes clear it
//! exercise share 1/4      # two nodes are open, and exactly a quarter of the choices for them clears the plan
//! ```
//!
//! Random plans are tried one after the other until the library says that one has the property. The claims on the sheet
//! are its answers: `allowed` for single changes, `count` for choices, a fresh run for the plan as it is and for each
//! change that is listed.

use super::html::{self, escaped, paragraph};
use super::sheet::{plan_as_it_is, rules, solution, STYLE, WRITE};
use crate::generator::Random;
use crate::input::Input;
use crate::loaded::Loaded;
use crate::nearest::nearest;
use crate::outcome::Failure;
use crate::questions::Change;
use crate::sentences::{changes, count, verdict};
use crate::DRAWN_WHOLE;

const TRIES: usize = 3_000;

/// Those of `random` except the questions', and two of its own.
pub(crate) const OPTIONS: [&str; 8] =
    ["--nodes", "--shape", "--states", "--labels", "--rules", "--seed", "--open", "--as"];

/// What is asked for.
#[derive(Clone, Copy, Debug, PartialEq, Eq)]
enum Wanted {
    Fault,
    Mend(usize),
    Share(u64, u64),
}

/// What was found: the task and what the library says of it.
struct Found {
    text: String,
    loaded: Loaded,
    task: String,
    /// A claim a line.
    claims: Vec<String>,
    /// Each of them clears the plan.
    solutions: Vec<Change>,
}

pub fn made(words: &[&str]) -> Result<String, Failure> {
    let (wanted, rest) = wanted(words)?;
    let options = Options::of(rest)?;
    let found = search(wanted, &options)?;
    Ok(if options.text { found.text() } else { found.sheet() })
}

fn wanted<'a, 'b>(words: &'a [&'b str]) -> Result<(Wanted, &'a [&'b str]), Failure> {
    let number = |word: &str| word.parse().map_err(|_| Failure::wrong(format!("'{}' is no number of changes", word)));
    match words {
        ["fault", rest @ ..] => Ok((Wanted::Fault, rest)),
        ["mend", ways, rest @ ..] => Ok((Wanted::Mend(number(ways)?), rest)),
        ["share", share, rest @ ..] => {
            let parts = share.split_once('/').and_then(|(a, b)| Some((a.parse().ok()?, b.parse().ok()?)));
            let (a, b) = parts
                .filter(|&(a, b): &(u64, u64)| a <= b && b > 0)
                .ok_or_else(|| Failure::wrong(format!("'{}' is no share: write it as 1/4", share)))?;
            Ok((Wanted::Share(a, b), rest))
        }
        _ => Err(Failure::Usage("an exercise is 'fault', 'mend K' or 'share A/B' (whatif-text help exercise)".into())),
    }
}

/// What they are set to.
struct Options<'a> {
    words: Vec<&'a str>,
    seed: usize,
    open: usize,
    text: bool,
}

/// Small enough to be worked out by hand; forgetful rules, under which most changes have no effect.
const USUAL: [(&str, &str); 5] =
    [("--nodes", "11"), ("--shape", "random"), ("--states", "3"), ("--labels", "3"), ("--rules", "random")];

impl<'a> Options<'a> {
    fn of(words: &[&'a str]) -> Result<Options<'a>, Failure> {
        if words.len() % 2 == 1 {
            return Err(Failure::Usage(format!("'{}' needs a value", words[words.len() - 1])));
        }
        let mut options = Options { words: Vec::new(), seed: 1, open: 2, text: false };
        let number = |option: &str, value: &str| {
            let wrong = || Failure::wrong(format!("{} {}: this is no number", option, value));
            value.parse::<usize>().map_err(|_| wrong())
        };
        for pair in words.chunks_exact(2) {
            match pair {
                ["--seed", value] => options.seed = number("--seed", value)?,
                ["--open", value] => options.open = number("--open", value)?,
                ["--as", how] => options.text = crate::args::one_of(how, &[("sheet", false), ("text", true)])?,
                [option, _] if OPTIONS.contains(option) => options.words.extend(pair),
                [option, ..] => {
                    let near =
                        nearest(option, OPTIONS).map_or(String::new(), |near| format!("; did you mean '{}'?", near));
                    let what = format!("'{}' is no option of 'exercise'{}", option, near);
                    return Err(Failure::Usage(what + " (whatif-text help exercise)"));
                }
                [] => (),
            }
        }
        for (option, value) in USUAL {
            if !options.words.contains(&option) {
                options.words.extend([option, value]);
            }
        }
        Ok(options)
    }

    /// The plan of one of the tries.
    fn plan(&self, seed: usize) -> Result<String, Failure> {
        let seed = seed.to_string();
        let words = [&self.words[..], &["--seed", &seed, "--questions", "0"]].concat();
        crate::random::text(&words).unwrap_or_else(|| Err(crate::random::usage(&words)))
    }
}

fn search(wanted: Wanted, options: &Options) -> Result<Found, Failure> {
    for seed in (options.seed..).take(TRIES) {
        let text = options.plan(seed)?;
        let loaded = Loaded::of(&Input::of_text(&text)?)?;
        if loaded.nodes() > DRAWN_WHOLE {
            return Err(Failure::wrong(format!("an exercise has at most {} nodes", DRAWN_WHOLE)));
        }
        let found = match wanted {
            Wanted::Fault => fault(&loaded)?,
            Wanted::Mend(ways) => mend(&loaded, ways)?,
            Wanted::Share(a, b) => share(&loaded, (a, b), options.open, seed)?,
        };
        if let Some((task, claims, solutions)) = found {
            confirmed(&loaded, &solutions)?;
            return Ok(Found { text, loaded, task, claims, solutions });
        }
    }
    Err(Failure::wrong(format!("none of {} plans is such a one: other options or another --seed may find it", TRIES)))
}

/// A task, its claims and the changes that clear the plan.
type Posed = (String, Vec<String>, Vec<Change>);

/// Every single change that clears the plan, by the library; none where it is cleared as it is.
fn mending(loaded: &Loaded) -> Result<Option<Vec<Change>>, Failure> {
    if loaded.is_cleared() {
        return Ok(None);
    }
    let allowed = loaded.panel.allowed().map_err(Failure::refused)?;
    Ok(Some((0..).zip(allowed).flat_map(|(v, labels)| labels.iter().map(move |label| (v, label))).collect()))
}

/// By a fresh run.
fn as_it_is(loaded: &Loaded) -> Result<String, Failure> {
    let fresh = loaded.panel.fresh_run(&[]).map_err(Failure::refused)?;
    Ok(format!("As it is, the plan is {}, state {}.", verdict(fresh.yes), loaded.names.state(fresh.state)))
}

fn fault(loaded: &Loaded) -> Result<Option<Posed>, Failure> {
    let mending = match mending(loaded)? {
        Some(mending) if !mending.is_empty() => mending,
        _ => return Ok(None),
    };
    let node = mending[0].0;
    // the root would be found at once
    if usize::from(node) + 1 == loaded.nodes() || mending.iter().any(|change| change.0 != node) {
        return Ok(None);
    }
    let task =
        "The plan is not cleared. One node alone can mend it: with another label there, and all else as it is, the \
                plan is cleared. Which node is it, and which labels may it take?";
    let said = format!("Node {} alone can mend it; {} will do.", node, count(mending.len(), "label"));
    Ok(Some((task.to_string(), vec![as_it_is(loaded)?, said], mending)))
}

fn mend(loaded: &Loaded, ways: usize) -> Result<Option<Posed>, Failure> {
    let mending = match mending(loaded)? {
        Some(mending) if mending.len() == ways => mending,
        _ => return Ok(None),
    };
    let are = if ways == 1 { "is exactly 1 way" } else { "are exactly" };
    let number = if ways == 1 { String::new() } else { format!(" {} ways", ways) };
    let task = format!("The plan is not cleared. There {}{} to mend it by one change. Find all of them.", are, number);
    let tried = loaded.nodes() * (loaded.rules().labels() - 1);
    let said = format!("{} of {} single changes clear it.", ways, tried);
    Ok(Some((task, vec![as_it_is(loaded)?, said], mending)))
}

fn share(loaded: &Loaded, (a, b): (u64, u64), open: usize, seed: usize) -> Result<Option<Posed>, Failure> {
    let nodes = open_nodes(loaded.nodes(), open, seed);
    let counts = loaded.panel.count(&nodes).map_err(Failure::refused)?;
    if u128::from(counts.clearing()) * u128::from(b) != u128::from(counts.all()) * u128::from(a) {
        return Ok(None);
    }
    let numbers: Vec<String> = nodes.iter().map(u16::to_string).collect();
    let labels = count(loaded.rules().labels(), "label");
    let open = format!("These nodes are open, each for all {}: {}.", labels, numbers.join(", "));
    let task = format!("{} Which share of the choices clears the plan?", open);
    let said = format!("{} of {} choices clear the plan: {}/{} of them.", counts.clearing(), counts.all(), a, b);
    let by_state = counts.by_state().iter().enumerate().map(|(state, number)| {
        let (name, clears) = (loaded.names.state(state as u8), verdict(loaded.rules().accepts(state as u8)));
        format!("State {}, {}: {} of the choices.", name, clears, number)
    });
    Ok(Some((task, [as_it_is(loaded)?, said].into_iter().chain(by_state).collect(), vec![])))
}

/// Different nodes, rising.
fn open_nodes(all: usize, open: usize, seed: usize) -> Vec<u16> {
    let mut random = Random::new(seed as u64);
    let mut nodes = std::collections::BTreeSet::new();
    while nodes.len() < open.min(all) {
        nodes.insert(random.below(all) as u16);
    }
    nodes.into_iter().collect()
}

/// A fresh run of the plan with each change that is listed clears it.
fn confirmed(loaded: &Loaded, solutions: &[Change]) -> Result<(), Failure> {
    for &change in solutions {
        if !loaded.panel.fresh_run(&[change]).map_or(false, |fresh| fresh.yes) {
            return Err(super::advance::fault("a change that is listed does not clear the plan by a fresh run"));
        }
    }
    Ok(())
}

impl Found {
    fn sheet(&self) -> String {
        let labels = (0..self.loaded.rules().labels() as u8).collect();
        let head = format!("<h1>Exercise</h1>\n{}", paragraph(&self.task));
        let answer = format!("<p>Answer: {}</p>\n", WRITE.repeat(6));
        let task = plan_as_it_is(&self.loaded, false) + &rules(&self.loaded, &labels) + &answer;
        let claims: String = self.claims.iter().map(|claim| paragraph(claim)).collect();
        let solved = claims + &self.listed() + &plan_as_it_is(&self.loaded, true);
        html::page("Exercise", STYLE, &(head + &task + &solution("Solution", &solved)))
    }

    fn listed(&self) -> String {
        let names = &self.loaded.names;
        let item = |&(v, to): &Change| {
            let from = names.label(self.loaded.labels()[usize::from(v)]);
            format!("<li>{}</li>\n", escaped(&format!("node {} from label {} to {}", v, from, names.label(to))))
        };
        let items: String = self.solutions.iter().map(item).collect();
        if items.is_empty() {
            items
        } else {
            format!("<ul class=\"solutions\">\n{}</ul>\n", items)
        }
    }

    /// The claims as comments; the plan, the rules, and the solutions as questions.
    fn text(&self) -> String {
        let lines = std::iter::once(&self.task).chain(&self.claims).map(|line| format!("# {}\n", line));
        let questions: String = self.solutions.iter().map(|&change| changes(&[change]) + "\n").collect();
        let plan = self.text.trim_end().trim_end_matches("questions").trim_end();
        format!("{}\n{}\n\nquestions\n{}", lines.collect::<String>(), plan, questions)
    }
}
