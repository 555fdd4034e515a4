//! `whatif-text session`: a script of calls, a line each, with what each answers.
//!
//! ```text
//! load                # the plan and the rules of the input
//! start 0->0 3->1     # or: start none
//! advance             # the next part; advance 3, advance all
//! cancel
//! read
//! ```

use crate::input::Input;
use crate::json::Object;
use crate::lessons::advance::Advances;
use crate::lines::{self, Line, Wrong};
use crate::outcome::{Failure, Made};
use crate::questions;
use crate::sentences::{self, count, list_refused, load_refused, Said};
use whatif::{Panel, Plan, Progress, Refusal, Rules, Session, State};

/// A refused call is reported in its place, and the script goes on.
pub fn run(input: &Input, script: &str, json: bool) -> Result<Made, Failure> {
    let mut script_run = Run { input, panel: None, asked: None, json, text: String::new(), refused: false };
    for line in lines::of(script) {
        script_run.take(&line).map_err(|wrong| Failure::Wrong(format!("in the script, {}", wrong)))?;
    }
    Ok(Made::with_refusals(script_run.text, script_run.refused))
}

/// The panel, and what was written so far. There is no panel before the first Load that is accepted: every other call
/// is refused until then as an empty session's is, with 1.
struct Run<'a> {
    input: &'a Input,
    panel: Option<Panel>,
    /// Of the question that was started last.
    asked: Option<Advances>,
    json: bool,
    text: String,
    refused: bool,
}

impl Run<'_> {
    fn take(&mut self, line: &Line) -> Result<(), Wrong> {
        let (times, words) = match &line.words[..] {
            ["advance", "all"] => (usize::MAX, "advance".to_string()),
            ["advance", times] => (line.number(times, 254)?, "advance".to_string()),
            words => (1, words.join(" ")),
        };
        for _ in 0..times {
            let said = self.call(line)?;
            let goes_on = said.is_ok() && self.state() == Some(State::Running);
            self.refused |= said.is_err();
            self.text += &sentences::call(&words, said, self.json);
            if !goes_on {
                break;
            }
        }
        Ok(())
    }

    fn state(&self) -> Option<State> {
        self.panel.as_ref().map_or(Session::new().state(), |panel| panel.session().state())
    }

    /// What one call answers, or its refusal; wrong where the line is none.
    fn call(&mut self, line: &Line) -> Result<Result<Said, Failure>, Wrong> {
        let state = self.state();
        let plain = |refusal: Refusal| in_state(refusal, state);
        Ok(match &line.words[..] {
            ["load"] => self.load(),
            ["start", changes @ ..] if !changes.is_empty() => {
                let changes = questions::changes(&Line { number: line.number, words: changes.to_vec() })?;
                self.start(&changes)
            }
            ["advance"] | ["advance", _] => self.advance(state),
            ["cancel"] => self.cancel().map_err(plain),
            ["read"] => self.read(state),
            _ => {
                let forms = "'load', 'start NODE->LABEL ..', 'start none', 'advance [TIMES|all]', 'cancel' or 'read'";
                return Err(line.wrong(format!("a line of a script is {}", forms)));
            }
        })
    }

    fn load(&mut self) -> Result<Said, Failure> {
        let (plan, rules) = (&self.input.plan, &self.input.rules);
        load(&mut self.panel, plan, rules).map_err(|refusal| match refusal {
            Refusal::SessionState => in_state(refusal, self.state()),
            _ => load_refused(refusal, plan, rules),
        })?;
        let [n, s, k] = self.input.counts();
        let words = format!("{}, {}, {}", count(n, "node"), count(s, "state"), count(k, "label"));
        Ok((words, Object::new().count("nodes", n).count("states", s).count("labels", k)))
    }

    fn start(&mut self, changes: &[questions::Change]) -> Result<Said, Failure> {
        let panel = self.panel.as_mut().ok_or(Refusal::SessionState);
        let parts = panel.and_then(|panel| panel.start(changes)).map_err(|refusal| match self.state() {
            Some(State::Loaded) | Some(State::Answered) => {
                list_refused(refusal, changes, self.input.counts()[0], self.input.counts()[2])
            }
            other => in_state(refusal, other),
        })?;
        let panel = self.panel.as_ref().ok_or(Refusal::SessionState);
        self.asked = Some(panel.and_then(|panel| Advances::of(panel, changes)).map_err(Failure::refused)?);
        Ok((count(parts as usize, "part"), Object::new().number("parts", parts)))
    }

    /// What it did: lessons/advance.rs looks it up in the record.
    fn advance(&mut self, state: Option<State>) -> Result<Said, Failure> {
        let (panel, asked) = match (&mut self.panel, &self.asked) {
            (Some(panel), Some(asked)) => (panel, asked),
            _ => return Err(in_state(Refusal::SessionState, state)),
        };
        let before = panel.session().clone();
        let finished = panel.advance().map_err(|refusal| in_state(refusal, state))? == Progress::Finished;
        let (advance, names) = (asked.last(panel, &before)?, &self.input.names);
        let (done, parts) = (advance.part.number, advance.part.of);
        let words = format!("part {} of {}, {}", done, parts, if finished { "finished" } else { "more" });
        let object = Object::new().number("part", done).number("of", parts).truth("finished", finished);
        Ok((format!("{}; {}", words, advance.clause(names)), object.and(advance.object(names))))
    }

    /// An earlier question's answer stays.
    fn cancel(&mut self) -> Result<Said, Refusal> {
        let panel = self.panel.as_mut().ok_or(Refusal::SessionState)?;
        panel.cancel()?;
        let kept = panel.last().is_ok();
        let words = if kept { ", with the last answer kept" } else { "" };
        Ok((format!("the session is loaded, as after load{}", words), Object::new().truth("answer_kept", kept)))
    }

    /// The last finished answer, in whatever state.
    fn read(&self, state: Option<State>) -> Result<Said, Failure> {
        let last = self.panel.as_ref().ok_or(Refusal::SessionState).and_then(|panel| panel.last());
        last.map(|answer| {
            (sentences::answer(&answer, &self.input.names), Object::new().answer(&answer, &self.input.names))
        })
        .map_err(|refusal| match state {
            Some(State::Loaded) | Some(State::Running) => {
                Failure::refused_about(refusal, "no question is finished since load")
            }
            other => in_state(refusal, other),
        })
    }
}

/// A first Load, or another one.
fn load(panel: &mut Option<Panel>, plan: &[u8], rules: &[u8]) -> Result<(), Refusal> {
    let (plan, rules) = (Plan::from_bytes(plan)?, Rules::from_bytes(rules)?);
    match panel {
        Some(panel) => panel.load(plan, rules),
        None => Panel::new(plan, rules).map(|loaded| *panel = Some(loaded)),
    }
}

/// A refusal 1 says in which state the session is.
pub fn in_state(refusal: Refusal, state: Option<State>) -> Failure {
    let name = match state {
        Some(State::Empty) => "empty",
        Some(State::Loaded) => "loaded",
        Some(State::Running) => "running",
        Some(State::Answered) => "answered",
        None => "in no state",
    };
    match refusal {
        Refusal::SessionState => Failure::refused_about(refusal, format!("it is {}", name)),
        _ => Failure::refused(refusal),
    }
}
