//! `whatif-text screens`: a script of the calls of eight screens, a line each, with what each answers. The screen to
//! try first is handed on by itself.
//!
//! ```text
//! load                # the plan and the rules of the input, for all eight
//! start 2 0->0 3->1   # a question on screen 2; or: start 2 none
//! deal                # the next part of the next running screen; deal 3, deal all
//! cancel 2
//! read 2
//! ```

use crate::input::Input;
use crate::json::Object;
use crate::lines::{self, Line, Wrong};
use crate::outcome::{Failure, Made};
use crate::questions;
use crate::script::in_state;
use crate::sentences::{self, count, list_refused, load_refused, Said};
use whatif::sizes::{MAX_PARTS, SCREENS};
use whatif::{Deal, Lent, Mill, Plan, Progress, Refusal, Rules, Screens, State};

/// A refused call is reported in its place, and the script goes on.
pub fn run(input: &Input, script: &str, json: bool) -> Result<Made, Failure> {
    let mut script_run = Run { input, mill: None, json, text: String::new(), refused: false, seen: None };
    script_run.take_all(script)?;
    Ok(Made::with_refusals(script_run.text, script_run.refused))
}

/// A call with what it said, and the screens after it.
pub struct Seen {
    pub said: String,
    pub refused: bool,
    pub screens: Screens,
}

/// The same script, call by call.
pub fn watched(input: &Input, script: &str) -> Result<Vec<Seen>, Failure> {
    let seen = Some(Vec::new());
    let mut script_run = Run { input, mill: None, json: false, text: String::new(), refused: false, seen };
    script_run.take_all(script)?;
    Ok(script_run.seen.unwrap_or_default())
}

const NOTHING: Lent<'static> = Lent { plan: &[], rules: &[], node_table: &[], state_table: &[] };

/// The mill, and what was written so far. There is no mill before the first Load that is accepted: until then
/// calls go to empty screens, which refuse them.
struct Run<'a> {
    input: &'a Input,
    mill: Option<Mill>,
    json: bool,
    text: String,
    refused: bool,
    /// Where the calls are watched.
    seen: Option<Vec<Seen>>,
}

impl Run<'_> {
    fn take_all(&mut self, script: &str) -> Result<(), Failure> {
        for line in lines::of(script) {
            self.take(&line).map_err(|wrong| Failure::Wrong(format!("in the script, {}", wrong)))?;
        }
        Ok(())
    }

    fn take(&mut self, line: &Line) -> Result<(), Wrong> {
        let (times, words) = match &line.words[..] {
            ["deal", "all"] => (usize::MAX, "deal".to_string()),
            ["deal", times] => (line.number(times, SCREENS * MAX_PARTS)?, "deal".to_string()),
            words => (1, words.join(" ")),
        };
        for _ in 0..times {
            let said = self.call(line)?;
            let goes_on = said.is_ok() && self.screens().is_running();
            let refused = said.is_err();
            self.refused |= refused;
            let said = sentences::call(&words, said, self.json);
            self.text += &said;
            let screens = self.seen.is_some().then(|| self.screens());
            if let (Some(seen), Some(screens)) = (&mut self.seen, screens) {
                seen.push(Seen { said: said.trim_end().to_string(), refused, screens });
            }
            if !goes_on {
                break;
            }
        }
        Ok(())
    }

    fn screens(&self) -> Screens {
        self.mill.as_ref().map_or(Screens::new(), |mill| mill.screens().clone())
    }

    /// What one call answers, or its refusal; wrong where the line is none.
    fn call(&mut self, line: &Line) -> Result<Result<Said, Failure>, Wrong> {
        let screen = |word: &&str| line.number(word, u32::MAX as usize).map(|number| number as u32);
        Ok(match &line.words[..] {
            ["load"] => self.load(),
            ["start", on, changes @ ..] if !changes.is_empty() => {
                let changes = questions::changes(&Line { number: line.number, words: changes.to_vec() })?;
                self.start(screen(on)?, &changes)
            }
            ["deal"] | ["deal", _] => self.deal(),
            ["cancel", on] => self.cancel(screen(on)?),
            ["read", on] => self.read(screen(on)?),
            _ => {
                let starts = "'start SCREEN NODE->LABEL ..', 'start SCREEN none'";
                let forms = format!("'load', {}, 'deal [TIMES|all]', 'cancel SCREEN' or 'read SCREEN'", starts);
                return Err(line.wrong(format!("a line of a script of screens is {}", forms)));
            }
        })
    }

    fn load(&mut self) -> Result<Said, Failure> {
        let (plan, rules) = (&self.input.plan, &self.input.rules);
        let running = self.screens().running().next();
        load(&mut self.mill, plan, rules).map_err(|refusal| match (refusal, running) {
            (Refusal::SessionState, Some(screen)) => {
                Failure::refused_about(refusal, format!("screen {} is running", screen))
            }
            _ => load_refused(refusal, plan, rules),
        })?;
        let [n, s, k] = self.input.counts();
        let all = count(SCREENS, "screen");
        let words = format!("{}, {}, {}, {}", all, count(n, "node"), count(s, "state"), count(k, "label"));
        let object = Object::new().count("screens", SCREENS).count("nodes", n);
        Ok((words, object.count("states", s).count("labels", k)))
    }

    fn start(&mut self, screen: u32, changes: &[questions::Change]) -> Result<Said, Failure> {
        let started = match &mut self.mill {
            Some(mill) => mill.start(screen, changes),
            None => Screens::new().start(screen, &NOTHING, &[], &[]),
        };
        let parts = started.map_err(|refusal| match self.screens().state(screen) {
            Some(State::Loaded) | Some(State::Answered) => {
                list_refused(refusal, changes, self.input.counts()[0], self.input.counts()[2])
            }
            state => on_screen(refusal, screen, state),
        })?;
        Ok((count(parts as usize, "part"), Object::new().number("screen", screen).number("parts", parts)))
    }

    fn deal(&mut self) -> Result<Said, Failure> {
        let dealt = self.mill.as_mut().map_or(Ok(None), |mill| mill.deal());
        match dealt.map_err(Failure::refused)? {
            None => Err(Failure::refused_about(Refusal::SessionState, "no screen is running")),
            Some(Deal { screen, progress }) => {
                let finished = progress == Progress::Finished;
                let (done, parts) = (self.screens().parts_done(screen), self.screens().parts(screen));
                let said = if finished { "finished" } else { "more" };
                let object = Object::new().number("screen", screen).number("part", done).number("of", parts);
                let words = format!("screen {}, part {} of {}, {}", screen, done, parts, said);
                Ok((words, object.truth("finished", finished)))
            }
        }
    }

    /// An earlier question's answer stays.
    fn cancel(&mut self, screen: u32) -> Result<Said, Failure> {
        let state = self.screens().state(screen);
        let cancelled = match &mut self.mill {
            Some(mill) => mill.cancel(screen),
            None => Screens::new().cancel(screen),
        };
        cancelled.map_err(|refusal| on_screen(refusal, screen, state))?;
        let kept = self.screens().read(screen).is_ok();
        let words = if kept { ", with the last answer kept" } else { "" };
        let object = Object::new().number("screen", screen).truth("answer_kept", kept);
        Ok((format!("the screen is loaded, as after load{}", words), object))
    }

    /// The last finished answer, in whatever state.
    fn read(&self, screen: u32) -> Result<Said, Failure> {
        let state = self.screens().state(screen);
        let said = |answer| {
            (
                sentences::answer(&answer, &self.input.names),
                Object::new().number("screen", screen).answer(&answer, &self.input.names),
            )
        };
        self.screens().read(screen).map(said).map_err(|refusal| match state {
            Some(State::Loaded) | Some(State::Running) => {
                Failure::refused_about(refusal, "no question is finished since load")
            }
            _ => on_screen(refusal, screen, state),
        })
    }
}

/// A first Load, or another one.
fn load(mill: &mut Option<Mill>, plan: &[u8], rules: &[u8]) -> Result<(), Refusal> {
    let (plan, rules) = (Plan::from_bytes(plan)?, Rules::from_bytes(rules)?);
    match mill {
        Some(mill) => mill.load(plan, rules),
        None => Mill::new(plan, rules).map(|loaded| *mill = Some(loaded)),
    }
}

/// A refusal 1 says in which state the screen is, 25 which screens there are.
fn on_screen(refusal: Refusal, screen: u32, state: Option<State>) -> Failure {
    match refusal {
        Refusal::Screen => {
            Failure::refused_about(refusal, format!("screen {}; there are 0 to {}", screen, SCREENS - 1))
        }
        _ => in_state(refusal, state),
    }
}
