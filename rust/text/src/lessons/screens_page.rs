//! `whatif-text screens-page`: a script of eight screens as a page to step through, deal by deal.
//!
//! What it shows of a screen is its record after the call: state, question, parts, the last finished answer. Which
//! records a call changed is found by comparing their bytes: so isolation can be seen.

use super::html::{self, paragraph};
use crate::input::Input;
use crate::json::Object;
use crate::names::Names;
use crate::outcome::Failure;
use crate::screens::{watched, Seen};
use crate::sentences::{self, count};
use whatif::sizes::SCREENS;
use whatif::{Screens, Session, State};

const STYLE: &str = include_str!("screens.css");
const SCRIPT: &str = include_str!("screens.js");
const CONTROLS: &str = include_str!("screens.html");

pub fn of_script(input: &Input, script: &str) -> Result<String, Failure> {
    let seen = watched(input, script)?;
    let [n, s, k] = input.counts();
    let plan = format!("{}, {}, {}", count(n, "node"), count(s, "state"), count(k, "label"));
    let about = format!("Eight screens on one mill, with one plan: {}. A deal serves the next running screen.", plan);
    let first = Seen { said: "No call yet.".into(), refused: false, screens: Screens::new() };
    let mut steps = vec![step(&first, &first.screens, &input.names)];
    let earlier = std::iter::once(&first).chain(&seen);
    steps.extend(earlier.zip(&seen).map(|(before, after)| step(after, &before.screens, &input.names)));
    let data = Object::new().list("steps", steps).line();
    let title = "Eight screens, call by call";
    let body = format!("<h1>{}</h1>\n", title) + &paragraph(&about) + CONTROLS + &html::scripted(&data, SCRIPT);
    Ok(html::page(title, &(super::page::STYLE.to_string() + STYLE), &body))
}

fn step(seen: &Seen, before: &Screens, names: &Names) -> String {
    let all = 0..SCREENS as u32;
    let changed: Vec<u32> = all.clone().filter(|&on| before.session(on) != seen.screens.session(on)).collect();
    let next = seen.screens.next();
    let screens = all.map(|on| screen(&seen.screens, on, changed.contains(&on), names));
    let object = Object::new().text("say", &seen.said).truth("refused", seen.refused);
    let object =
        object.text("next", &next.map_or("No screen is running.".into(), |on| format!("Screen {} is next.", on)));
    object.text("changed", &isolation(&changed)).list("screens", screens).inner()
}

fn isolation(changed: &[u32]) -> String {
    match changed {
        [] => "No record changed.".to_string(),
        [on] => format!("The record of screen {} changed; the other seven are the same, byte for byte.", on),
        all if all.len() == SCREENS => "All eight records changed.".to_string(),
        some => {
            let some: Vec<String> = some.iter().map(u32::to_string).collect();
            format!("The records of screens {} changed; the others are the same, byte for byte.", some.join(", "))
        }
    }
}

/// What a screen's record says.
fn screen(screens: &Screens, on: u32, changed: bool, names: &Names) -> String {
    let session = screens.session(on).unwrap_or_default();
    let asked = matches!(session.state(), Some(State::Running) | Some(State::Answered));
    let question = sentences::changes(&session.changes().collect::<Vec<_>>());
    let parts = format!("{} of {}", session.parts_done(), count(session.parts() as usize, "part"));
    let (state, turn) = (state(&session), turn(screens, on));
    let last = session.read();
    let object = Object::new().text("state", state).text("turn", turn).truth("changed", changed);
    let object = object.number("done", session.parts_done()).number("parts", session.parts());
    let object =
        object.text("question", if asked { &question } else { "" }).text("handled", if asked { &parts } else { "" });
    // an earlier question's answer has no colour: it is not this one's
    let (kept, class) = match last {
        Ok(answer) if state == "answered" => ("", if answer.yes { "yes" } else { "no" }),
        Ok(_) => ("earlier: ", ""),
        Err(_) => ("", ""),
    };
    let said = last.map_or("no answer".to_string(), |answer| sentences::answer(&answer, names));
    object.text("last", &format!("{}{}", kept, said)).text("class", class).inner()
}

fn state(session: &Session) -> &'static str {
    match session.state() {
        Some(State::Loaded) => "loaded",
        Some(State::Running) => "running",
        Some(State::Answered) => "answered",
        _ => "empty",
    }
}

fn turn(screens: &Screens, on: u32) -> &'static str {
    match screens.next() {
        Some(next) if next == on => "is next",
        _ if screens.state(on) == Some(State::Running) => "waits",
        _ => "",
    }
}
