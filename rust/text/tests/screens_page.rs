//! The page of eight screens in a browser, call by call, beside a mill of the library.

mod browser;

use text::input::Input;
use whatif::{Deal, Mill, Plan, Progress, Refusal, Rules, Screens, State};

const SAMPLE: &str = include_str!("../../../examples/sample.txt");
const SCRIPT: &str = include_str!("../../../examples/screens.txt");
const DRIVER: &str = include_str!("browser/screens.js");

/// After a call: what it said, whether it was refused, and the screens.
struct Call {
    said: String,
    refused: bool,
    screens: Screens,
}

/// The calls of a script on a mill. What is said to a refusal but for its number and sentence is not known here.
fn calls(input: &Input, script: &str) -> Vec<Call> {
    let load = || (Plan::from_bytes(&input.plan[..]).unwrap(), Rules::from_bytes(&input.rules[..]).unwrap());
    let (mut mill, mut calls): (Option<Mill>, Vec<Call>) = (None, Vec::new());
    for line in script.lines().map(|line| line.split('#').next().unwrap().trim()).filter(|line| !line.is_empty()) {
        let words: Vec<&str> = line.split_whitespace().collect();
        let times =
            if words[0] == "deal" { words.get(1).map_or(1, |word| word.parse().unwrap_or(usize::MAX)) } else { 1 };
        for _ in 0..times {
            let screens = mill.as_ref().map_or(Screens::new(), |mill| mill.screens().clone());
            let said = call(&mut mill, &words, &screens, load);
            let name = if words[0] == "deal" { "deal" } else { line };
            let refused = said.is_err();
            let said = said.unwrap_or_else(|refusal| format!("refused {}: {}", refusal.number(), refusal.sentence()));
            let screens = mill.as_ref().map_or(Screens::new(), |mill| mill.screens().clone());
            let ended = refused || !screens.is_running();
            calls.push(Call { said: format!("{}: {}", name, said), refused, screens });
            if ended {
                break;
            }
        }
    }
    calls
}

fn call(
    mill: &mut Option<Mill>,
    words: &[&str],
    screens: &Screens,
    load: impl Fn() -> (Plan, Rules),
) -> Result<String, Refusal> {
    let on = || words[1].parse::<u32>().unwrap();
    let on_mill = |mill: &mut Option<Mill>| mill.take().ok_or(Refusal::SessionState);
    match (words[0], &mut *mill) {
        ("load", None) => {
            let (plan, rules) = load();
            *mill = Some(Mill::new(plan, rules)?);
            Ok("8 screens, 7 nodes, 2 states, 2 labels".into())
        }
        ("load", Some(mill)) => {
            let (plan, rules) = load();
            mill.load(plan, rules).map(|()| "8 screens, 7 nodes, 2 states, 2 labels".into())
        }
        ("start", Some(mill)) => {
            let change = |word: &&str| word.split_once("->").map(|(v, a)| (v.parse().unwrap(), a.parse().unwrap()));
            let changes: Vec<(u16, u8)> = words[2..].iter().filter_map(change).collect();
            mill.start(on(), &changes).map(|parts| format!("{} part{}", parts, if parts == 1 { "" } else { "s" }))
        }
        ("deal", Some(mill)) => match mill.deal()? {
            None => Err(Refusal::SessionState),
            Some(Deal { screen, progress }) => {
                assert_eq!(Some(screen), screens.next(), "the screen that was next is served");
                let (done, parts) = (mill.screens().parts_done(screen), mill.screens().parts(screen));
                let more = if progress == Progress::Finished { "finished" } else { "more" };
                Ok(format!("screen {}, part {} of {}, {}", screen, done, parts, more))
            }
        },
        ("cancel", Some(mill)) => mill.cancel(on()).map(|()| {
            let kept = if mill.last(on()).is_ok() { ", with the last answer kept" } else { "" };
            format!("the screen is loaded, as after load{}", kept)
        }),
        ("read", Some(mill)) => mill.last(on()).map(answer),
        (_, None) => on_mill(mill).map(|_| String::new()),
        other => panic!("{:?}", other.0),
    }
}

fn answer(answer: whatif::Answer) -> String {
    let noun = |number: u32, what: &str| format!("{} {}{}", number, what, if number == 1 { "" } else { "s" });
    let cleared = if answer.yes { "cleared" } else { "not cleared" };
    let climbs = format!("{}, {} passed over", noun(answer.links, "link"), noun(answer.passed, "node"));
    format!("{}, state {}, {}, {}", cleared, answer.state, noun(answer.parts, "part"), climbs)
}

/// What the page is to show; of a refusal the entry that it is about is left out.
fn lines(calls: &[Call], at: usize) -> Vec<String> {
    let now = &calls[at];
    let before = &calls[at.saturating_sub(1)].screens;
    let changed: Vec<u32> = (0..8).filter(|&on| before.session(on) != now.screens.session(on)).collect();
    let isolation = match changed[..] {
        [] => "No record changed.".to_string(),
        [on] => format!("The record of screen {} changed; the other seven are the same, byte for byte.", on),
        _ if changed.len() == 8 => "All eight records changed.".to_string(),
        ref some => {
            let some: Vec<String> = some.iter().map(u32::to_string).collect();
            format!("The records of screens {} changed; the others are the same, byte for byte.", some.join(", "))
        }
    };
    let next = now.screens.next().map_or("No screen is running.".into(), |on| format!("Screen {} is next.", on));
    let mut lines = vec![
        format!("bar\t{}\t{}", at, calls.len() - 1),
        format!("count\tcall {} of {}", at, calls.len() - 1),
        format!("next\t{}", next),
        format!("changed\t{}", isolation),
        format!("say\t{}\t{}", if now.refused { "refused" } else { "" }, now.said),
    ];
    lines.extend((0..8).flat_map(|on| screen(&now.screens, on, changed.contains(&on))));
    lines
}

fn screen(screens: &Screens, on: u32, changed: bool) -> [String; 2] {
    let session = screens.session(on).unwrap();
    let state = match session.state() {
        Some(State::Empty) => "empty",
        Some(State::Loaded) => "loaded",
        Some(State::Running) => "running",
        _ => "answered",
    };
    let turn = match screens.next() {
        Some(next) if next == on => "is next",
        Some(_) if state == "running" => "waits",
        _ => "",
    };
    let class = match turn {
        "is next" => " next",
        "waits" => " waits",
        _ => "",
    };
    let changes: Vec<String> = session.changes().map(|(v, a)| format!("{}->{}", v, a)).collect();
    let changes = if changes.is_empty() { "none".to_string() } else { changes.join(" ") };
    let (done, parts) = (session.parts_done(), session.parts());
    let asked = match state {
        "running" | "answered" => {
            format!("What if {}?\t{} of {} part{}", changes, done, parts, if parts == 1 { "" } else { "s" })
        }
        _ => "\t".to_string(),
    };
    let class = format!("screen {}{}{}", state, class, if changed { " changed" } else { "" });
    let (verdict, last) = match session.read() {
        Err(_) => ("", "no answer".to_string()),
        Ok(written) => {
            let (earlier, class) = if state == "answered" { ("", ["no", "yes"]) } else { ("earlier: ", ["", ""]) };
            (class[usize::from(written.yes)], format!("{}{}", earlier, answer(written)))
        }
    };
    [format!("s{}\t{}\t{}\t{}\t{}", on, class, state, turn, asked), format!("s{}\tlast {}\t{}", on, verdict, last)]
}

/// The first line in which the page is not what the library's answers are; `[page, library]`.
fn difference(input: &Input, page: &str) -> Option<[String; 2]> {
    let first = Call { said: "No call yet.".into(), refused: false, screens: Screens::new() };
    let calls: Vec<Call> = std::iter::once(first).chain(calls(input, SCRIPT)).collect();
    let last = calls.len() - 1;
    let mut pressed = vec![("back", 0)];
    pressed.extend((1..=last).map(|at| (if at % 2 == 0 { "advance" } else { "ArrowRight" }, at)));
    pressed.extend([
        ("advance", last),
        ("ArrowLeft", last - 1),
        ("back", last - 2),
        ("End", last),
        ("home", 0),
        ("end", last),
        ("Home", 0),
    ]);
    let mut expected = lines(&calls, 0);
    for (what, at) in &pressed {
        expected.push(format!("pressed\t{}", what));
        expected.extend(lines(&calls, *at));
    }
    let pressed: Vec<&str> = pressed.iter().map(|(what, _)| *what).collect();
    let written = browser::written(page, &format!("{}\nwalk({:?});", DRIVER, pressed));
    assert_eq!(written.len(), expected.len());
    assert!(calls.iter().any(|call| call.refused) && calls.len() > 20);
    // after a refusal's sentence comes what it is about
    let same = |written: &str, expected: &str| {
        written == expected
            || (expected.starts_with("say\trefused\t") && written.starts_with(&format!("{} (", expected)))
    };
    written
        .into_iter()
        .zip(expected)
        .find(|(written, expected)| !same(written, expected))
        .map(|(written, expected)| [written, expected])
}

#[test]
fn call_by_call() {
    if browser::skipped() {
        return;
    }
    let input = Input::of_text(SAMPLE).unwrap();
    let page = text::lessons::screens_page::of_script(&input, SCRIPT).unwrap();
    assert_eq!(difference(&input, &page), None);
}

/// Wrong pages, each an edit of the script. The comparison must notice every one.
const WRONG: [(&str, &str); 6] = [
    ("'is next': ' next'", "'is next': ' waits'"),
    ("(screen.changed ? ' changed' : '')", "''"),
    ("const step = steps[at];", "const step = steps[Math.max(0, at - 1)];"),
    ("screen.question && 'What if '", "'What if '"),
    ("'last ' + screen.class", "'last yes'"),
    ("step.refused ? 'refused' : ''", "''"),
];

#[test]
fn wrong_pages_are_noticed() {
    if browser::skipped() {
        return;
    }
    let input = Input::of_text(SAMPLE).unwrap();
    let page = text::lessons::screens_page::of_script(&input, SCRIPT).unwrap();
    for (from, to) in WRONG {
        assert_eq!(page.matches(from).count(), 1, "{}", from);
        assert!(difference(&input, &page.replace(from, to)).is_some(), "nobody noticed: {}", to);
    }
}
