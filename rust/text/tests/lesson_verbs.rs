//! What `session` says of an advance, what sheets and exercises say.

use std::collections::BTreeSet;
use std::process::Command;
use text::input::Input;
use text::lessons::{exercise, page, sheet};
use text::loaded::Loaded;

const SAMPLE: &str = include_str!("../../../examples/sample.txt");

fn session(script: &str, json: bool) -> Vec<String> {
    let made = text::script::run(&Input::of_text(SAMPLE).unwrap(), script, json).unwrap();
    String::from_utf8(made.bytes).unwrap().lines().map(String::from).collect()
}

/// Plan A with 4->0: a leaf, then a climb to the root's right child.
#[test]
fn an_advance_has_its_climb() {
    let script = "load\nstart 4->0\nadvance all\nadvance\n";
    let listed = session(script, false);
    let leaf = "node 4: state 1 to 0; a leaf with label 0 has state 0; no climb";
    let rule = "node 6: state 1 to 0; left state 1, label 1 and right state 0 give 0";
    assert_eq!(listed[2], format!("advance: part 1 of 2, more; {}", leaf));
    let climb = "climb from node 4 to node 5: 1 link, 1 node passed over";
    assert_eq!(listed[3], format!("advance: part 2 of 2, finished; {}; {}", rule, climb));
    assert!(listed[4].starts_with("advance: refused 1: ") && listed[4].ends_with("(it is answered)"), "{}", listed[4]);
    let objects = session(script, true);
    let leaf = r#""root":4,"state":0,"before":1,"label":0,"links":0,"passed":0}"#;
    assert_eq!(objects[2], format!(r#"{{"call":"advance","part":1,"of":2,"finished":false,{}"#, leaf));
    let inner = r#""root":6,"state":0,"before":1,"left":1,"label":1,"right":0,"links":1,"passed":1,"from":4,"to":5}"#;
    assert_eq!(objects[3], format!(r#"{{"call":"advance","part":2,"of":2,"finished":true,{}"#, inner));
}

/// A cancelled question's advance is refused, and the next question goes by its own changes.
#[test]
fn another_question() {
    let listed = session("advance\nload\nadvance\nstart 4->0\ncancel\nadvance\nstart 3->1\nadvance\n", false);
    let refused = |i: usize, state: &str| listed[i].starts_with("advance: refused 1: ") && listed[i].ends_with(state);
    assert!(
        refused(0, "(it is empty)") && refused(2, "(it is loaded)") && refused(5, "(it is loaded)"),
        "{:?}",
        listed
    );
    assert_eq!(
        listed[7],
        "advance: part 1 of 2, more; node 3: state 0 to 1; a leaf with label 1 has state 1; no climb"
    );
}

/// With --allowed a page has the legend's words of the other pictures; without it neither they nor the marks.
#[test]
fn a_legend_of_marks() {
    let input = Input::of_text(SAMPLE).unwrap();
    let (marked, plain) = (page::of_question(&input, 4, true).unwrap(), page::of_question(&input, 4, false).unwrap());
    let svg = text::draw_allowed(&input, 4, true, 1, text::picture::Drawn::Svg).unwrap();
    for legend in [
        "blue, 'only label ..': with the changes made, no other label of the node clears the plan",
        "filled grey, 'no label': with the changes made, no label of the node clears the plan",
        "thick border, orange unless it is blue or grey: another state than before",
    ] {
        assert!(
            words(&marked).contains(legend) && svg.contains(legend) && !words(&plain).contains(legend),
            "{}",
            legend
        );
    }
    assert!(marked.contains("\"sets\":") && !plain.contains("\"sets\":") && !plain.contains("label clears"));
}

/// What a page lists as the least that must change is what `mend` lists.
#[test]
fn the_least_by_mend() {
    let input = Input::of_text(SAMPLE).unwrap();
    for question in [2, 4, 5] {
        let page = words(&page::of_question(&input, question, false).unwrap());
        let mut program = Command::new(env!("CARGO_BIN_EXE_whatif-text"));
        let mend =
            program.args(["mend", &question.to_string(), "--input", "../../examples/sample.txt"]).output().unwrap();
        let mend = String::from_utf8(mend.stdout).unwrap();
        let line = |line: &str| {
            Some(line.strip_prefix("# ")?.replace(": label", " from label")).filter(|to| to.contains(" from "))
        };
        let listed: Vec<String> = mend.lines().filter_map(line).collect();
        assert!(!listed.is_empty(), "{}", mend);
        for change in listed {
            assert!(page.contains(&change), "question {}: {}", question, change);
        }
    }
}

/// The words of a page, tags left out.
fn words(html: &str) -> String {
    let body = html.split("</style>").nth(1).unwrap().replace("</", " </");
    let plain: String = body.split('<').filter_map(|piece| piece.split_once('>')).map(|(_, words)| words).collect();
    let plain = plain.replace("&lt;", "<").replace("&gt;", ">").replace("&quot;", "\"").replace("&amp;", "&");
    plain.split_whitespace().collect::<Vec<_>>().join(" ")
}

/// The task and the solution of a sheet.
fn pages(html: &str) -> [String; 2] {
    let (task, solution) = html.split_once("<section class=\"solution\">").unwrap();
    [words(task), words(&format!("</style>{}", solution))]
}

/// No state and no part is on the first page; every one of the library's on the second.
#[test]
fn a_sheet_of_the_sample() {
    let [task, solution] = pages(&sheet::of_question(&Input::of_text(SAMPLE).unwrap(), 5).unwrap());
    assert!(task.contains("node 4 label 1 to 0 state ____ to ____ "), "{}", task);
    // in the node, and where the pointer rests
    assert_eq!(task.matches("state ____ to ____").count(), 2 * 7);
    assert!(!task.contains(", part ") && !task.contains("as before") && !task.contains("state 1 to 0"), "{}", task);
    assert!(task.contains("A plan is cleared where its root has this state: 1."), "{}", task);
    for said in [
        "node 6, part 2 label 1 state 1 to 0",
        "node 5 label 0 state 1",
        "node 4, part 1 label 1 to 0 state 1 to 0",
        "Climb 1 4 1 leaf 0 leaf 0 none 2 6 1 1 1 0 0 node 4 to 5: 1 link, 1 node passed over",
        "2 parts, 1 link, 1 node passed over. 2 of 7 nodes worked out again. The plan is not cleared, state 0.",
    ] {
        assert!(solution.contains(said), "{}: {}", said, solution);
    }
}

/// Of a large plan the roots of the parts, with the states as they are.
#[test]
fn a_sheet_of_a_large_plan() {
    let words = "--nodes 1001 --shape random --seed 6 --changes 3 --questions 1".split(' ').collect::<Vec<_>>();
    let input = Input::of_text(&text::random::text(&words).unwrap().unwrap()).unwrap();
    let mut loaded = Loaded::of(&input).unwrap();
    let asked = loaded.ask(&input.questions[0]).unwrap();
    let [task, solution] = pages(&sheet::of_question(&input, 1).unwrap());
    assert_eq!(task.matches(" to ____").count(), 2 * asked.roots.len());
    for (i, (&root, &after)) in asked.roots.iter().zip(&asked.states).enumerate() {
        assert!(task.contains(&format!("node {} label ", root)), "{}: {}", root, task);
        assert!(solution.contains(&format!("node {}, part {} label ", root, i + 1)), "{}", solution);
        let before = loaded.before(root);
        let states = if before == after {
            format!("state {}, as before", after)
        } else {
            format!("state {} to {}", before, after)
        };
        assert!(solution.contains(&states), "{}", states);
    }
}

/// The plan of an exercise, and the changes that it lists.
fn exercise(words: &[&str]) -> (Loaded, BTreeSet<(u16, u8)>, String) {
    let made = exercise::made(&[words, &["--as", "text"]].concat()).unwrap();
    let input = Input::of_text(&made).unwrap();
    let listed = input.questions.iter().map(|question| (question.len(), question[0])).map(|(one, change)| {
        assert_eq!(one, 1);
        change
    });
    (Loaded::of(&input).unwrap(), listed.collect(), pages(&exercise::made(words).unwrap()).join(" Solution "))
}

/// Every single change that clears the plan, each by a fresh run.
fn mending(loaded: &Loaded) -> BTreeSet<(u16, u8)> {
    let k = loaded.rules().labels() as u8;
    let all = (0..loaded.nodes() as u16).flat_map(|v| (0..k).map(move |label| (v, label)));
    all.filter(|&change| loaded.panel.fresh_run(&[change]).unwrap().yes).collect()
}

#[test]
fn exercises_of_single_changes() {
    for seed in ["1", "200", "3000"] {
        let (loaded, listed, said) = exercise(&["fault", "--seed", seed]);
        assert!(!loaded.is_cleared());
        assert_eq!(listed, mending(&loaded));
        let nodes: BTreeSet<u16> = listed.iter().map(|change| change.0).collect();
        let node = *nodes.iter().next().unwrap();
        assert!(nodes.len() == 1 && usize::from(node) + 1 < loaded.nodes());
        assert!(said.contains(&format!("Node {} alone can mend it", node)), "{}", said);
        for ways in [1, 2, 5] {
            let (loaded, listed, said) = exercise(&["mend", &ways.to_string(), "--seed", seed, "--nodes", "9"]);
            assert!(!loaded.is_cleared() && loaded.nodes() == 9);
            assert_eq!((&listed, listed.len()), (&mending(&loaded), ways));
            assert!(said.contains(&format!("{} of 18 single changes clear it.", ways)), "{}", said);
            for (node, label) in listed {
                let from = loaded.labels()[usize::from(node)];
                assert!(said.contains(&format!("node {} from label {} to {}", node, from, label)), "{}", said);
            }
        }
    }
}

/// All choices of labels, each by a fresh run.
#[test]
fn exercises_of_shares() {
    for (share, open) in [("1/3", "2"), ("0/1", "1"), ("1/1", "1"), ("5/9", "2"), ("1/27", "3")] {
        let (loaded, _, said) = exercise(&["share", share, "--open", open]);
        let of = said.split("labels: ").nth(1).unwrap().split('.').next().unwrap();
        let nodes: Vec<u16> = of.split(", ").map(|node| node.parse().unwrap()).collect();
        assert_eq!(nodes.len().to_string(), open);
        let choices = (0..3u32.pow(nodes.len() as u32)).map(|i| {
            let digit = |(at, &v): (usize, &u16)| (v, (i / 3u32.pow(at as u32) % 3) as u8);
            nodes.iter().enumerate().map(digit).collect::<Vec<_>>()
        });
        let verdicts: Vec<bool> = choices.map(|choice| loaded.panel.fresh_run(&choice).unwrap().yes).collect();
        let clearing = verdicts.iter().filter(|&&yes| yes).count();
        let (a, b) = share.split_once('/').unwrap();
        assert_eq!(clearing * b.parse::<usize>().unwrap(), verdicts.len() * a.parse::<usize>().unwrap());
        let listed = format!("{} of {} choices clear the plan: {} of them.", clearing, verdicts.len(), share);
        assert!(said.contains(&listed), "{}: {}", listed, said);
    }
}

#[test]
fn what_no_exercise_is() {
    let what = |words: &[&str]| exercise::made(words).unwrap_err().what();
    assert!(what(&[]).contains("an exercise is 'fault', 'mend K' or 'share A/B'"));
    assert!(what(&["mend", "some"]).contains("'some' is no number of changes"));
    assert!(what(&["share", "3/2"]).contains("'3/2' is no share"));
    assert!(what(&["share", "1/7", "--nodes", "3"]).contains("none of 3000 plans"));
    assert!(what(&["fault", "--nodes", "101"]).contains("at most 100 nodes"));
    assert!(what(&["fault", "--nodes"]).contains("'--nodes' needs a value"));
    assert!(what(&["fault", "--questions", "2"]).contains("'--questions' is no option of 'exercise'"));
}
