//! Planner's text in and out: stored outputs, back again, questions by planner's numbers, and what is wrong or refused.

use std::io::Write;
use std::process::{Command, Output, Stdio};
use text::planner::{verb, Failed};

const SAMPLE: &str = include_str!("../../../examples/planner.txt");
const IMPORT: &str = include_str!("planner/import");
const EXPORT: &str = include_str!("planner/export");
const PICTURE: &str = include_str!("planner/dot");

fn made(word: &str, text: &str) -> Result<String, Failed> {
    verb(&[word]).expect("a verb")(text)
}

fn program(words: &[&str], input: &str) -> Output {
    let mut child = Command::new(env!("CARGO_BIN_EXE_whatif-text"))
        .args(words)
        .stdin(Stdio::piped())
        .stdout(Stdio::piped())
        .stderr(Stdio::piped())
        .spawn()
        .expect("it starts");
    let _ = child.stdin.take().expect("a pipe").write_all(input.as_bytes());
    child.wait_with_output().expect("it ends")
}

#[test]
fn stored_outputs() {
    for (word, input, expected) in [("import", SAMPLE, IMPORT), ("export", IMPORT, EXPORT), ("dot", SAMPLE, PICTURE)] {
        assert_eq!(made(word, input).as_deref(), Ok(expected));
        let done = program(&["planner", word], input);
        assert_eq!((done.status.code(), String::from_utf8(done.stdout).unwrap().as_str()), (Some(0), expected));
    }
    assert_eq!(made("import", EXPORT).as_deref(), Ok(IMPORT), "home and out");
    assert_eq!(made("dot", EXPORT).as_deref(), Ok(PICTURE));
}

/// The plan that is written is the reference's, and its questions are answered as those of the planner's tree.
#[test]
fn what_is_imported_is_the_reference_s_plan() {
    let input = text::write(IMPORT).unwrap();
    let file = reference::write::plan(&[5, 6, 8, 9, 6, 8], &[2, 2, 0, 0, 1, 0]);
    let out = reference::planner::out(&file, 99, 99).unwrap();
    let (plan, rules) = input[12..].split_at(out.plan.len());
    assert_eq!(plan, out.plan);
    let rules = &rules[..whatif::sizes::rules_bytes(2, 64)];
    let yes = |nodes: &[u16], labels: &[u8]| reference::fresh::fresh_run(plan, rules, nodes, labels).unwrap().yes;
    assert!(yes(&[], &[]) && !yes(&[out.places[3]], &[8]) && yes(&[out.places[3], out.places[5]], &[8, 9]));
}

/// A planner's tree as lines of bytes, and one too deep for lines of its own.
#[test]
fn files_as_bytes() {
    let bytes = "planner\nbytes 01 00 00 00 0c 00 00 00 0d 00 00 00 07 00\n";
    assert_eq!(made("import", bytes), made("import", "planner\n7\n"));
    let chain: String = (0..300).map(|depth| format!("{}1\n", " ".repeat(depth))).collect();
    let plan = made("import", &format!("planner\n{}", chain)).unwrap();
    let home = made("export", &plan).unwrap();
    assert!(home.starts_with("planner\nbytes 2c 01 00 00 "), "{}", home);
    assert_eq!(made("import", &home), Ok(plan));
}

#[test]
fn wrong_lines_are_named() {
    let rows = [
        ("5\nplanner", 1, "in no section: 'planner' comes first"),
        ("planner\n5\nplanner", 3, "'planner' stands too late, or again"),
        ("planner\n5\n  256", 3, "'256' is not a number from 0 to 255"),
        ("planner\nleaf 5", 2, "a line of the planner's tree"),
        ("planner\n5\n    6\n  7", 4, "neither below the line before it nor beside one above it"),
        ("planner\n5\nrules\nstates 2", 4, "a table begins with"),
        ("planner\n5\nquestions\np1->0", 4, "'1' is not a number from 0 to 0"),
        ("planner\n5\nquestions\n\np0-0", 5, "'p0-0' is not NODE->LABEL"),
        ("planner\n5\nquestions\np0->256", 4, "'256' is not a number from 0 to 255"),
    ];
    for (text, line, what) in rows {
        match made("import", text) {
            Err(Failed::Wrong(wrong)) => {
                assert!(wrong.line == line && wrong.what.contains(what), "{:?}: {}", text, wrong)
            }
            other => panic!("{:?}: {:?}", text, other),
        }
    }
    let star = |children: usize| format!("planner\n1\n{}", " 2\n".repeat(children));
    assert!(made("import", &star(255)).is_ok());
    assert_eq!(made("import", &star(256)).unwrap_err().to_string(), "line 258: a node has at most 255 children");
}

#[test]
fn refusals() {
    let number = |word: &str, text: &str| match made(word, text) {
        Err(Failed::Refused(refusal)) => refusal.number(),
        other => panic!("{:?}: {:?}", text, other),
    };
    assert_eq!(number("import", "planner\n"), 19);
    assert_eq!(number("import", "planner\n5\n6\n"), 19, "two trees");
    assert_eq!(number("import", "planner\n5\n  63\n"), 20);
    assert_eq!(number("export", "plan\nleaf 63\n"), 19);
    assert_eq!(number("export", "plan\nleaf 63\nleaf 62\ninner 1\n"), 19);
    let done = program(&["planner", "import"], "planner\n5\n6\n");
    let said = String::from_utf8(done.stderr).unwrap();
    assert_eq!((done.stdout.len(), said.starts_with("whatif-text: refused 19: ")), (0, true), "{}", said);
    assert_ne!(done.status.code(), Some(0));
}

#[test]
fn other_words() {
    for words in [&["planner"][..], &["planner", "show"], &["planner", "import", "x"]] {
        assert_eq!(program(words, "").status.code(), Some(2), "{:?}", words);
    }
}
