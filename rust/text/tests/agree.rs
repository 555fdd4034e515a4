//! Two texts of rules compared on every plan, by the functions and by the program.

use std::fs;
use std::process::{Command, Output};
use text::agree::{clears, needed, picture, text, verdict};
use text::names::Names;
use text::picture::Drawn;
use text::{rules_of, write};
use whatif::{Line, Plan, Rules};

const SAMPLE: &str = include_str!("../../../examples/sample.txt");

/// One label; the state is how often both children have the same, up to `s` - 1, which alone is marked, or nothing is.
fn balanced(s: usize, accept: &str) -> String {
    let rises = |p: usize| format!("inner {} 0 {} -> {}\n", p, p, (p + 1) % s);
    let inner: String = (0..s).map(rises).collect();
    format!("rules\nstates {}\nlabels 1\nleaf 0 -> 0\ninner * * * -> 0\n{}accept {}\n", s, inner, accept)
}

/// The lines that are needed, and the plan where it has no more nodes than a plan can have.
fn shown(first: &str, second: &str) -> (Vec<Line>, Option<Plan>) {
    let [first, second] = [first, second].map(|text| Rules::from_bytes(rules_of(text).unwrap()).unwrap());
    let separating = first.differs_from(&second).unwrap().expect("they differ");
    let lines: Vec<Line> = separating.lines().collect();
    let needed = needed(&lines);
    assert_ne!(clears(&first, &needed), clears(&second, &needed));
    assert_eq!((clears(&first, &needed), clears(&second, &needed)), (clears(&first, &lines), clears(&second, &lines)));
    let plan = separating.to_plan();
    for rules in [&first, &second] {
        assert_eq!(verdict(rules, &needed, plan.as_ref()), Ok(clears(rules, &needed)), "the library's is the same");
    }
    (needed, plan)
}

#[test]
fn a_plan_of_three_levels() {
    let (lines, plan) = shown(&balanced(4, "3"), &balanced(4, ""));
    let said = text(&lines, plan.as_ref(), &Names::default());
    let head = "# line 0: leaf 0\n# line 1: inner 0 over 0 and 0\n# line 2: inner 0 over 1 and 1\n# line 3: inner 0 over 2 and 2\n";
    assert!(said.starts_with(&format!("{}plan\nleaf 0 ", head)), "{}", said);
    // it may be pasted, before the rules
    let bytes = write(&said).unwrap();
    assert_eq!(bytes[0] as usize, 12 + 2 * 15);
    let drawn = picture(&lines, &Names::default(), Drawn::Dot);
    assert!(drawn.contains("    0 [label=\"line 3\\nlabel 0\""), "{}", drawn);
    assert!(drawn.contains("    0 -> 1 [label=\" left and right \"];\n"), "{}", drawn);
    let svg = picture(&lines, &Names::default(), Drawn::Svg);
    assert_eq!((svg.matches("<g class=\"node\">").count(), svg.matches(">left and right<").count()), (4, 3), "{}", svg);
}

#[test]
fn lines_that_are_not_needed() {
    let [leaf, other] = [0, 1].map(|label| Line::Leaf { label });
    let inner = |left, right| Line::Inner { label: 1, left, right };
    assert_eq!(needed(&[leaf, other]), [other]);
    assert_eq!(needed(&[leaf, other, inner(0, 0), inner(1, 1), inner(3, 1)]), [other, inner(0, 0), inner(1, 0)]);
}

/// All states but 14 are marked, of 15 states and of 16.
#[test]
fn a_plan_beyond_65_535_nodes() {
    let but_14 = |s: usize| (0..s).filter(|&state| state != 14).map(|state| format!("{} ", state)).collect::<String>();
    let (lines, plan) = shown(&balanced(15, &but_14(15)), &balanced(16, &but_14(16)));
    let said = text(&lines, plan.as_ref(), &Names::default());
    assert!(said.contains("# as a tree it has more than 65,535 nodes, the most that a plan can have\n"), "{}", said);
    assert!(said.ends_with("# so the two verdicts are worked out by whatif-text, not by the library\n"), "{}", said);
    assert!(!said.contains("plan\n"), "{}", said);
}

fn program(words: &[&str]) -> Output {
    Command::new(env!("CARGO_BIN_EXE_whatif-text")).args(words).output().expect("it starts")
}

#[test]
fn the_program() {
    let file = |name: &str, text: &str| {
        let path = std::env::temp_dir().join(format!("whatif-text-agree-{}-{}", std::process::id(), name));
        fs::write(&path, text).unwrap();
        path.to_str().unwrap().to_string()
    };
    let said = |words: &[&str]| {
        let done = program(words);
        (done.status.code(), String::from_utf8(done.stdout).unwrap())
    };
    let (sample, four, none) = (file("a", SAMPLE), file("b", &balanced(4, "0")), file("c", &balanced(4, "")));
    assert_eq!(said(&["agree", &sample, &sample]), (Some(0), "# the two agree on every plan\n".to_string()));
    let (status, text) = said(&["agree", &four, &none]);
    let head = "# yes by the first, no by the second\n# line 0: leaf 0\nplan\nleaf 0 ";
    assert!(status == Some(4) && text.starts_with(head), "{}", text);
    let (status, text) = said(&["agree", &four, &none, "dot"]);
    assert!(status == Some(4) && text.starts_with("digraph separating {"), "{}", text);
    let (status, text) = said(&["agree", &four, &none, "svg"]);
    assert!(status == Some(4) && text.starts_with("<svg "), "{}", text);
    assert_eq!(said(&["agree", &sample, &four]), (Some(3), String::new()), "23");
    assert_eq!(said(&["agree", &sample]), (Some(2), String::new()));
    [sample, four, none].iter().for_each(|path| fs::remove_file(path).unwrap());
}
