//! Two texts of rules merged, by the functions and by the program.

use std::fs;
use std::process::{Command, Output};
use text::{merge, rules_of, write};

const SAMPLE: &str = include_str!("../../../examples/sample.txt");
/// Clears a plan where some leaf has label 0.
const SOME_LEAF: &str = "rules
states 2
labels 2
leaf * -> 0
leaf 0 -> 1
inner * * * -> 1
inner 0 * 0 -> 0
accept 1
";

#[test]
fn a_merged_text_is_the_reference_s_table() {
    let (first, second) = (rules_of(SAMPLE).unwrap(), rules_of(SOME_LEAF).unwrap());
    let text = merge(&first, &second).unwrap();
    assert!(text.starts_with("rules\nstates 4\nlabels 2\nleaf 0 -> 1\nleaf 1 -> 2\ninner 0 0 0 -> 0\n"), "{}", text);
    assert!(text.ends_with("\naccept 3\n"), "{}", text);
    assert_eq!(rules_of(&text).unwrap(), reference::merge::merge(&first, &second, usize::MAX).unwrap());
    // it may be pasted: a text of its own
    assert!(write(&text).is_ok());
}

#[test]
fn refusals() {
    let table = |s: usize, k: usize| format!("rules\nstates {}\nlabels {}\nleaf * -> 0\ninner * * * -> 0\n", s, k);
    let answer = |first: &str, second: &str| {
        merge(&rules_of(first).unwrap(), &rules_of(second).unwrap()).map_err(|refusal| refusal.number())
    };
    assert!(answer(&table(4, 3), &table(4, 3)).is_ok());
    assert_eq!(answer(&table(4, 3), &table(4, 2)), Err(23));
    assert_eq!(answer(&table(9, 3), &table(2, 3)), Err(24));
    assert_eq!(answer("rules\n", &table(2, 3)), Err(6));
    assert_eq!(answer(&table(17, 3), &table(2, 3)), Err(7));
}

fn program(words: &[&str]) -> Output {
    Command::new(env!("CARGO_BIN_EXE_whatif-text")).args(words).output().expect("it starts")
}

#[test]
fn the_program() {
    let file = |name: &str, text: &str| {
        let path = std::env::temp_dir().join(format!("whatif-text-merge-{}-{}", std::process::id(), name));
        fs::write(&path, text).unwrap();
        path.to_str().unwrap().to_string()
    };
    let (first, second, wrong) = (file("a", SAMPLE), file("b", SOME_LEAF), file("c", "rules\nstates 2\n"));
    let done = program(&["merge", &first, &second]);
    assert_eq!(done.status.code(), Some(0));
    let wanted = merge(&rules_of(SAMPLE).unwrap(), &rules_of(SOME_LEAF).unwrap()).unwrap();
    assert_eq!(String::from_utf8(done.stdout).unwrap(), wanted);
    // rules in bytes, as the program whatif reads them
    let bytes = file("e", "");
    fs::write(&bytes, write(SOME_LEAF).unwrap()).unwrap();
    assert_eq!(String::from_utf8(program(&["merge", &first, &bytes]).stdout).unwrap(), wanted);
    let done = program(&["merge", &first, &wrong]);
    let said = String::from_utf8(done.stderr).unwrap();
    assert_eq!((done.status.code(), done.stdout.len()), (Some(1), 0));
    assert!(said.starts_with(&format!("whatif-text: {}: line 2: ", wrong)), "{}", said);
    assert_eq!(program(&["merge", &first, "no such file"]).status.code(), Some(1));
    let other = file("d", "rules\nstates 1\nlabels 1\nleaf 0 -> 0\ninner 0 0 0 -> 0\n");
    let done = program(&["merge", &first, &other]);
    let said = String::from_utf8(done.stderr).unwrap();
    assert!(done.status.code() == Some(3) && said.starts_with("whatif-text: refused 23: "), "{}", said);
    assert_eq!(program(&["merge", &first]).status.code(), Some(2));
    [first, second, wrong, other, bytes].iter().for_each(|path| fs::remove_file(path).unwrap());
}
