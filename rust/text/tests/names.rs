//! Names of labels and states: in every sentence, picture and object, and in no byte.

use std::fs;
use std::io::Write;
use std::process::{Command, Stdio};

const SAMPLE: &str = include_str!("../../../examples/sample.txt");
const NAMES: &str = "\nnames\nlabel 0 coarse-bur\nlabel 1 fine-bur\nstate 1 cleared\nstate 0 too-deep\n";
const BRANCH: &str = include_str!("../../../examples/branch.txt");
const EXAMPLES: &str = concat!(env!("CARGO_MANIFEST_DIR"), "/../../examples/");

fn run(words: &[&str], input: &str) -> String {
    let mut program = Command::new(env!("CARGO_BIN_EXE_whatif-text"));
    let program = program.args(words).stdin(Stdio::piped()).stdout(Stdio::piped()).stderr(Stdio::piped());
    let mut running = program.spawn().expect("it starts");
    let _ = running.stdin.take().unwrap().write_all(input.as_bytes());
    let done = running.wait_with_output().unwrap();
    String::from_utf8_lossy(&done.stdout).into_owned() + &String::from_utf8(done.stderr).unwrap()
}

fn named() -> String {
    SAMPLE.to_string() + NAMES
}

fn file(name: &str, text: &str) -> String {
    let path = std::env::temp_dir().join(format!("whatif-text-names-{}-{}", std::process::id(), name));
    fs::write(&path, text).unwrap();
    path.to_str().unwrap().to_string()
}

/// Each verb with a sentence that has its names.
#[test]
fn in_every_sentence() {
    let (session, screens) = (format!("{}session.txt", EXAMPLES), format!("{}screens.txt", EXAMPLES));
    let rows: &[(&[&str], &str)] = &[
        (&["answer"], "question 2, 0->0: not cleared, state 0 (too-deep), 2 parts"),
        (&["why", "4"], "node 0, label 1 (fine-bur) to 0 (coarse-bur): state 1 (cleared) to 0 (too-deep)"),
        (&["why", "4"], "as it is: cleared, state 1 (cleared)"),
        (&["suggest"], "5->1  # label 0 (coarse-bur) to 1 (fine-bur)"),
        (&["suggest", "--robust"], "  node 5, depth 1: label 0 (coarse-bur) alone"),
        (&["why", "2"], "  node 0: state 1 (cleared) clears the plan, label 1 (fine-bur) leads there"),
        (&["svg", "2", "--allowed"], ">only label 1 (fine-bur) clears<"),
        (&["count", "0", "2"], "    0        1        25.0 %  not cleared (too-deep)"),
        (&["session", &session], "read: not cleared, state 0 (too-deep), 5 parts"),
        (&["screens", &screens], "not cleared, state 0 (too-deep)"),
        (&["dot", "4"], "label 1 (fine-bur) to 0 (coarse-bur)\\nstate 1 (cleared) to 0 (too-deep)"),
        (&["svg", "4"], ">label 1 (fine-bur) to 0 (coarse-bur)<"),
        (&["rules", "svg"], ">left 0 (too-deep)<"),
        (&["outline", "4"], "label 1 (fine-bur) to 0 (coarse-bur)\\nstate 1 (cleared) to 0 (too-deep)"),
        (&["answer", "--json"], "\"cleared\":false,\"state\":0,\"state_name\":\"too-deep\""),
        (&["answer", "--json"], "\"changes\":[{\"node\":0,\"label\":0,\"label_name\":\"coarse-bur\"}]"),
        (&["why", "4", "--json"], "\"to\":0,\"to_name\":\"coarse-bur\",\"before\":1,\"before_name\":\"cleared\""),
        (&["suggest", "--json"], "{\"node\":5,\"label\":1,\"label_name\":\"fine-bur\",\"depth\":1}"),
        (&["count", "0", "--json"], "{\"state\":0,\"state_name\":\"too-deep\",\"choices\":1"),
        (&["over", "4", "9", "--json"], "\"label_name\":\"fine-bur\""),
        (&["session", &session, "--json"], "\"root\":0,\"state\":0,\"state_name\":\"too-deep\""),
    ];
    for (words, said) in rows {
        assert!(run(words, &named()).contains(said), "{:?}: {}", words, run(words, &named()));
    }
}

/// A branch table has names of its own for its states; the labels are the plan's.
#[test]
fn of_branch_tables() {
    let table = file("branch", &format!("{}names\nstate 1 worn\n", BRANCH));
    let said = run(&["branch", &table, "6", "4"], &named());
    assert!(said.starts_with("from below node 6 down to node 4: yes, state 1 (worn), 2 links"), "{}", said);
    assert!(said.ends_with("  node 4, label 1 (fine-bur): state 1 (worn)\n"), "{}", said);
    let said = run(&["colours", &table, "6", "4", "dot"], &named());
    assert!(said.contains("label 1 (fine-bur)\\nstate 1 (worn)"), "{}", said);
    let said = run(&["branch", "--json", &table, "6", "4"], &named());
    assert!(said.contains("{\"node\":4,\"label\":1,\"label_name\":\"fine-bur\",\"state\":1,\"state_name\":\"worn\"}"));
    fs::remove_file(table).unwrap();
}

/// Before, between or after the other sections, or in a file of their own.
#[test]
fn wherever_they_stand() {
    let answers = run(&["answer"], &named());
    assert_eq!(run(&["answer"], &format!("{}\n{}", NAMES, SAMPLE)), answers);
    assert_eq!(run(&["answer"], &SAMPLE.replace("questions", &format!("{}questions", NAMES))), answers);
    let names = file("alone", NAMES);
    assert_eq!(run(&["answer", "--names", &names, "--input", "-"], SAMPLE), answers);
    let plan = file("plan", SAMPLE);
    let words = ["answer", "--names", &names, "--plan", &plan, "--rules", &plan, "--questions", &plan];
    assert_eq!(run(&words, ""), answers);
    [names, plan].iter().for_each(|path| fs::remove_file(path).unwrap());
}

#[test]
fn in_no_byte() {
    assert_eq!(text::write(&named()), text::write(SAMPLE));
}

#[test]
fn wrong_names_are_told_by_their_line() {
    let line = |names: &str| run(&["answer"], &format!("names\n{}\n{}", names, SAMPLE));
    assert_eq!(
        line("label 1"),
        "whatif-text: line 2: a line of the names is 'label NUMBER NAME' or 'state NUMBER NAME'\n"
    );
    assert_eq!(line("label 1 a\nlabel 1 b"), "whatif-text: line 3: label 1 has a name already, 'a'\n");
    assert_eq!(line("label 1 a\nnames"), "whatif-text: line 3: 'names' stands again\n");
}

/// Of two rules that are compared, and of a planner's tree: they go along with it, out and home.
#[test]
fn of_rules_and_of_planner_s_trees() {
    let (first, second) = (file("first", &named()), file("second", &SAMPLE.replace("accept 1", "accept 0")));
    assert!(run(&["agree", &first, &second], "").contains("# line 0: leaf 0 (coarse-bur)\n"));
    assert!(run(&["agree", &second, &first, "svg"], "").contains(">label 0 (coarse-bur)<"));
    assert!(run(&["agree", &first, &second, "--json"], "").contains("{\"label\":0,\"label_name\":\"coarse-bur\"}"));
    let planner =
        fs::read_to_string(format!("{}planner.txt", EXAMPLES)).unwrap() + "\nnames\nlabel 8 pin\nstate 1 whole\n";
    let tree = file("tree", &planner);
    let said = run(&["answer", "--planner", &tree], "");
    assert!(said.starts_with("question 1, none: cleared, state 1 (whole),"), "{}", said);
    let plan = run(&["planner", "import"], &planner);
    assert!(plan.ends_with("\nnames\nlabel 8 pin\nstate 1 whole\n"), "{}", plan);
    assert_eq!(run(&["answer"], &plan), said);
    assert!(run(&["planner", "export"], &plan).ends_with("\nnames\nlabel 8 pin\nstate 1 whole\n"));
    [first, second, tree].iter().for_each(|path| fs::remove_file(path).unwrap());
}
