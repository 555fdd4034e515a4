//! Files: each as text or as the library's own bytes, from several files and from standard input, and what is said of a
//! wrong one.

use std::fs;
use std::io::Write;
use std::path::PathBuf;
use std::process::{Command, Stdio};

const EXAMPLES: &str = concat!(env!("CARGO_MANIFEST_DIR"), "/../../examples/");

fn example(name: &str) -> String {
    format!("{}{}", EXAMPLES, name)
}

/// What is written, what is said on standard error, and the status.
fn run(words: &[&str], input: &[u8]) -> (Vec<u8>, String, i32) {
    let mut program = Command::new(env!("CARGO_BIN_EXE_whatif-text"));
    let program = program.args(words).stdin(Stdio::piped()).stdout(Stdio::piped()).stderr(Stdio::piped());
    let mut running = program.spawn().expect("it starts");
    let mut stdin = running.stdin.take().unwrap();
    let input = input.to_vec();
    let writer = std::thread::spawn(move || drop(stdin.write_all(&input)));
    let done = running.wait_with_output().unwrap();
    writer.join().unwrap();
    (done.stdout, String::from_utf8(done.stderr).unwrap(), done.status.code().expect("no signal"))
}

fn said(words: &[&str], input: &[u8]) -> String {
    let (out, err, status) = run(words, input);
    assert_eq!((status, err.as_str()), (0, ""), "{:?}", words);
    String::from_utf8(out).unwrap()
}

/// A folder of this test, with files as they are made.
struct Folder(PathBuf);

impl Folder {
    fn new(name: &str) -> Folder {
        let path = std::env::temp_dir().join(format!("whatif-text-files-{}-{}", name, std::process::id()));
        fs::create_dir_all(&path).unwrap();
        Folder(path)
    }

    fn file(&self, name: &str, bytes: &[u8]) -> String {
        let path = self.0.join(name);
        fs::write(&path, bytes).unwrap();
        path.to_str().unwrap().to_string()
    }
}

impl Drop for Folder {
    fn drop(&mut self) {
        let _ = fs::remove_dir_all(&self.0);
    }
}

/// Each of the three as text and as bytes, alone or among the others, by an option or on standard input: the same answers.
#[test]
fn sections_from_several_files() {
    let folder = Folder::new("sections");
    let sample = fs::read(example("sample.txt")).unwrap();
    let answers = run(&["answer"], &sample);
    let part = |name: &str| run(&["write", name], &sample).0;
    let (plan, rules) = (folder.file("plan", &part("plan")), folder.file("rules", &part("rules")));
    let questions = folder.file("questions", &part("questions"));
    assert_eq!(fs::read(&plan).unwrap().len(), 26);
    let (text, whole) = (example("sample.txt"), example("sample.bin"));
    for plan in [&plan, &text, &whole] {
        for rules in [&rules, &text, &whole] {
            for questions in [&questions, &text, &whole] {
                let words = ["answer", "--plan", plan, "--rules", rules, "--questions", questions];
                assert_eq!(run(&words, b""), answers, "{:?}", words);
            }
        }
    }
    assert_eq!(run(&["answer", "--input", &text], b""), answers);
    assert_eq!(run(&["answer", "--input", &whole, "--rules=-"], &sample), answers);
    assert_eq!(run(&["answer", "--plan", "-", "--rules", &rules, "--questions", &text], &part("plan")), answers);
    // what another option names is not taken of the input
    let other = String::from_utf8(sample.clone()).unwrap().replace("accept 1", "accept 0");
    let rules = folder.file("other", other.as_bytes());
    let mixed = said(&["why", "2", "--rules", &rules, "--input", &text], b"");
    assert!(mixed.starts_with("question 2, 0->0: cleared, state 0,"), "{}", mixed);
}

#[test]
fn every_form_is_shown_and_written() {
    let folder = Folder::new("shown");
    let sample = fs::read(example("sample.txt")).unwrap();
    let plan = run(&["write", "plan"], &sample).0;
    let shown = said(&["show"], &plan);
    assert!(shown.starts_with("plan\nleaf 1     # node 0\n") && !shown.contains("rules"), "{}", shown);
    assert_eq!(run(&["write", "plan"], shown.as_bytes()).0, plan);
    let rules = run(&["write", "rules"], &sample).0;
    assert!(said(&["show"], &rules).starts_with("rules\nstates 2\n"));
    let table = run(&["write", "branch", "--branch", &example("branch.txt")], b"").0;
    let shown = said(&["show"], &table);
    assert_eq!(shown, "states 2\nlabels 2\nstep 0 0 -> 0\nstep 0 1 -> 1\nstep 1 0 -> 0\nstep 1 1 -> 1\naccept 1\n");
    let (as_bytes, as_text) = (folder.file("branch", &table), folder.file("branch.txt", shown.as_bytes()));
    let asked = said(&["branch", &example("branch.txt"), "6", "4"], &sample);
    for words in [&["branch", &as_bytes, "6", "4"][..], &["branch", "6", "4", "--branch", &as_text]] {
        assert_eq!(said(words, &sample), asked, "{:?}", words);
    }
    // a byte-order mark is no line
    assert_eq!(run(&["answer"], &[b"\xef\xbb\xbf", &sample[..]].concat()), run(&["answer"], &sample));
}

/// A planner's file as bytes, both ways, and as the plan of any verb.
#[test]
fn planner_s_files() {
    let folder = Folder::new("planner");
    let text = fs::read(example("planner.txt")).unwrap();
    let plan = run(&["planner", "import", "--bytes"], &text).0;
    let file = run(&["planner", "export", "--bytes"], &plan).0;
    assert_eq!((plan.len(), file.len()), (14 + 4 * 6, 12 + 2 * 6));
    assert_eq!(run(&["planner", "import", "--bytes"], &file).0, plan);
    let imported = said(&["planner", "import"], &text);
    assert!(imported.starts_with(&said(&["planner", "import"], &file)));
    assert!(said(&["planner", "export"], imported.as_bytes()).starts_with(&said(&["planner", "export"], &plan)));
    assert_eq!(said(&["planner", "dot"], &file), said(&["planner", "dot"], &text));
    let answers = said(&["answer"], imported.as_bytes());
    let (file, by_name) = (folder.file("file", &file), example("planner.txt"));
    assert_eq!(said(&["answer", "--planner", &by_name], b""), answers);
    // its rules and its questions by planner's nodes, from other files
    let rest = String::from_utf8(text).unwrap().split_once("\nrules").unwrap().1.to_string();
    let rest = folder.file("rest", format!("rules{}", rest).as_bytes());
    assert_eq!(said(&["answer", "--planner", &file, "--rules", &rest, "--questions", &rest], b""), answers);
    let (_, err, status) = run(&["answer", "--plan", &file, "--rules", &rest], b"");
    assert_eq!((status, err.contains("this looks like a planner's file, not a plan's bytes")), (1, true), "{}", err);
    let questions = folder.file("questions", b"questions\np1->0\n");
    let (_, err, status) = run(&["answer", "--questions", &questions, "--rules", &rest], b"");
    assert_eq!((status, err.contains("line 2: 'pNODE' names a planner's node")), (1, true), "{}", err);
}

/// A planner's file whose plan has 61,471 nodes is answered, explained, drawn and goes home.
#[test]
fn a_planner_s_file_of_a_full_arch() {
    let folder = Folder::new("arch");
    let nodes = 30_735;
    // a chain with a leaf beside each inner node
    let counts: Vec<u8> = (0..nodes).map(|v| if v % 2 == 0 && v + 1 < nodes { 2 } else { 0 }).collect();
    let labels: Vec<u8> = (0..nodes).map(|v| (v % 63) as u8).collect();
    let mut bytes: Vec<u8> = [nodes, 12, 12 + nodes].iter().flat_map(|&n| (n as u32).to_le_bytes()).collect();
    bytes.extend(labels);
    // top first: a node, its first child, which is a leaf, then its second
    bytes.extend(counts);
    let file = folder.file("arch", &bytes);
    let rules = folder
        .file("rules", b"rules\nstates 2\nlabels 64\nleaf * -> 0\ninner * * * -> 1\ninner * 9 * -> 0\naccept 1\n");
    let questions = folder.file("questions", b"questions\nnone\np0->9\np30000->1 p12->9\n");
    let files = ["--planner", &file, "--rules", &rules, "--questions", &questions];
    let answers = said(&[&["answer"][..], &files].concat(), b"");
    assert_eq!(answers.lines().count(), 3);
    assert!(answers.contains(": not cleared, state 0"), "{}", answers);
    assert!(said(&[&["why", "2"][..], &files].concat(), b"").contains("the root, label 0 to 9: state 1 to 0"));
    assert!(said(&[&["outline", "3"][..], &files].concat(), b"").starts_with("digraph outline {"));
    let plan = run(&["planner", "import", "--bytes"], &bytes).0;
    assert_eq!(plan.len(), 12 + 2 * 61_471);
    assert_eq!(run(&["planner", "export", "--bytes"], &plan).0, bytes);
}

/// What a wrong file looks like, and where it breaks off.
#[test]
fn wrong_files() {
    let folder = Folder::new("wrong");
    let sample = fs::read(example("sample.txt")).unwrap();
    let part = |name: &str| run(&["write", name], &sample).0;
    let (plan, rules, questions) = (part("plan"), part("rules"), part("questions"));
    let table = run(&["write", "branch", "--branch", &example("branch.txt")], b"").0;
    let (branch, script) = (example("branch.txt"), example("session.txt"));
    let cut = |bytes: &[u8], by: usize| bytes[..bytes.len() - by].to_vec();
    let altered = |bytes: &[u8], at: usize| {
        let mut bytes = bytes.to_vec();
        bytes[at] = 99;
        bytes
    };
    let rows: Vec<(&str, Vec<u8>, &str)> = vec![
        ("--plan", cut(&plan, 6), "a plan of 7 nodes has 26 bytes, and this breaks off at byte 20"),
        ("--plan", [&plan[..], &[0]].concat(), "a plan of 7 nodes has 26 bytes, and this goes on to byte 27"),
        ("--plan", plan[..9].to_vec(), "not the bytes of a plan: it breaks off at byte 9, in a header of 12 bytes"),
        ("--plan", altered(&plan, 4), "at byte 4 it has 99, and should have 12"),
        ("--plan", altered(&plan, 8), "at byte 8 it has 99, and should have 19"),
        ("--plan", rules.clone(), "this looks like a rule table's bytes, not a plan's bytes"),
        ("--plan", table.clone(), "this looks like a branch table's bytes, not a plan's bytes"),
        ("--plan", fs::read(&branch).unwrap(), "this looks like a branch table as text, not a plan's bytes"),
        ("--plan", fs::read(&script).unwrap(), "this looks like a script, not a plan's bytes"),
        ("--plan", b"rules\nstates 1\n".to_vec(), "this text has no section 'plan'"),
        ("--plan", b"plan\nleaf 1\ntwig 2\n".to_vec(), "line 3: a line of the plan is"),
        ("--plan", b"\n\nhello\n".to_vec(), "line 3: this is text of no known form"),
        (
            "--rules",
            cut(&rules, 1),
            "a rule table of 2 states and 2 labels has 32 bytes, and this breaks off at byte 31",
        ),
        ("--rules", altered(&rules, 16), "at byte 16 it has 99, and should have 30"),
        ("--rules", plan.clone(), "this looks like a plan's bytes, not a rule table's bytes"),
        ("--rules", b"plan\nleaf 1\n".to_vec(), "this text has no section 'rules'"),
        ("--questions", cut(&questions, 2), "question 9 begins at byte 43 and breaks off at byte 49"),
        ("--questions", rules.clone(), "this looks like a rule table's bytes, and has no questions"),
        ("--input", cut(&part("plan"), 1), "a plan of 7 nodes has 26 bytes, and this breaks off at byte 25"),
        ("--input", fs::read(&branch).unwrap(), "this looks like a branch table as text: take --branch FILE"),
        ("--planner", cut(&plan, 6), "this looks like a plan's bytes, not a planner's file"),
    ];
    for (option, bytes, what) in rows {
        let path = folder.file("wrong", &bytes);
        let (out, err, status) = run(&["answer", option, &path], b"");
        assert_eq!((status, out.len()), (1, 0), "{} {}", what, err);
        assert!(err.starts_with(&format!("whatif-text: {}: ", path)) && err.contains(what), "{}\n{}", what, err);
        assert_eq!(err.lines().count(), 1, "{}", err);
    }
    let whole = fs::read(example("sample.bin")).unwrap();
    let (_, err, status) = run(&["answer"], &whole[..100]);
    assert_eq!(status, 1);
    assert!(
        err.contains("plan, rules and questions of 26, 32 and 51 bytes would make 121, and it breaks off at byte 100")
    );
    let (_, err, status) = run(&["branch", &script, "6", "4"], &sample);
    assert_eq!((status, err.contains("this looks like a script, not a branch table's bytes")), (1, true), "{}", err);
}

/// A rule table whose bytes could be an input of three lengths is a rule table.
#[test]
fn a_header_that_is_two() {
    let folder = Folder::new("two");
    let text = b"rules\nstates 2\nlabels 3\nleaf * -> 0\ninner * * * -> 0\naccept 0\n";
    let bytes = run(&["write", "rules"], text).0;
    assert!(text::parts_of(&bytes).is_some());
    let path = folder.file("rules", &bytes);
    let answer = said(&["answer", "--rules", &path, "--plan", "-"], b"plan\nleaf 2\n");
    assert_eq!(answer, "");
    assert!(said(&["show"], &bytes).starts_with("rules\nstates 2\nlabels 3\n"));
}

#[test]
fn standard_input_once() {
    let rows: [&[&str]; 5] = [
        &["answer", "--plan", "-", "--rules", "-"],
        &["merge", "-", "-"],
        &["session", "-"],
        &["branch", "-", "6", "4"],
        &["check", "x", "-"],
    ];
    for words in rows {
        let (_, err, status) = run(words, b"");
        assert_eq!((status, err.contains("standard input can be read once")), (2, true), "{}", err);
    }
    // once is fine, wherever it is
    let (sample, script) = (example("sample.txt"), fs::read(example("session.txt")).unwrap());
    assert_eq!(run(&["session", "-", "--input", &sample], &script).2, 3);
    let table = fs::read(example("branch.txt")).unwrap();
    assert!(said(&["branch", "-", "6", "4", "--input", &sample], &table).starts_with("from below node 6"));
    let (_, err, status) = run(&["answer", "--plan", "a", "--plan", "b"], b"");
    assert_eq!((status, err.as_str()), (2, "whatif-text: '--plan' stands twice: a and b\n"));
}
