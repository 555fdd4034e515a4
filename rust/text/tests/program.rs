//! The program itself: its status, and that nothing is lost silently.

use std::fs::File;
use std::process::{Command, Output, Stdio};

const SAMPLE: &str = concat!(env!("CARGO_MANIFEST_DIR"), "/../../examples/sample.txt");

fn program(words: &[&str], input: &str, output: Stdio) -> Output {
    let mut program = Command::new(env!("CARGO_BIN_EXE_whatif-text"));
    program.args(words).stdin(File::open(input).expect(input)).stdout(output).stderr(Stdio::piped());
    program.output().expect("it starts")
}

fn status(words: &[&str], input: &str) -> Option<i32> {
    program(words, input, Stdio::piped()).status.code()
}

/// An output that can't be written is an error, short or long, for every word that writes.
#[test]
fn a_full_disk() {
    let full = || Stdio::from(File::options().write(true).open("/dev/full").expect("/dev/full"));
    for words in [
        &["write"][..],
        &["answer"],
        &["why", "1"],
        &["suggest"],
        &["outline", "1"],
        &["dot", "1"],
        &["--help"],
        &["--version"],
    ] {
        let done = program(words, SAMPLE, full());
        assert_eq!(done.status.code(), Some(1), "{:?}", words);
        assert!(String::from_utf8_lossy(&done.stderr).starts_with("whatif-text: "), "{:?}", words);
    }
}

#[test]
fn statuses() {
    assert_eq!(status(&["write"], SAMPLE), Some(0));
    assert_eq!(status(&["show"], SAMPLE), Some(1));
    assert_eq!(status(&["dot", "99"], SAMPLE), Some(1));
    assert_eq!(status(&["draw"], SAMPLE), Some(2));
    assert_eq!(status(&["random", "--nodes"], SAMPLE), Some(2));
    assert_eq!(status(&["random", "--nodes", "7", "--form", "arch"], SAMPLE), Some(2));
    assert_eq!(status(&["random", "--nodes", "7"], SAMPLE), Some(2));
}

#[test]
fn help_and_version() {
    let said = |words| String::from_utf8(program(words, "/dev/null", Stdio::piped()).stdout).expect("text");
    assert!(said(&["--help"]).starts_with("usage: whatif-text VERB"));
    assert_eq!((said(&["-h"]), said(&["help"])), (said(&["--help"]), said(&["--help"])));
    assert!(said(&["help", "outline"]).starts_with("usage: whatif-text outline QUESTION"));
    assert_eq!(
        (said(&["outline", "--help"]), said(&["outline", "-h"])),
        (said(&["help", "outline"]), said(&["help", "outline"]))
    );
    assert_eq!(said(&["--version"]), concat!("whatif-text ", env!("CARGO_PKG_VERSION"), "\n"));
    assert_eq!(said(&["-V"]), said(&["--version"]));
}

/// docs/whatif-text.md has the verbs of the help, and shows what is written.
#[test]
fn the_page() {
    let page = include_str!("../../../docs/whatif-text.md");
    let help = String::from_utf8(program(&["--help"], "/dev/null", Stdio::piped()).stdout).expect("text");
    for verb in text::verbs::ALL {
        assert!(help.contains(&format!("\n  {}", verb.name)) && help.contains(verb.what), "{}", verb.name);
        assert!(page.contains(&format!("`{}", verb.name)), "{}", verb.name);
        for option in text::args::options(verb) {
            assert!(page.contains(&format!("`{}", option)), "{}", option);
        }
    }
    let answers = include_str!("stored/answer");
    let shown: Vec<&str> = page.lines().filter_map(|line| line.strip_prefix("    question ")).collect();
    assert_eq!(shown.len(), 4);
    assert!(shown.iter().all(|line| answers.contains(&format!("question {}\n", line))), "{:?}", shown);
    let [count, colours] = [include_str!("stored/count-0-2"), include_str!("stored/colours-6-4")];
    let [why, fragile] = [include_str!("stored/why-2"), include_str!("stored/suggest-robust")];
    let [mend, robust] = [include_str!("stored/mend-2"), include_str!("stored/robust")];
    for stored in [count, colours, why, fragile, mend, robust] {
        let told = stored.trim_end_matches("status 0\n");
        let shown: Vec<String> = told.lines().map(|line| format!("    {}", line).trim_end().to_string()).collect();
        assert!(page.contains(&shown.join("\n")), "{:?}", shown);
    }
    let dealt: Vec<String> = include_str!("stored/screens").lines().map(|line| format!("    {}", line)).collect();
    assert!(page.contains(&dealt[2..8].join("\n")), "{:?}", &dealt[2..8]);
}
