//! The pages in docs/lessons are what the commands of docs/TEACHING.md write. With WHATIF_TEXT_STORE=1 in the environment
//! they are stored anew.

use std::env;
use std::fs::{self, File};
use std::path::Path;
use std::process::Command;

/// Each page, the words that write it, and its input.
const PAGES: [(&str, &str, &str); 4] = [
    ("sample.html", "page 4", "examples/sample.txt"),
    ("screens.html", "screens-page examples/screens.txt", "examples/sample.txt"),
    ("sheet.html", "sheet 4", "examples/sample.txt"),
    ("exercise.html", "exercise mend 3 --seed 7", "examples/sample.txt"),
];

#[test]
fn are_what_the_program_writes() {
    let root = Path::new(env!("CARGO_MANIFEST_DIR")).join("../..");
    let teaching = fs::read_to_string(root.join("docs/TEACHING.md")).unwrap();
    for (name, words, input) in PAGES {
        assert!(teaching.contains(&format!("whatif-text {}", words)) && teaching.contains(name), "{}", name);
        let mut program = Command::new(env!("CARGO_BIN_EXE_whatif-text"));
        let program = program.args(words.split(' ')).current_dir(&root).stdin(File::open(root.join(input)).unwrap());
        let made = program.output().unwrap();
        assert!(made.status.success(), "{}", String::from_utf8_lossy(&made.stderr));
        let (file, page) = (root.join("docs/lessons").join(name), String::from_utf8(made.stdout).unwrap());
        if env::var_os("WHATIF_TEXT_STORE").is_some() {
            fs::write(&file, page).unwrap();
            continue;
        }
        assert!(fs::read_to_string(&file).unwrap_or_default() == page, "docs/lessons/{} is another page", name);
    }
    let stored = fs::read_dir(root.join("docs/lessons")).unwrap().count();
    assert_eq!(stored, PAGES.len(), "no other file is there");
}
