//! What the examples print is what is stored beside them. Cargo builds them with the tests; where this test alone is
//! built, `cargo build --examples` comes first.

use std::env;
use std::fs;
use std::path::{Path, PathBuf};
use std::process::Command;

/// The folder of the examples, beside that of this test.
fn built() -> PathBuf {
    let test = env::current_exe().expect("a path");
    test.parent().and_then(Path::parent).expect("target/PROFILE/deps").join("examples")
}

#[test]
fn every_example_prints_what_is_stored() {
    let folder = Path::new(env!("CARGO_MANIFEST_DIR")).join("examples");
    let mut names: Vec<String> = fs::read_dir(&folder)
        .expect("a folder")
        .filter_map(|file| file.ok()?.file_name().to_str()?.strip_suffix(".rs").map(String::from))
        .collect();
    names.sort();
    assert_eq!(names, ["branch", "colours", "planner", "screens", "session"]);
    for name in names {
        let done = Command::new(built().join(&name)).output().unwrap_or_else(|error| panic!("{}: {}", name, error));
        assert!(done.status.success(), "{}: {}", name, String::from_utf8_lossy(&done.stderr));
        let (printed, stored) =
            (String::from_utf8(done.stdout).expect("text"), folder.join(format!("{}.expected", name)));
        if env::var_os("WHATIF_EXAMPLES_STORE").is_some() {
            fs::write(&stored, &printed).expect("written");
        }
        assert_eq!(printed, fs::read_to_string(&stored).unwrap_or_default(), "{}", name);
    }
}
