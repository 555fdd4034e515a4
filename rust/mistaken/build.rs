//! Writes the sources of the reference, with the edits of mistakes.patch, to be included by src/lib.rs.

use std::collections::BTreeMap;
use std::env;
use std::fs;
use std::path::Path;

const REFERENCE: &str = "../reference/src";
const EDITS: &str = "mistakes.patch";

fn main() {
    println!("cargo:rerun-if-changed={}", EDITS);
    println!("cargo:rerun-if-changed={}", REFERENCE);
    let mut sources = BTreeMap::new();
    for entry in fs::read_dir(REFERENCE).expect(REFERENCE) {
        let path = entry.expect(REFERENCE).path();
        println!("cargo:rerun-if-changed={}", path.display());
        let name = path.file_name().expect("a file").to_str().expect("UTF-8").to_string();
        sources.insert(name, fs::read_to_string(&path).expect("a source"));
    }
    let edits = fs::read_to_string(EDITS).expect(EDITS);
    for edit in edits.split("\n@@ ").skip(1) {
        let (name, lines) = edit.split_once('\n').expect("lines");
        let source = sources.get_mut(name).unwrap_or_else(|| panic!("{}: the reference has no {}", EDITS, name));
        *source = edited(name, source, lines);
    }
    let out = env::var("OUT_DIR").expect("cargo sets it");
    for (name, source) in &sources {
        fs::write(Path::new(&out).join(name), included(source)).expect("it is written");
    }
}

/// The source with the lines that are taken out replaced by those that are put in; both have the lines that stay.
fn edited(name: &str, source: &str, lines: &str) -> String {
    let kept = |other: char| -> String {
        let lines = lines.lines().filter(|line| !line.starts_with(other));
        lines.map(|line| format!("{}\n", line.get(1..).unwrap_or(""))).collect()
    };
    let (old, new) = (kept('+'), kept('-'));
    // whole lines
    let (source, old, new) = (format!("\n{}", source), format!("\n{}", old), format!("\n{}", new));
    assert_eq!(source.matches(&old).count(), 1, "{}: this is not in {} once:{}", EDITS, name, old);
    source.replacen(&old, &new, 1)[1..].to_string()
}

/// A module's own comment can't be included; modules are included in their turn. The switches are there for the edits.
fn included(source: &str) -> String {
    let mut text = String::new();
    if source.contains("Mistake::") {
        text += "use crate::mistakes::*;\n";
    }
    for line in source.lines().filter(|line| !line.starts_with("//!")) {
        match line.strip_prefix("pub mod ").and_then(|rest| rest.strip_suffix(';')) {
            Some(name) => {
                let path = format!("concat!(env!(\"OUT_DIR\"), \"/{}.rs\")", name);
                text += &format!("pub mod {} {{ include!({}); }}\n", name, path);
            }
            None => text += &format!("{}\n", line),
        }
    }
    text
}
