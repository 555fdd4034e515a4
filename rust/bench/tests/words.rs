//! The bench's words: help is no error, and other words are one, without a panic.

use std::process::{Command, Output};

fn bench(words: &[&str]) -> Output {
    Command::new(env!("CARGO_BIN_EXE_bench")).args(words).output().expect("it starts")
}

#[test]
fn help() {
    let done = bench(&["--help"]);
    assert_eq!(done.status.code(), Some(0));
    assert!(done.stdout.starts_with(b"usage: bench"));
}

#[test]
fn other_words() {
    for words in [
        &["-h", "x"][..],
        &["calls", "random", "many", "2", "0"],
        &["only"],
        &["screens", "deals", "random", "15", "2", "0"],
        &["descents", "9", "17", "often"],
    ] {
        let done = bench(words);
        assert_eq!((done.status.code(), done.stdout.len()), (Some(2), 0), "{:?}", words);
        assert!(done.stderr.starts_with(b"usage: bench"), "{:?}", words);
    }
}
