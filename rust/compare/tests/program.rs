//! The program over the rounds: what it tells, and its status.

use std::process::{Command, Output};

fn run(words: &[&str]) -> Output {
    Command::new(env!("CARGO_BIN_EXE_compare")).args(words).output().expect("the program runs")
}

#[test]
fn a_second_of_rounds() {
    let output = run(&["--seed", "5", "--seconds", "1"]);
    let told = String::from_utf8(output.stdout).unwrap();
    assert!(output.status.success(), "{}", told);
    let last = told.lines().last().unwrap();
    assert!(last.starts_with("seed 5: ") && last.contains("no difference"), "{}", last);
    for round in compare::rounds::ROUNDS {
        assert!(told.contains(&format!("{}: ", round.name)), "{}", round.name);
    }
}

/// The seed comes first, and the same seed compares the same cases.
#[test]
fn a_seed_repeats_a_run() {
    let told = || {
        let told = String::from_utf8(run(&["--seed", "77", "--rounds", "2"]).stdout).unwrap();
        // without the seconds that it took
        told.lines()
            .map(|line| line.rsplit_once(", ").map_or(line, |(before, _)| before).to_string())
            .collect::<Vec<_>>()
    };
    let first = told();
    assert!(first[0].starts_with("seed 77: --seed 77 repeats"), "{:?}", first[0]);
    assert!(first.last().unwrap().starts_with("seed 77: 2 rounds"), "{:?}", first.last());
    assert_eq!(first, told());
}

#[test]
fn other_words_are_refused() {
    for words in
        [&["--turns", "1"][..], &["--seed"], &["--seconds", "soon"], &["--rounds"], &["--only", "none"], &["1"]]
    {
        assert_eq!(run(words).status.code(), Some(2), "{:?}", words);
    }
}
