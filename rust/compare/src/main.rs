//! Random comparisons of every kind, round after round: a set number of rounds, or until so many seconds have passed.
//! Round r of seed S is the first round of seed S + r, so a difference is told with the seed that shows it at once.

use compare::counts::Counts;
use compare::difference::Difference;
use compare::rounds::{Round, ROUNDS};
use std::process::exit;
use std::time::{Duration, Instant};

const USAGE: &str = "usage: compare [--seed S] [--rounds R | --seconds T] [--only NAME]..";
/// Without --seed, --rounds and --seconds.
const SEED: u64 = 1;
const ROUNDS_ALONE: u64 = 1_000;
/// Between two lines of progress.
const PAUSE: Duration = Duration::from_secs(2);

/// When to end.
enum End {
    Rounds(u64),
    Seconds(u64),
}

struct Options {
    /// The first one.
    seed: u64,
    end: End,
    rounds: Vec<Round>,
}

fn options() -> Option<Options> {
    let mut options = Options { seed: SEED, end: End::Rounds(ROUNDS_ALONE), rounds: vec![] };
    let mut words = std::env::args().skip(1);
    while let Some(word) = words.next() {
        let value = words.next()?;
        match word.as_str() {
            "--seed" => options.seed = value.parse().ok()?,
            "--rounds" => options.end = End::Rounds(value.parse().ok()?),
            "--seconds" => options.end = End::Seconds(value.parse().ok()?),
            "--only" => options.rounds.push(*ROUNDS.iter().find(|round| round.name == value)?),
            _ => return None,
        }
    }
    if options.rounds.is_empty() {
        options.rounds = ROUNDS.to_vec();
    }
    Some(options)
}

fn main() {
    let Options { seed, end, rounds: kinds } = options().unwrap_or_else(|| {
        eprintln!("{}", USAGE);
        exit(2)
    });
    let begun = Instant::now();
    let mut counts: Vec<Counts> = kinds.iter().map(|_| Counts::default()).collect();
    let mut told = begun;
    let mut rounds = 0;
    let goes_on = |rounds: u64| match end {
        End::Seconds(limit) => rounds == 0 || begun.elapsed() < Duration::from_secs(limit),
        End::Rounds(limit) => rounds < limit,
    };
    println!("seed {}: --seed {} repeats this run", seed, seed);
    while goes_on(rounds) {
        let own = seed.wrapping_add(rounds);
        for (round, counts) in kinds.iter().zip(&mut counts) {
            if let Some(difference) = round.run(own, counts) {
                tell(own, round, &difference);
                exit(1);
            }
        }
        rounds += 1;
        if told.elapsed() >= PAUSE {
            told = Instant::now();
            println!("{} s: {} rounds, {} cases, no difference", begun.elapsed().as_secs(), rounds, total(&counts));
        }
    }
    for (round, counts) in kinds.iter().zip(&counts) {
        print!("{}: {} cases\n{}", round.name, counts.total(), counts);
    }
    let passed = begun.elapsed().as_secs();
    println!("seed {}: {} rounds, {} cases, no difference, {} s", seed, rounds, total(&counts), passed);
}

fn total(counts: &[Counts]) -> usize {
    counts.iter().map(Counts::total).sum()
}

fn tell(seed: u64, round: &Round, difference: &Difference) {
    println!("a difference, with --seed {}: {}", seed, round.name);
    difference.case.iter().for_each(|line| println!("  {}", line));
    println!("  {} ({})", difference.what, difference.at);
}
