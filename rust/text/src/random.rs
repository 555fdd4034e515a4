//! `whatif-text random`: a plan to try, with rules and questions, as text. The same words give the same text.

use crate::generator::{arch, balanced, lasting_rules, left_comb, random_rules, uniform, Random};
use crate::nearest::nearest;
use crate::outcome::Failure;
use crate::show;
use whatif::layout::with_header;
use whatif::sizes::{MAX_CHANGES, MAX_LABELS, MAX_NODES, MAX_STATES};
use whatif::{Kind, Plan};

/// What the words ask for.
struct Wanted {
    nodes: usize,
    shape: String,
    states: usize,
    labels: usize,
    questions: usize,
    changes: usize,
    seed: usize,
    rules: String,
}

const MAX_QUESTIONS: usize = 1_000_000;

/// The text; none where the words are no options, wrong where one has another value than it can have.
pub fn text(words: &[&str]) -> Option<Result<String, Failure>> {
    let mut wanted = Wanted {
        nodes: 0,
        shape: String::new(),
        states: 4,
        labels: 4,
        questions: 8,
        changes: 8,
        seed: 1,
        rules: "lasting".into(),
    };
    if words.len() % 2 == 1 {
        return None;
    }
    for pair in words.chunks_exact(2) {
        match wanted.take(pair[0], pair[1])? {
            Ok(()) => (),
            Err(failure) => return Some(Err(failure)),
        }
    }
    if wanted.nodes == 0 || wanted.shape.is_empty() {
        return None;
    }
    Some(wanted.text())
}

pub(crate) const OPTIONS: [&str; 8] =
    ["--nodes", "--shape", "--states", "--labels", "--questions", "--changes", "--rules", "--seed"];

/// What is wrong with words that are no options.
pub fn usage(words: &[&str]) -> Failure {
    let unknown = words.iter().step_by(2).find(|word| !OPTIONS.contains(word));
    Failure::Usage(match unknown {
        Some(word) => {
            let near = nearest(word, OPTIONS).map_or(String::new(), |near| format!("; did you mean '{}'?", near));
            format!("'{}' is no option of 'random'{} (whatif-text help random)", word, near)
        }
        None if words.len() % 2 == 1 => format!("'{}' needs a value", words[words.len() - 1]),
        None => "'random' needs --nodes N and --shape arch|comb|balanced|random".to_string(),
    })
}

impl Wanted {
    fn take(&mut self, option: &str, value: &str) -> Option<Result<(), Failure>> {
        let (place, range) = match option {
            "--shape" => {
                self.shape = value.into();
                return Some(Ok(()));
            }
            "--rules" => {
                self.rules = value.into();
                return Some(Ok(()));
            }
            "--nodes" => (&mut self.nodes, 1..=MAX_NODES),
            "--states" => (&mut self.states, 1..=MAX_STATES),
            "--labels" => (&mut self.labels, 1..=MAX_LABELS),
            "--questions" => (&mut self.questions, 0..=MAX_QUESTIONS),
            "--changes" => (&mut self.changes, 0..=MAX_CHANGES),
            "--seed" => (&mut self.seed, 0..=usize::MAX),
            _ => return None,
        };
        let number = value.parse().ok().filter(|number| range.contains(number));
        let wrong = || format!("{} {}: this is not a number from {} to {}", option, value, range.start(), range.end());
        Some(number.ok_or_else(|| Failure::Wrong(wrong())).map(|number| *place = number))
    }

    fn text(&self) -> Result<String, Failure> {
        if self.nodes % 2 == 0 {
            let why = "an inner node has two children, so a plan has an odd number of nodes";
            return Err(Failure::wrong(format!("--nodes {}: {}", self.nodes, why)));
        }
        let mut random = Random::new(self.seed as u64);
        let kinds = self.kinds(&mut random)?;
        let labels = random.bytes_below(self.nodes, self.labels);
        let plan = Plan::new(&labels, &kinds).expect("one tree").into_bytes();
        let rules = self.rules(&mut random)?;
        let questions: Vec<u8> = (0..self.questions).flat_map(|_| self.question(&labels, &mut random)).collect();
        let bytes = with_header(&[plan.len(), rules.len(), questions.len()], &[&plan, &rules, &questions]);
        Ok(show(&bytes).expect("as long as its lengths say"))
    }

    fn kinds(&self, random: &mut Random) -> Result<Vec<Kind>, Failure> {
        let leaves = (self.nodes + 1) / 2;
        Ok(match self.shape.as_str() {
            "arch" => arch(leaves),
            "comb" => left_comb(leaves),
            "balanced" => balanced(leaves),
            "random" => uniform(leaves, random),
            other => {
                return Err(Failure::wrong(format!("--shape {}: this is not arch, comb, balanced or random", other)))
            }
        })
    }

    /// Some states are marked and some are not, where there are two.
    fn rules(&self, random: &mut Random) -> Result<Vec<u8>, Failure> {
        let of = match self.rules.as_str() {
            "lasting" => lasting_rules,
            "random" => random_rules,
            other => return Err(Failure::wrong(format!("--rules {}: this is not lasting or random", other))),
        };
        loop {
            let rules = of(self.states, self.labels, random);
            let marks = &rules[rules.len() - self.states..];
            if self.states == 1 || (marks.contains(&0) && marks.contains(&1)) {
                return Ok(rules);
            }
        }
    }

    /// Different nodes, each with another label than its own, where there is one.
    fn question(&self, labels: &[u8], random: &mut Random) -> Vec<u8> {
        let mut nodes: Vec<u16> = Vec::new();
        while nodes.len() < self.changes.min(self.nodes) {
            let v = random.below(self.nodes) as u16;
            if !nodes.contains(&v) {
                nodes.push(v);
            }
        }
        let change = |v: u16| {
            let other = 1 + random.below(self.labels.max(2) - 1);
            let label = (labels[v as usize] as usize + other) % self.labels;
            [v.to_le_bytes()[0], v.to_le_bytes()[1], label as u8]
        };
        let listed = nodes.into_iter().flat_map(change);
        (self.changes.min(self.nodes) as u16).to_le_bytes().into_iter().chain(listed).collect()
    }
}
