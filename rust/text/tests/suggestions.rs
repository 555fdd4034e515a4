//! Every single change, suggested or not, against the reference's fresh run: the verdict is turned exactly by those
//! suggested. So are the nodes of --robust, the states and labels of why, and of large plans some hundreds of changes.

use reference::fresh::fresh_run;
use std::collections::BTreeSet;
use text::input::Input;
use text::loaded::Loaded;
use text::outline::edges;
use text::robust::fragile;
use text::suggest::turns;

fn input(words: &str) -> Input {
    let words: Vec<&str> = words.split(' ').collect();
    Input::of_text(&text::random::text(&words).unwrap().unwrap()).unwrap()
}

/// The verdict on a plan with changes, by a run over the whole plan.
fn clears(input: &Input, changes: &[(u16, u8)]) -> bool {
    let (nodes, labels): (Vec<u16>, Vec<u8>) = changes.iter().copied().unzip();
    fresh_run(&input.plan, &input.rules, &nodes, &labels).unwrap().yes
}

#[test]
fn exactly_those_that_turn() {
    let (mut turned, mut tried) = (0, 0);
    for shape in ["arch", "comb", "balanced", "random"] {
        for (rules, states) in [("lasting", 2), ("lasting", 5), ("random", 3), ("random", 16)] {
            let words = format!("--nodes 61 --shape {} --rules {} --states {} --labels 5", shape, rules, states);
            let input = input(&words);
            let loaded = Loaded::new(&input.plan, &input.rules).unwrap();
            let now = clears(&input, &[]);
            let (labels, mut expected) = (loaded.labels().to_vec(), Vec::new());
            for v in 0..61u16 {
                for label in (0..5).filter(|&label| label != labels[v as usize]) {
                    if clears(&input, &[(v, label)]) != now {
                        expected.push((v, label));
                    }
                    tried += 1;
                }
            }
            let all: Vec<usize> = (0..61).collect();
            let found: Vec<(u16, u8)> =
                turns(&loaded, &all).unwrap().iter().map(|turn| (turn.node, turn.label)).collect();
            assert_eq!(found, expected, "{}", words);
            turned += found.len();
        }
    }
    assert!(turned > 100 && tried - turned > 100, "{} of {}", turned, tried);
}

/// Where some choice clears the plan, the one that is shown does, by the fresh run; where none is shown, none does.
#[test]
fn choices_that_clear() {
    let (mut shown, mut none) = (0, 0);
    for seed in 0..60 {
        let input = input(&format!("--nodes 41 --shape random --states 5 --labels 3 --seed {}", seed));
        let open: Vec<usize> = (0..41).step_by(7 + seed % 5).collect();
        let text = text::count::of_nodes(&input, &open, false).unwrap();
        match text.split_once("a choice that clears it: ") {
            Some((_, choice)) => {
                let pairs = choice.trim().split(' ').map(|pair| pair.split_once("->").expect("NODE->LABEL"));
                let list: Vec<(u16, u8)> =
                    pairs.map(|(v, label)| (v.parse().unwrap(), label.parse().unwrap())).collect();
                assert!(list.iter().map(|change| usize::from(change.0)).eq(open), "{}", text);
                assert!(clears(&input, &list), "{}", text);
                shown += 1;
            }
            None => {
                assert!(text.contains("no choice clears the plan"), "{}", text);
                assert!(!any_clears(&input, &open), "{}", text);
                none += 1;
            }
        }
    }
    assert!(shown > 30, "{} shown, {} times none", shown, none);
}

/// Whether one of the choices of three labels at these nodes clears the plan, by trying all.
fn any_clears(input: &Input, open: &[usize]) -> bool {
    let choices = 3usize.pow(open.len() as u32);
    (0..choices).any(|choice| {
        let label = |i: usize| (choice / 3usize.pow(i as u32) % 3) as u8;
        let list: Vec<(u16, u8)> = open.iter().enumerate().map(|(i, &v)| (v as u16, label(i))).collect();
        clears(input, &list)
    })
}

/// The largest plan, all labels: some four million changes.
#[test]
fn the_largest_plan() {
    let input = input("--nodes 65535 --shape comb --labels 64 --states 16");
    let begun = std::time::Instant::now();
    let text = text::suggest::of_nodes(&input, &[], None, false).unwrap();
    assert!(text.contains("of 4128705 changes at 65535 nodes turn that"), "{}", &text[..200]);
    assert!(text.contains("\n# this is the library's answer, by whatif_allowed\n"), "{}", &text[..300]);
    println!("{} changes in {:?}", 65_535 * 63, begun.elapsed());
    as_single_runs(&input, &text, 400);
}

/// So many changes of the whole plan, evenly spread: each is suggested exactly where a fresh run turns.
fn as_single_runs(input: &Input, text: &str, runs: usize) {
    let loaded = Loaded::new(&input.plan, &input.rules).unwrap();
    let suggested: BTreeSet<&str> = text.lines().collect();
    let (n, k, now) = (loaded.nodes(), loaded.rules().labels(), clears(input, &[]));
    let mut turned = 0;
    for i in (0..n * k).step_by((n * k / runs) | 1) {
        let (v, label) = ((i / k) as u16, (i % k) as u8);
        let turns = clears(input, &[(v, label)]) != now;
        assert_eq!(suggested.contains(&format!("{}->{}", v, label)[..]), turns, "{}->{}", v, label);
        turned += usize::from(turns);
    }
    assert!(turned > runs / 100 && turned < runs * 99 / 100, "{} of {}", turned, runs);
}

/// The links of the climbs that an outline shows, and the nodes that they pass over, are those that the library counts;
/// a picture of the whole plan draws as many nodes lightly.
#[test]
fn climbs_of_outlines() {
    for shape in ["arch", "comb", "balanced", "random"] {
        let input = input(&format!("--nodes 3001 --shape {} --questions 40", shape));
        let mut loaded = Loaded::new(&input.plan, &input.rules).unwrap();
        for question in &input.questions {
            let asked = loaded.ask(question).unwrap();
            let edges = edges(&loaded, &asked.roots);
            let climbs = || edges.iter().filter_map(|edge| edge.climb);
            assert_eq!(climbs().map(|climb| climb.1).sum::<usize>(), asked.answer.links as usize);
            assert_eq!(climbs().map(|climb| climb.0).sum::<usize>(), asked.answer.passed as usize);
            let light = text::dot::passed_over(&loaded, &asked.roots).into_iter().filter(|&passed| passed);
            assert_eq!(light.count(), asked.answer.passed as usize);
        }
    }
}

#[test]
fn large_plans() {
    for words in
        ["--nodes 20001 --shape arch --labels 8 --states 4", "--nodes 30001 --shape random --labels 5 --states 16"]
    {
        let input = input(words);
        as_single_runs(&input, &text::suggest::of_nodes(&input, &[], None, false).unwrap(), 300);
    }
}

/// The nodes where every other label loses the clearance, by single runs, nearest to the root first; none where the plan
/// is not cleared, and none where there is no other label.
#[test]
fn nodes_where_every_other_label_loses_the_clearance() {
    let (mut found, mut cleared) = (0, 0);
    for seed in 0..40 {
        let shape = ["arch", "comb", "balanced", "random"][seed % 4];
        let k = 1 + (seed / 4 % 4) as u8;
        let input = input(&format!("--nodes 61 --shape {} --states 3 --labels {} --seed {}", shape, k, seed));
        let loaded = Loaded::new(&input.plan, &input.rules).unwrap();
        let only = |v: &usize| {
            let mut labels = (0..k).filter(|&label| clears(&input, &[(*v as u16, label)]));
            k > 1 && labels.next() == Some(loaded.labels()[*v]) && labels.next().is_none()
        };
        let mut expected: Vec<usize> = (0..61).filter(only).collect();
        expected.sort_by_key(|&v| loaded.node(v).depth);
        let all: Vec<usize> = (0..61).collect();
        assert_eq!(fragile(&loaded, &all).unwrap(), expected, "{}", seed);
        let text = text::robust::of_nodes(&input, &[], Some(3), false).unwrap();
        let told =
            if clears(&input, &[]) { format!("\nat {} of 61 nodes ", expected.len()) } else { "no clearance".into() };
        assert!(text.contains(&told), "{}", text);
        let nodes =
            text.lines().filter_map(|line| line.strip_prefix("  node ")?.split(',').next()?.parse::<usize>().ok());
        assert!(nodes.eq(expected.iter().copied().take(3)), "{}", text);
        found += expected.len();
        cleared += usize::from(clears(&input, &[]));
    }
    assert!(found > 100 && (5..35).contains(&cleared), "{} {}", found, cleared);
}

/// The states that clear the plan, step by step up to the root; the labels, by single runs with the question's changes.
#[test]
fn states_and_labels_of_why() {
    let (mut none, mut some, mut cleared) = (0, 0, 0);
    for seed in 0..24 {
        let rules = ["lasting", "random"][seed % 2];
        let words =
            format!("--nodes 41 --shape random --rules {} --states 5 --labels 2 --changes 4 --seed {}", rules, seed);
        let input = input(&words);
        let loaded = Loaded::new(&input.plan, &input.rules).unwrap();
        for (i, list) in input.questions.iter().enumerate() {
            let changed = loaded.changed(list).unwrap();
            let told = |v: usize| {
                let states = numbers((0..5).filter(|&state| clears_with(&changed, v, state)));
                let labels =
                    numbers((0..2).filter(|&label| clears(&input, &[&list[..], &[(v as u16, label)]].concat())));
                format!("{{\"node\":{},\"clearing\":[{}],\"allowed\":[{}]}}", v, states, labels)
            };
            let listed: BTreeSet<usize> = list.iter().map(|change| change.0.into()).collect();
            let listed: Vec<String> = listed.into_iter().map(told).collect();
            let mut expected = format!("\"listed\":[{}]", listed.join(","));
            if clears(&input, list) {
                expected += "}\n";
                cleared += 1;
            } else {
                let repairs: Vec<usize> = (0..41).filter(|&v| !told(v).ends_with("[]}")).collect();
                let nearest = repairs.iter().min_by_key(|&&v| changed.node(v).depth).map(|&v| told(v));
                expected +=
                    &format!(",\"repairs\":{},\"nearest\":[{}]}}\n", repairs.len(), nearest.unwrap_or_default());
                *(if repairs.is_empty() { &mut none } else { &mut some }) += 1;
            }
            let said = text::why::of_question(&input, i + 1, false, true).unwrap();
            assert!(said.contains(&expected), "{} {}", said, expected);
        }
    }
    assert!(none > 3 && some > 20 && cleared > 20, "{} {} {}", none, some, cleared);
}

fn numbers(numbers: impl Iterator<Item = u8>) -> String {
    numbers.map(|number| number.to_string()).collect::<Vec<_>>().join(",")
}

/// Whether the plan is cleared where a node has this state, all else as it is.
fn clears_with(loaded: &Loaded, v: usize, state: u8) -> bool {
    let (children, mut state, mut v) = (loaded.panel.plan().children(), state, v);
    while v + 1 < loaded.nodes() {
        let p = loaded.parent(v);
        let (left, right) = children[p].unwrap();
        let of = |child: u16| if usize::from(child) == v { state } else { loaded.before(child.into()) };
        state = loaded.rules().inner(of(left), loaded.labels()[p], of(right)).unwrap();
        v = p;
    }
    loaded.rules().accepts(state)
}
