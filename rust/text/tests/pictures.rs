//! The pictures of plan A's questions: the same words and looks for Graphviz and as SVG, states before and after, the
//! verdict at the root; and the library is asked first.

use reference::fresh::fresh_run;
use text::input::Input;
use text::outcome::Failure;
use text::picture::Drawn;

const SAMPLE: &str = include_str!("../../../examples/sample.txt");

fn drawn(question: usize, how: Drawn) -> Result<String, Failure> {
    text::draw(&Input::of_text(SAMPLE)?, question, true, 1, how)
}

/// The nodes of Graphviz text, from the top, with their looks.
fn nodes(graphviz: &str) -> Vec<String> {
    let told = graphviz.lines().filter(|line| line.contains("[label=\"") && line.contains("tooltip"));
    let plain = |line: &str| line.trim().replace("\\n", " / ");
    told.map(|line| {
        let line = plain(line);
        let (from, to) = (line.find(", tooltip=\"").unwrap(), line.find("\", tooltip=\"").unwrap());
        let after = to + 1 + line[to + 1..].find("tooltip=\"").unwrap() + "tooltip=\"".len();
        let end = after + line[after..].find('"').unwrap() + 1;
        line[..from].to_string() + &line[end..]
    })
    .collect()
}

#[test]
fn one_change_has_two_parts() {
    let expected = [
        "0 [label=\"node 6, part 2 / label 1 / state 1 to 0 / the root: not cleared\", fillcolor=\"#f2a0a0\", peripheries=2, penwidth=2];",
        "1 [label=\"node 2 / label 1 / state 1 to 0\", style=\"filled,rounded,dashed\", fillcolor=\"#ffdca8\", color=\"#999999\", fontcolor=\"#666666\", penwidth=2];",
        "2 [label=\"node 0, part 1 / label 1 to 0 / state 1 to 0\", style=\"filled\", fillcolor=\"#ffdca8\", peripheries=2, penwidth=2];",
        "3 [label=\"node 1 / label 1 / state 1, as before\"];",
        "4 [label=\"node 5 / label 0 / state 1, as before\"];",
        "5 [label=\"node 3 / label 0 / state 0, as before\"];",
        "6 [label=\"node 4 / label 1 / state 1, as before\"];",
    ];
    let graphviz = drawn(2, Drawn::Dot).unwrap();
    assert_eq!(nodes(&graphviz), expected);
    assert!(graphviz.contains("label=\"Question 2: not cleared, state 0, 2 parts, 1 link, 1 node passed over\\n"));
    for edge in ["0 -> 1;", "0 -> 4;", "1 -> 2 [style=dashed, color=\"#999999\"", "1 -> 3;", "4 -> 5;", "4 -> 6;"] {
        assert!(graphviz.contains(&format!("    {}", edge)), "{} {}", edge, graphviz);
    }
}

/// Every line of words, the title and the legend stand in both; a node has a tip in both.
#[test]
fn both_ways_say_the_same() {
    for question in [1, 2, 3, 4, 5, 6, 9] {
        let (graphviz, svg) = (drawn(question, Drawn::Dot).unwrap(), drawn(question, Drawn::Svg).unwrap());
        assert_eq!((svg.matches("<g class=\"node\">").count(), nodes(&graphviz).len()), (7, 7));
        assert_eq!(svg.matches("<g class=\"node\"><title>").count(), 7);
        let texts = svg.split("</text>").filter_map(|piece| piece.rsplit_once('>')).map(|(_, words)| words.trim());
        for words in texts.filter(|words| !words.is_empty()) {
            assert!(graphviz.contains(words), "{}: {}", words, graphviz);
        }
    }
}

/// 0->0 0->1: the last entry is the node's own label, so nothing changes and the whole plan is one part.
#[test]
fn own_labels_are_no_change() {
    let drawn = drawn(9, Drawn::Dot).unwrap();
    assert!(drawn.contains("node 6, part 1\\nlabel 1\\nstate 1, as before\\nthe root: cleared"), "{}", drawn);
    assert!(!drawn.contains("part 2") && !drawn.contains(" [style=dashed"), "{}", drawn);
}

/// What the library refuses is refused, with its number: also a label that the rules do not have.
#[test]
fn what_cannot_be_drawn_is_said() {
    let wrong = |what: &str| Err(Failure::wrong(what));
    for (question, number) in [(7, 13), (8, 14)] {
        match drawn(question, Drawn::Svg) {
            Err(Failure::Refused(refused)) => assert_eq!(refused.refusal.number(), number),
            other => panic!("{:?}", other),
        }
    }
    assert_eq!(drawn(0, Drawn::Dot), wrong("there is no question 0: the input has 9"));
    assert_eq!(drawn(10, Drawn::Dot), wrong("there is no question 10: the input has 9"));
    let line = Input::of_text("plan\nleaf x\nquestions\nnone").err().expect("no number");
    assert_eq!(line, Failure::wrong("line 2: 'x' is not a number from 0 to 255"));
}

/// Where it is asked for, a node that can take one label alone or none says so, by single runs with the changes made; and
/// the legend says what that is. The root keeps the colour of the verdict.
#[test]
fn labels_that_nodes_may_take() {
    let small = "--nodes 31 --shape random --states 4 --labels 3 --changes 2 --questions 4 --seed 5";
    let arch = "--nodes 61471 --shape arch --seed 6 --questions 2";
    let mut inputs = vec![Input::of_text(SAMPLE).unwrap()];
    for words in [small, arch] {
        let words: Vec<&str> = words.split(' ').collect();
        inputs.push(Input::of_text(&text::random::text(&words).unwrap().unwrap()).unwrap());
    }
    let mut marked = [0; 3];
    for (input, k) in inputs.iter().zip([2, 3, 4]) {
        for question in [1, 2, 3, 4].iter().copied().filter(|&question| question <= input.questions.len()) {
            let [graphviz, svg] =
                [Drawn::Dot, Drawn::Svg].map(|how| text::draw_allowed(input, question, true, 1, how).unwrap());
            let list = &input.questions[question - 1];
            for node in nodes(&graphviz) {
                let v: u16 = node.split("node ").nth(1).unwrap().split([',', ' ']).next().unwrap().parse().unwrap();
                let clears = |label: &u8| {
                    let changes = list.iter().copied().chain([(v, *label)]);
                    let (nodes, labels): (Vec<u16>, Vec<u8>) = changes.unzip();
                    fresh_run(&input.plan, &input.rules, &nodes, &labels).unwrap().yes
                };
                let labels: Vec<u8> = (0..k).filter(clears).collect();
                let (words, fill) = match labels[..] {
                    [] => ("no label clears\"".to_string(), "#dddddd"),
                    [label] => (format!("only label {} clears\"", label), "#cfe4fa"),
                    _ => (String::new(), ""),
                };
                assert_eq!(node.contains(" clears\""), labels.len() <= 1, "{}", node);
                assert!(node.contains(&words) && (node.contains(fill) || node.contains("the root: ")), "{}", node);
                assert!(words.is_empty() || svg.contains(&format!(">{}<", words.trim_end_matches('"'))), "{}", svg);
                marked[labels.len().min(2)] += 1;
            }
            for words in ["only label ..", "no label"] {
                assert!(svg.contains(words) && graphviz.contains(words), "the legend: {}", words);
            }
            let plain = text::draw(input, question, true, 1, Drawn::Svg).unwrap();
            assert!(!plain.contains("clears") && !plain.contains("#cfe4fa") && !plain.contains("#dddddd"));
        }
    }
    assert!(marked.iter().all(|&number| number > 5), "{:?}", marked);
}

/// 64 changes on the most nodes: every part is on exactly one page, no page has too many, and pages are named.
#[test]
fn outlines_have_pages() {
    let words: Vec<&str> =
        "--nodes 65535 --shape random --changes 64 --questions 1 --states 16 --labels 64".split(' ').collect();
    let input = Input::of_text(&text::random::text(&words).unwrap().unwrap()).unwrap();
    let asked = text::loaded::Loaded::of(&input).unwrap().ask(&input.questions[0]).unwrap();
    let (mut parts, mut page, mut elsewhere) = (Vec::new(), 1, 0);
    let last = loop {
        let graphviz = match text::draw(&input, 1, true, page, Drawn::Dot) {
            Ok(graphviz) => graphviz,
            Err(failure) => break failure,
        };
        let nodes = nodes(&graphviz);
        let shown = nodes.iter().filter(|node| node.contains(", part ")).count();
        assert!((1..=text::outline::MOST).contains(&shown) && nodes.len() <= text::outline::MOST, "{}", graphviz);
        assert!(graphviz.contains(&format!("page {} of ", page)), "{}", graphviz);
        elsewhere += nodes.len() - shown;
        let part = |node: &String| {
            node.split(", part ").nth(1).map(|rest| rest.split(' ').next().unwrap().parse::<usize>().unwrap())
        };
        parts.extend(nodes.iter().filter_map(part));
        page += 1;
    };
    parts.sort_unstable();
    assert!(parts.iter().copied().eq(1..=asked.roots.len()), "{:?}", parts);
    assert_eq!(elsewhere, page - 2, "each page but the first is named on another");
    assert_eq!(last, Failure::wrong(format!("there is no page {}: the outline has {} pages", page, page - 1)));
}
