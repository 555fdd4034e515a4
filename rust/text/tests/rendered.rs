//! The pictures are drawn by Graphviz's dot: without a word from it, on one page, with every node. Where dot is missing
//! the tests fail, unless WHATIF_SKIP has its name. Those of our own layout are XML, and no node lies on another.

use std::env;
use std::fs;
use std::io::Write;
use std::path::Path;
use std::process::{Command, Stdio};
use text::input::Input;
use text::picture::Drawn;

const SAMPLE: &str = include_str!("../../../examples/sample.txt");

/// The picture, or none where dot is not to be tried.
fn svg(graphviz: &str) -> Option<String> {
    if env::var("WHATIF_SKIP").map_or(false, |names| names.split_whitespace().any(|name| name == "dot")) {
        eprintln!("NOT TRIED with dot, as WHATIF_SKIP says");
        return None;
    }
    let mut dot = Command::new("dot");
    let dot = dot.arg("-Tsvg").stdin(Stdio::piped()).stdout(Stdio::piped()).stderr(Stdio::piped());
    let mut running = dot.spawn().expect("dot, of Debian's graphviz (WHATIF_SKIP=dot does without it)");
    running.stdin.take().unwrap().write_all(graphviz.as_bytes()).unwrap();
    let done = running.wait_with_output().unwrap();
    assert!(done.status.success() && done.stderr.is_empty(), "{}", String::from_utf8_lossy(&done.stderr));
    Some(String::from_utf8(done.stdout).unwrap())
}

/// Width and height in points.
fn size(svg: &str) -> [f64; 2] {
    ["width=\"", "height=\""].map(|name| {
        let from = svg.find(name).unwrap() + name.len();
        svg[from..from + svg[from..].find("pt\"").unwrap()].parse().unwrap()
    })
}

/// How many nodes Graphviz text has, its legend one of them.
fn nodes(graphviz: &str) -> usize {
    graphviz.lines().filter(|line| line.contains(" [") && line.contains("label=") && !line.contains(" -> ")).count()
}

const PAGE: [f64; 2] = [7.5 * 72.0 + 1.0, 10.5 * 72.0 + 1.0];

/// Graphviz draws every node without a word, on one page where that is asked for. Ours is XML, as far as xmllint is there.
fn rendered(graphviz: &str, ours: &str, on_one_page: bool) {
    if let Some(svg) = svg(graphviz) {
        let [width, height] = size(&svg);
        assert!(!on_one_page || (width <= PAGE[0] && height <= PAGE[1]), "{} {}", width, height);
        assert_eq!(svg.matches("<g id=\"node").count(), nodes(graphviz), "{}", graphviz);
    }
    let lint = Command::new("xmllint").args(["--noout", "-"]).stdin(Stdio::piped()).stderr(Stdio::piped()).spawn();
    match lint {
        Ok(mut lint) => {
            lint.stdin.take().unwrap().write_all(ours.as_bytes()).unwrap();
            let done = lint.wait_with_output().unwrap();
            assert!(done.status.success(), "{} {}", String::from_utf8_lossy(&done.stderr), ours);
        }
        Err(_) => eprintln!("NOT TRIED: xmllint is not there"),
    }
    no_overlap(ours);
}

/// The borders of nodes of our layout do not lie on one another, and none leaves the picture.
fn no_overlap(svg: &str) {
    let number = |text: &str, name: &str| -> f64 {
        let from = text.find(&format!(" {}=\"", name)).unwrap() + name.len() + 3;
        text[from..from + text[from..].find('"').unwrap()].parse().unwrap()
    };
    let (width, height) = (number(svg, "width"), number(svg, "height"));
    let boxes: Vec<[f64; 4]> = svg
        .split("<g class=\"node\">")
        .skip(1)
        .map(|node| node[node.find("<rect").unwrap()..].to_string())
        .map(|rect| ["x", "y", "width", "height"].map(|name| number(&rect, name)))
        .collect();
    for (i, a) in boxes.iter().enumerate() {
        assert!(
            a[0] >= 0.0 && a[1] >= 0.0 && a[0] + a[2] <= width && a[1] + a[3] <= height,
            "{:?} {} {}",
            a,
            width,
            height
        );
        for b in &boxes[i + 1..] {
            let apart = a[0] + a[2] <= b[0] || b[0] + b[2] <= a[0] || a[1] + a[3] <= b[1] || b[1] + b[3] <= a[1];
            assert!(apart, "{:?} {:?}", a, b);
        }
    }
}

fn of(words: &str) -> Input {
    let words: Vec<&str> = words.split(' ').collect();
    Input::of_text(&text::random::text(&words).unwrap().unwrap()).unwrap()
}

#[test]
fn whole_plans() {
    let sample = Input::of_text(SAMPLE).unwrap();
    for question in 1..=6 {
        let [dot, ours] = [Drawn::Dot, Drawn::Svg].map(|how| text::draw(&sample, question, true, 1, how).unwrap());
        assert_eq!(nodes(&dot), 7 + 1);
        rendered(&dot, &ours, true);
    }
    for shape in ["arch", "comb", "balanced", "random"] {
        let input = of(&format!("--nodes 99 --shape {} --questions 2", shape));
        for draw in [text::draw, text::draw_allowed] {
            let [dot, ours] = [Drawn::Dot, Drawn::Svg].map(|how| draw(&input, 2, true, 1, how).unwrap());
            rendered(&dot, &ours, true);
        }
    }
}

/// A full arch with eight changes; and every page of the question with the most parts, on the most nodes.
#[test]
fn outlines() {
    let arch = of("--nodes 61471 --shape arch --seed 6 --questions 4");
    let most = of("--nodes 65535 --shape random --changes 64 --questions 1 --states 16 --labels 64");
    let mut pages: Vec<(&Input, usize, usize)> = (1..=4).map(|question| (&arch, question, 1)).collect();
    pages.extend((1..=4).map(|page| (&most, 1, page)));
    for (input, question, page) in pages {
        let [dot, ours] = [Drawn::Dot, Drawn::Svg].map(|how| text::draw(input, question, true, page, how).unwrap());
        rendered(&dot, &ours, true);
        // letters of 12 points stay readable where the picture is put on a page
        let height: f64 = ours.split("height=\"").nth(1).unwrap().split('"').next().unwrap().parse().unwrap();
        assert!(height <= 1_800.0, "{}", height);
    }
}

/// The path of a branch question is one page, however deep the plan; so is the path by colours, with every drop.
#[test]
fn paths() {
    let comb = of("--nodes 65535 --shape comb --labels 2");
    let branch = text::branch_table::of(include_str!("../../../examples/branch.txt")).unwrap();
    let colours = text::branch_table::of(include_str!("../../../examples/colours.txt")).unwrap();
    for nodes in [[65_534, 0], [65_534, 65_534], [300, 0], [8, 2]] {
        for reading in [text::branch::Reading::BelowUpper, text::branch::Reading::WithUpper] {
            let asked = text::branch::ask(&comb, &branch, nodes, reading).unwrap();
            rendered(&asked.picture(Drawn::Dot), &asked.picture(Drawn::Svg), true);
            let asked = text::colours::ask(&comb, &colours, nodes, reading).unwrap();
            let (dot, ours) = (asked.picture(Drawn::Dot), asked.picture(Drawn::Svg));
            let drops = asked.text(false).matches("a drop from colour").count();
            assert_eq!((dot.matches("drop \"]").count(), ours.matches("drop</text>").count()), (drops, drops));
            rendered(&dot, &ours, true);
        }
    }
}

/// Rule tables and branch tables, small and of the most states and labels; a separating plan; a planner's tree.
#[test]
fn tables_and_the_rest() {
    for words in ["--nodes 7 --shape comb --states 2 --labels 2", "--nodes 7 --shape comb --states 16 --labels 64"] {
        let input = of(words);
        let [dot, ours] =
            [Drawn::Dot, Drawn::Svg].map(|how| text::grids::rules(&input.rules, &input.names, how).unwrap());
        rendered(&dot, &ours, false);
        let rules = whatif::Rules::from_bytes(&input.rules[..]).unwrap();
        let fields = rules.labels() + rules.labels() * rules.states() * rules.states();
        assert_eq!(ours.matches("<g><title>").count(), fields);
    }
    let (table, names) = text::branch_table::of(include_str!("../../../examples/colours.txt")).unwrap();
    let [dot, ours] = [Drawn::Dot, Drawn::Svg].map(|how| text::grids::branch_table(&table, &names, how).unwrap());
    rendered(&dot, &ours, true);
    let planner = include_bytes!("../../../examples/planner.txt");
    let [dot, ours] =
        ["dot", "svg"].map(|word| String::from_utf8(text::planner::made(word, planner, false).unwrap()).unwrap());
    assert!(svg(&dot).is_some() || ours.starts_with("<svg"));
    no_overlap(&ours);
    assert_eq!(ours.matches("<g class=\"node\">").count(), 12, "six of the planner's, six inner ones of our plan");
}

/// docs/outline.svg is the picture of the arch's first question.
#[test]
fn the_readme_s_picture() {
    let arch = of("--nodes 61471 --shape arch --seed 6");
    let picture = Path::new(env!("CARGO_MANIFEST_DIR")).join("../../docs/outline.svg");
    let drawn = text::draw(&arch, 1, true, 1, Drawn::Svg).unwrap();
    assert_eq!(fs::read_to_string(picture).unwrap(), drawn, "whatif-text outline 1 svg");
}
