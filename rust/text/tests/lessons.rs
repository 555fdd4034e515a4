//! The page of a question in a browser, clicked through: every sentence, number and class is compared with what the
//! library says of the same calls, at 7, 31, 1,001 and 61,471 nodes.

mod beside;
mod browser;

use beside::Beside;
use std::collections::BTreeSet;
use text::input::Input;
use text::lessons::{page, screens_page, sheet};

const SAMPLE: &str = include_str!("../../../examples/sample.txt");
const DRIVER: &str = include_str!("browser/page.js");

/// What is pressed, in the driver's words: buttons by their names, keys by theirs.
const PRESSED: [&str; 10] =
    ["advance", "cancel", "start", "start", "advance", "cancel", "back", "back", "back", "ArrowRight"];

/// The page of a question, pressed through, beside the library.
fn walks(text: &str, question: usize, allowed: bool) {
    if browser::skipped() {
        return;
    }
    let input = Input::of_text(text).unwrap();
    let page = page::of_question(&input, question, allowed).unwrap();
    assert_eq!(difference(&input, question, allowed, &page), None);
}

/// The first line in which the page is not what the library's answers are; `[page, library]`.
fn difference(input: &Input, question: usize, allowed: bool, page: &str) -> Option<[String; 2]> {
    let mut beside = Beside::new(input, question, allowed);
    let parts = beside.roots.len();
    let mut pressed: Vec<&str> = PRESSED.to_vec();
    pressed.extend(vec!["ArrowRight"; parts]);
    pressed.extend(["advance", "cancel", "s", "c", "End", "ArrowLeft", "advance", "start", "end"]);
    let all = beside.nodes() as u16;
    let shown: BTreeSet<u16> = if all <= 100 { (0..all).collect() } else { beside.roots.iter().copied().collect() };
    let mut expected = beside.lines(&shown);
    for what in &pressed {
        expected.push(format!("pressed\t{}", what));
        beside.press(what);
        expected.extend(beside.lines(&shown));
    }
    let written = browser::written(page, &format!("{}\nwalk({:?});", DRIVER, pressed));
    let line = |lines: &[String], i: usize| lines.get(i).map_or("(no line)".to_string(), String::clone);
    let pairs = (0..expected.len().max(written.len())).map(|i| [line(&written, i), line(&expected, i)]);
    pairs.into_iter().find(|[written, expected]| written != expected)
}

/// Above 100 nodes: three nodes of a climb at a time, the children of a node, and folded again.
#[test]
fn large_trees_unfold() {
    if browser::skipped() {
        return;
    }
    let input = Input::of_text(&random("--nodes 61471 --shape arch --seed 6")).unwrap();
    let page = page::of_question(&input, 1, false).unwrap();
    let mut beside = Beside::new(&input, 1, false);
    let mut shown: BTreeSet<u16> = beside.roots.iter().copied().collect();
    let (from, to) = *beside.climbs.values().next().unwrap();
    let (part, above) = (beside.panel.node(to).unwrap().parent, |v: u16| beside.panel.node(v).unwrap().parent);
    let path = [above(from), above(above(from)), above(above(above(from)))];
    let (edge, node) = (format!("e{}", from), format!("n{}", part));
    let children = beside.panel.plan().children()[usize::from(part)].unwrap();
    let mut expected = beside.lines(&shown);
    for (what, added) in [("end", vec![]), (&edge[..], path.to_vec()), (&node, vec![children.0, children.1])] {
        expected.push(format!("pressed\t{}", what));
        shown.extend(added);
        if what == "end" {
            beside.press(what);
        }
        expected.extend(beside.lines(&shown));
    }
    // folded: what was unfolded below this node
    let size = beside.panel.node(part).unwrap().size;
    shown.retain(|&v| beside.roots.contains(&v) || v >= part || part - v >= size);
    expected.push(format!("pressed\t{}", node));
    expected.extend(beside.lines(&shown));
    let pressed = ["end", &edge, &node, &node];
    assert_eq!(browser::written(&page, &format!("{}\nwalk({:?});", DRIVER, pressed)), expected);
}

fn random(words: &str) -> String {
    text::random::text(&words.split(' ').collect::<Vec<_>>()).expect("options").expect("a plan")
}

#[test]
fn at_7_nodes() {
    for question in [1, 2, 4] {
        walks(SAMPLE, question, false);
        walks(SAMPLE, question, true);
    }
}

/// One node; the largest plan that is drawn whole, and the smallest that is not.
#[test]
fn at_1_99_and_101_nodes() {
    let rules = "rules\nstates 1\nlabels 1\nleaf 0 -> 0\ninner * * * -> 0\n";
    walks(&format!("plan\nleaf 0\n{}accept 0\nquestions\nnone\n", rules), 1, true);
    walks(&format!("plan\nleaf 0\n{}questions\n0->0\n", rules), 1, true);
    let options = "--states 5 --labels 9 --changes 12 --rules random";
    walks(&random(&format!("--nodes 99 --shape comb --seed 5 {}", options)), 1, true);
    walks(&random(&format!("--nodes 101 --shape random --seed 8 {}", options)), 1, true);
}

/// Names that could be taken for markup, or for the end of the script, are words.
#[test]
fn at_31_nodes_with_names() {
    let names = "names\nlabel 0 </script><b>x\nlabel 2 <!--<script>\nstate 1 \"&amp;'\nstate 3 ${x}`\\u003c\n";
    let plan = random("--nodes 31 --shape random --seed 11 --changes 3 --questions 2");
    let text = format!("{}\n{}", plan, names);
    walks(&text, 1, false);
    walks(&text, 2, true);
}

#[test]
fn at_1001_nodes() {
    let plan = random("--nodes 1001 --shape random --seed 6 --changes 8");
    walks(&plan, 1, false);
    walks(&plan, 1, true);
}

#[test]
fn at_61471_nodes() {
    let plan = random("--nodes 61471 --shape arch --seed 6");
    walks(&plan, 1, false);
    walks(&plan, 1, true);
}

/// Where a page ends with a plan that is not cleared: several changes, no way, and more than can be listed.
#[test]
fn the_least_that_must_change() {
    // every leaf must have label 1
    let rules = "rules\nstates 2\nlabels 2\nleaf 0 -> 0\nleaf 1 -> 1\ninner * * * -> 0\ninner 1 * 1 -> 1\naccept 1\n";
    let comb = |leaves: usize| format!("plan\nleaf 0\n{}", "leaf 0\ninner 0\n".repeat(leaves - 1));
    let small = format!("{}{}questions\nnone\n0->0\n1->1\n0->1 1->1\n", comb(3), rules);
    let said = |question: usize| {
        let page = page::of_question(&Input::of_text(&small).unwrap(), question, false).unwrap();
        page.split("<h2>The least that must change</h2>\n<p>").nth(1).unwrap().split("</p>").next().unwrap().to_string()
    };
    assert_eq!(said(1), "3 changes clear the plan, and no fewer do.");
    assert_eq!(said(2), "With the question's changes kept, nothing clears the plan.");
    assert_eq!(said(3), "With the question's changes kept, 2 more changes clear the plan, and no fewer do.");
    assert_eq!(said(4), "With the question's changes kept, 1 more change clears the plan.");
    (1..=4).for_each(|question| walks(&small, question, false));
    walks(&format!("{}{}questions\nnone\n", comb(70), rules), 1, false);
    walks(&format!("{}{}questions\nnone\n", comb(3), rules.replace("accept 1", "")), 1, false);
}

/// By the browser's own clock, from the navigation to the end of the load, drawn and laid out. A busy machine makes a
/// load longer, never shorter: the shortest of up to twenty counts.
#[test]
fn loads_within_two_seconds() {
    if browser::skipped() {
        return;
    }
    let input = Input::of_text(&random("--nodes 61471 --shape arch --seed 6")).unwrap();
    let page = page::of_question(&input, 1, true).unwrap();
    let driver = "const drawn = document.querySelector('#n61470').getBoundingClientRect().width > 0; \
                  note(drawn, performance.now());";
    let mut tried = Vec::new();
    for _ in 0..20 {
        let written = browser::written(&page, driver);
        let took: f64 = written[0].strip_prefix("true\t").expect("the root is drawn").parse().unwrap();
        if took < 2_000.0 {
            return;
        }
        tried.push(took);
    }
    panic!("in milliseconds: {:?}", tried);
}

/// Wrong pages, each an edit of the script. The comparison must notice every one.
const WRONG: [(&str, &str); 16] = [
    // a part's state is shown before it is handled
    ("if (i !== undefined && i < here.done) {", "if (i !== undefined && i <= here.done) {"),
    ("if (done && data.before[v] !== data.after[i])", "if (done)"),
    ("if (here.done > 0 && i === here.done - 1) classes", "if (here.done > 0 && i === here.done) classes"),
    ("if (takes.has(v)) classes", "if (part.has(v)) classes"),
    (", carried up`", "`"),
    ("return 'passed over';", "return `state ${data.stateNames[was]}`;"),
    ("here.verdictClass !== 'open'", "here.verdictClass === 'yes'"),
    ("byId('verdict').className = here.verdictClass", "byId('verdict').className = data.runs[0][0].verdictClass"),
    // an answer that is kept is forgotten
    ("place().state === 'answered' ? 1 : run", "run"),
    // an old refusal stays
    ("byId('refused').textContent = '';", ""),
    ("[run, at, note] = before.pop();", "[run, at] = before.pop();"),
    ("item.hidden = i >= here.done", "item.hidden = i > here.done"),
    ("lines.push(mark.words)", "lines.push('')"),
    ("classes.push(mark.class)", "classes.push('one')"),
    ("'aria-label', labelOf(v, here)", "'aria-label', 'node ' + v"),
    ("byId('mend').hidden = here.state !== 'answered'", "byId('mend').hidden = false"),
];

#[test]
fn wrong_pages_are_noticed() {
    if browser::skipped() {
        return;
    }
    // the sample's rules; a climb, a part with the same state, nodes with one label that clears and with none
    let left = "leaf 1\nleaf 1\ninner 1\nleaf 1\ninner 1\nleaf 1\ninner 1\n";
    let plan = format!("plan\n{}leaf 1\nleaf 1\ninner 1\ninner 1\n", left);
    let rules = "rules\nstates 2\nlabels 2\nleaf 0 -> 0\nleaf 1 -> 1\ninner * * * -> 0\ninner * 0 1 -> 1\n\
                 inner 1 0 * -> 1\ninner 1 1 1 -> 1\naccept 1\n";
    let input = Input::of_text(&format!("{}{}questions\n0->0 9->0\n", plan, rules)).unwrap();
    let page = page::of_question(&input, 1, true).unwrap();
    assert_eq!(difference(&input, 1, true, &page), None);
    for (from, to) in WRONG {
        assert_eq!(page.matches(from).count(), 1, "{}", from);
        assert!(difference(&input, 1, true, &page.replace(from, to)).is_some(), "nobody noticed: {}", to);
    }
}

/// Names that could be taken for markup are words on sheets and on the page of eight screens, too.
#[test]
fn names_are_words() {
    if browser::skipped() {
        return;
    }
    let names = "names\nlabel 0 </td><b>x\nlabel 1 <!--<script>\nstate 0 \"&amp;'\nstate 1 </script><b>y\n";
    let input = Input::of_text(&format!("{}\n{}", SAMPLE, names)).unwrap();
    let count = "note(document.querySelectorAll('b').length); const words = document.body.textContent;";
    let has = |word: &str| format!("note(words.includes({:?}));", word).replace('<', "\\u003c");
    let sheet = sheet::of_question(&input, 4).unwrap();
    let words: String = ["</td><b>x", "<!--<script>", "\"&amp;'", "</script><b>y"].into_iter().map(has).collect();
    assert_eq!(browser::written(&sheet, &(count.to_string() + &words)), ["0", "true", "true", "true", "true"]);
    let screens = screens_page::of_script(&input, "load\nstart 0 none\ndeal\n").unwrap();
    let driver = format!("document.getElementById('end').click(); {} {}", count, has("state 1 (</script><b>y)"));
    assert_eq!(browser::written(&screens, &driver), ["0", "true"]);
}

/// What goes wrong in a page is seen: a script that fails, a file from elsewhere.
#[test]
fn faults_are_seen() {
    if browser::skipped() {
        return;
    }
    let page = page::of_question(&Input::of_text(SAMPLE).unwrap(), 4, false).unwrap();
    let broken = page.replace("drawTree();\n  show();\n})();", "drawTree();\n  shown();\n})();");
    assert_ne!(broken, page);
    let (_, faults) = browser::opened(&broken, "");
    assert!(faults.iter().any(|fault| fault.contains("shown is not a function")), "{:?}", faults);
    let fetched = page.replace("<h1>", "<img src=\"https://example.invalid/a.png\" alt=\"\"><h1>");
    let (_, faults) = browser::opened(&fetched, "");
    assert!(faults.iter().any(|fault| fault.contains("example.invalid")), "{:?}", faults);
    let (_, faults) = browser::opened(&page, "console.error('this is written');");
    assert!(faults.iter().any(|fault| fault.contains("this is written")), "{:?}", faults);
    let (lines, faults) = browser::opened(&page, "note(byId('say').textContent);");
    assert!(lines.is_empty() && faults.iter().any(|fault| fault.contains("byId is not defined")), "{:?}", faults);
}
