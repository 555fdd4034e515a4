//! The bridge planner's files as text: out to our plans, home again, and a picture of both. By the proved library.
//!
//! ```text
//! planner           # a node a line, top first: its label; its children stand further to the right
//! 5                 # node 0
//!   6               # node 1
//!     8             # node 2
//!   7               # node 3
//! rules             # as in any other text; they have 64 labels, since label 63 is at every leaf
//! questions         # pNODE->LABEL names a planner's node, NODE->LABEL a node of our plan
//! p1->4 p2->0
//! names             # may be left out, as everything after the tree may
//! label 6 pillar
//! ```
//!
//! A file that has no such form is written with lines of the word `bytes`. The planner's own files are read and written
//! as bytes too.

use crate::dot::from_the_top;
use crate::formats::{form, text_of, Form};
use crate::lines::{self, all_raw, raw_text, Line, Wrong};
use crate::names::Names;
use crate::outcome::Failure;
use crate::picture::{Drawn, Edge, Look, Node, Picture, Stroke, PLAIN_LOOK};
use crate::{parts_of, plan, questions, rules};
use std::fmt;
use whatif::{layout, Planned, PlannerNode, Refusal};

/// Why nothing is written: the text is wrong, or the library refuses what it says.
#[derive(Debug, PartialEq, Eq)]
pub enum Failed {
    Wrong(Wrong),
    Refused(Refusal),
}

impl fmt::Display for Failed {
    fn fmt(&self, f: &mut fmt::Formatter<'_>) -> fmt::Result {
        match self {
            Failed::Wrong(wrong) => wrong.fmt(f),
            Failed::Refused(refusal) => refusal.fmt(f),
        }
    }
}

impl From<Failed> for Failure {
    fn from(failed: Failed) -> Failure {
        match failed {
            Failed::Wrong(wrong) => wrong.into(),
            Failed::Refused(refusal) => Failure::refused(refusal),
        }
    }
}

impl From<Wrong> for Failed {
    fn from(wrong: Wrong) -> Failed {
        Failed::Wrong(wrong)
    }
}

impl From<Refusal> for Failed {
    fn from(refusal: Refusal) -> Failed {
        Failed::Refused(refusal)
    }
}

/// From text to text.
pub type Verb = fn(&str) -> Result<String, Failed>;

/// The verb that these words, which follow `planner`, name.
pub fn verb(words: &[&str]) -> Option<Verb> {
    match words {
        ["import"] => Some(import),
        ["export"] => Some(export),
        ["dot"] => Some(picture),
        _ => None,
    }
}

/// The verb on text or on bytes: a planner's file for `import` and the pictures, a plan for `export`. `as_bytes`: what is
/// written are bytes as well, the plan's or the planner's file.
pub fn made(word: &str, input: &[u8], as_bytes: bool) -> Result<Vec<u8>, Failure> {
    let home = word == "export";
    let planned = match (text_of(input), form(input)) {
        (Some(text), _) => {
            let first = if home { "plan" } else { "planner" };
            if !as_bytes && word != "svg" {
                return Ok(verb(&[word]).map_or(Ok(String::new()), |verb| verb(text))?.into_bytes());
            }
            let text = Text::of(text, first)?;
            if home {
                Planned::home(plan::to_bytes(&text.nodes)?)
            } else {
                Planned::out(text.file()?)
            }
        }
        (None, Form::Whole) if home => Planned::home(parts_of(input).expect("asked by its form")[0]),
        (None, _) if home => Planned::home(input),
        (None, _) => Planned::out(input),
    }
    .map_err(Failure::refused)?;
    Ok(match (as_bytes, word) {
        (true, "export") => planned.file().to_vec(),
        (true, _) => planned.plan().as_bytes().to_vec(),
        (false, "export") => home_text(&planned).into_bytes(),
        (false, "import") => plan_text(&planned).into_bytes(),
        (false, "svg") => both(&planned).drawn(Drawn::Svg).into_bytes(),
        (false, _) => drawn(&planned).into_bytes(),
    })
}

/// The planner's tree of a text.
pub fn of_text(text: &Text) -> Result<Planned, Failed> {
    Ok(Planned::out(text.file()?)?)
}

/// A text whose first section is named `planner`, or `plan`.
#[derive(Default)]
pub struct Text<'a> {
    nodes: Vec<Line<'a>>,
    /// Of each of these lines.
    indents: Vec<usize>,
    /// The lines between `rules` and `questions` as they stand.
    rules: Vec<&'a str>,
    questions: Vec<Line<'a>>,
    names: Vec<Line<'a>>,
}

impl<'a> Text<'a> {
    /// Rules that are wrong are told, and otherwise left as they stand. Names stand last.
    pub fn of(text: &'a str, first: &'static str) -> Result<Text<'a>, Wrong> {
        let names = [first, "rules", "questions", "names"];
        let (mut found, mut at, mut of_rules) = (Text::default(), None, Vec::new());
        for (i, raw) in text.lines().enumerate() {
            if at == Some(1) {
                found.rules.push(raw);
            }
            let line = match lines::of(raw).next() {
                Some(line) => Line { number: i + 1, ..line },
                None => continue,
            };
            match (names.iter().position(|name| line.words == [*name]), at) {
                (Some(next), now) if now.map_or(true, |now| next > now) => at = Some(next),
                (Some(next), _) => return Err(line.wrong(format!("'{}' stands too late, or again", names[next]))),
                (None, Some(0)) => {
                    found.indents.push(raw.len() - raw.trim_start_matches(' ').len());
                    found.nodes.push(line);
                }
                (None, Some(1)) => of_rules.push(line),
                (None, Some(2)) => found.questions.push(line),
                (None, Some(_)) => found.names.push(line),
                (None, None) => return Err(line.wrong(format!("this is in no section: '{}' comes first", first))),
            }
        }
        // the word of the next section
        let ends = |raw: &&str| {
            lines::of(raw).next().map_or(false, |line| line.words.len() == 1 && names.contains(&line.words[0]))
        };
        if found.rules.last().map_or(false, ends) {
            found.rules.pop();
        }
        rules::to_bytes(&of_rules)?;
        Names::of(&found.names)?;
        Ok(found)
    }

    pub fn names(&self) -> Result<Names, Wrong> {
        Names::of(&self.names)
    }

    /// Rules and questions as bytes, a planner's node by its place; none of a section that is not there.
    pub fn rest_as_bytes(&self, places: &[u16]) -> Result<[Option<Vec<u8>>; 2], Wrong> {
        let text = self.rest(|line| by_places(line, places))?;
        let found = crate::sections(&text)?;
        let rules = (!found.rules.is_empty()).then(|| rules::to_bytes(&found.rules)).transpose()?;
        let questions = (!found.questions.is_empty()).then(|| questions::to_bytes(&found.questions)).transpose()?;
        Ok([rules, questions])
    }

    /// The sections after the first; each question as `said` has it.
    fn rest(&self, said: impl Fn(&Line) -> Result<String, Wrong>) -> Result<String, Wrong> {
        let (rules, mut text) = (self.rules.join("\n"), String::new());
        if !rules.trim().is_empty() {
            text += &format!("\nrules\n{}\n", rules.trim_end());
        }
        if !self.questions.is_empty() {
            text += "\nquestions\n";
        }
        for line in &self.questions {
            text += &(said(line)? + "\n");
        }
        if !self.names.is_empty() {
            text += "\nnames\n";
        }
        for line in &self.names {
            text += &(line.words.join(" ") + "\n");
        }
        Ok(text)
    }

    /// The planner's file that the first section says. Whether its nodes are those of one tree is not asked.
    fn file(&self) -> Result<Vec<u8>, Wrong> {
        if let Some(bytes) = all_raw(&self.nodes)? {
            return Ok(bytes);
        }
        let (mut labels, mut counts) = (Vec::new(), Vec::new());
        // the nodes above the next one, with their indents
        let mut above: Vec<(usize, usize)> = Vec::new();
        for (v, (line, &indent)) in self.nodes.iter().zip(&self.indents).enumerate() {
            match line.words[..] {
                [label] => labels.push(line.byte(label)?),
                _ => return Err(line.wrong("a line of the planner's tree is LABEL or 'bytes ..'")),
            }
            counts.push(0);
            let mut beside = indent;
            while let Some(&(at, _)) = above.last().filter(|&&(at, _)| at >= indent) {
                beside = at;
                above.pop();
            }
            if beside != indent {
                return Err(line.wrong("this stands neither below the line before it nor beside one above it"));
            }
            if let Some(&(_, parent)) = above.last() {
                let more: Option<u8> = u8::checked_add(counts[parent], 1);
                counts[parent] = more.ok_or_else(|| line.wrong("a node has at most 255 children"))?;
            }
            above.push((indent, v));
        }
        Ok(layout::planner_file(&labels, &counts))
    }
}

/// For each node of the plan its planner's node; none for a leaf.
fn of_plan(planned: &Planned) -> Vec<Option<usize>> {
    let mut of_plan = vec![None; planned.plan().nodes()];
    planned.places().iter().enumerate().for_each(|(v, &place)| of_plan[usize::from(place)] = Some(v));
    of_plan
}

/// The node above each planner's node, and its depth.
fn above(planned: &Planned) -> Vec<(Option<usize>, usize)> {
    let (mut above, mut open): (Vec<_>, Vec<(usize, u8)>) = (Vec::new(), Vec::new());
    for (v, PlannerNode { children, .. }) in planned.nodes().enumerate() {
        while open.last().map_or(false, |&(_, left)| left == 0) {
            open.pop();
        }
        above.push((open.last().map(|&(w, _)| w), open.len()));
        if let Some((_, left)) = open.last_mut() {
            *left -= 1;
        }
        open.push((v, children));
    }
    above
}

/// Our plan of a planner's text, with its rules, and its questions by our nodes.
fn import(text: &str) -> Result<String, Failed> {
    let text = Text::of(text, "planner")?;
    let planned = of_text(&text)?;
    Ok(plan_text(&planned) + &text.rest(|line| by_places(line, planned.places()))?)
}

fn plan_text(planned: &Planned) -> String {
    let mut made =
        "plan    # of a planner's file: label 63 is at every leaf, so its rules have 64 labels\n".to_string();
    for (line, node) in plan::to_text(planned.plan().as_bytes()).lines().zip(of_plan(planned)) {
        made += &node.map_or(format!("{}\n", line), |v| format!("{}, planner's node {}\n", line, v));
    }
    made
}

/// A question with `pNODE->LABEL` as our node.
pub fn by_places(line: &Line, places: &[u16]) -> Result<String, Wrong> {
    let no_planner = "'pNODE' names a planner's node, and the plan is not a planner's";
    let said = |word: &&str| match word.strip_prefix('p').and_then(|word| word.split_once("->")) {
        None => Ok(word.to_string()),
        Some(_) if places.is_empty() => Err(line.wrong(no_planner)),
        Some((node, label)) => Ok(format!("{}->{}", places[line.number(node, places.len() - 1)?], label)),
    };
    let words = line.words.iter().map(said).collect::<Result<Vec<String>, Wrong>>()?;
    let said = Line { number: line.number, words: words.iter().map(String::as_str).collect() };
    questions::to_bytes(&[said])?;
    Ok(words.join(" "))
}

/// Deeper trees would be mostly spaces.
const MAX_DEPTH: usize = 200;

/// The planner's text of our plan, with its rules, and its questions by planner's nodes.
fn export(text: &str) -> Result<String, Failed> {
    let text = Text::of(text, "plan")?;
    let planned = Planned::home(plan::to_bytes(&text.nodes)?)?;
    let of_plan = of_plan(&planned);
    Ok(home_text(&planned) + &text.rest(|line| by_planner(line, &of_plan))?)
}

fn home_text(planned: &Planned) -> String {
    let above = above(planned);
    let mut made = "planner\n".to_string();
    if above.iter().any(|&(_, depth)| depth > MAX_DEPTH) {
        made += &raw_text(planned.file());
    } else {
        for (v, (&(_, depth), node)) in above.iter().zip(planned.nodes()).enumerate() {
            let node = format!("{}{}", "  ".repeat(depth), node.label);
            made += &format!("{:<19}# node {}, {} in the plan\n", node, v, planned.places()[v]);
        }
    }
    made
}

/// A question with those of our nodes that are a planner's as `pNODE->LABEL`.
fn by_planner(line: &Line, of_plan: &[Option<usize>]) -> Result<String, Wrong> {
    if line.words == ["none"] || line.words[0] == "bytes" {
        return Ok(line.words.join(" "));
    }
    let said = |&(node, label): &questions::Change| match of_plan.get(node as usize) {
        Some(Some(v)) => format!("p{}->{}", v, label),
        _ => format!("{}->{}", node, label),
    };
    Ok(questions::changes(line)?.iter().map(said).collect::<Vec<_>>().join(" "))
}

const HEAD: &str = "\
// Left the planner's tree, pNODE: LABEL; right our plan, NODE: LABEL and its planner's node. In our plan a solid line leads to
// the list of a node's children, a dashed one to the rest of its own list; a dot is the end of a list, a leaf of label 63.
digraph planner {
    graph [ordering=out];
    node [shape=circle];
    edge [dir=none];
";

/// The planner's tree and, beside it, our plan: the same for our own layout.
fn both(planned: &Planned) -> Picture {
    let (mut nodes, mut edges) = (Vec::new(), Vec::new());
    for (v, ((above, _), node)) in above(planned).into_iter().zip(planned.nodes()).enumerate() {
        let lines = vec![format!("p{}", v), format!("label {}", node.label)];
        nodes.push(Node { tip: lines.join(", "), lines, look: PLAIN_LOOK });
        edges.extend(above.map(|w| Edge { from: w, to: v, stroke: Stroke::Plain, words: String::new() }));
    }
    let (n, labels, children) = (nodes.len(), planned.plan().labels(), planned.plan().children());
    let (of_plan, root) = (of_plan(planned), labels.len() - 1);
    let order = from_the_top(root, |v| children[v].map_or(vec![], |(l, r)| vec![l.into(), r.into()]));
    let mut places = vec![0; labels.len()];
    order.iter().enumerate().for_each(|(i, &v)| places[v] = n + i);
    for &v in &order {
        let lines = match of_plan[v] {
            Some(u) => vec![format!("{}", v), format!("label {}", labels[v]), format!("p{}", u)],
            None => vec![format!("{}, the end of a list", v)],
        };
        let look = Look { point: of_plan[v].is_none(), ..PLAIN_LOOK };
        nodes.push(Node { tip: lines.join(", "), lines, look });
        if let Some((left, right)) = children[v] {
            for (child, stroke) in [(left, Stroke::Plain), (right, Stroke::Dashed)] {
                edges.push(Edge { from: places[v], to: places[usize::from(child)], stroke, words: String::new() });
            }
        }
    }
    let title = vec!["The planner's tree, and our plan of it".to_string()];
    let legend = vec![
        (PLAIN_LOOK, "a full line leads to the list of a node's children"),
        (Look { light: true, ..PLAIN_LOOK }, "a dashed line leads to the rest of its own list; a dot ends a list"),
    ];
    Picture { name: "planner", title, nodes, edges, legend }
}

/// A planner's text as Graphviz text: its tree and, beside it, our plan.
fn picture(text: &str) -> Result<String, Failed> {
    Ok(drawn(&of_text(&Text::of(text, "planner")?)?))
}

fn drawn(planned: &Planned) -> String {
    let mut made = HEAD.to_string() + "    subgraph cluster_planner {\n        label=\"planner\";\n";
    for (v, ((above, _), node)) in above(planned).into_iter().zip(planned.nodes()).enumerate() {
        made += &format!("        p{} [label=\"p{}: {}\"];\n", v, v, node.label);
        made += &above.map_or(String::new(), |w| format!("        p{} -> p{};\n", w, v));
    }
    made += "    }\n    subgraph cluster_plan {\n        label=\"plan\";\n";
    let (labels, children) = (planned.plan().labels(), planned.plan().children());
    for (v, node) in of_plan(planned).into_iter().enumerate() {
        made += &match node {
            Some(u) => format!("        {} [label=\"{}: {}\\np{}\"];\n", v, v, labels[v], u),
            None => format!("        {} [shape=point];\n", v),
        };
        if let Some((left, right)) = children[v] {
            made += &format!("        {} -> {};\n        {} -> {} [style=dashed];\n", v, left, v, right);
        }
    }
    made + "    }\n}\n"
}
