//! `whatif-text colours` and `colours-with-upper`: a branch question by colours, with the colour at each node of the
//! path and the drops marked, as text or as a picture.

use crate::branch::{self, Asked, Reading, Table, FIRST, LAST, NODES};
use crate::input::Input;
use crate::outcome::Failure;
use crate::picture::{Drawn, Edge, Look, Node, Picture, Stroke, PLAIN_LOOK};
use crate::sentences::{climbed, count};
use whatif::{BranchColours, BranchTable, ColourVerdict, Plan, Refusal};

/// A colour for each colour, from 1 on; a table has at most 16 states.
const FILLS: [&str; 16] = [
    "#cfe3f7", "#ffe3b3", "#d5f0d0", "#ead3f2", "#f7d3d3", "#fff7b0", "#d0f0ee", "#e3e3e3", "#f9d9b8", "#c9d7ff",
    "#e0f2b8", "#f4c9e4", "#c6efdc", "#e8dcc8", "#d9d2ff", "#fbe6ee",
];

/// A branch question by colours, beside the same by its climb.
pub struct Coloured {
    asked: Asked,
    verdict: ColourVerdict,
    /// The colour in the copy where the word begins, then after each node that is read; from 1 on, as document 02 has
    /// them.
    colours: Vec<usize>,
}

/// By the library, twice; the colours on the way are read from its tables and compared with its answer.
pub fn ask(input: &Input, table: &Table, nodes: [usize; 2], reading: Reading) -> Result<Coloured, Failure> {
    let asked = branch::ask(input, table, nodes, reading)?;
    let refused = Failure::refused;
    let built = build(input, &table.0).map_err(refused)?;
    let [upper, lower] = nodes.map(|v| v as u32);
    let verdict = match reading {
        Reading::BelowUpper => built.ask(upper, lower),
        Reading::WithUpper => built.ask_with_upper(upper, lower),
    }
    .map_err(refused)?;
    let colours = along(&built, &asked);
    let drops = colours.windows(2).filter(|pair| pair[1] < pair[0]).count();
    let coloured = Coloured { asked, verdict, colours };
    let by_climb = (coloured.asked.verdict.state, coloured.asked.verdict.yes);
    if drops != verdict.drops as usize || (verdict.state, verdict.yes) != by_climb {
        return Err(Failure::wrong("a fault of whatif-text: the path, the climb and the library's colours differ"));
    }
    Ok(coloured)
}

fn build(input: &Input, table: &[u8]) -> Result<BranchColours, Refusal> {
    BranchColours::build(Plan::from_bytes(&input.plan[..])?, BranchTable::from_bytes(table)?)
}

/// From the colour of state 0 where the word begins, node after node.
fn along(built: &BranchColours, asked: &Asked) -> Vec<usize> {
    let (numbers, bytes) = (built.numbers(), built.bytes());
    let (n, s) = (built.plan().nodes(), built.table().states());
    let of_state_0 =
        |v: usize| bytes[v * s..(v + 1) * s].iter().position(|&q| q == 0).expect("each state has a colour");
    let (upper, below) = (asked.path[0], &asked.path[1..]);
    let (first, read) = match asked.reading {
        Reading::BelowUpper => (of_state_0(upper), below),
        // above the root state 0 has the lowest colour
        Reading::WithUpper if upper + 1 == n => (0, &asked.path[..]),
        Reading::WithUpper => (of_state_0(numbers[4 * upper] as usize), &asked.path[..]),
    };
    let mut colours = vec![first];
    for &v in read {
        let c = colours[colours.len() - 1];
        // the lowest colour never falls; its table is the plan's node table
        colours.push(if c == 0 { 0 } else { numbers[(c * n + v) * 4 + 3] as usize });
    }
    colours.iter().map(|c| c + 1).collect()
}

impl Coloured {
    fn sentence(&self) -> String {
        let ColourVerdict { drops, links, .. } = self.verdict;
        let found = [count(drops as usize, "drop"), count(links as usize, "link")].join(", ");
        format!("{}, {}", self.asked.found(), found)
    }

    fn beside(&self) -> String {
        let verdict = self.asked.verdict;
        format!("by the climb {}", climbed(verdict.links, verdict.passed))
    }

    /// The colour after the node at a place of the path, and the one before it where it falls there.
    fn at(&self, place: usize) -> (usize, Option<usize>) {
        match (self.asked.reading, place) {
            (Reading::BelowUpper, 0) => (self.colours[0], None),
            (reading, _) => {
                let i = place + usize::from(reading == Reading::WithUpper);
                let (before, after) = (self.colours[i - 1], self.colours[i]);
                (after, Some(before).filter(|&before| after < before))
            }
        }
    }

    /// The places on the path that are told: the first, the last, and those with a drop.
    fn told(&self, whole: bool) -> Vec<usize> {
        let nodes = self.asked.path.len();
        let is_told = |&at: &usize| at < FIRST || at + LAST >= nodes || self.at(at).1.is_some();
        (0..nodes).filter(|at| whole || nodes <= NODES || is_told(at)).collect()
    }

    /// A line a node.
    pub fn text(&self, whole: bool) -> String {
        let mut text = format!("{}\n{}\n", self.sentence(), self.beside());
        let (mut next, names) = (0, &self.asked.names);
        for at in self.told(whole) {
            if at > next {
                text += &format!("  .. {}\n", count(at - next, "node"));
            }
            next = at + 1;
            let state =
                self.asked.states[at].map_or("not read".into(), |state| format!("state {}", names.state(state)));
            let (colour, fallen) = self.at(at);
            let drop = fallen.map_or(String::new(), |before| format!(", a drop from colour {}", before));
            let (v, label) = (self.asked.path[at], names.label(self.asked.labels[at]));
            text += &format!("  node {}, label {}: {}, colour {}{}\n", v, label, state, colour, drop);
        }
        text
    }

    /// One for the question, then one for each node of the path.
    pub fn objects(&self) -> String {
        let ColourVerdict { drops, links, .. } = self.verdict;
        let node = |at: usize| {
            let (colour, fallen) = self.at(at);
            let object = self.asked.node_object(at).count("colour", colour);
            fallen.into_iter().fold(object, |object, before| object.count("dropped_from", before)).line()
        };
        let asked = self.asked.object().number("drops", drops).number("colour_links", links);
        asked.line() + &(0..self.asked.path.len()).map(node).collect::<String>()
    }

    /// The path, each node filled by its colour; the lower node says the answer.
    pub fn picture(&self, how: Drawn) -> String {
        let told = self.told(false);
        let (mut nodes, mut edges) = (Vec::new(), Vec::new());
        // a drop at the first node has no line above it
        if let (_, Some(before)) = self.at(0) {
            let lines = vec!["above".to_string(), format!("colour {}", before)];
            let look = Look { fill: FILLS[before - 1], light: true, ..PLAIN_LOOK };
            nodes.push(Node { tip: lines.join(", "), lines, look });
            edges.push(Edge { from: 0, to: 1, stroke: Stroke::Drop, words: "drop".into() });
        }
        let above = nodes.len();
        for &at in &told {
            let colour = self.at(at).0;
            let look = Look { fill: FILLS[colour - 1], ..self.asked.look(at) };
            nodes.push(self.asked.drawn_node(at, look, Some(format!("colour {}", colour))));
        }
        for (i, pair) in told.windows(2).enumerate() {
            let left_out = pair[1] - pair[0] - 1;
            let nodes = if left_out > 0 { count(left_out, "node") } else { String::new() };
            let (stroke, words) = match (self.at(pair[1]).1, left_out) {
                (Some(_), 0) => (Stroke::Drop, "drop".to_string()),
                (Some(_), _) => (Stroke::DropLeftOut, format!("{}, drop", nodes)),
                (None, 0) => (Stroke::Plain, nodes),
                (None, _) => (Stroke::Dashed, nodes),
            };
            edges.push(Edge { from: above + i, to: above + i + 1, stroke, words });
        }
        let legend = vec![
            (Look { fill: FILLS[0], ..PLAIN_LOOK }, "filled by its colour, whose number is said"),
            (Look { light: true, ..PLAIN_LOOK }, "grey and dashed: not read; a red line: the colour falls"),
        ];
        Picture { name: "colours", title: vec![self.sentence(), self.beside()], nodes, edges, legend }.drawn(how)
    }
}
