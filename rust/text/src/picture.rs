//! A picture, whatever it is of: nodes with lines of words, edges, a title and a legend. It is written as Graphviz text
//! here and as SVG in svg.rs, with the same words and looks.
//!
//! Colours are never alone: what a colour says is said by words, by the shape or by the border, too.

use crate::sentences::count;

pub const CLEARED: &str = "#9ed89e";
pub const NOT_CLEARED: &str = "#f2a0a0";
pub const CHANGED: &str = "#ffdca8";
/// One label alone is allowed; none is.
pub const ONE_LABEL: &str = "#cfe4fa";
pub const NO_LABEL: &str = "#dddddd";
pub const PLAIN: &str = "#ffffff";
/// What is passed over, drawn lightly.
pub const LIGHT: &str = "#999999";
pub const LIGHT_WORDS: &str = "#666666";
pub const DROP: &str = "#c02020";

/// How a node looks.
#[derive(Clone, Copy, Debug, PartialEq, Eq)]
pub struct Look {
    pub fill: &'static str,
    /// Square corners, for what is listed.
    pub square: bool,
    /// A second border, for the root of a part.
    pub double: bool,
    /// A thick border, for another state than before.
    pub thick: bool,
    /// Grey and dashed, for what is passed over or not read.
    pub light: bool,
    /// No more than a dot.
    pub point: bool,
}

pub const PLAIN_LOOK: Look =
    Look { fill: PLAIN, square: false, double: false, thick: false, light: false, point: false };

pub struct Node {
    pub lines: Vec<String>,
    pub look: Look,
    /// What is shown where the pointer rests.
    pub tip: String,
}

#[derive(Clone, Copy, Debug, PartialEq, Eq)]
pub enum Stroke {
    Plain,
    /// To another part, or with nodes left out.
    Dashed,
    /// A climb: light and dashed.
    Climb,
    /// The colour falls.
    Drop,
    DropLeftOut,
}

/// From a node to one below it, by their places.
pub struct Edge {
    pub from: usize,
    pub to: usize,
    pub stroke: Stroke,
    pub words: String,
}

/// Nodes from the top down and from left to right: a node stands before those below it.
pub struct Picture {
    /// As an identifier.
    pub name: &'static str,
    pub title: Vec<String>,
    pub nodes: Vec<Node>,
    pub edges: Vec<Edge>,
    pub legend: Vec<(Look, &'static str)>,
}

/// Graphviz's or our own.
#[derive(Clone, Copy, Debug, PartialEq, Eq)]
pub enum Drawn {
    Dot,
    Svg,
}

impl Picture {
    pub fn drawn(&self, how: Drawn) -> String {
        match how {
            Drawn::Dot => self.graphviz(),
            Drawn::Svg => crate::svg::of(self),
        }
    }

    fn graphviz(&self) -> String {
        let title: String = self.title.iter().map(|line| escaped(line) + "\\n").collect();
        let mut text =
            format!("digraph {} {{\n    graph [ordering=out, labelloc=t, {}, fontsize=16];\n", self.name, FONT);
        text += "    graph [size=\"7.5,10.5\", nodesep=0.15, ranksep=0.35];\n";
        text += &format!("    node [shape=box, style=\"filled,rounded\", fillcolor=\"{}\", {}];\n", PLAIN, FONT);
        text +=
            &format!("    node [margin=\"0.08,0.05\"];\n    edge [dir=none, {}];\n    label=\"{} \";\n", FONT, title);
        for (i, node) in self.nodes.iter().enumerate() {
            text += &format!("    {} [{}];\n", i, node.graphviz());
        }
        for edge in &self.edges {
            text += &format!("    {} -> {}{};\n", edge.from, edge.to, edge.graphviz());
        }
        text + &self.graphviz_legend() + "}\n"
    }

    fn graphviz_legend(&self) -> String {
        if self.legend.is_empty() {
            return String::new();
        }
        let row = |(look, words): &(Look, &str)| {
            let border = if look.thick || look.double { 2 } else { 1 };
            let style = if look.light { "dashed" } else { "solid" };
            let size = format!("border=\"{}\" width=\"24\" style=\"{}\"", border, style);
            let cell = format!("<td {} bgcolor=\"{}\"> </td>", size, look.fill);
            format!("<tr>{}<td border=\"0\" align=\"left\">{}</td></tr>", cell, words)
        };
        let rows: String = self.legend.iter().map(row).collect();
        let table = format!("<table border=\"0\" cellborder=\"1\" cellspacing=\"3\">{}</table>", rows);
        format!("    {{ rank=sink; legend [shape=plaintext, style=\"\", fontsize=11, label=<{}>]; }}\n", table)
    }
}

const FONT: &str = "fontname=\"sans-serif\"";

impl Node {
    fn graphviz(&self) -> String {
        let Look { fill, square, double, thick, light, point } = self.look;
        if point {
            return format!("shape=point, tooltip=\"{}\"", escaped(&self.tip));
        }
        let words = self.lines.iter().map(|line| escaped(line)).collect::<Vec<_>>().join("\\n");
        let mut looks = vec![format!("label=\"{}\"", words), format!("tooltip=\"{}\"", escaped(&self.tip))];
        let corners =
            [(square, "filled"), (!square, "filled,rounded")].iter().find(|(is, _)| *is).map_or("", |pair| pair.1);
        if square || light {
            looks.push(format!("style=\"{}{}\"", corners, if light { ",dashed" } else { "" }));
        }
        if fill != PLAIN {
            looks.push(format!("fillcolor=\"{}\"", fill));
        }
        if light {
            looks.push(format!("color=\"{}\", fontcolor=\"{}\"", LIGHT, LIGHT_WORDS));
        }
        looks.extend(double.then(|| "peripheries=2".to_string()));
        looks.extend(thick.then(|| "penwidth=2".to_string()));
        looks.join(", ")
    }
}

impl Edge {
    fn graphviz(&self) -> String {
        let light = format!("style=dashed, color=\"{}\", fontcolor=\"{}\"", LIGHT, LIGHT_WORDS);
        let looks = match self.stroke {
            Stroke::Plain => String::new(),
            Stroke::Dashed => "style=dashed".into(),
            Stroke::Climb => light,
            Stroke::Drop => format!("style=bold, color=\"{}\", fontcolor=\"{}\"", DROP, DROP),
            Stroke::DropLeftOut => format!("style=\"bold,dashed\", color=\"{}\", fontcolor=\"{}\"", DROP, DROP),
        };
        let words = if self.words.is_empty() { String::new() } else { format!("label=\" {} \"", escaped(&self.words)) };
        let all: Vec<String> = [looks, words].into_iter().filter(|part| !part.is_empty()).collect();
        if all.is_empty() {
            String::new()
        } else {
            format!(" [{}]", all.join(", "))
        }
    }
}

fn escaped(words: &str) -> String {
    words.replace('\\', "\\\\").replace('"', "\\\"")
}

/// `59 nodes passed over in 7 links`.
pub fn climbed(passed: usize, links: usize) -> String {
    format!("{} passed over in {}", count(passed, "node"), count(links, "link"))
}
