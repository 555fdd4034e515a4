//! A picture as SVG, by a layout of our own: Graphviz is not needed. A tree stands below its title, a parent in the middle
//! above its children; what several lines lead to stands below the last of them. The legend is at the foot.

use crate::picture::{Look, Node, Picture, Stroke, DROP, LIGHT, LIGHT_WORDS, PLAIN};

const LETTER: f64 = 6.7;
const BOLD: f64 = 7.5;
const LINE: f64 = 15.0;
const BETWEEN: f64 = 14.0;
const GAP: f64 = 30.0;
/// What the words of an edge need, in two lines.
const GAP_WORDS: f64 = 50.0;
const MARGIN: f64 = 14.0;
const DARK: &str = "#222222";

/// Where the middle of a node is, and how large it is.
#[derive(Clone, Copy, Default)]
struct Place {
    x: f64,
    y: f64,
    width: f64,
    height: f64,
}

pub fn of(picture: &Picture) -> String {
    let top = MARGIN + 19.0 * picture.title.len() as f64 + 8.0;
    let (mut places, right, bottom) = places(picture, top);
    let widest = picture.title.iter().map(|line| 8.0 * line.chars().count() as f64).fold(0.0, f64::max);
    let legend: f64 = picture.legend.iter().map(|(_, words)| 44.0 + LETTER * words.len() as f64).fold(0.0, f64::max);
    let width = (right + MARGIN).max(widest + 2.0 * MARGIN).max(legend + 2.0 * MARGIN);
    let moved = (width - right - MARGIN) / 2.0;
    places.iter_mut().for_each(|place| place.x += moved);
    let height = bottom + GAP + 20.0 * picture.legend.len() as f64 + MARGIN;
    let mut text = head(picture, width, height);
    for edge in &picture.edges {
        text += &line(&places[edge.from], &places[edge.to], edge.stroke, &edge.words);
    }
    for (node, place) in picture.nodes.iter().zip(&places) {
        text += &drawn(node, place);
    }
    for (i, (look, words)) in picture.legend.iter().enumerate() {
        text += &explained(look, words, bottom + GAP + 20.0 * i as f64);
    }
    text + "</svg>\n"
}

fn head(picture: &Picture, width: f64, height: f64) -> String {
    let said = escaped(&picture.title.join(". "));
    let size = format!("width=\"{0:.0}\" height=\"{1:.0}\" viewBox=\"0 0 {0:.0} {1:.0}\"", width, height);
    let about = format!("font-family=\"sans-serif\" role=\"img\" aria-label=\"{}\"", said);
    let mut text = format!("<svg xmlns=\"http://www.w3.org/2000/svg\" {} {}>\n<title>{}</title>\n", size, about, said);
    text += &format!("<rect width=\"{:.0}\" height=\"{:.0}\" fill=\"{}\"/>\n", width, height, PLAIN);
    for (i, words) in picture.title.iter().enumerate() {
        let (y, size) = (MARGIN + 14.0 + 19.0 * i as f64, if i == 0 { 15 } else { 13 });
        text += &format!("<text x=\"{:.0}\" y=\"{:.0}\" font-size=\"{}\" ", width / 2.0, y, size);
        text += &format!("fill=\"{}\" text-anchor=\"middle\">{}</text>\n", DARK, escaped(words));
    }
    text
}

/// Of all nodes, and how far they reach.
fn places(picture: &Picture, top: f64) -> (Vec<Place>, f64, f64) {
    let mut places: Vec<Place> = picture.nodes.iter().map(size).collect();
    let (tops, (lefts, spans)) = (tops(picture, &places, top), lefts(picture, &places));
    for (v, place) in places.iter_mut().enumerate() {
        place.x = lefts[v] + spans[v] / 2.0;
        place.y = tops[v] + place.height / 2.0;
    }
    let right = lefts.iter().zip(&spans).map(|(left, span)| left + span).fold(0.0, f64::max);
    let bottom = places.iter().map(|place| place.y + place.height / 2.0).fold(top, f64::max);
    (places, right, bottom)
}

/// For each node how far left what is at and below it begins, and how wide it is.
fn lefts(picture: &Picture, places: &[Place]) -> (Vec<f64>, Vec<f64>) {
    let n = places.len();
    // of several that lead to a node the last one holds it
    let (mut above, mut words) = (vec![None; n], vec![0.0; n]);
    for edge in &picture.edges {
        above[edge.to] = Some(edge.from);
        let wide = halves(&edge.words).iter().map(|half| LETTER * half.len() as f64).fold(0.0, f64::max);
        words[edge.to] = wide.max(words[edge.to]);
    }
    let mut children: Vec<Vec<usize>> = vec![Vec::new(); n];
    (0..n).for_each(|v| above[v].into_iter().for_each(|p: usize| children[p].push(v)));
    let gaps = |v: usize| BETWEEN * children[v].len().saturating_sub(1) as f64;
    let (mut below, mut spans) = (vec![0.0; n], vec![0.0; n]);
    for v in (0..n).rev() {
        below[v] = children[v].iter().map(|&w| spans[w]).sum::<f64>() + gaps(v);
        spans[v] = places[v].width.max(below[v]).max(words[v]);
    }
    let (mut lefts, mut next) = (vec![0.0; n], MARGIN);
    for v in 0..n {
        if above[v].is_none() {
            lefts[v] = next;
            next += spans[v] + 2.0 * BETWEEN;
        }
        let mut left = lefts[v] + (spans[v] - below[v]) / 2.0;
        for &w in &children[v] {
            lefts[w] = left;
            left += spans[w] + BETWEEN;
        }
    }
    (lefts, spans)
}

/// The upper border of each node: that of its row.
fn tops(picture: &Picture, places: &[Place], top: f64) -> Vec<f64> {
    let mut rows = vec![0; places.len()];
    let mut edges: Vec<_> = picture.edges.iter().collect();
    edges.sort_by_key(|edge| edge.from);
    for edge in edges {
        rows[edge.to] = rows[edge.to].max(rows[edge.from] + 1);
    }
    let last = rows.iter().copied().max().unwrap_or(0);
    let (mut heights, mut gaps) = (vec![0.0f64; last + 1], vec![GAP; last + 1]);
    (0..rows.len()).for_each(|v| heights[rows[v]] = heights[rows[v]].max(places[v].height));
    for edge in picture.edges.iter().filter(|edge| !edge.words.is_empty()) {
        gaps[rows[edge.to]] = GAP_WORDS;
    }
    let mut tops = vec![top];
    for row in 1..=last {
        tops.push(tops[row - 1] + heights[row - 1] + gaps[row]);
    }
    rows.iter().map(|&row| tops[row]).collect()
}

fn size(node: &Node) -> Place {
    if node.look.point {
        return Place { width: 8.0, height: 8.0, ..Place::default() };
    }
    // the first line is bold
    let wide = |(i, line): (usize, &String)| (if i == 0 { BOLD } else { LETTER }) * line.chars().count() as f64;
    let width = node.lines.iter().enumerate().map(wide).fold(24.0, f64::max) + 16.0;
    Place { width, height: LINE * node.lines.len() as f64 + 12.0, ..Place::default() }
}

fn drawn(node: &Node, place: &Place) -> String {
    let tip = format!("<title>{}</title>", escaped(&node.tip));
    if node.look.point {
        let dot = format!("<circle cx=\"{:.1}\" cy=\"{:.1}\" r=\"3\" fill=\"{}\"/>", place.x, place.y, DARK);
        return format!("<g>{}{}</g>\n", tip, dot);
    }
    let mut text = format!("<g class=\"node\">{}{}", tip, borders(&node.look, place));
    let words = if node.look.light { LIGHT_WORDS } else { DARK };
    for (i, line) in node.lines.iter().enumerate() {
        let y = place.y - place.height / 2.0 + LINE * (i + 1) as f64 + 2.0;
        let weight = if i == 0 { " font-weight=\"bold\"" } else { "" };
        text += &format!("<text x=\"{:.1}\" y=\"{:.1}\" font-size=\"12\" fill=\"{}\" ", place.x, y, words);
        text += &format!("text-anchor=\"middle\"{}>{}</text>", weight, escaped(line));
    }
    text + "</g>\n"
}

fn borders(look: &Look, place: &Place) -> String {
    let (stroke, dashed) = if look.light { (LIGHT, " stroke-dasharray=\"4 3\"") } else { (DARK, "") };
    let thick = if look.thick { 2.4 } else { 1.1 };
    let rect = |grown: f64, fill: &str| {
        let (x, y) = (place.x - place.width / 2.0 - grown, place.y - place.height / 2.0 - grown);
        let corners = if look.square { 0.0 } else { 10.0 };
        let size = format!("width=\"{:.1}\" height=\"{:.1}\"", place.width + 2.0 * grown, place.height + 2.0 * grown);
        let paint = format!("fill=\"{}\" stroke=\"{}\" stroke-width=\"{}\"{}", fill, stroke, thick, dashed);
        format!("<rect x=\"{:.1}\" y=\"{:.1}\" {} rx=\"{}\" {}/>", x, y, size, corners, paint)
    };
    let second = if look.double { rect(3.0, PLAIN) } else { String::new() };
    second + &rect(0.0, look.fill)
}

fn line(from: &Place, to: &Place, stroke: Stroke, words: &str) -> String {
    let (colour, width, dashed) = match stroke {
        Stroke::Plain => (DARK, 1.3, ""),
        Stroke::Dashed => (DARK, 1.3, " stroke-dasharray=\"6 4\""),
        Stroke::Climb => (LIGHT, 1.3, " stroke-dasharray=\"3 3\""),
        Stroke::Drop => (DROP, 3.0, ""),
        Stroke::DropLeftOut => (DROP, 3.0, " stroke-dasharray=\"6 4\""),
    };
    let (y1, y2) = (from.y + from.height / 2.0, to.y - to.height / 2.0);
    let ends = format!("x1=\"{:.1}\" y1=\"{:.1}\" x2=\"{:.1}\" y2=\"{:.1}\"", from.x, y1, to.x, y2);
    let mut text = format!("<line {} stroke=\"{}\" stroke-width=\"{}\"{}/>\n", ends, colour, width, dashed);
    let said = if matches!(stroke, Stroke::Drop | Stroke::DropLeftOut) { DROP } else { LIGHT_WORDS };
    for (i, half) in halves(words).iter().rev().enumerate() {
        let (y, wide) = (y2 - 7.0 - 13.0 * i as f64, LETTER * 0.92 * half.len() as f64);
        let back = format!("width=\"{:.1}\" height=\"13\" fill=\"{}\"", wide, PLAIN);
        text += &format!("<rect x=\"{:.1}\" y=\"{:.1}\" {}/>", to.x - wide / 2.0, y - 10.0, back);
        text += &format!("<text x=\"{:.1}\" y=\"{:.1}\" font-size=\"11\" ", to.x, y);
        text += &format!("fill=\"{}\" text-anchor=\"middle\">{}</text>\n", said, escaped(half));
    }
    text
}

/// Long words of an edge stand in two lines.
fn halves(words: &str) -> Vec<&str> {
    match words.find(" in ") {
        _ if words.is_empty() => Vec::new(),
        Some(at) => vec![&words[..at], &words[at + 1..]],
        None => vec![words],
    }
}

/// A line of the legend.
fn explained(look: &Look, words: &str, y: f64) -> String {
    let place = Place { x: MARGIN + 14.0, y: y + 7.0, width: 24.0, height: 12.0 };
    let said = format!("<text x=\"{:.0}\" y=\"{:.1}\" font-size=\"12\" fill=\"{}\">", MARGIN + 36.0, y + 11.0, DARK);
    format!("<g class=\"legend\">{}{}{}</text></g>\n", borders(look, &place), said, escaped(words))
}

pub(crate) fn escaped(words: &str) -> String {
    words.replace('&', "&amp;").replace('<', "&lt;").replace('>', "&gt;").replace('"', "&quot;")
}
