//! The plot: time of a Start, of all advances of a question and of a fresh run over N, both axes logarithmic, as SVG.

use crate::measure::{median, time, TURNS};
use crate::sessions::{One, Set};
use crate::table::short;
use compare::inputs::Case;
use compare::random::Random;
use compare::shapes::Shape;
use std::fmt::Write;
use whatif::Session;

const NODES: [usize; 7] = [1_001, 2_047, 4_095, 8_191, 16_383, 32_767, 65_535];

/// The picture, the frame of the plot in it, and the room that is shown: nodes across, nanoseconds up.
const SIZE: (f64, f64) = (760.0, 470.0);
const LEFT: f64 = 80.0;
const RIGHT: f64 = 620.0;
const TOP: f64 = 50.0;
const BOTTOM: f64 = 400.0;
const ACROSS: (f64, f64) = (900.0, 75_000.0);
const UP: (f64, f64) = (1_000.0, 9_000_000.0);

#[derive(Clone, Copy)]
enum Call {
    Start,
    AllAdvances,
    FreshRun,
}

struct Line {
    name: String,
    call: Call,
    colour: &'static str,
    points: Vec<Point>,
}

/// Plans of n nodes with the questions of one turn, and nanoseconds of a call, one for each turn.
struct Point {
    n: usize,
    set: Set,
    started: Vec<(usize, Session)>,
    times: Vec<f64>,
}

impl Point {
    /// 65,535 nodes or a little fewer in all.
    fn new(n: usize, m: usize, random: &mut Random) -> Point {
        let case = || Case::new(Shape::Uniform, (n + 1) / 2, 16, 64, random);
        let mut set = Set::new(std::iter::repeat_with(case).take(65_535 / n).collect());
        set.with_changes(m, random);
        let started = set.started(set.few());
        Point { n, set, started, times: Vec::new() }
    }

    /// Once to warm up, then once that counts.
    fn turn(&mut self, call: Call) {
        let (set, started) = (&self.set, &self.started);
        let mut all = || match call {
            Call::Start => assert!(set.sum(set.few(), One::start_alone) > 0),
            Call::AllAdvances => set.finish(started),
            Call::FreshRun => assert!(set.sum(set.few(), One::fresh_run) < u32::MAX),
        };
        all();
        self.times.push(time(&mut all) / started.len() as f64);
    }

    /// In the picture.
    fn place(&self) -> (f64, f64) {
        (x(self.n as f64), y(median(self.times.clone())))
    }
}

pub fn svg() -> String {
    let mut out = String::new();
    let (width, height) = SIZE;
    writeln!(
        out,
        r#"<svg xmlns="http://www.w3.org/2000/svg" viewBox="0 0 {} {}" font-family="sans-serif" font-size="13">"#,
        width, height
    )
    .unwrap();
    writeln!(out, r##"<rect width="{}" height="{}" fill="#fff"/>"##, width, height).unwrap();
    text(
        &mut out,
        (LEFT, 28.0),
        "start",
        "Start, all advances of a question and a fresh run, random plans, S 16, K 64",
    );
    axes(&mut out);
    for line in lines() {
        draw(&mut out, &line);
    }
    out + "</svg>\n"
}

/// Each turn takes every point once, so that a busy spell of the machine touches all alike.
fn lines() -> Vec<Line> {
    let random = &mut Random::new(5);
    let mut line = |name: &str, call: Call, m: usize, colour| {
        let points = NODES.iter().map(|&n| Point::new(n, m, random)).collect();
        Line { name: name.to_string(), call, colour, points }
    };
    let mut lines = vec![
        line("Start, m 64", Call::Start, 64, "#0072b2"),
        line("advances, m 8", Call::AllAdvances, 8, "#009e73"),
        line("advances, m 64", Call::AllAdvances, 64, "#d55e00"),
        line("fresh run, m 64", Call::FreshRun, 64, "#333333"),
    ];
    for _ in 0..TURNS {
        for Line { call, points, .. } in &mut lines {
            points.iter_mut().for_each(|point| point.turn(*call));
        }
    }
    lines
}

/// A place between two ends on a logarithmic axis.
fn place(value: f64, (low, high): (f64, f64), (from, to): (f64, f64)) -> f64 {
    from + (to - from) * (value / low).ln() / (high / low).ln()
}

fn x(nodes: f64) -> f64 {
    place(nodes, ACROSS, (LEFT, RIGHT))
}

fn y(time: f64) -> f64 {
    place(time, UP, (BOTTOM, TOP))
}

fn text(out: &mut String, (x, y): (f64, f64), anchor: &str, words: &str) {
    writeln!(out, r#"<text x="{:.1}" y="{:.1}" text-anchor="{}">{}</text>"#, x, y, anchor, words).unwrap();
}

fn rule(out: &mut String, (x1, y1): (f64, f64), (x2, y2): (f64, f64), colour: &str) {
    writeln!(out, r#"<path d="M{:.1} {:.1}L{:.1} {:.1}" stroke="{}"/>"#, x1, y1, x2, y2, colour).unwrap();
}

fn axes(out: &mut String) {
    for decade in [100.0, 1e3, 1e4, 1e5, 1e6] {
        for step in 1..10 {
            let time = decade * f64::from(step);
            if time < UP.0 || time > UP.1 {
                continue;
            }
            rule(out, (LEFT, y(time)), (RIGHT, y(time)), if step == 1 { "#bbb" } else { "#eee" });
            if step == 1 {
                let words = short(time).replace(".00", "").replace(".0", "");
                text(out, (LEFT - 8.0, y(time) + 4.0), "end", &words);
            }
        }
    }
    for n in NODES {
        let (words, at) = (format!("{},{:03}", n / 1_000, n % 1_000), x(n as f64));
        rule(out, (at, TOP), (at, BOTTOM), "#eee");
        text(out, (at, BOTTOM + 20.0), "middle", &words);
    }
    rule(out, (LEFT, BOTTOM), (RIGHT, BOTTOM), "#333");
    rule(out, (LEFT, TOP), (LEFT, BOTTOM), "#333");
    text(out, ((LEFT + RIGHT) / 2.0, BOTTOM + 48.0), "middle", "nodes of the plan, N");
    let (at, middle) = (22.0, (TOP + BOTTOM) / 2.0);
    writeln!(
        out,
        r#"<text transform="translate({:.1} {:.1}) rotate(-90)" text-anchor="middle">time of one call</text>"#,
        at, middle
    )
    .unwrap();
}

/// A line with its name at its end.
fn draw(out: &mut String, line: &Line) {
    let (colour, places) = (line.colour, line.points.iter().map(Point::place).collect::<Vec<(f64, f64)>>());
    let path: Vec<String> = places.iter().map(|(x, y)| format!("{:.1},{:.1}", x, y)).collect();
    let path = path.join(" ");
    writeln!(out, r#"<polyline points="{}" fill="none" stroke="{}" stroke-width="2"/>"#, path, colour).unwrap();
    for (x, y) in &places {
        writeln!(out, r#"<circle cx="{:.1}" cy="{:.1}" r="3" fill="{}"/>"#, x, y, colour).unwrap();
    }
    let (x, y) = places[places.len() - 1];
    let (x, y) = (x + 14.0, y + 4.0);
    writeln!(out, r#"<text x="{:.1}" y="{:.1}" fill="{}">{}</text>"#, x, y, colour, line.name).unwrap();
}
