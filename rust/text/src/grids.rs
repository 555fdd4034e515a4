//! `whatif-text rules` and `branch-table`: tables drawn as grids. Of a rule table a grid for each label: rows are the left
//! state, columns the right one, and in a field stands the state that follows. Accepted states are green and bold.

use crate::names::Names;
use crate::outcome::Failure;
use crate::picture::{Drawn, CLEARED, PLAIN};
use crate::sentences::count;
use crate::svg::escaped;
use whatif::{BranchTable, Rules};

/// A field, and whether its state is accepted.
type Field = (String, bool);

struct Grid {
    caption: String,
    corner: &'static str,
    columns: Vec<String>,
    rows: Vec<(String, Vec<Field>)>,
}

struct Sheet {
    title: String,
    grids: Vec<Grid>,
    legend: &'static str,
}

/// Of bytes that the library takes, else its refusal.
pub fn rules(bytes: &[u8], names: &Names, how: Drawn) -> Result<String, Failure> {
    let rules = Rules::from_bytes(bytes).map_err(Failure::refused)?;
    let (s, k) = (rules.states() as u8, rules.labels() as u8);
    let field = |state: Option<u8>| state.map_or((String::new(), false), |q| (names.state(q), rules.accepts(q)));
    let heads: Vec<String> = (0..s).map(|q| format!("right {}", names.state(q))).collect();
    let leaf = |a: u8| (format!("label {}", names.label(a)), vec![field(rules.leaf(a))]);
    let leaves =
        Grid { caption: "leaves".into(), corner: "", columns: vec!["state".into()], rows: (0..k).map(leaf).collect() };
    let of_label = |a: u8| {
        let row = |p: u8| (format!("left {}", names.state(p)), (0..s).map(|q| field(rules.inner(p, a, q))).collect());
        let caption = format!("inner nodes, label {}", names.label(a));
        Grid { caption, corner: "", columns: heads.clone(), rows: (0..s).map(row).collect() }
    };
    let title = format!("Rules: {}, {}", count(s.into(), "state"), count(k.into(), "label"));
    let grids = std::iter::once(leaves).chain((0..k).map(of_label)).collect();
    Ok(Sheet { title, grids, legend: "green and bold: a state that clears the plan at its root" }.drawn(how))
}

/// Of bytes that the library takes, else its refusal.
pub fn branch_table(bytes: &[u8], names: &Names, how: Drawn) -> Result<String, Failure> {
    let table = BranchTable::from_bytes(bytes).map_err(Failure::refused)?;
    let (s, k) = (table.states() as u8, table.labels() as u8);
    let field = |q: Option<u8>| q.map_or((String::new(), false), |q| (names.state(q), table.accepts(q)));
    let row = |p: u8| {
        let first = if p == 0 { ", the first" } else { "" };
        (format!("state {}{}", names.state(p), first), (0..k).map(|a| field(table.step(p, a))).collect())
    };
    let columns = (0..k).map(|a| format!("label {}", names.label(a))).collect();
    let caption = "the state after each label".to_string();
    let grid = Grid { caption, corner: "", columns, rows: (0..s).map(row).collect() };
    let title = format!("Branch table: {}, {}", count(s.into(), "state"), count(k.into(), "label"));
    Ok(Sheet { title, grids: vec![grid], legend: "green and bold: a marked state, the answer is yes" }.drawn(how))
}

impl Sheet {
    fn drawn(&self, how: Drawn) -> String {
        match how {
            Drawn::Dot => self.graphviz(),
            Drawn::Svg => self.svg(),
        }
    }

    fn graphviz(&self) -> String {
        let mut text = "digraph tables {\n    graph [labelloc=t, fontname=\"sans-serif\", rankdir=LR];\n".to_string();
        text += &format!(
            "    node [shape=plaintext, fontname=\"sans-serif\"];\n    label=\"{}\\n{}\";\n",
            self.title, self.legend
        );
        for (i, grid) in self.grids.iter().enumerate() {
            text += &format!("    {} [label=<{}>];\n", i, grid.html());
        }
        text + "}\n"
    }

    /// One below the other, as many beside each other as fit a page.
    fn svg(&self) -> String {
        const PAGE: f64 = 900.0;
        let (mut body, mut x, mut y, mut right, mut tallest) = (String::new(), 14.0, 50.0, 300.0f64, 0.0f64);
        for grid in &self.grids {
            let (width, height) = grid.size();
            if x > 14.0 && x + width > PAGE {
                x = 14.0;
                y += tallest + 18.0;
                tallest = 0.0;
            }
            body += &grid.svg(x, y);
            right = right.max(x + width);
            x += width + 22.0;
            tallest = tallest.max(height);
        }
        let (width, height) = (right.max(8.0 * self.title.len() as f64) + 14.0, y + tallest + 40.0);
        let size = format!("width=\"{0:.0}\" height=\"{1:.0}\" viewBox=\"0 0 {0:.0} {1:.0}\"", width, height);
        let title = escaped(&self.title);
        let mut text =
            format!("<svg xmlns=\"http://www.w3.org/2000/svg\" {} font-family=\"sans-serif\" role=\"img\" ", size);
        text += &format!("aria-label=\"{0}\">\n<title>{0}</title>\n", title);
        text += &format!("<rect width=\"{:.0}\" height=\"{:.0}\" fill=\"{}\"/>\n", width, height, PLAIN);
        text += &format!("<text x=\"14\" y=\"26\" font-size=\"15\" fill=\"#222222\">{}</text>\n", title);
        let legend = format!("<text x=\"14\" y=\"{:.0}\" font-size=\"12\" fill=\"#222222\">", height - 12.0);
        text + &body + &legend + self.legend + "</text>\n</svg>\n"
    }
}

const CELL: f64 = 20.0;

impl Grid {
    fn html(&self) -> String {
        let cell = |words: &str, more: &str| format!("<td{}>{}</td>", more, if words.is_empty() { " " } else { words });
        let heads: String = self.columns.iter().map(|head| cell(&escaped(head), "")).collect();
        let wide = self.columns.len() + 1;
        let mut rows = format!("<tr><td colspan=\"{}\"><b>{}</b></td></tr>", wide, escaped(&self.caption));
        rows += &format!("<tr>{}{}</tr>", cell(self.corner, ""), heads);
        for (head, fields) in &self.rows {
            let field = |(words, accepted): &Field| match accepted {
                true => cell(&format!("<b>{}</b>", escaped(words)), &format!(" bgcolor=\"{}\"", CLEARED)),
                false => cell(&escaped(words), ""),
            };
            rows += &format!("<tr>{}{}</tr>", cell(&escaped(head), ""), fields.iter().map(field).collect::<String>());
        }
        format!("<table border=\"0\" cellborder=\"1\" cellspacing=\"0\">{}</table>", rows)
    }

    /// The widths of the heads of rows, and of each column.
    fn widths(&self) -> (f64, Vec<f64>) {
        let wide = |words: &str| 6.7 * words.chars().count() as f64 + 10.0;
        let heads = self.rows.iter().map(|(head, _)| wide(head)).fold(CELL, f64::max);
        let column = |i: usize| {
            let fields = self.rows.iter().filter_map(|(_, fields)| fields.get(i)).map(|(words, _)| wide(words));
            fields.fold(wide(&self.columns[i]), f64::max)
        };
        (heads, (0..self.columns.len()).map(column).collect())
    }

    fn size(&self) -> (f64, f64) {
        let (heads, columns) = self.widths();
        let caption = 7.2 * self.caption.chars().count() as f64;
        ((heads + columns.iter().sum::<f64>()).max(caption), CELL * (self.rows.len() + 2) as f64)
    }

    fn svg(&self, x: f64, y: f64) -> String {
        let (heads, columns) = self.widths();
        let caption = format!(
            "<text x=\"{:.1}\" y=\"{:.1}\" font-size=\"13\" font-weight=\"bold\" fill=\"#222222\">",
            x,
            y + 13.0
        );
        let mut text = caption + &escaped(&self.caption) + "</text>\n";
        let mut left = x + heads;
        for (head, width) in self.columns.iter().zip(&columns) {
            text += &cell(left, y + CELL, *width, head, PLAIN, "");
            left += width;
        }
        for (i, (head, fields)) in self.rows.iter().enumerate() {
            let top = y + CELL * (i + 2) as f64;
            text += &cell(x, top, heads, head, PLAIN, "");
            let mut left = x + heads;
            for (j, ((words, accepted), width)) in fields.iter().zip(&columns).enumerate() {
                let (fill, weight) = if *accepted { (CLEARED, " font-weight=\"bold\"") } else { (PLAIN, "") };
                let tip =
                    format!("<title>{}, {}: {}</title>", escaped(head), escaped(&self.columns[j]), escaped(words));
                text += &format!("<g>{}{}</g>\n", tip, cell(left, top, *width, words, fill, weight));
                left += width;
            }
        }
        text
    }
}

fn cell(x: f64, y: f64, width: f64, words: &str, fill: &str, weight: &str) -> String {
    let size = format!("width=\"{:.1}\" height=\"{}\"", width, CELL);
    let paint = format!("fill=\"{}\" stroke=\"#777777\" stroke-width=\"0.7\"", fill);
    let said = format!("font-size=\"12\" fill=\"#222222\" text-anchor=\"middle\"{}", weight);
    let (middle, line) = (x + width / 2.0, y + 14.5);
    let rect = format!("<rect x=\"{:.1}\" y=\"{:.1}\" {} {}/>", x, y, size, paint);
    format!("{}<text x=\"{:.1}\" y=\"{:.1}\" {}>{}</text>\n", rect, middle, line, said, escaped(words))
}
