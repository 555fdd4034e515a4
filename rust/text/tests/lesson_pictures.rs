//! The pictures of docs/TEACHING.md are what the lessons show. With WHATIF_TEXT_STORE=1 in the environment they are stored
//! anew.

mod browser;

use std::env;
use std::fs;
use std::path::{Path, PathBuf};
use text::input::Input;
use text::lessons::{page, screens_page};

const DRIVER: &str = include_str!("browser/picture.js");
const SCREENS: &str = include_str!("../../../examples/screens.txt");

fn root() -> PathBuf {
    Path::new(env!("CARGO_MANIFEST_DIR")).join("../..")
}

fn sample() -> Input {
    Input::of_text(include_str!("../../../examples/sample.txt")).unwrap()
}

/// It is in docs/pictures, and docs/TEACHING.md shows it.
fn is_stored(name: &str, svg: &str) {
    let teaching = fs::read_to_string(root().join("docs/TEACHING.md")).unwrap();
    assert!(teaching.contains(&format!("(pictures/{}.svg)", name)), "docs/TEACHING.md does not show {}", name);
    let file = root().join("docs/pictures").join(format!("{}.svg", name));
    if env::var_os("WHATIF_TEXT_STORE").is_some() {
        fs::write(&file, svg).unwrap();
    }
    assert!(fs::read_to_string(&file).unwrap_or_default() == svg, "docs/pictures/{}.svg is another picture", name);
}

/// The light style of a page, as far as a picture needs it.
fn style(page: &str) -> String {
    let css = page.split("<style>\n").nth(1).unwrap().split("</style>").next().unwrap();
    let (mut kept, mut rest) = (String::new(), css);
    while let Some(open) = rest.find('{') {
        let mut depth = 0;
        let ends = |letter: char| {
            depth += i32::from(letter == '{') - i32::from(letter == '}');
            letter == '}' && depth == 0
        };
        let end = rest.find(ends).unwrap() + 1;
        let selector = rest[..open].trim();
        let kinds = [":root", "*", "svg", "#tree ", "#screens", ".screen", "progress"];
        if kinds.iter().any(|kind| selector.starts_with(kind)) {
            kept += rest[..end].trim().trim_start_matches("#tree ");
            kept += "\n";
        }
        rest = &rest[end..];
    }
    kept + "svg { font: 16px/1.45 system-ui, sans-serif; color: var(--ink); background: var(--paper); }\n"
}

/// What the page shows after these presses.
fn pressed(page: &str, presses: &[&str], shown: &str) -> String {
    let written = browser::written(
        page,
        &format!("{}\nfor (const what of {:?}) press(what);\nnote({});", DRIVER, presses, shown),
    );
    let svg =
        written.concat().replace("><g", ">\n<g").replace("><line", ">\n<line").replace("><section", ">\n<section");
    let (head, rest) = svg.split_once('>').unwrap();
    format!("{}>\n<style>\n{}</style>{}\n", head, style(page), rest)
}

#[test]
fn of_a_question() {
    if browser::skipped() {
        return;
    }
    let page = page::of_question(&sample(), 4, false).unwrap();
    is_stored("lesson-started", &pressed(&page, &["start"], "tree()"));
    is_stored("lesson-two-parts", &pressed(&page, &["start", "advance", "advance"], "tree()"));
    is_stored("lesson-answered", &pressed(&page, &["end"], "tree()"));
    let page = page::of_question(&sample(), 4, true).unwrap();
    is_stored("lesson-allowed", &pressed(&page, &["end"], "tree()"));
}

#[test]
fn of_a_full_arch() {
    if browser::skipped() {
        return;
    }
    let words: Vec<&str> = "--nodes 61471 --shape arch --seed 6".split(' ').collect();
    let arch = text::random::text(&words).unwrap().unwrap();
    let page = page::of_question(&Input::of_text(&arch).unwrap(), 1, false).unwrap();
    is_stored("lesson-arch", &pressed(&page, &["end"], "tree()"));
}

#[test]
fn of_eight_screens() {
    if browser::skipped() {
        return;
    }
    let page = screens_page::of_script(&sample(), SCREENS).unwrap();
    is_stored("lesson-screens", &pressed(&page, &["advance"; 12], "frames(1100, 540)"));
}

/// The first picture that is written as such: no browser is needed.
#[test]
fn of_sheets_and_of_the_mended_plan() {
    let pages =
        [("lesson-sheet", "sheet.html"), ("lesson-exercise", "exercise.html"), ("lesson-mended", "sample.html")];
    for (name, page) in pages {
        let page = fs::read_to_string(root().join("docs/lessons").join(page)).unwrap();
        let (start, end) = (page.find("<svg").unwrap(), page.find("</svg>").unwrap());
        is_stored(name, &(page[start..end].to_string() + "</svg>\n"));
    }
}
