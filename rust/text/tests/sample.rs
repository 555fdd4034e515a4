//! examples/sample.txt is document 01's sample, and examples/sample.expected what is told of it.

use reference::panel::{Answer, Call, Inputs};
use reference::record::Record;
use reference::sample::{plan_a, table_a, ROWS};
use reference::session::call;
use reference::write::with_header;
use text::lines;
use text::questions::changes;

const SAMPLE: &str = include_str!("../../../examples/sample.txt");
const EXPECTED: &str = include_str!("../../../examples/sample.expected");

/// The sample's input, from the rows of document 01.
fn input() -> Vec<u8> {
    let mut questions: Vec<u8> = Vec::new();
    for row in ROWS {
        questions.extend((row.nodes.len() as u16).to_le_bytes());
        for (node, label) in row.nodes.iter().zip(row.labels) {
            questions.extend(node.to_le_bytes());
            questions.push(*label);
        }
    }
    with_header(&[26, 32, questions.len()], &[&plan_a(), &table_a(), &questions])
}

#[test]
fn the_text_is_the_sample() {
    assert_eq!(text::write(SAMPLE), Ok(input()));
}

/// The lines that `whatif` prints, by the reference implementation.
fn answers(nodes: &[u16], labels: &[u8]) -> String {
    let (plan, rules) = (plan_a(), table_a());
    let tables = reference::build(&plan, &rules, 28, 21).unwrap();
    let inputs =
        Inputs { plan: &plan, rules: &rules, node_table: &tables.node_table, state_table: &tables.state_table };
    let mut record = Record::fresh().bytes();
    let mut step = |next: Call| {
        let done = call(&record, &next);
        record = done.record;
        done.answer
    };
    assert_eq!(step(Call::Load(inputs)), Answer::Accepted);
    if let Answer::Refused(number) = step(Call::Start(inputs, nodes, labels)) {
        return format!("refused {}\n", number);
    }
    while step(Call::Advance(inputs)) == Answer::More {}
    match step(Call::Read) {
        Answer::Outcome(t) => {
            let yes = if t.yes { "yes" } else { "no" };
            format!("{} {} {} {} {}\n", t.state, yes, t.parts, t.links, t.passed)
        }
        other => panic!("{:?}", other),
    }
}

#[test]
fn the_expected_lines_are_told() {
    let sections = text::sections(SAMPLE).unwrap();
    let told = |line: &lines::Line| {
        let (nodes, labels): (Vec<u16>, Vec<u8>) = changes(line).unwrap().into_iter().unzip();
        answers(&nodes, &labels)
    };
    assert_eq!(sections.questions.iter().map(told).collect::<String>(), EXPECTED);
}

#[test]
fn shown_it_is_this() {
    let shown = text::show(&input()).unwrap();
    assert!(shown.starts_with("plan\nleaf 1     # node 0\nleaf 1     # node 1\ninner 1    # node 2, over 0 and 1\n"));
    assert!(
        shown.contains("\nrules\nstates 2\nlabels 2\nleaf 0 -> 0\nleaf 1 -> 1\ninner 0 0 0 -> 0\ninner 0 0 1 -> 1\n")
    );
    assert!(shown
        .ends_with("\naccept 1\n\nquestions\nnone\n0->0\n0->0 2->0\n0->0 3->1\n4->0\n6->0\n7->0\n0->2\n0->0 0->1\n"));
    assert_eq!(text::write(&shown), Ok(input()));
}
