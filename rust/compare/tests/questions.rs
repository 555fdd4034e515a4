//! Questions on tables as built, through the session's calls: roots, states, answer, parts, links and nodes passed over, on trees
//! of every shape and size. The reference model holds every answer to a fresh run of the changed plan; here the record is looked at too.

use compare::counts::Counts;
use compare::inputs::{self, Case};
use compare::panel::{Lent, Panel};
use compare::random::Random;
use compare::rounds::questions::Asked;
use compare::shapes::{self, Shape, DEEPEST, SHAPES};
use reference::panel::{Answer, Call};
use reference::record::RECORD_BYTES;

#[test]
fn every_set_of_nodes_of_small_trees() {
    let random = &mut Random::new(1201);
    for leaves in 1..=4 {
        for kinds in shapes::all(leaves) {
            let mut asked = Asked::new(Case::of_kinds(&kinds, 3, 3, random), random);
            for set in 0..1 << asked.case.n {
                let mut nodes: Vec<u16> = (0..asked.case.n as u16).filter(|v| set >> v & 1 == 1).collect();
                random.shuffle(&mut nodes);
                let labels = random.bytes_below(nodes.len(), 3);
                asked.ask(&nodes, &labels, random);
            }
        }
    }
}

#[test]
fn lists_of_every_length_on_every_shape() {
    let random = &mut Random::new(1202);
    for shape in SHAPES {
        for m in 0..=64 {
            let (leaves, s, k) = (random.between(1, 260), random.between(1, 16), random.between(1, 64));
            let mut asked = Asked::new(Case::new(shape, leaves, s, k, random), random);
            for _ in 0..3 {
                asked.both_ways(m, random, &mut Counts::default());
            }
        }
    }
}

#[test]
fn small_trees_of_every_shape_and_every_length() {
    let random = &mut Random::new(1203);
    for shape in SHAPES {
        for leaves in 1..=39 {
            let (s, k) = (random.between(2, 5), random.between(2, 5));
            let mut asked = Asked::new(Case::new(shape, leaves, s, k, random), random);
            for m in [0, 1, 2, 3, 5, 8, 13, 64] {
                let (nodes, labels) = asked.case.list(m, random);
                asked.ask(&nodes, &labels, random);
            }
        }
    }
}

/// N 65,535; in three of the shapes the greatest depth is 32,767.
#[test]
fn the_largest_plans() {
    let random = &mut Random::new(1204);
    for shape in SHAPES {
        let (s, k) = *random.pick(&[(1, 1), (2, 64), (16, 64), (16, 2), (7, 33)]);
        let mut asked = Asked::new(Case::new(shape, 32_768, s, k, random), random);
        let deepest = *asked.tree.depth.iter().max().unwrap();
        assert_eq!((asked.case.n, deepest == 32_767), (65_535, DEEPEST.contains(&shape)));
        for m in [0, 1, 2, 8, 64] {
            let (nodes, labels) = asked.case.list(m, random);
            asked.ask(&nodes, &labels, random);
        }
        let deep = asked.tree.depth.iter().position(|&d| d == deepest).unwrap() as u16;
        asked.ask(&[deep], &[0], random);
        asked.ask(&[65_534, deep], &[0, k as u8 - 1], random);
    }
}

/// 254 parts, and 4m - 2 for every m.
#[test]
fn as_many_parts_as_there_can_be() {
    let random = &mut Random::new(1208);
    let (kinds, listed) = shapes::most_parts();
    let mut asked = Asked::new(Case::of_kinds(&kinds, 5, 3, random), random);
    for m in 1..=64 {
        let mut nodes = listed[..m].to_vec();
        random.shuffle(&mut nodes);
        let labels = asked.case.other_labels(&nodes, random);
        assert_eq!(asked.ask(&nodes, &labels, random).parts as usize, 4 * m - 2);
    }
}

/// "A listed node whose label equals the plan's is left out of W from now on": nothing is rechecked but the root.
#[test]
fn labels_that_are_there_already() {
    let random = &mut Random::new(1205);
    for turn in 0..60 {
        let leaves = random.between(2, 60);
        let mut asked = Asked::new(Case::new(SHAPES[turn % 6], leaves, 4, 3, random), random);
        let (nodes, _) = asked.case.list(5, random);
        let labels: Vec<u8> = nodes.iter().map(|&v| asked.case.labels()[v as usize]).collect();
        let unchanged = asked.ask(&[], &[], random);
        let told = asked.ask(&nodes, &labels, random);
        assert_eq!(told, unchanged);
        assert_eq!((told.parts, told.links, told.passed), (1, 0, 0));
        // and beside nodes that change they count for nothing; a first entry for a node does not hold
        let (mut more, mut others) = (nodes.clone(), asked.case.other_labels(&nodes, random));
        more.extend(&nodes[1..]);
        others.extend(&labels[1..]);
        assert_eq!(asked.ask(&more, &others, random), asked.ask(&nodes[..1], &others[..1], random));
    }
}

/// "links may go either way": kinds 0 0 0 1 1, parts and links.
#[test]
fn links_go_either_way() {
    let random = &mut Random::new(1210);
    let rules = reference::sample::table_a();
    for (own, nodes, labels, parts, links) in
        [([0, 0, 0, 1, 0], &[2, 3][..], &[1, 1][..], 2, 1), ([0, 1, 1, 0, 0], &[2][..], &[1][..], 1, 0)]
    {
        let plan = reference::write::plan(&own, &[0, 0, 0, 1, 1]);
        let case = Case { n: 5, s: 2, k: 2, plan, rules: rules.clone(), branch: vec![] };
        let told = Asked::new(case, random).ask(nodes, labels, random);
        assert_eq!((told.parts, told.links), (parts, links));
    }
}

/// In the sample there are as many nodes passed over as links; here there are more.
#[test]
fn more_nodes_passed_over_than_links() {
    let random = &mut Random::new(1211);
    let (plan, rules) = (reference::sample::plan_with_a_gap(), reference::sample::table_a());
    let case = Case { n: 13, s: 2, k: 2, plan, rules, branch: vec![] };
    let told = Asked::new(case, random).ask(&[1, 3], &[0, 1], random);
    assert_eq!((told.parts, told.links, told.passed), (2, 3, 5));
}

#[test]
fn limits_of_the_list() {
    let random = &mut Random::new(1206);
    let mut asked = Asked::new(Case::new(Shape::Uniform, 100, 16, 4, random), random);
    let (nodes, labels) = asked.case.list(65, random);
    asked.ask(&nodes[..64], &labels[..64], random);
    let refused = |panel: &mut Panel, lent: &Lent, nodes: &[u16], labels: &[u8], random: &mut Random| match panel
        .start(lent, nodes, labels, random)
    {
        Answer::Refused(number) => number,
        other => panic!("{:?}", other),
    };
    let (panel, lent) = (&mut asked.panel, &asked.lent);
    assert_eq!(refused(panel, lent, &nodes, &labels, random), 12);
    assert_eq!(refused(panel, lent, &nodes[..64], &labels[..63], random), 12);
    assert_eq!(refused(panel, lent, &[], &labels[..1], random), 12);
    // 12 counts the entries, not their nodes; 13 is put to the whole list before 14, superseded entries included
    assert_eq!(refused(panel, lent, &[0, 1, 2].repeat(22)[..65], &[0; 65], random), 12);
    assert_eq!(refused(panel, lent, &[199, 0, 199, 1], &[0, 0, 0, 0], random), 13);
    assert_eq!(refused(panel, lent, &[5, 5], &[4, 1], random), 14);
    assert_eq!(refused(panel, lent, &[0, 199], &[4, 0], random), 13);
    assert_eq!(refused(panel, lent, &[0, 0], &[0, 4], random), 14);
    // the answer before is still there
    assert!(matches!(panel.call(&Call::Read, random), Answer::Outcome(_)));
}

/// The records that docs/LAYOUT.md shows: after Load, after Start of 0→0, after two advances, after Start and Cancel.
#[test]
fn the_records_of_the_layout_page() {
    let random = &mut Random::new(1209);
    let page = std::fs::read_to_string(concat!(env!("CARGO_MANIFEST_DIR"), "/../../docs/LAYOUT.md")).unwrap();
    let shown = |row: &str| -> Vec<u8> {
        let line = page.lines().find(|line| line.starts_with(row)).expect("a row of the page");
        let cells: Vec<Vec<u8>> = line.split('|').skip(2).map(hex).collect();
        let mut record = vec![0; RECORD_BYTES];
        record[..13].copy_from_slice(&cells[0]);
        record[205..205 + cells[1].len()].copy_from_slice(&cells[1]);
        record[967..967 + cells[2].len()].copy_from_slice(&cells[2]);
        record[975..975 + cells[3].len()].copy_from_slice(&cells[3]);
        record
    };
    let (plan, rules) = inputs::sample();
    let lent = Lent::built(&Case { n: 7, s: 2, k: 2, plan, rules, branch: vec![] }, random);
    let mut panel = Panel::loaded(&lent, random);
    assert!(panel.record == shown("| after Load |"));
    panel.start(&lent, &[0], &[0], random);
    assert!(panel.record == shown("| after Start |"));
    panel.finish(&lent, random);
    assert!(panel.record == shown("| after two advances |"));
    panel.start(&lent, &[0], &[0], random);
    panel.call(&Call::Cancel, random);
    assert!(panel.record == shown("| after Start and Cancel |"));
}

/// The bytes of a cell: pairs of digits in backticks, or nothing.
fn hex(cell: &str) -> Vec<u8> {
    let digits = cell.trim().trim_matches('`');
    digits.split_whitespace().map(|byte| u8::from_str_radix(byte, 16).expect("a byte")).collect()
}

#[test]
fn the_sample_clearance() {
    let random = &mut Random::new(1207);
    let (plan, rules) = inputs::sample();
    let lent = Lent::built(&Case { n: 7, s: 2, k: 2, plan, rules, branch: vec![] }, random);
    let mut panel = Panel::loaded(&lent, random);
    for row in reference::sample::ROWS {
        let answer = match panel.start(&lent, row.nodes, row.labels, random) {
            Answer::Refused(number) => Err(number),
            _ => Ok(panel.finish(&lent, random).1),
        };
        assert_eq!(answer, row.told, "{:?} {:?}", row.nodes, row.labels);
    }
}
