//! What the calls take on a full arch: the first table of docs/PERFORMANCE.md. Random plans, the library alone.

use crate::cases::{list, List};
use crate::measure::{alone, alone_on};
use crate::sessions::One;
use crate::table::short;
use compare::inputs::{lasting_rules, random_rules, Case};
use compare::random::Random;
use compare::shapes::Shape;
use std::fmt::Write;
use whatif::sizes::{colour_bytes, colour_numbers};
use whatif::{Fewest, Progress, Session, Want};

/// 61,471 nodes.
const LEAVES: usize = 30_736;
const STATES: usize = 4;
const MOST_STATES: usize = 16;
const LABELS: usize = 64;
const FEW_LABELS: usize = 8;
const CHANGES: usize = 8;
/// Questions of a turn.
const QUESTIONS: usize = 65;

fn case(s: usize, k: usize) -> Case {
    Case::new(Shape::Uniform, LEAVES, s, k, &mut Random::new(61))
}

fn lists(case: &Case) -> Vec<List> {
    let random = &mut Random::new(62);
    (0..QUESTIONS).map(|_| list(case, CHANGES, random)).collect()
}

fn load(case: &Case) -> f64 {
    let (mut node_table, mut state_table) = (vec![0; case.node_table_len()], vec![0; case.state_table_len()]);
    alone(1, || Session::new().load(&case.plan, &case.rules, &mut node_table, &mut state_table).expect("accepted"))
}

/// Load, Start, Cancel, Start.
fn trainer(case: &Case, (nodes, labels): &List) -> f64 {
    let (mut node_table, mut state_table) = (vec![0; case.node_table_len()], vec![0; case.state_table_len()]);
    alone(1, || {
        let mut session = Session::new();
        session.load(&case.plan, &case.rules, &mut node_table, &mut state_table).expect("accepted");
        let (plan, rules) = (&case.plan[..], &case.rules[..]);
        let lent = whatif::Lent { plan, rules, node_table: &node_table, state_table: &state_table };
        session.start(&lent, nodes, labels).expect("accepted");
        session.cancel().expect("accepted");
        session.start(&lent, nodes, labels).expect("accepted");
    })
}

/// One of the advances of some questions, each from its Start.
fn advance(one: &One, lists: &[List]) -> f64 {
    let started: Vec<Session> = lists.iter().map(|list| one.started(list)).collect();
    let parts: u32 = lists.iter().map(|list| one.start_alone(list)).sum();
    let finish = |sessions: Vec<Session>| {
        for mut session in sessions {
            while session.advance(&one.lent()) == Ok(Progress::More) {}
        }
    };
    alone_on(parts as usize, || started.clone(), finish)
}

fn ask(one: &One, lists: &[List]) -> f64 {
    let lent = one.lent();
    alone(lists.len(), || {
        for (nodes, labels) in lists {
            let _ = whatif::ask(&lent, nodes, labels).expect("accepted");
        }
    })
}

/// The build, and a question, under rules whose colours never fall, and under some whose colours fall often.
fn colours() -> [(f64, f64); 2] {
    [lasting_rules, random_rules].map(|rules| {
        let mut case = case(STATES, LABELS);
        case.rules = rules(STATES, LABELS, &mut Random::new(63));
        let (n, lists) = (case.n, lists(&case));
        let (mut numbers, mut bytes) = (vec![0; colour_numbers(n, STATES)], vec![0; colour_bytes(n, STATES)]);
        let build = alone(1, || {
            whatif::colour_build(&case.plan, &case.rules, &mut numbers, &mut bytes).expect("accepted");
        });
        let question = alone(lists.len(), || {
            for (nodes, labels) in &lists {
                let told =
                    whatif::colour_ask(&case.plan, &case.rules, &numbers, &bytes, &numbers, &bytes, nodes, labels);
                let _ = told.expect("accepted");
            }
        });
        (build, question)
    })
}

/// Every label permitted; on a plan that is not as wanted, so that a list is made.
fn fewest(case: &Case) -> f64 {
    let yes = whatif::fresh_run(&case.plan, &case.rules, &[], &[]).expect("accepted").yes;
    let want = if yes { Want::NotCleared } else { Want::Cleared };
    let mut work = vec![0; case.state_table_len()];
    alone(1, || {
        let told = whatif::fewest(&case.plan, &case.rules, &[], want, &mut work).expect("accepted");
        assert!(told != Fewest::AsItIs, "it is not as wanted");
    })
}

/// The table, as Markdown.
pub fn table() -> String {
    let one = One::new(case(STATES, LABELS));
    let (case_of_four, most) = (&one.case, case(MOST_STATES, LABELS));
    let lists = lists(case_of_four);
    let first = &lists[0];
    let [never, often] = colours();
    let (mut masks, mut sets) = (vec![0; most.n], vec![0; most.n]);
    let fresh_run = alone(lists.len(), || {
        for list in &lists {
            one.fresh_run(list);
        }
    });
    let start = alone(1, || {
        one.start_alone(first);
    });
    let allowed = alone(1, || whatif::allowed(&most.plan, &most.rules, &mut masks).expect("accepted"));
    let clearing = alone(1, || whatif::clearing(&most.plan, &most.rules, &mut sets).expect("accepted"));
    let rows = [
        ("Load", load(case_of_four)),
        ("Start", start),
        ("one advance", advance(&one, &lists)),
        ("fresh run", fresh_run),
        ("Load, Start, Cancel, Start", trainer(case_of_four, first)),
        ("whole question on the tables (`whatif_ask`)", ask(&one, &lists)),
        ("question by colours that never fall", never.1),
        ("question by colours that fall often", often.1),
        ("build of colours that never fall", never.0),
        ("build of colours that fall often", often.0),
        ("allowed labels of every node, 16 states", allowed),
        ("clearing states of every node, 16 states", clearing),
        ("fewest changes, every label permitted, 8 labels", fewest(&case(STATES, FEW_LABELS))),
        ("fewest changes, every label permitted", fewest(case_of_four)),
        ("fewest changes, every label permitted, 16 states", fewest(&most)),
    ];
    let mut out = "| Call | Time |\n|---|---|\n".to_string();
    for (call, time) in rows {
        writeln!(out, "| {} | {} |", call, short(time)).unwrap();
    }
    out
}
