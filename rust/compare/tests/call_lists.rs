//! Whole lists of calls, held to the reference implementation and to the reference model.

use compare::counts::Counts;
use compare::inputs::Case;
use compare::panel::{Lent, Panel};
use compare::random::Random;
use compare::rounds::call_lists::{list, same_sizes};
use compare::shapes::SHAPES;
use reference::model::{Reply, Settlement};
use reference::panel::{Answer, Call};

#[test]
fn small_plans() {
    let (random, counts) = (&mut Random::new(1501), &mut Counts::default());
    for _ in 0..700 {
        list(150, 20, random, counts);
    }
    // everything that a session can answer came, and each often enough
    let wanted: Vec<String> = [1, 17, 12, 13, 14, 18].iter().map(|n| format!("Start refused {}", n)).collect();
    let loads = (1..=11).map(|n| format!("Load refused {}", n));
    let others = [
        "Load Accepted",
        "Start parts",
        "advance More",
        "advance Finished",
        "advance refused 1",
        "advance refused 17",
        "advance refused 18",
        "Cancel Accepted",
        "Cancel refused 1",
        "Read told Some(Clean)",
        "Read told Some(ByRule)",
        "Read told Some(ByProgram)",
        "Read refused 1 None",
        "Read refused 1 in Empty",
        "Read refused 1 in Loaded",
        "Read refused 1 in Running",
        "Read told in Loaded",
        "Read told in Running",
        "Read told in Answered",
        "Read beside a question that stands otherwise",
        "an unclean finish replaces a clean answer",
        "18 in a clean question",
        "18, then restored and still clean",
        "Clean to ByRule",
        "Clean to ByProgram",
        "ByRule to ByProgram",
        "broken record refused 1",
        "altered record, still a session's",
        "a session goes back to where the other is",
    ];
    for what in wanted.into_iter().chain(loads).chain(others.map(String::from)) {
        assert!(counts.of(&what) >= 20, "{}:\n{}", what, counts);
    }
}

#[test]
fn larger_plans() {
    let (random, counts) = (&mut Random::new(1502), &mut Counts::default());
    for _ in 0..12 {
        list(150, 3_000, random, counts);
    }
    assert!(counts.of("Read told Some(Clean)") > 10, "{}", counts);
}

/// "it may lend what Load wrote", and an exchanged plan with its own tables is as sound: Start's plan is asked.
#[test]
fn exchanged_plans() {
    let random = &mut Random::new(1503);
    for _ in 0..100 {
        let leaves = random.between(2, 30);
        let [one, other] = [0, 0].map(|_| same_sizes(leaves, 3, 3, random));
        let [lent_one, lent_other] = [Lent::built(&one, random), Lent::built(&other, random)];
        let mut panel = Panel::loaded(&lent_one, random);
        let (nodes, labels) = other.list(3, random);
        panel.start(&lent_other, &nodes, &labels, random);
        assert_eq!(panel.model.settlement(), Some(Settlement::Clean));
        let (_, told) = panel.finish(&lent_other, random);
        let fresh = reference::fresh::fresh_run(&other.plan, &other.rules, &nodes, &labels).unwrap();
        assert_eq!((told.state, told.yes), (fresh.state as u32, fresh.yes));
        assert_eq!(panel.left, 0);
    }
}

/// A question on sound inputs is finished by exactly as many accepted advances as it has parts, whatever is refused
/// between.
#[test]
fn refused_calls_between() {
    let random = &mut Random::new(1504);
    for turn in 0..150 {
        let leaves = random.between(2, 40);
        let case = Case::new(SHAPES[turn % 6], leaves, 4, 4, random);
        let lent = Lent::built(&case, random);
        let mut panel = Panel::loaded(&lent, random);
        let (nodes, labels) = case.list(4, random);
        let parts = match panel.start(&lent, &nodes, &labels, random) {
            Answer::Parts(parts) => parts,
            other => panic!("{:?}", other),
        };
        let mut accepted = 0;
        while accepted < parts {
            let mut wrong = lent.clone();
            match random.below(6) {
                0 => assert_eq!(panel.call(&Call::Load(lent.inputs()), random), Answer::Refused(1)),
                1 => assert_eq!(panel.start(&lent, &[], &[], random), Answer::Refused(1)),
                2 => assert_eq!(panel.call(&Call::Read, random), Answer::Refused(1)),
                3 => {
                    wrong.plan.push(0);
                    assert_eq!(panel.advance(&wrong, random), Answer::Refused(17));
                }
                4 => {
                    // no result is a state
                    wrong.rules[20..].fill(255);
                    assert_eq!(panel.advance(&wrong, random), Answer::Refused(18));
                }
                _ => {
                    accepted += 1;
                    let wanted = if accepted == parts { Answer::Finished } else { Answer::More };
                    assert_eq!(panel.advance(&lent, random), wanted);
                }
            }
        }
        assert_eq!(panel.model.settlement(), Some(Settlement::Clean));
        assert!(matches!(panel.call(&Call::Read, random), Answer::Outcome(_)));
    }
}

/// "Read is allowed in every state once such an answer is there, and gives 1 otherwise"; and a question that is started
/// with an answer kept is answered call by call as in a new session, Reads before its finish apart.
#[test]
fn the_answer_lasts() {
    let random = &mut Random::new(1506);
    for turn in 0..150 {
        let leaves = random.between(2, 40);
        let case = Case::new(SHAPES[turn % 6], leaves, 4, 4, random);
        let lent = Lent::built(&case, random);
        let (mut panel, mut anew) = (Panel::loaded(&lent, random), Panel::loaded(&lent, random));
        let read = |panel: &mut Panel, random: &mut Random| panel.call(&Call::Read, random);
        assert_eq!(read(&mut panel, random), Answer::Refused(1));
        let (nodes, labels) = case.list(4, random);
        panel.start(&lent, &nodes, &labels, random);
        assert_eq!(read(&mut panel, random), Answer::Refused(1));
        let first = Answer::Outcome(panel.finish(&lent, random).1);
        let mut short = lent.clone();
        short.plan.pop();
        for _ in 0..3 {
            let (nodes, labels) = case.list(random.between(0, 5), random);
            let parts = panel.start(&lent, &nodes, &labels, random);
            assert!(matches!(parts, Answer::Parts(_)));
            assert_eq!(anew.start(&lent, &nodes, &labels, random), parts);
            assert_eq!(read(&mut panel, random), first);
            while panel.says().states.len() + 1 < panel.says().roots.len() && random.below(4) > 0 {
                assert_eq!(panel.advance(&lent, random), anew.advance(&lent, random));
                assert_eq!(read(&mut panel, random), first);
            }
            assert!(matches!(panel.call(&Call::Load(short.inputs()), random), Answer::Refused(1)));
            assert_eq!([&mut panel, &mut anew].map(|one| one.call(&Call::Cancel, random)), [Answer::Accepted; 2]);
            assert!(matches!(panel.call(&Call::Load(short.inputs()), random), Answer::Refused(_)));
            assert_eq!(read(&mut panel, random), first);
            assert_eq!(read(&mut anew, random), Answer::Refused(1));
        }
        let (nodes, labels) = case.list(3, random);
        let parts = panel.start(&lent, &nodes, &labels, random);
        assert_eq!(anew.start(&lent, &nodes, &labels, random), parts);
        let second = panel.finish(&lent, random);
        assert_eq!(anew.finish(&lent, random), second);
        assert!(panel.record == anew.record, "nothing of the earlier answer is left");
        assert_eq!(panel.call(&Call::Load(lent.inputs()), random), Answer::Accepted);
        assert_eq!(read(&mut panel, random), Answer::Refused(1));
        assert_eq!(panel.left, 0, "all of it is settled");
    }
}

/// The reference model settles an answer before the program gives one.
#[test]
fn a_settled_answer_needs_no_program() {
    let random = &mut Random::new(1505);
    let case = Case::new(SHAPES[4], 20, 3, 3, random);
    let lent = Lent::built(&case, random);
    let mut model = reference::model::Reference::default();
    let calls = [Call::Load(lent.inputs()), Call::Start(lent.inputs(), &[0], &[0]), Call::Cancel, Call::Read];
    for (call, wanted) in calls.iter().zip([Answer::Accepted, Answer::Parts(2), Answer::Accepted, Answer::Refused(1)]) {
        model = match model.reply(call) {
            Reply::Settled(answer, after) => {
                assert_eq!(answer, wanted);
                after
            }
            Reply::Unsettled(_) => panic!("left to the program"),
        };
    }
}
