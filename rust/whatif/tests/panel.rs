//! The panel on document 01's sample: answers, part by part, what is current and what is not, and what is confirmed.

mod sample;

use sample::{panel, plan_a, rows, table_a};
use whatif::{Fewest, Kind, LabelSet, Panel, Part, Plan, Progress, Refusal, Rules, State, Unconfirmed, Verdict, Want};

#[test]
fn the_sample_s_rows() {
    let mut panel = panel();
    for (changes, expected) in rows() {
        assert_eq!(panel.ask(changes), expected, "{:?}", changes);
        let verdict = expected.map(|answer| Verdict { state: answer.state, yes: answer.yes });
        assert_eq!(panel.fresh_run(changes), verdict, "{:?}", changes);
    }
}

#[test]
fn part_by_part() {
    let mut panel = panel();
    assert_eq!(panel.start(&[(0, 0), (3, 1)]), Ok(5));
    assert!(panel.session().roots().eq([0, 2, 3, 5, 6]));
    assert!(panel.session().changes().eq([(0, 0), (3, 1)]));
    let mut advances = panel.advances();
    assert_eq!(advances.size_hint(), (1, Some(5)));
    let part = |number, root, state| Part { number, of: 5, root, state };
    assert_eq!(advances.next(), Some(Ok(part(1, 0, 0))));
    assert_eq!(advances.next(), Some(Ok(part(2, 2, 0))));
    assert_eq!(advances.size_hint(), (1, Some(3)));
    // left early: the rest is done by whoever goes on
    assert_eq!((panel.session().parts_done(), panel.advance()), (2, Ok(Progress::More)));
    let rest: Vec<_> = panel.advances().take(9).collect();
    assert_eq!(rest, [Ok(part(4, 5, 1)), Ok(part(5, 6, 0))]);
    assert!(panel.session().handled().eq([(0, 0), (2, 0), (3, 1), (5, 1), (6, 0)]
        .iter()
        .enumerate()
        .map(|(i, &(root, state))| part(i as u32 + 1, root, state))));
    assert_eq!(panel.session().state(), Some(State::Answered));
}

/// An iterator that is asked where nothing is running says so once.
#[test]
fn no_question_is_running() {
    let mut panel = panel();
    assert_eq!(panel.advances().take(9).collect::<Vec<_>>(), [Err(Refusal::SessionState)]);
    assert_eq!(panel.advance(), Err(Refusal::SessionState));
    assert_eq!(panel.cancel(), Err(Refusal::SessionState));
    assert!(panel.ask(&[]).is_ok());
    let mut advances = panel.advances();
    assert_eq!(
        (advances.next(), advances.next(), advances.size_hint()),
        (Some(Err(Refusal::SessionState)), None, (0, Some(0)))
    );
}

/// An earlier question's yes is never the current answer, from Start to the last advance and after a Cancel.
#[test]
fn no_stale_yes() {
    let mut panel = panel();
    assert_eq!((panel.current(), panel.last()), (Err(Refusal::SessionState), Err(Refusal::SessionState)));
    let earlier = panel.ask(&[]).unwrap();
    assert!(earlier.yes);
    for advances in 0..2 {
        panel.start(&[(0, 0)]).unwrap();
        for _ in 0..advances {
            assert_eq!(panel.advance(), Ok(Progress::More));
        }
        assert_eq!((panel.current(), panel.last()), (Err(Refusal::SessionState), Ok(earlier)));
        panel.cancel().unwrap();
        assert_eq!((panel.current(), panel.last()), (Err(Refusal::SessionState), Ok(earlier)));
    }
    let now = panel.ask(&[(0, 0)]).unwrap();
    assert_eq!((now.yes, panel.current(), panel.last()), (false, Ok(now), Ok(now)));
    // a refused start is no question
    assert_eq!((panel.start(&[(7, 0)]), panel.current()), (Err(Refusal::Node), Ok(now)));
}

#[test]
fn another_load() {
    let mut panel = panel();
    assert!(panel.ask(&[]).is_ok());
    panel.start(&[(0, 0)]).unwrap();
    let one = || Plan::new(&[0], &[Kind::Leaf]).unwrap();
    assert_eq!(panel.load(one(), table_a()), Err(Refusal::SessionState));
    assert_eq!((panel.plan(), panel.session().state()), (&plan_a(), Some(State::Running)));
    panel.cancel().unwrap();
    // 10 changes nothing either: the answer is still there, and the next question is the first plan's
    let two = Plan::new(&[2], &[Kind::Leaf]).unwrap();
    assert_eq!(panel.load(two.clone(), table_a()), Err(Refusal::PlanLabel));
    assert!(panel.last().is_ok() && panel.ask(&[(6, 0)]).is_ok());
    assert_eq!(panel.load(one(), table_a()), Ok(()));
    assert_eq!((panel.plan(), panel.last()), (&one(), Err(Refusal::SessionState)));
    assert_eq!(panel.ask(&[]).map(|answer| (answer.state, answer.yes)), Ok((0, false)));
    assert_eq!(Panel::new(two, table_a()).err(), Some(Refusal::PlanLabel));
}

#[test]
fn only_a_yes_to_the_list_is_confirmed() {
    let mut panel = panel();
    assert_eq!(panel.confirm(&[]), Err(Unconfirmed::Refused(Refusal::SessionState)));
    let changes = [(0, 0), (2, 0)];
    panel.start(&changes).unwrap();
    assert_eq!(panel.confirm(&changes), Err(Unconfirmed::Refused(Refusal::SessionState)));
    panel.cancel().unwrap();
    assert!(panel.ask(&changes).unwrap().yes);
    assert_eq!(panel.confirm(&changes), Ok(()));
    // other lists, some of which would be cleared too
    for other in
        [&[][..], &[(0, 0)], &[(2, 0), (0, 0)], &[(0, 0), (2, 0), (0, 0)], &[(0, 0), (2, 1)], &[(1, 0), (2, 0)]]
    {
        assert_eq!(panel.confirm(other), Err(Unconfirmed::OtherList), "{:?}", other);
    }
    assert_eq!(panel.confirm(&[(7, 0)]), Err(Unconfirmed::Refused(Refusal::Node)));
    assert_eq!(panel.confirm(&[(0, 0); 65]), Err(Unconfirmed::Refused(Refusal::ListLength)));
    // a no
    let no = panel.ask(&[(0, 0)]).unwrap();
    let verdict = Verdict { state: no.state, yes: no.yes };
    assert_eq!(panel.confirm(&[(0, 0)]), Err(Unconfirmed::NotCleared(verdict)));
}

#[test]
fn long_lists() {
    let mut panel = panel();
    assert!(panel.ask(&[(6, 0); 64]).is_ok());
    for count in [65, 66, 70_000] {
        assert_eq!(panel.ask(&vec![(6, 0); count]), Err(Refusal::ListLength));
        assert_eq!(panel.fresh_run(&vec![(6, 0); count]), Err(Refusal::ListLength));
    }
    // 12 comes before 13 and 14, whatever is beyond
    assert_eq!(panel.start(&[(9, 9); 65]), Err(Refusal::ListLength));
}

/// docs/LAYOUT.md's table of plan A.
#[test]
fn nodes() {
    let panel = panel();
    let shown = |v: u16| {
        let node = panel.node(v).unwrap();
        [node.parent, node.jump, node.depth, node.size, node.label.into(), node.state.into()]
    };
    let expected = [
        [2, 2, 2, 1, 1, 1],
        [2, 2, 2, 1, 1, 1],
        [6, 6, 1, 3, 1, 1],
        [5, 5, 2, 1, 0, 0],
        [5, 5, 2, 1, 1, 1],
        [6, 6, 1, 3, 0, 1],
        [6, 6, 0, 7, 1, 1],
    ];
    assert_eq!([0, 1, 2, 3, 4, 5, 6].map(shown), expected);
    assert!((0..7).all(|v| panel.node(v).unwrap().kind == panel.plan().kind(v).unwrap()));
    assert_eq!((panel.node(7), panel.node(u16::MAX)), (None, None));
}

#[test]
fn plans_with_changes_made() {
    let panel = panel();
    let changed = panel.changed_plan(&[(0, 0), (6, 0), (0, 1), (3, 1)]).unwrap();
    assert_eq!(changed.labels(), [1, 1, 1, 1, 1, 0, 0]);
    assert!(changed.kinds().eq(panel.plan().kinds()));
    assert_eq!(panel.changed_plan(&[(7, 0)]), Err(Refusal::Node));
    assert_eq!(panel.changed_plan(&[(0, 2)]), Err(Refusal::Label));
    assert_eq!(panel.changed_plan(&[(0, 0); 65]), Err(Refusal::ListLength));
}

#[test]
fn choices() {
    let panel = panel();
    let counts = panel.count(&[0, 2]).unwrap();
    assert_eq!((counts.by_state(), counts.clearing(), counts.all()), (&[1, 3][..], 3, 4));
    assert_eq!(format!("{:?}", counts), "Counts { by_state: [1, 3], clearing: 3, parts: 3, links: 0 }");
    assert_eq!(panel.count(&[0, 0]), Err(Refusal::NodeTwice));
    assert_eq!(panel.count(&[7]), Err(Refusal::Node));
    // all states marked, and none
    for (marked, clearing) in [(true, 2), (false, 0)] {
        let rules = Rules::from_fn(2, 2, |a| a, |p, _, _| p, |_| marked).unwrap();
        assert_eq!(Panel::new(plan_a(), rules).unwrap().count(&[0]).unwrap().clearing(), clearing);
    }
}

#[test]
fn shown_for_people() {
    let mut panel = panel();
    assert!(panel.ask(&[]).unwrap().yes);
    panel.start(&[(0, 0)]).unwrap();
    panel.advance().unwrap();
    let session = "Session { state: Running, changes: [(0, 0)], parts_done: 1, parts: 2, last: Some(Answer { state: 1, yes: true, parts: 1, links: 0, passed: 0 }) }";
    assert_eq!(format!("{:?}", panel.session()), session);
    let plan = "Plan of 7 nodes [leaf 1, leaf 1, inner 1, leaf 0, leaf 1, inner 0, inner 1]";
    let rules = "Rules { states: 2, labels: 2, marked: [1], .. }";
    assert_eq!(
        format!("{:?}", panel),
        format!("Panel {{ plan: {}, rules: {}, session: {}, .. }}", plan, rules, session)
    );
    let lent = "Lent { plan: 26 bytes, rules: 32 bytes, node_table: 28 numbers, state_table: 21 bytes }";
    assert_eq!(format!("{:?}", panel.lent()), lent);
}

/// A comb of this many leaves with label 0, cleared where every leaf has another.
fn comb(leaves: usize) -> Panel {
    let kinds: Vec<Kind> =
        (0..2 * leaves - 1).map(|v| if v > 0 && v % 2 == 0 { Kind::Inner } else { Kind::Leaf }).collect();
    let rules = Rules::from_fn(2, 3, |a| a.min(1), |p, _, q| p.min(q), |state| state == 1).unwrap();
    Panel::new(Plan::new(&vec![0; kinds.len()], &kinds).unwrap(), rules).unwrap()
}

#[test]
fn the_fewest_changes() {
    let panel = panel();
    let every = panel.may_change();
    assert_eq!(panel.fewest(Want::Cleared, &every), Ok(Fewest::AsItIs));
    let lost = panel.fewest(Want::NotCleared, &every).unwrap();
    assert_eq!(lost.least(), Some(1));
    assert!(!panel.fresh_run(lost.changes().unwrap()).unwrap().yes);
    assert_eq!(panel.fewest(Want::NotCleared, &every.clone().open(&[2, 3]).unwrap()), Ok(Fewest::NoWay));
    assert_eq!(panel.fewest(Want::NotCleared, &every.labels(LabelSet::default())), Ok(Fewest::NoWay));

    // 64 changes are listed, 65 are not
    let (longest, longer) = (comb(64), comb(65));
    let fewest = longest.fewest(Want::Cleared, &longest.may_change()).unwrap();
    assert!((fewest.least(), longest.fresh_run(fewest.changes().unwrap()).unwrap().yes) == (Some(64), true));
    assert_eq!(longer.fewest(Want::Cleared, &longer.may_change()), Ok(Fewest::Number(65)));

    // label 2 alone is at hand; node 1 may take label 1 besides
    let (three, two) = (comb(3), LabelSet::from_bits(0b100));
    let may = three.may_change().labels(two).at(1, LabelSet::from_bits(0b10)).unwrap();
    let fewest = three.fewest(Want::Cleared, &may).unwrap();
    assert_eq!(fewest.changes(), Some(&[(0, 2), (1, 1), (3, 2)][..]));
    assert_eq!(three.fewest(Want::Cleared, &may.keep(&[3]).unwrap()), Ok(Fewest::NoWay));

    // what may change in another plan
    assert_eq!(three.fewest(Want::Cleared, &panel.may_change()), Err(Refusal::LentLength));
    let of_sample = panel.may_change().keep(&[0]).unwrap();
    assert_eq!(three.fewest(Want::Cleared, &of_sample), Err(Refusal::LentLength));
}
