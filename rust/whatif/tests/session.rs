//! The session on bytes: why a call is refused with 1, for every call in every state, damaged records, and a yes
//! confirmed or not on records and plans that were altered.

mod sample;

use sample::{panel, plan_a, table_a};
use whatif::sizes::RECORD_BYTES;
use whatif::{fresh_run, Call, Lent, Panel, Refusal, Rules, Session, State, Unconfirmed};

const CALLS: [Call; 6] = [Call::Load, Call::Start, Call::Advance, Call::Cancel, Call::Current, Call::Read];

/// Is this call refused with 1? On a copy.
fn refused_with_1(session: &Session, lent: &Lent, call: Call) -> bool {
    let mut copy = session.clone();
    let (mut nodes, mut states) = (lent.node_table.to_vec(), lent.state_table.to_vec());
    let answer = match call {
        Call::Load => copy.load(lent.plan, lent.rules, &mut nodes, &mut states),
        Call::Start => copy.start(lent, &[], &[]).map(|_| ()),
        Call::Advance => copy.advance(lent).map(|_| ()),
        Call::Cancel => copy.cancel(),
        Call::Current => copy.current().map(|_| ()),
        Call::Read => copy.read().map(|_| ()),
    };
    answer == Err(Refusal::SessionState)
}

/// A session in each state, with and without an answer that is kept.
fn sessions(panel: &mut Panel) -> Vec<Session> {
    let mut sessions = vec![Session::new(), panel.session().clone()];
    panel.start(&[(0, 0)]).unwrap();
    sessions.push(panel.session().clone());
    panel.advance().unwrap();
    sessions.push(panel.session().clone());
    panel.advance().unwrap();
    sessions.push(panel.session().clone());
    panel.start(&[(0, 0), (3, 1)]).unwrap();
    sessions.push(panel.session().clone());
    panel.cancel().unwrap();
    sessions.push(panel.session().clone());
    sessions
}

#[test]
fn a_sentence_exactly_where_a_call_is_refused_with_1() {
    let mut panel = panel();
    let sessions = sessions(&mut panel);
    let mut sentences = std::collections::BTreeSet::new();
    for session in &sessions {
        for call in CALLS {
            let why = session.why_not(call);
            assert_eq!(why.is_some(), refused_with_1(session, &panel.lent(), call), "{:?} {:?}", session, call);
            sentences.extend(why);
        }
    }
    assert_eq!(sentences.len(), 14, "{:#?}", sentences);
    let running = &sessions[2];
    assert!(running.why_not(Call::Current).unwrap().contains("an earlier answer is not this one's"));
    assert!(running.why_not(Call::Read).unwrap().contains("this one is still running"));
}

/// A record is damaged exactly where every call is refused with 1: with each bit of each session flipped.
#[test]
fn every_bit() {
    let mut panel = panel();
    let (mut damaged, mut whole) = (0, 0);
    for session in sessions(&mut panel) {
        assert!(!session.is_damaged());
        for bit in 0..8 * RECORD_BYTES {
            let flipped = with_flipped(&session, bit);
            let all = CALLS.iter().all(|&call| refused_with_1(&flipped, &panel.lent(), call));
            assert_eq!(flipped.is_damaged(), all, "bit {} of {:?}", bit, session);
            if all {
                damaged += 1;
                assert!(CALLS.iter().all(|&call| flipped.why_not(call).unwrap().starts_with("The record is damaged")));
                assert_eq!(format!("{:?}", flipped), "Session { damaged: true, .. }");
            } else {
                whole += 1;
            }
        }
    }
    assert!(damaged > 50_000 && whole > 100, "{} damaged, {} whole", damaged, whole);
}

fn with_flipped(session: &Session, bit: usize) -> Session {
    let mut record = *session.as_bytes();
    record[bit / 8] ^= 1 << (bit % 8);
    Session::from_bytes(record)
}

/// Whatever bit of the record was flipped, a list is confirmed only where a fresh run clears it.
#[test]
fn no_flipped_bit_is_confirmed_wrongly() {
    let mut panel = panel();
    let (mut confirmed, mut caught) = (0, [0; 4]);
    for changes in [&[][..], &[(0, 0)], &[(0, 0), (2, 0)], &[(6, 0), (0, 1)]] {
        let yes = panel.ask(changes).unwrap().yes;
        let (nodes, labels): (Vec<u16>, Vec<u8>) = changes.iter().copied().unzip();
        for bit in 0..8 * RECORD_BYTES {
            let flipped = with_flipped(panel.session(), bit);
            match flipped.confirm(&panel.lent(), &nodes, &labels) {
                Ok(()) => {
                    assert!(yes, "bit {}", bit);
                    confirmed += 1;
                }
                Err(Unconfirmed::Refused(_)) => caught[0] += 1,
                Err(Unconfirmed::OtherList) => caught[1] += 1,
                Err(Unconfirmed::OtherCounts) => caught[2] += 1,
                Err(_) => caught[3] += 1,
            }
        }
    }
    assert!(confirmed > 0 && caught.iter().all(|&count| count > 0), "{} {:?}", confirmed, caught);
}

/// Plan and rules that were exchanged or altered after the question.
#[test]
fn altered_plans_and_rules() {
    let mut panel = panel();
    assert!(panel.ask(&[]).unwrap().yes);
    let (session, lent) = (panel.session().clone(), panel.lent());
    assert!(session.confirm(&lent, &[], &[]).is_ok());
    let no_plan = Lent { plan: &[], ..lent };
    assert_eq!(session.confirm(&no_plan, &[], &[]), Err(Unconfirmed::Refused(Refusal::PlanShort)));
    let exchanged = Lent { plan: lent.rules, rules: lent.plan, ..lent };
    assert!(matches!(session.confirm(&exchanged, &[], &[]), Err(Unconfirmed::Refused(_))));
    let altered = panel.changed_plan(&[(0, 0)]).unwrap();
    let (other, fresh) =
        (Lent { plan: altered.as_bytes(), ..lent }, fresh_run(altered.as_bytes(), lent.rules, &[], &[]));
    match session.confirm(&other, &[], &[]) {
        Err(Unconfirmed::Differs { answer, fresh: found }) => assert_eq!((answer.yes, Ok(found)), (true, fresh)),
        wrong => panic!("{:?}", wrong),
    }
    let three = Rules::from_fn(3, 2, |_| 1, |_, _, _| 1, |_| true).unwrap();
    let other = Lent { rules: three.as_bytes(), ..lent };
    assert_eq!(session.confirm(&other, &[], &[]), Err(Unconfirmed::OtherCounts));
    // the tables are not read
    let none = Lent { node_table: &[], state_table: &[], ..lent };
    assert!(session.confirm(&none, &[], &[]).is_ok());
    // lists of different lengths
    assert_eq!(session.confirm(&lent, &[0], &[]), Err(Unconfirmed::Refused(Refusal::ListLength)));
}

#[test]
fn sentences_of_what_is_not_confirmed() {
    let refused: Unconfirmed = Refusal::Node.into();
    assert_eq!(refused.to_string(), format!("not confirmed, {}", Refusal::Node));
    assert_eq!(refused.sentence(), Refusal::Node.sentence());
    let said = "not confirmed: This is not the list that the session answered, entry by entry.";
    assert_eq!(Unconfirmed::OtherList.to_string(), said);
    let error: Box<dyn std::error::Error> = Box::new(Unconfirmed::OtherCounts);
    assert!(error.to_string().starts_with("not confirmed: "));
}

/// Parts, roots and changes are those of the question; a record without a state has none.
#[test]
fn what_a_record_says() {
    let mut panel = panel();
    assert_eq!((panel.session().roots().len(), panel.session().changes().len()), (0, 0));
    panel.start(&[(0, 0), (3, 1), (3, 1)]).unwrap();
    let session = panel.session();
    assert_eq!((session.parts(), session.parts_done(), session.handled().len()), (5, 0, 0));
    assert!(session.roots().eq([0, 2, 3, 5, 6]) && session.changes().eq([(0, 0), (3, 1), (3, 1)]));
    let none = Session::from_bytes([255; RECORD_BYTES]);
    assert_eq!((none.state(), none.parts(), none.parts_done()), (None, 0, 0));
    assert_eq!((none.roots().len(), none.changes().len(), none.handled().len()), (0, 0, 0));
    let mut full = [255; RECORD_BYTES];
    full[0] = 2;
    let full = Session::from_bytes(full);
    assert_eq!((full.state(), full.roots().len(), full.changes().len()), (Some(State::Running), 254, 64));
}

/// A session's own calls with tables that were passed in.
#[test]
fn advances_on_tables_of_the_caller() {
    let (plan, rules) = (plan_a(), table_a());
    let (mut node_table, mut state_table) = ([0; 28], [0; 21]);
    let mut session = Session::new();
    session.load(plan.as_bytes(), rules.as_bytes(), &mut node_table, &mut state_table).unwrap();
    let lent =
        |state_table| Lent { plan: plan.as_bytes(), rules: rules.as_bytes(), node_table: &node_table, state_table };
    session.start(&lent(&state_table), &[0], &[0]).unwrap();
    // a refusal ends the iterator, and the question goes on with the right tables
    let short: Vec<_> = session.advances(&lent(&state_table[1..])).take(9).collect();
    assert_eq!((short, session.parts_done()), (vec![Err(Refusal::LentLength)], 0));
    assert_eq!(session.advances(&lent(&state_table)).take(9).filter(Result::is_ok).count(), 2);
    assert!(!session.current().unwrap().yes);
}
