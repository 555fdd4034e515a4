//! The plain implementation that the bench compares with gives the reference's answers too.

use compare::calls::same;
use compare::faults::{Input, BUILD_CHECKS, FRESH_CHECKS};
use compare::inputs::Case;
use compare::random::Random;
use compare::shapes::SHAPES;
use reference::branch::{on_tables, Reading};
use reference::record::RECORD_BYTES;
use yardstick::layers;
use yardstick::place::{Lends, Session};
use yardstick::session;

type Build = fn(&[u8], &[u8], &mut [u16], &mut [u8]) -> Result<(), u32>;
type Check = fn(&[u8], &[u8], &[u16], &[u8]) -> Result<bool, u32>;
type Ask = fn(&[u8], &[u8], &[u16], &[u8], u32, u32) -> Result<yardstick::Told, u32>;

fn compare(case: &Case, random: &mut Random) {
    let built = reference::build(&case.plan, &case.rules, case.node_table_len(), case.state_table_len()).unwrap();
    let words =
        reference::branch_build(&case.plan, &case.branch, case.node_table_len(), case.state_table_len()).unwrap();
    for (build, check, table, tables) in [
        (yardstick::build as Build, yardstick::check as Check, &case.rules, built),
        (yardstick::branch_build, yardstick::branch_check, &case.branch, words),
    ] {
        let (mut node_table, mut state_table) =
            (random.numbers(case.node_table_len()), random.bytes(case.state_table_len()));
        assert_eq!(build(&case.plan, table, &mut node_table, &mut state_table), Ok(()));
        same("node table", &node_table, &tables.node_table);
        same("state table", &state_table, &tables.state_table);
        assert_eq!(check(&case.plan, table, &node_table, &state_table), Ok(true));
        let at = random.below(node_table.len());
        node_table[at] ^= 1;
        assert_eq!(check(&case.plan, table, &node_table, &state_table), Ok(false));
        node_table[at] ^= 1;
        let at = random.below(state_table.len());
        state_table[at] ^= 1;
        assert_eq!(check(&case.plan, table, &node_table, &state_table), Ok(false));
        state_table[at] ^= 1;
        for _ in 0..20 {
            // rule tables are odd branch tables: any bytes will do for a question
            let (upper, lower) = (random.below(case.n) as u32, random.below(case.n) as u32);
            for (reading, ask) in
                [(Reading::WithUpper, yardstick::ask_with_upper as Ask), (Reading::BelowUpper, yardstick::ask)]
            {
                let told = ask(&case.plan, &case.branch, &node_table, &state_table, upper, lower);
                let want = on_tables(reading, &case.plan, &case.branch, &node_table, &state_table, upper, lower);
                assert_eq!(
                    told.map(|t| (t.state, t.yes, t.links as usize, t.passed as usize)),
                    want.map(|t| (t.state, t.yes, t.links, t.passed))
                );
            }
        }
    }
}

#[test]
fn builds_checks_and_branch_questions() {
    let random = &mut Random::new(701);
    for shape in SHAPES {
        for leaves in (1..80).chain([501, 32_768]) {
            let (s, k) = (random.between(1, 16), random.between(1, 64));
            compare(&Case::new(shape, leaves, s, k, random), random);
        }
    }
}

#[test]
fn refusals_and_fresh_runs() {
    let random = &mut Random::new(702);
    for _ in 0..3_000 {
        let case = Case::random(30, random);
        let mut input = Input::new(&case, compare::calls::Kind::Rules, random);
        let faults: Vec<u32> = FRESH_CHECKS.iter().copied().filter(|_| random.below(9) == 0).collect();
        input.lay(&faults, random);
        let told = yardstick::fresh_run(&input.plan, &input.table, &input.nodes, &input.labels);
        let want = reference::fresh::fresh_run(&input.plan, &input.table, &input.nodes, &input.labels);
        assert_eq!(told, want.map(|t| (t.state, t.yes)));
        let mut input = Input::new(&case, compare::calls::Kind::Rules, random);
        let faults: Vec<u32> = BUILD_CHECKS.iter().copied().filter(|_| random.below(9) == 0).collect();
        input.lay(&faults, random);
        let (mut node_table, mut state_table) = (vec![0; input.node_table_len], vec![0; input.state_table_len]);
        let told = yardstick::build(&input.plan, &input.table, &mut node_table, &mut state_table);
        assert_eq!(told.err(), faults.first().copied());
    }
}

/// The session in place, roots and parts alone give what the session on bytes gives, which `call_lists` compares.
fn in_place(case: &Case, m: usize, random: &mut Random) {
    let (mut node_table, mut state_table) = (vec![0; case.node_table_len()], vec![0; case.state_table_len()]);
    let mut record = [0u8; RECORD_BYTES];
    session::load(&mut record, &case.plan, &case.rules, &mut node_table, &mut state_table).unwrap();
    let (nodes, labels) = case.list(m, random);
    let lends = Lends { plan: &case.plan, rules: &case.rules, node_table: &node_table, state_table: &state_table };
    let mut placed = Session::loaded(case.n as u16, case.s as u8, case.k as u8);
    let parts = placed.start(&lends, &nodes, &labels).unwrap();
    assert_eq!(
        Ok(parts),
        session::start(&mut record, &case.plan, &case.rules, &node_table, &state_table, &nodes, &labels)
    );
    let mut roots = [0; 254];
    let left = reference::lists::differing(case.labels(), &nodes, &labels);
    assert_eq!(layers::roots(case.n, &node_table, &left, &mut roots), parts as usize);
    let roots = &roots[..parts as usize];
    let (sizes, mut states, mut links, mut passed) = ((case.n, case.s, case.k), Vec::new(), 0, 0);
    for _ in 0..parts {
        let (plan, rules) = (&case.plan, &case.rules);
        let told =
            layers::part(sizes, plan, rules, &node_table, &state_table, roots, &states, &nodes, &labels).unwrap();
        states.push(told.state);
        links += told.links;
        passed += told.passed;
        assert_eq!(placed.advance(&lends), session::advance(&mut record, plan, rules, &node_table, &state_table));
        assert_eq!(placed.links(), links);
    }
    let answer = session::read(&record).unwrap();
    assert_eq!(placed.read(), Ok(answer));
    assert_eq!((answer.state, answer.links, answer.passed), (states[states.len() - 1], links, passed));
}

#[test]
fn sessions_in_place() {
    let random = &mut Random::new(703);
    for shape in SHAPES {
        for leaves in (1..60).chain([501, 32_768]) {
            let (s, k) = (random.between(1, 16), random.between(1, 64));
            let case = Case::new(shape, leaves, s, k, random);
            for m in [0, 1, random.between(2, 63), 64] {
                in_place(&case, m, random);
            }
        }
    }
}
