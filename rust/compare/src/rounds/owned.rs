//! The types of `whatif` that own bytes: `Plan`, `Rules` and `BranchTable` of any bytes against the reference's checks
//! and its reading of them; `Branches`, `BranchColours`, `RuleColours`, `Planned`, merged tables and separating plans
//! against the reference's answers.

use super::any_case;
use super::planner_files::{self, FORMS};
use crate::calls::Kind;
use crate::counts::Counts;
use crate::faults::Input;
use crate::inputs::Case;
use crate::random::Random;
use crate::trace;
use reference::branch::{by_word, Reading, READINGS};
use reference::colour_rules::{Coloured, MOST_STATES};
use reference::formats::{read_branch, read_plan, read_rules};
use reference::tree::Tree;
use whatif::SeparatingPlan;
use whatif::{BranchColours, BranchTable, Branches, Change, Line, Plan, Planned, Refusal, RuleColours, Rules};

pub fn round(random: &mut Random, counts: &mut Counts) {
    let case = any_case(random);
    bytes(&case, random, counts);
    functions(&case);
    branches(&case, random, counts);
    let few = Case::new(crate::shapes::Shape::Bushy, random.between(1, 12), random.between(1, 4), 3, random);
    colours(&few, random, counts);
    two_tables(random, counts);
    planned(random, counts);
}

/// Bytes as they are, and with faults for one or two of the checks 2 to 9.
fn bytes(case: &Case, random: &mut Random, counts: &mut Counts) {
    for kind in crate::calls::KINDS {
        let mut input = Input::new(case, kind, random);
        let faults: Vec<u32> = (0..random.below(3)).map(|_| random.between(2, 9) as u32).collect();
        input.lay(&faults, random);
        let want = read_plan(&input.plan).map(|plan| plan.labels);
        let got = Plan::from_bytes(&input.plan[..]);
        assert_eq!(got.as_ref().map(Plan::labels).map_err(|refusal| refusal.number()), want, "the plan");
        assert!(got.map_or(true, |plan| plan.as_bytes() == input.plan), "the plan's bytes");
        let table = match kind {
            Kind::Rules => rules_of(&input.table),
            Kind::Branch => branch_of(&input.table),
        };
        counts.add(format!("plan {:?}", want.err().unwrap_or(0)));
        counts.add(format!("{:?} {:?}", kind, table.err().unwrap_or(0)));
    }
}

/// Every entry of a rule table as the reference reads it.
fn rules_of(bytes: &[u8]) -> Result<(), u32> {
    let (got, want) = (Rules::from_bytes(bytes).map_err(Refusal::number), read_rules(bytes));
    let (rules, own) = match (got, want) {
        (Ok(rules), Ok(own)) => (rules, own),
        (got, want) => {
            assert_eq!(got.err(), want.as_ref().err().copied(), "the rule table");
            return want.map(|_| ());
        }
    };
    assert_eq!((rules.states(), rules.labels(), rules.as_bytes()), (own.states, own.labels, bytes), "the counts");
    let (s, k) = (own.states as u8, own.labels as u8);
    assert!((0..k).all(|a| rules.leaf(a) == Some(own.leaf(a))) && rules.leaf(k).is_none(), "the leaf states");
    for (p, a) in (0..s).flat_map(|p| (0..k).map(move |a| (p, a))) {
        assert!((0..s).all(|q| rules.inner(p, a, q) == Some(own.inner(p, a, q))), "the inner states");
    }
    assert!((0..s).all(|q| rules.accepts(q) == own.accepts(q)) && !rules.accepts(s), "the marks");
    Ok(())
}

/// Every entry of a branch table as the reference reads it.
fn branch_of(bytes: &[u8]) -> Result<(), u32> {
    let (got, want) = (BranchTable::from_bytes(bytes).map_err(Refusal::number), read_branch(bytes));
    let (table, own) = match (got, want) {
        (Ok(table), Ok(own)) => (table, own),
        (got, want) => {
            assert_eq!(got.err(), want.as_ref().err().copied(), "the branch table");
            return want.map(|_| ());
        }
    };
    assert_eq!((table.states(), table.labels(), table.as_bytes()), (own.states, own.labels, bytes), "the counts");
    let (s, k) = (own.states as u8, own.labels as u8);
    for q in 0..s {
        assert!((0..k).all(|a| table.step(q, a) == Some(own.step(q, a))), "the steps");
        assert_eq!(table.accepts(q), own.accepts(q), "the marks");
    }
    assert_eq!((table.step(s, 0), table.step(0, k), table.accepts(s)), (None, None, false), "beyond the table");
    Ok(())
}

/// Made again by functions, all are the same.
fn functions(case: &Case) {
    let plan = Plan::from_bytes(&case.plan[..]).expect("a plan");
    let kinds: Vec<_> = plan.kinds().collect();
    let again = Plan::from_fn(plan.nodes(), |v| (kinds[v], plan.labels()[v]));
    assert_eq!(again.as_ref(), Ok(&plan), "a plan by a function");
    let rules = Rules::from_bytes(&case.rules[..]).expect("rules");
    let entry = |state: Option<u8>| state.expect("an entry of the table");
    let again = Rules::from_fn(
        case.s,
        case.k,
        |a| entry(rules.leaf(a)),
        |p, a, q| entry(rules.inner(p, a, q)),
        |q| rules.accepts(q),
    );
    assert_eq!(again.as_ref(), Ok(&rules), "rules by functions");
    let table = BranchTable::from_bytes(&case.branch[..]).expect("a branch table");
    let again = BranchTable::from_fn(case.s, case.k, |q, a| entry(table.step(q, a)), |q| table.accepts(q));
    assert_eq!(again.as_ref(), Ok(&table), "a branch table by functions");
}

/// Both readings, by the climb and by colours, of any two nodes.
fn branches(case: &Case, random: &mut Random, counts: &mut Counts) {
    let (plan, branch) = (read_plan(&case.plan).expect("a plan"), read_branch(&case.branch).expect("a branch table"));
    let own = || {
        (Plan::from_bytes(&case.plan[..]).expect("a plan"), BranchTable::from_bytes(&case.branch[..]).expect("a table"))
    };
    let (tree, (own_plan, table)) = (Tree::of(&plan), own());
    let climbs = Branches::build(own_plan, table).expect("accepted");
    let colours = Some(own())
        .filter(|_| case.n < 2_000)
        .map(|(plan, table)| BranchColours::build(plan, table).expect("accepted"));
    for _ in 0..8 {
        let lower = random.below(case.n);
        let above = (0..random.below(tree.depth[lower] + 1)).fold(lower, |v, _| tree.parent[v]);
        let any = random.below(case.n);
        let upper = *random.pick(&[above, above, above, any, case.n, 65_536 + lower]) as u32;
        let lower = lower as u32;
        trace::say(format!("from {} down to {}", upper, lower));
        for reading in READINGS {
            let want = by_word(reading, &tree, &plan, &branch, upper, lower);
            let got = match reading {
                Reading::WithUpper => climbs.ask_with_upper(upper, lower),
                Reading::BelowUpper => climbs.ask(upper, lower),
            };
            let got = got.map(|told| (told.state, told.yes, told.links as usize, told.passed as usize));
            let want_all = want.map(|told| (told.state, told.yes, told.links, told.passed));
            assert_eq!(got.map_err(Refusal::number), want_all, "by the climb");
            if let Some(colours) = &colours {
                let got = match reading {
                    Reading::WithUpper => colours.ask_with_upper(upper, lower),
                    Reading::BelowUpper => colours.ask(upper, lower),
                };
                let got = got.map(|told| (told.state, told.yes)).map_err(Refusal::number);
                assert_eq!(got, want.map(|told| (told.state, told.yes)), "by colours");
            }
            counts.add(format!("branch {}", want.err().unwrap_or(0)));
        }
        let path = climbs.path(upper, lower).map_err(Refusal::number);
        let want = by_word(Reading::WithUpper, &tree, &plan, &branch, upper, lower).map(|_| {
            let mut path = vec![lower as usize];
            while path[path.len() - 1] != upper as usize {
                path.push(tree.parent[path[path.len() - 1]]);
            }
            path.into_iter().rev().map(|v| v as u16).collect::<Vec<u16>>()
        });
        assert_eq!(path, want, "the path");
    }
}

/// Whole questions by colours, against the reference's way along the path.
fn colours(case: &Case, random: &mut Random, counts: &mut Counts) {
    assert!(case.s <= MOST_STATES);
    let (plan, rules) =
        (Plan::from_bytes(&case.plan[..]).expect("a plan"), Rules::from_bytes(&case.rules[..]).expect("rules"));
    let colours = RuleColours::build(plan, rules).expect("accepted");
    let own = Coloured::new(read_plan(&case.plan).expect("a plan"), read_rules(&case.rules).expect("rules"));
    for m in [0, 1, 3, 9] {
        let (nodes, labels) = case.list(m, random);
        let list: Vec<Change> = nodes.iter().copied().zip(labels.iter().copied()).collect();
        trace::say(format!("by colours: {:?}", list));
        let (want, _) = own.by_path(&nodes, &labels);
        let got = colours.ask(&list).expect("accepted");
        let got_all = [got.drops, got.links, got.parts].map(|number| number as usize);
        assert_eq!((got.state, got.yes, got_all), (want.state, want.yes, [want.drops, want.links, want.parts]));
        assert_eq!(colours.confirm(&list).is_ok(), want.yes, "what is confirmed");
        counts.add(format!("by colours {}", want.yes));
    }
}

/// Merged, and a plan on which they differ.
fn two_tables(random: &mut Random, counts: &mut Counts) {
    let (k, other_k) = (random.between(1, 4), random.between(1, 4));
    let k2 = if random.below(6) == 0 { other_k } else { k };
    let first = crate::inputs::random_rules(random.between(1, 5), k, random);
    let second = crate::inputs::random_rules(random.between(1, 5), k2, random);
    trace::say(format!("two tables {:?} and {:?}", first, second));
    let [one, two] = [&first, &second].map(|bytes| Rules::from_bytes(&bytes[..]).expect("rules"));
    let want = reference::merge::merge(&first, &second, usize::MAX);
    let got = one.merge(&two).map(Rules::into_bytes).map_err(Refusal::number);
    counts.add(format!("merge {}", want.as_ref().err().unwrap_or(&0)));
    assert_eq!(got, want, "the merged table");
    let want = reference::agree::least_height(&first, &second);
    let got = one.differs_from(&two);
    let differ = got.as_ref().map(Option::is_some).map_err(|refusal| refusal.number());
    assert_eq!(differ, want.map(|height| height.is_some()), "whether they differ");
    if let Some(separating) = got.ok().flatten() {
        written_out(&separating);
        counts.add("a separating plan");
    }
}

fn written_out(separating: &SeparatingPlan) {
    let numbers = |line: Line| match line {
        Line::Leaf { label } => [0, label.into(), 0, 0],
        Line::Inner { label, left, right } => [1, label.into(), left as u16, right as u16],
    };
    let lines: Vec<[u16; 4]> = separating.lines().map(numbers).collect();
    let plan = separating.to_plan().map(Plan::into_bytes);
    assert_eq!(plan, reference::agree::plan(&lines), "the separating plan, written out");
}

/// Out and home.
fn planned(random: &mut Random, counts: &mut Counts) {
    let mut file = planner_files::file(*random.pick(&FORMS), random.between(1, 40), random);
    if random.below(3) == 0 {
        let at = random.below(file.len());
        file[at] = random.byte();
    }
    trace::say(format!("a planner's file {:?}", file));
    let want = reference::planner::out(&file, usize::MAX, usize::MAX);
    let got = Planned::out(&file[..]);
    counts.add(format!("planner {}", want.as_ref().err().unwrap_or(&0)));
    match (got, want) {
        (Ok(planned), Ok(out)) => {
            assert_eq!((planned.plan().as_bytes(), planned.places()), (&out.plan[..], &out.places[..]), "out");
            assert_eq!(planned.file(), file, "the file");
            assert_eq!(Planned::home(&out.plan).as_ref(), Ok(&planned), "home");
            let nodes: Vec<_> = planned.nodes().collect();
            assert_eq!(Planned::new(&nodes).as_ref(), Ok(&planned), "of its nodes");
        }
        (got, want) => assert_eq!(got.map_err(Refusal::number).err(), want.err(), "what is refused"),
    }
    let case = Case::random(9, random);
    let home = reference::planner::home(&case.plan, usize::MAX);
    let got = Planned::home(&case.plan).map(|planned| planned.file().to_vec()).map_err(Refusal::number);
    assert_eq!(got, home, "home of any plan");
}
