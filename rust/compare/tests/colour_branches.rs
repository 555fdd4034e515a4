//! Branch questions by colours (document 02, S-14).

use compare::colour_calls;
use compare::counts::Counts;
use compare::faults::BUILD_CHECKS;
use compare::inputs::{sample, Case};
use compare::random::Random;
use compare::rounds::colour_branches::{build_refused, damaged, lens, refusals, Coloured, WRONG_LENGTHS};
use compare::shapes::{all, kinds, Shape, DEEPEST, SHAPES};
use reference::branch::{Reading, READINGS};
use reference::colour_branch::Inputs;

/// Every question between two nodes of every tree of up to six leaves.
#[test]
fn small_trees() {
    let (random, counts) = (&mut Random::new(2401), &mut Counts::default());
    for leaves in 1..=6 {
        for kinds in all(leaves) {
            for s in [1, 2, 3, random.between(4, 16)] {
                let coloured = Coloured::new(Case::of_kinds(&kinds, s, random.between(1, 4), random), random);
                let (tree, colours) = coloured.path();
                let n = kinds.len() as u32;
                for upper in 0..n {
                    (0..n).for_each(|lower| coloured.ask(&tree, &colours, upper, lower, random, counts));
                }
            }
        }
    }
    for what in ["answered, drops: none", "answered, drops: 1", "answered, drops: 2", "refused 16"] {
        assert!(counts.of(what) > 20, "{}: {}", what, counts);
    }
}

#[test]
fn every_shape_up_to_the_largest() {
    let (random, counts) = (&mut Random::new(2402), &mut Counts::default());
    for shape in SHAPES {
        for (leaves, s) in [(1, 1), (2, 16), (30, 2), (501, 7), (32_768, 16)] {
            let coloured = Coloured::new(Case::new(shape, leaves, s, random.between(1, 64), random), random);
            let (tree, colours) = coloured.path();
            for _ in 0..40 {
                let (lower, upper) = coloured.built.pair(&tree, random);
                coloured.ask(&tree, &colours, upper, lower, random, counts);
            }
        }
    }
}

/// S - 1 drops: label 0 turns the states, so that state 0 has the highest colour; from there label j takes the state of one
/// colour to that of the next lower one. A search begins at the lowest node where its colour falls.
#[test]
fn the_most_drops() {
    let random = &mut Random::new(2410);
    for s in 2..=16 {
        let state = |colour: usize| (colour + 1) % s;
        let step = |q: usize, a: usize| match a {
            0 => state(q),
            _ if q == state(s - a) => state(s - a - 1),
            _ => q,
        };
        let steps: Vec<u8> = (0..s).flat_map(|q| (0..s).map(move |a| step(q, a) as u8)).collect();
        let labels: Vec<u8> = (0..2 * s - 1).map(|v| (s - 1 - v / 2) as u8).collect();
        let plan = compare::inputs::plan(&labels, &kinds(Shape::LeftComb, s, random));
        let branch = compare::inputs::branch(s, s, &steps, &vec![1; s]);
        let case = Case { n: 2 * s - 1, s, k: s, plan, rules: Vec::new(), branch };
        let coloured = Coloured::new(case, random);
        let root = 2 * s as u32 - 2;
        let told = colour_calls::branch(Reading::BelowUpper, coloured.inputs(), root, 0, random).expect("accepted");
        assert_eq!((told[0] as usize, told[2] as usize), (state(0), s - 1));
    }
}

/// On the deepest plans the colours of some tables fall at every third node: searches climb over thousands of them, and none
/// takes more than 45 links.
#[test]
fn the_greatest_depth() {
    let (random, counts) = (&mut Random::new(2403), &mut Counts::default());
    let mut longest = 0;
    for shape in DEEPEST {
        let coloured = Coloured::new(Case::new(shape, 32_768, 16, 3, random), random);
        let (tree, colours) = coloured.path();
        let deepest = (0..=tree.root()).max_by_key(|&v| tree.depth[v]).unwrap();
        for c in 0..16 {
            let way = colours.down(&tree, None, deepest, c);
            assert!(way.searches.iter().all(|&links| links <= 45), "{:?}", way);
            longest = longest.max(way.searches.iter().copied().max().unwrap_or(0));
        }
        let root = tree.root() as u32;
        coloured.ask(&tree, &colours, root, deepest as u32, random, counts);
        for _ in 0..60 {
            let (lower, upper) = coloured.built.pair(&tree, random);
            coloured.ask(&tree, &colours, upper, lower, random, counts);
        }
    }
    assert!(longest > 5, "the longest search takes {} links", longest);
}

#[test]
fn each_refusal_of_the_build_alone_and_in_pairs() {
    let (random, counts) = (&mut Random::new(2404), &mut Counts::default());
    for (i, &first) in BUILD_CHECKS.iter().enumerate() {
        for &second in &BUILD_CHECKS[i..] {
            for _ in 0..30 {
                build_refused(&Case::random(20, random), &[first, second], random, counts);
            }
        }
    }
    for number in BUILD_CHECKS {
        assert!(counts.of(&format!("build, refused {}", number)) > 0, "{}", counts);
    }
}

#[test]
fn each_refusal_of_a_question_alone_and_in_pairs() {
    let (random, counts) = (&mut Random::new(2405), &mut Counts::default());
    for way in 0..WRONG_LENGTHS {
        for _ in 0..20 {
            let (leaves, s, k) = (random.between(2, 30), random.between(1, 16), random.between(1, 64));
            refusals(Case::new(*random.pick(&SHAPES), leaves, s, k, random), way, random, counts);
        }
    }
}

#[test]
fn damaged_tables() {
    let (random, counts) = (&mut Random::new(2406), &mut Counts::default());
    for turn in 0..6_000 {
        damaged(Case::random(if turn % 1_000 == 0 { 1_500 } else { 25 }, random), random, counts);
    }
    for what in ["damaged: answered", "damaged: refused 16", "damaged: refused 18"] {
        assert!(counts.of(what) > 1_000, "{}", counts);
    }
}

/// Short by one is 11 in the build and 17 in a question; any excess is nothing to them.
#[test]
fn lengths() {
    let random = &mut Random::new(2407);
    for _ in 0..100 {
        let case = Case::new(Shape::Uniform, random.between(1, 30), random.between(1, 16), 5, random);
        let (numbers, bytes) = lens(&case);
        for short in [(numbers - 1, bytes), (numbers, bytes - 1), (numbers - 1, bytes + 9), (numbers + 9, bytes - 1)] {
            assert_eq!(colour_calls::branch_build(&case.plan, &case.branch, short, random), Err(11));
        }
        let (excess_numbers, excess_bytes) = (random.below(50), random.below(50));
        let long = (numbers + excess_numbers, bytes + excess_bytes);
        let built = colour_calls::branch_build(&case.plan, &case.branch, long, random).expect("accepted");
        let root = case.n as u32 - 1;
        // the first numbers serve as node table
        let inputs =
            Inputs { plan: &case.plan, branch: &case.branch, node_table: &built.0, numbers: &built.0, bytes: &built.1 };
        for reading in READINGS {
            let told = colour_calls::branch(reading, inputs, root, 0, random);
            assert!(told.is_ok());
            let exact = Inputs { node_table: &built.0[..4 * case.n], numbers: &built.0[..numbers], ..inputs };
            assert_eq!(
                colour_calls::branch(reading, Inputs { bytes: &built.1[..bytes], ..exact }, root, 0, random),
                told
            );
            for short in [
                Inputs { node_table: &built.0[..4 * case.n - 1], ..inputs },
                Inputs { numbers: &built.0[..numbers - 1], ..inputs },
                Inputs { bytes: &built.1[..bytes - 1], ..inputs },
            ] {
                assert_eq!(colour_calls::branch(reading, short, root, 0, random), Err(17));
            }
        }
    }
}

/// Bytes without any sense, of all lengths: always as the reference does.
#[test]
fn any_bytes() {
    let random = &mut Random::new(2408);
    for _ in 0..20_000 {
        let (plan_len, table_len) = (random.below(40), random.below(40));
        let (mut plan, mut table) = (random.bytes(plan_len), random.bytes(table_len));
        for (i, byte) in plan.iter_mut().chain(table.iter_mut()).enumerate() {
            *byte = if i % 4 == 0 { *byte % 6 } else { *byte % 2 * (*byte / 250) };
        }
        let lens = (random.below(120), random.below(40));
        let _ = colour_calls::branch_build(&plan, &table, lens, random);
        let (mut cells, mut numbers, mut bytes) = (random.numbers(30), random.numbers(lens.0), random.bytes(lens.1));
        cells.iter_mut().chain(numbers.iter_mut()).for_each(|number| *number %= 8);
        bytes.iter_mut().for_each(|byte| *byte %= 5);
        let inputs = Inputs { plan: &plan, branch: &table, node_table: &cells, numbers: &numbers, bytes: &bytes };
        let (upper, lower) = (random.below(7) as u32, random.below(7) as u32);
        for reading in READINGS {
            let _ = colour_calls::branch(reading, inputs, upper, lower, random);
        }
    }
}

/// The sample's worked example, as docs/LAYOUT.md has it.
#[test]
fn the_sample() {
    let random = &mut Random::new(2409);
    let plan = sample().0;
    let branch = compare::inputs::branch(3, 2, &[0, 1, 2, 1, 2, 2], &[0, 0, 1]);
    let (numbers, bytes) = colour_calls::branch_build(&plan, &branch, (84, 21), random).expect("accepted");
    let inputs = Inputs { plan: &plan, branch: &branch, node_table: &numbers, numbers: &numbers, bytes: &bytes };
    let told =
        READINGS.map(|reading| colour_calls::branch(reading, inputs, 6, 3, random).map(|told| (told[0], told[1])));
    assert_eq!(told, [Ok((2, 1)), Ok((0, 0))]);
}
