//! Colours: by the path and on the tables that are built from it, on the sample and on small trees; what document 02 says of
//! them.

use reference::branch::{by_word, Reading, READINGS};
use reference::colour_branch::{build, by_path, colours, on_tables, Inputs};
use reference::formats::{read_branch, read_plan};
use reference::sample::plan_a;
use reference::tables::Tables;
use reference::tree::Tree;
use reference::write;

/// A state 0 until a label 1 was read, then 1, and 2 once a label 0 came after it.
fn branch_a() -> Vec<u8> {
    write::branch(3, 2, &[0, 1, 2, 1, 2, 2], &[0, 0, 1])
}

#[test]
fn the_sample() {
    let (plan, branch) = (plan_a(), branch_a());
    let built = build(&plan, &branch, 84, 21).unwrap();
    assert_eq!((built.numbers.len(), built.bytes.len()), (84, 21));
    let (plan_of, branch_of) = (read_plan(&plan).unwrap(), read_branch(&branch).unwrap());
    let tree = Tree::of(&plan_of);
    assert_eq!(built.numbers[..28], Tables::node_table(&tree));
    let colours = colours(&tree, &plan_of, &branch_of);
    // above the root states 0 1 2; its label 1 leads to 1 1 2: the second colour falls and takes 0
    assert_eq!((&colours.copies[6][..], &colours.lands[6][..]), (&[1, 0, 2][..], &[0, 0, 2][..]));
    // node 5 has label 0, which leads 1 0 2 to 2 0 2: the third colour falls and takes 1
    assert_eq!((&colours.copies[5][..], &colours.lands[5][..]), (&[2, 0, 1][..], &[0, 1, 0][..]));
    let inputs = Inputs {
        plan: &plan,
        branch: &branch,
        node_table: &built.numbers,
        numbers: &built.numbers,
        bytes: &built.bytes,
    };
    for reading in READINGS {
        for upper in 0..8 {
            for lower in 0..8 {
                let told = by_path(reading, &tree, &colours, &branch_of, upper, lower);
                assert_eq!(on_tables(reading, inputs, upper, lower), told);
                let word = by_word(reading, &tree, &plan_of, &branch_of, upper, lower);
                assert_eq!(told.map(|told| (told.state, told.yes)), word.map(|told| (told.state, told.yes)));
                assert!(told.map_or(true, |told| told.drops <= 2 && told.links <= 45 * told.drops));
            }
        }
    }
}

/// "drops at most S-1", and so many there can be: label 0 turns the states, so that state 0 has the highest colour; from there
/// label j takes the state of one colour to that of the next lower one.
#[test]
fn the_most_drops() {
    for s in 2..=16usize {
        let state = |colour: usize| (colour + 1) % s;
        let step = |q: usize, a: usize| match a {
            0 => state(q),
            _ if q == state(s - a) => state(s - a - 1),
            _ => q,
        };
        let steps: Vec<u8> = (0..s).flat_map(|q| (0..s).map(move |a| step(q, a) as u8)).collect();
        let branch = write::branch(s, s, &steps, &vec![1; s]);
        // a left comb, from the root down with the labels 0, 1, .., S - 1
        let kinds: Vec<u8> = (0..2 * s - 1).map(|v| u8::from(v > 0 && v % 2 == 0)).collect();
        let labels: Vec<u8> = (0..2 * s - 1).map(|v| (s - 1 - v / 2) as u8).collect();
        let plan = write::plan(&labels, &kinds);
        let (plan, branch) = (read_plan(&plan).unwrap(), read_branch(&branch).unwrap());
        let tree = Tree::of(&plan);
        let colours = colours(&tree, &plan, &branch);
        let told = by_path(Reading::BelowUpper, &tree, &colours, &branch, 2 * s as u32 - 2, 0).unwrap();
        assert_eq!((told.state as usize, told.drops), (state(0), s - 1));
        for v in 0..=tree.root() {
            let mut copy = colours.copies[v].clone();
            copy.sort_unstable();
            assert!(copy.iter().enumerate().all(|(i, &q)| i == q as usize), "each state has one colour");
            assert!(colours.lands[v].iter().enumerate().all(|(c, &to)| to <= c), "a colour only falls");
        }
    }
}
