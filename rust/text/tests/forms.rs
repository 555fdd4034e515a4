//! Every input can be shown and written again, whatever its bytes; and text that has no meaning is refused by its line.

use reference::write::with_header;

const SAMPLE: &str = include_str!("../../../examples/sample.txt");

fn same_again(input: &[u8]) {
    let shown = text::show(input).expect("as long as its lengths say");
    assert_eq!(text::write(&shown).as_deref(), Ok(input), "{}", shown);
}

#[test]
fn any_one_byte_may_be_another() {
    let sample = text::write(SAMPLE).unwrap();
    for at in 12..sample.len() {
        for byte in 0..=255 {
            let mut input = sample.clone();
            input[at] = byte;
            same_again(&input);
        }
    }
}

#[test]
fn any_of_the_three_may_be_cut_or_longer() {
    let sample = text::write(SAMPLE).unwrap();
    let (plan, rest) = sample[12..].split_at(26);
    let (rules, questions) = rest.split_at(32);
    for (i, whole) in [plan, rules, questions].into_iter().enumerate() {
        for len in 0..whole.len() + 3 {
            let mut parts = [plan.to_vec(), rules.to_vec(), questions.to_vec()];
            parts[i].resize(len, 0);
            let [plan, rules, questions] = &parts;
            same_again(&with_header(&[plan.len(), rules.len(), questions.len()], &[plan, rules, questions]));
        }
    }
}

#[test]
fn lengths_must_be_right_to_be_shown() {
    let sample = text::write(SAMPLE).unwrap();
    for len in 0..sample.len() {
        assert_eq!(text::show(&sample[..len]), None);
    }
    assert_eq!(text::show(&[&sample[..], &[0]].concat()), None);
    assert_eq!(text::show(&[255; 12]), None);
}

#[test]
fn sections_may_be_left_out() {
    assert_eq!(text::write(""), Ok(vec![0; 12]));
    assert_eq!(text::write("# nothing\n\nquestions\nnone"), Ok([&[0; 8][..], &[2, 0, 0, 0], &[0, 0]].concat()));
}

/// A whole question of the greatest length, and one of more.
#[test]
fn long_questions() {
    let changes = |m: usize| format!("questions\n{}\n", vec!["1->2"; m].join(" "));
    let input = text::write(&changes(65_535)).unwrap();
    assert_eq!(input.len(), 12 + 2 + 3 * 65_535);
    same_again(&input);
    assert_eq!(text::write(&changes(65_536)).unwrap_err().line, 2);
}

#[test]
fn wrong_lines_are_named() {
    let rows = [
        ("leaf 0\nplan", 1, "in no section"),
        ("plan\nplan", 2, "'plan' stands too late, or again"),
        ("rules\n\nplan", 3, "'plan' stands too late, or again"),
        ("plan\nleaf 1\ntwig 1", 3, "a line of the plan"),
        ("plan\nleaf", 2, "a line of the plan"),
        ("plan\nleaf 1 2", 2, "a line of the plan"),
        ("plan\nleaf 256", 2, "'256' is not a number from 0 to 255"),
        ("plan\nleaf -1", 2, "'-1' is not a number from 0 to 255"),
        ("plan\nleaf 1\nbytes 00", 3, "a line of the plan"),
        ("plan\nbytes 00\nleaf 1", 3, "has nothing else"),
        ("plan\nbytes 0 00", 2, "'0' is not two hexadecimal digits"),
        ("plan\nbytes +1", 2, "'+1' is not two hexadecimal digits"),
        ("rules\nstates 2", 2, "a table begins with"),
        ("rules\nlabels 2\nstates 2", 2, "a table begins with"),
        ("rules\nstates 0\nlabels 1", 2, "there is one at least"),
        ("rules\nstates 256\nlabels 1", 2, "'256' is not a number"),
        ("rules\nstates 1\nlabels 1\nleaf 1 -> 0", 4, "'1' is not a number from 0 to 0"),
        ("rules\nstates 1\nlabels 1\ninner 0 0 0 -> 0", 4, "no line says 'leaf 0 -> ..'"),
        ("rules\nstates 2\nlabels 1\nleaf 0 -> 0\ninner 0 * * -> 0\n# end", 5, "no line says 'inner 1 0 0 -> ..'"),
        ("rules\nstates 1\nlabels 1\naccept 1", 4, "'1' is not a number from 0 to 0"),
        ("rules\nstates 1\nlabels 1\nleaf 0 0", 4, "a line of the rules"),
        ("questions\n0->0 0>1", 2, "'0>1' is not NODE->LABEL"),
        ("questions\n65536->0", 2, "'65536' is not a number from 0 to 65535"),
        ("questions\nnone none", 2, "'none' is not NODE->LABEL"),
    ];
    for (text, line, what) in rows {
        let wrong = text::write(text).unwrap_err();
        assert!(wrong.line == line && wrong.what.contains(what), "{:?}: {}", text, wrong);
    }
}
