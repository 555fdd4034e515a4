//! The bridge planner's files (document 02, S-2): out and home, all small trees, the largest, refusals, lengths.

use compare::calls;
use compare::counts::Counts;
use compare::random::Random;
use compare::rounds::planner_files::{
    any_bytes, counts, file, list_of, refused_home, refused_out, there_and_back, Form, FORMS, HOME_FAULTS, OUT_CHECKS,
};
use compare::shapes;
use reference::planner::{home, out, EMPTY};
use reference::write;
use whatif::sizes::{planner_bytes, planner_plan_bytes, MAX_PLANNER_NODES};

/// Every list of at most 7 counts below 7: those of one tree in pre-order go there and back, every other is refused.
#[test]
fn all_small_trees() {
    let random = &mut Random::new(3001);
    for (n, trees) in [(1, 1), (2, 1), (3, 2), (4, 5), (5, 14), (6, 42), (7, 132)] {
        let mut accepted = 0;
        for code in 0..(n as u32).pow(n as u32) {
            let counts: Vec<u8> = (0..n as u32).map(|i| (code / (n as u32).pow(i) % n as u32) as u8).collect();
            let file = write::plan(&vec![3; n], &counts);
            let answer = whatif::plan_of_planner(&file, &mut vec![0; planner_plan_bytes(n)], &mut vec![0; n]);
            assert_eq!(answer.is_ok(), out(&file, 99, 99).is_ok(), "{:?}", counts);
            if answer.is_ok() {
                there_and_back(&file, random);
                accepted += 1;
            }
        }
        assert_eq!(accepted, trees, "trees of {} nodes", n);
    }
}

/// Every plan of at most 7 leaves with labels as an image has them: it goes home exactly where one tree stands at the top.
#[test]
fn all_small_plans() {
    let random = &mut Random::new(3002);
    for leaves in 1..=7 {
        for kinds in shapes::all(leaves) {
            let labels: Vec<u8> = kinds.iter().map(|&kind| if kind == 0 { EMPTY } else { 7 }).collect();
            let plan = write::plan(&labels, &kinds);
            let answer = calls::planner_home(&plan, planner_bytes(leaves), random);
            let one_tree = kinds.len() > 1 && kinds[kinds.len() - 2] == 0;
            assert_eq!(answer.is_ok(), one_tree, "{:?}", kinds);
            if let Ok(file) = answer {
                assert_eq!(there_and_back(&file, random).0, plan);
            }
        }
    }
}

#[test]
fn random_files_of_every_form() {
    let random = &mut Random::new(3003);
    for form in FORMS {
        for n in (1..40).chain([255, 256, 257, 511, 1_000, 5_000]) {
            for _ in 0..4 {
                there_and_back(&file(form, n, random), random);
            }
        }
    }
}

/// 32,767 nodes, which become 65,535: a chain, lists of 255, random trees; one node more is 21.
#[test]
fn the_largest_files() {
    let random = &mut Random::new(3004);
    for form in [Form::Chain, Form::Deep, Form::Random, Form::Wide] {
        let largest = file(form, MAX_PLANNER_NODES, random);
        let (plan, places) = there_and_back(&largest, random);
        assert_eq!((plan.len(), places.len()), (12 + 2 * 65_535, 32_767));
        let above = file(form, MAX_PLANNER_NODES + 1, random);
        let lens = (planner_plan_bytes(MAX_PLANNER_NODES + 1), MAX_PLANNER_NODES + 1);
        assert_eq!(calls::planner_out(&above, lens, random).err(), Some(21), "{:?}", form);
        // 20 before 21
        let mut label = above;
        label[12 + 777] = 63;
        assert_eq!(calls::planner_out(&label, lens, random).err(), Some(20), "{:?}", form);
    }
}

/// 255 children go there and back, and so do lists of 255 below each other; a plan with 256 in a row does not go home.
#[test]
fn lists_of_255_and_256() {
    let random = &mut Random::new(3005);
    let star = file(Form::Star, 256, random);
    assert_eq!(star[12 + 256], 255);
    there_and_back(&star, random);
    for children in [254, 255, 256, 257, 300] {
        let answer = calls::planner_home(&list_of(children), planner_bytes(children + 1), random);
        assert_eq!(answer.is_ok(), children <= 255, "{} children", children);
    }
    assert!(counts(Form::Wide, 2_000, random).contains(&255));
}

#[test]
fn each_refusal_alone_and_in_pairs() {
    let (random, counts) = (&mut Random::new(3006), &mut Counts::default());
    for (i, &first) in OUT_CHECKS.iter().enumerate() {
        for &second in &OUT_CHECKS[i..] {
            (0..200).for_each(|_| refused_out(&[first, second], random, counts));
        }
    }
    for (i, &first) in HOME_FAULTS.iter().enumerate() {
        (0..200).for_each(|_| refused_home(&[first], random, counts));
        for &second in &HOME_FAULTS[i + 1..] {
            (0..60).for_each(|_| refused_home(&[first, second], random, counts));
        }
    }
    for number in ["out refused 19", "out refused 20", "out refused 21", "home refused 19", "home refused 21"] {
        assert!(counts.of(number) > 0, "{}", counts);
    }
}

/// Every length of each output: 21 below what is needed, and nothing beyond it is written.
#[test]
fn every_length_of_the_outputs() {
    let random = &mut Random::new(3007);
    let file = file(Form::Random, 9, random);
    let (plan, places, bytes) = (planner_plan_bytes(9), 9, planner_bytes(9));
    let short = |len: usize, enough: usize| if len < enough { Some(21) } else { None };
    for len in 0..plan + 20 {
        assert_eq!(calls::planner_out(&file, (len, places), random).err(), short(len, plan), "{} bytes", len);
    }
    for len in 0..places + 20 {
        assert_eq!(calls::planner_out(&file, (plan, len), random).err(), short(len, places), "{} places", len);
    }
    let image = out(&file, plan, places).unwrap().plan;
    for len in 0..bytes + 20 {
        assert_eq!(calls::planner_home(&image, len, random).err(), short(len, bytes), "{} bytes", len);
    }
}

/// One byte of a file, or of its plan, changed to any other value: the same answer as the reference's.
#[test]
fn every_byte_of_a_small_file_and_its_plan() {
    let random = &mut Random::new(3008);
    let file = file(Form::Random, 6, random);
    let image = out(&file, 99, 99).unwrap().plan;
    for at in 0..image.len() {
        for byte in 0..=255 {
            let (mut file, mut image) = (file.clone(), image.clone());
            image[at] = byte;
            let _ = calls::planner_home(&image, 40, random);
            if at < file.len() {
                file[at] = byte;
                let _ = calls::planner_out(&file, (60, 10), random);
            }
        }
    }
}

#[test]
fn bytes_without_any_sense() {
    let random = &mut Random::new(3009);
    (0..20_000).for_each(|_| any_bytes(random));
}

/// A planner's node put into a question by its place: the fresh run is that of the file with the label changed. A rule table
/// for images has 64 labels; with 63 the plan is refused with 10.
#[test]
fn questions_by_places() {
    let random = &mut Random::new(3010);
    for _ in 0..200 {
        let n = random.between(1, 60);
        let file = file(*random.pick(&FORMS), n, random);
        let n = (file.len() - 12) / 2;
        let (plan, places) = there_and_back(&file, random);
        let rules = compare::inputs::lasting_rules(random.between(1, 16), 64, random);
        let (v, label) = (random.below(n), random.below(63) as u8);
        let asked = whatif::fresh_run(&plan, &rules, &[places[v]], &[label]).expect("accepted");
        let mut changed = file.clone();
        changed[12 + v] = label;
        let image = out(&changed, planner_plan_bytes(n), n).unwrap().plan;
        assert_eq!(whatif::fresh_run(&image, &rules, &[], &[]), Ok(asked));
        let fewer = compare::inputs::random_rules(2, 63, random);
        assert_eq!(whatif::fresh_run(&plan, &fewer, &[], &[]), Err(whatif::Refusal::PlanLabel));
    }
}

/// Document 02's example read by hand: a node over two, the first of which has a child.
#[test]
fn an_example_by_hand() {
    let file = write::plan(&[5, 6, 8, 7], &[2, 1, 0, 0]);
    let plan = write::plan(&[63, 63, 8, 63, 63, 7, 6, 63, 5], &[0, 0, 1, 0, 0, 1, 1, 0, 1]);
    let mut got = (vec![0; planner_plan_bytes(4)], vec![0; 4]);
    assert_eq!(whatif::plan_of_planner(&file, &mut got.0, &mut got.1), Ok(4));
    assert_eq!(got, (plan.clone(), vec![8, 6, 2, 5]));
    assert_eq!(home(&plan, 20), Ok(file));
}
