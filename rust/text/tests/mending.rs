//! `mend` and `robust`: every way of small plans against all relabellings by the reference's run, what may change,
//! lists that are too long, names, and a full arch in time.

use reference::fewest::{as_wanted, differences};
use reference::formats::{read_plan, read_rules};
use std::collections::BTreeSet;
use text::changeable::{Changeable, Limits};
use text::input::Input;
use text::loaded::Loaded;
use text::mend::of_plan;
use text::outcome::Failure;
use text::ways::Ways;
use whatif::{Change, Want};

const SAMPLE: &str = include_str!("../../../examples/sample.txt");

fn random(words: &str) -> Input {
    let words: Vec<&str> = words.split(' ').collect();
    Input::of_text(&text::random::text(&words).unwrap().unwrap()).unwrap()
}

/// A comb whose leaves have label 0, cleared where every leaf has another; inner nodes are of no account.
fn comb(leaves: usize, labels: usize, more: &str) -> Input {
    let plan: String = (1..leaves).map(|_| "leaf 0\ninner 0\n").collect();
    let rules = format!("states 2\nlabels {}\nleaf * -> 1\nleaf 0 -> 0\ninner * * * -> 0\ninner 1 * 1 -> 1\n", labels);
    Input::of_text(&format!("plan\nleaf 0\n{}rules\n{}accept 1\n{}", plan, rules, more)).unwrap()
}

/// Document 01's sample with other labels, as digits, and a third label that takes the lesser state.
fn sample(labels: &str) -> Input {
    let third = "leaf 2 -> 1\ninner 1 2 1 -> 1\naccept 1";
    let mut input = Input::of_text(&SAMPLE.replace("labels 2", "labels 3").replace("accept 1", third)).unwrap();
    for (v, digit) in labels.bytes().enumerate() {
        input.plan[12 + v] = digit - b'0';
    }
    input
}

/// The relabellings that are as wanted and of which no part is, as lists of changes, fewest first: by trying all.
fn by_trying(input: &Input, may: &dyn Fn(usize, u8) -> bool, cleared: bool) -> Vec<Vec<Change>> {
    let (plan, rules) = (read_plan(&input.plan).unwrap(), read_rules(&input.rules).unwrap());
    let (n, k) = (plan.nodes(), rules.labels);
    let mut lists: Vec<Vec<Change>> = Vec::new();
    let mut all: Vec<(usize, Vec<u8>)> = (0..k.pow(n as u32))
        .map(|code| (0..n).map(|v| (code / k.pow(v as u32) % k) as u8).collect::<Vec<u8>>())
        .filter(|labels| (0..n).all(|v| labels[v] == plan.labels[v] || may(v, labels[v])))
        .map(|labels| (differences(plan.labels, &labels), labels))
        .collect();
    all.sort();
    for (_, labels) in all.iter().filter(|(_, labels)| as_wanted(&plan, &rules, labels, cleared)) {
        let list: Vec<Change> =
            (0..n).filter(|&v| labels[v] != plan.labels[v]).map(|v| (v as u16, labels[v])).collect();
        if !lists.iter().any(|earlier| earlier.iter().all(|change| list.contains(change))) {
            lists.push(list);
        }
    }
    lists
}

/// Every way, until there is no other.
fn ways(loaded: &Loaded, limits: Limits) -> Vec<Vec<Change>> {
    let may = Changeable::of(loaded, limits).unwrap().may_change(loaded).unwrap();
    let (mut ways, _) = Ways::new(loaded, may).unwrap();
    std::iter::from_fn(|| ways.next_way().unwrap()).collect()
}

/// All ways of a small plan are those that no other is part of, each once, fewest changes first.
#[test]
fn every_way_of_small_plans() {
    let (mut most, mut longest, mut none) = (0, 0, 0);
    let samples = ["0011101", "0010011", "2020022", "1111111", "0000000", "0120120"].map(sample).into_iter();
    let words = |seed: usize| {
        let (shape, rules) = (["arch", "comb", "balanced", "random"][seed % 4], ["lasting", "random"][seed / 4 % 2]);
        format!("--nodes 7 --shape {} --rules {} --states {} --labels 3 --seed {}", shape, rules, 2 + seed % 3, seed)
    };
    let combs = [comb(3, 2, ""), comb(4, 2, ""), comb(3, 3, "")].into_iter();
    for (i, input) in samples.chain(combs).chain((0..24).map(|seed| random(&words(seed)))).enumerate() {
        let loaded = Loaded::new(&input.plan, &input.rules).unwrap();
        for (keep, burs) in [(&[][..], &[][..]), (&["0", "6"], &[]), (&[], &["0,1"]), (&["2-4"], &["0", "1"])] {
            let keep = if loaded.nodes() < 7 && !keep.is_empty() { &["0"][..] } else { keep };
            let limits = Limits { keep, burs };
            let limited = Changeable::of(&loaded, limits).unwrap();
            let may = |v: usize, label: u8| {
                !limited.kept.contains(&(v as u16)) && limited.burs.map_or(true, |burs| burs.contains(label))
            };
            let (found, expected) = (ways(&loaded, limits), by_trying(&input, &may, true));
            if expected == [[]] {
                assert!(found.is_empty() && loaded.is_cleared(), "{}", i);
                continue;
            }
            assert!(found.windows(2).all(|pair| pair[0].len() <= pair[1].len()), "fewest first: {:?}", found);
            let [as_found, as_tried] = [&found, &expected].map(|lists| lists.iter().cloned().collect::<BTreeSet<_>>());
            assert_eq!((as_found.len(), &as_found), (found.len(), &as_tried), "plan {}, {:?}", i, limits);
            most = most.max(found.len());
            longest = longest.max(found.iter().map(Vec::len).max().unwrap_or(0));
            none += usize::from(found.is_empty());
        }
    }
    assert!(most > 15 && longest >= 4 && none > 0, "{} ways, {} changes, {} times none", most, longest, none);
}

/// The radius is that of all relabellings.
#[test]
fn wrong_labels_that_are_borne() {
    let mut radii = [0; 8];
    for input in ["0011101", "1110101", "1111111", "1111100", "1101100", "2202200"].map(sample) {
        let loaded = Loaded::new(&input.plan, &input.rules).unwrap();
        for keep in [&[][..], &["0,1"], &["3-6"], &["0-6"]] {
            let limited = Changeable::of(&loaded, Limits { keep, burs: &[] }).unwrap();
            let lost = loaded.panel.fewest(Want::NotCleared, &limited.may_change(&loaded).unwrap()).unwrap();
            let open = |v: usize, _: u8| !limited.kept.contains(&(v as u16));
            let expected = by_trying(&input, &open, false).first().map(|list| list.len() as u32);
            assert_eq!(lost.least(), expected);
            radii[expected.map_or(7, |radius| radius as usize)] += 1;
            let text = text::radius::of_plan(&input, None, Limits { keep, burs: &[] }, false).unwrap();
            let said = match expected {
                None => "# no wrong labels lose the clearance\n".to_string(),
                Some(0) => "# there is no clearance to lose\n".to_string(),
                Some(1) => "# a single wrong label can lose the clearance\n".to_string(),
                Some(2) => "# whichever label is wrong, the plan stays cleared: 2 wrong labels".to_string(),
                Some(m) => {
                    format!("# whichever {} labels are wrong, the plan stays cleared: {} wrong labels", m - 1, m)
                }
            };
            assert!(text.contains(&said), "{:?}: {}", expected, text);
        }
    }
    assert!([0, 1, 2, 3, 7].iter().all(|&radius| radii[radius] > 0), "{:?}", radii);
}

/// 64 changes are a question, 65 are none; with a question's own changes there may be too many to paste.
#[test]
fn long_lists() {
    let text = |input: &Input, question, next| of_plan(input, question, Limits::default(), next, false).unwrap();
    let said = text(&comb(64, 2, ""), None, 1);
    assert!(said.contains("# 64 changes clear it, and no fewer do\n"), "{}", said);
    assert!(said.ends_with("\n# there is no other way\n"), "{}", said);
    assert_eq!(said.lines().filter(|line| line.contains("->")).count(), 1);
    let said = text(&comb(65, 2, ""), None, 3);
    let number = "# 65 changes clear it, and no fewer do: too many for a question, so they are not listed\n";
    assert!(said.contains(number) && !said.contains("questions"), "{}", said);
    let said = text(&comb(66, 2, "questions\n0->1 1->1\n0->1 1->1 2->1\n"), Some(1), 0);
    assert!(
        said.contains("\n# 64 more changes clear it")
            && said.ends_with("\n# with the question's own more than 64 changes\n")
    );
    let said = text(&comb(64, 2, "questions\n0->1 1->1 0->0 0->1\n"), Some(1), 0);
    assert!(said.contains("\n# 62 more changes clear it") && !said.contains("more than 64"), "{}", said);
    // 63 are needed; a way with another label for each, and the first changes of one way with those of another
    let said = text(&comb(63, 3, ""), None, 4);
    assert_eq!(said.matches("\n# another way, 63 changes\n").count(), 4, "{}", said);
    let json = of_plan(&comb(65, 2, ""), None, Limits::default(), 0, true).unwrap();
    assert_eq!(
        json,
        "{\"cleared\":false,\"state\":0,\"kept\":0,\"no_way\":false,\"least\":65,\"ways\":0,\"all\":false}\n"
    );
}

/// Words and names of labels, ranges, and what is wrong with them.
#[test]
fn nodes_and_labels_by_words() {
    let names = "names\nlabel 0 rough\nlabel 1 fine-bur\nlabel 2 disc\n";
    let input = comb(2, 3, names);
    let limits = |keep, burs| Limits { keep, burs };
    let said = |limits| of_plan(&input, None, limits, 0, false).unwrap_or_else(|failure| failure.what());
    let both = said(limits(&[], &["fine-bur,0"]));
    assert!(both.contains("\n# at hand: labels 0 (rough), 1 (fine-bur)\n# 2 changes clear it"), "{}", both);
    assert!(both.ends_with(
        "\n# node 0: label 0 (rough) to 1 (fine-bur)\n# node 1: label 0 (rough) to 1 (fine-bur)\n0->1 1->1\n"
    ));
    assert!(said(limits(&["2"], &["disc"])).contains("\n# node 2 keeps its label; at hand: label 2 (disc)\n"));
    assert!(
        said(limits(&["0-1"], &[])).contains("\n# 2 nodes keep their labels\n# nothing that may change clears it\n")
    );
    assert!(said(limits(&["0", "0,1"], &["1-2"]))
        .contains("\n# 2 nodes keep their labels; at hand: labels 1 (fine-bur), 2"));
    let rows: [(&[&str], &[&str], &str); 6] = [
        (&["3"], &[], "there is no node 3: the plan's are 0 to 2"),
        (&["1-70000"], &[], "there is no node 70000: the plan's are 0 to 2"),
        (&["first"], &[], "'first' is not a node, and not FIRST-LAST"),
        (&[], &["3"], "there is no label 3: the rules' are 0 to 2"),
        (&[], &["fine-burr"], "'fine-burr' is not a label, and not FIRST-LAST"),
        (&["1,"], &[], "'' is not a node, and not FIRST-LAST"),
    ];
    for (keep, burs, wrong) in rows {
        assert_eq!(said(limits(keep, burs)), wrong);
    }
}

/// The nodes of a question keep what it gives them; a refused question is refused.
#[test]
fn questions() {
    let input = Input::of_text(SAMPLE).unwrap();
    let said = of_plan(&input, Some(2), Limits::default(), 9, false).unwrap();
    assert!(said.contains("\n0->0 2->0\n") && said.contains("\n0->0 6->0\n") && !said.contains("0->1"), "{}", said);
    let refused = of_plan(&input, Some(7), Limits::default(), 0, false).unwrap_err();
    assert!(matches!(&refused, Failure::Refused(refused) if refused.refusal.number() == 13), "{:?}", refused);
    assert!(of_plan(&input, Some(10), Limits::default(), 0, false).is_err());
    let suggested = text::suggest::of_nodes(&comb(2, 2, ""), &[], None, false).unwrap();
    assert!(suggested.contains(": whatif-text mend finds the least that does\n"), "{}", suggested);
}

/// A full arch with four states, read, loaded and mended, within a second; with 64 labels too.
#[test]
fn a_full_arch_in_time() {
    for (labels, seed) in [(4, 5), (64, 5), (64, 6)] {
        let words = format!("--nodes 61471 --shape arch --states 4 --labels {} --seed {}", labels, seed);
        let words: Vec<&str> = words.split(' ').collect();
        let arch = text::random::text(&words).unwrap().unwrap();
        let begun = std::time::Instant::now();
        let input = Input::of_text(&arch).unwrap();
        let said = of_plan(&input, None, Limits::default(), 0, false).unwrap();
        let robust = text::radius::of_plan(&input, None, Limits::default(), false).unwrap();
        let passed = begun.elapsed();
        assert!(said.contains("clears it") || said.contains("nothing must change"), "{}", said);
        assert!(robust.contains("clearance"), "{}", robust);
        println!("{} labels: {:?}", labels, passed);
        assert!(passed < std::time::Duration::from_secs(2), "both together took {:?}", passed);
    }
}
