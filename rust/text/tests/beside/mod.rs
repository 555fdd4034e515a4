//! What the page of a question is to show, by calls of the library that are made beside it.

use std::collections::{BTreeMap, BTreeSet};
use text::input::Input;
use text::names::Names;
use whatif::layout::number;
use whatif::{Fewest, LabelSet, Panel, Plan, Refusal, Rules, Session, State, Want};

/// A session at the panel beside the page: each thing pressed is a call of the library.
pub struct Beside {
    pub panel: Panel,
    changed: Panel,
    changes: Vec<(u16, u8)>,
    names: Names,
    pub roots: Vec<u16>,
    /// By part: where its climb begins and ends.
    pub climbs: BTreeMap<u16, (u16, u16)>,
    /// Links and nodes passed over before the last advance.
    earlier: (u32, u32),
    note: String,
    refused: String,
    /// The labels that each node may take, with the changes made, where they are shown.
    allowed: Option<Vec<LabelSet>>,
    /// The least that must change, where the plan is not cleared: its words, and the title of the mended plan.
    mend: Option<String>,
    before: Vec<(Panel, (u32, u32), String)>,
}

impl Beside {
    pub fn new(input: &Input, question: usize, allowed: bool) -> Beside {
        let load = || {
            let (plan, rules) =
                (Plan::from_bytes(&input.plan[..]).unwrap(), Rules::from_bytes(&input.rules[..]).unwrap());
            Panel::new(plan, rules).unwrap()
        };
        let (panel, changes) = (load(), input.questions[question - 1].clone());
        let mut asked = load();
        asked.start(&changes).unwrap();
        let roots: Vec<u16> = asked.session().roots().collect();
        let mut changed = load();
        changed.load(panel.changed_plan(&changes).unwrap(), panel.rules().clone()).unwrap();
        let climbs = climbs(&panel, &roots);
        let (names, note, refused) = (input.names.clone(), String::new(), String::new());
        let allowed = allowed.then(|| allowed_by_runs(&changed).unwrap_or_else(|| changed.allowed().unwrap()));
        let (earlier, before, mend) = ((0, 0), vec![], mend(&changed, &changes, &names));
        Beside { panel, changed, changes, names, roots, climbs, earlier, note, refused, allowed, mend, before }
    }

    pub fn press(&mut self, what: &str) {
        let state = self.panel.session().state();
        match (what, state) {
            ("back" | "ArrowLeft", _) => {
                if let Some((panel, earlier, note)) = self.before.pop() {
                    (self.panel, self.earlier, self.note) = (panel, earlier, note);
                    self.refused.clear();
                }
            }
            ("ArrowRight", Some(State::Loaded)) | ("start" | "s", _) => self.call("start"),
            ("ArrowRight" | "advance", _) => self.call("advance"),
            ("cancel" | "c", _) => self.call("cancel"),
            ("end" | "End", _) => {
                if state == Some(State::Loaded) {
                    self.call("start");
                }
                self.call("advance");
                while self.panel.session().state() == Some(State::Running) {
                    self.call("advance");
                }
            }
            other => panic!("{:?}", other),
        }
    }

    fn call(&mut self, name: &str) {
        let (old, state) = (self.panel.clone(), self.panel.session().state());
        let said = match name {
            "start" => self.panel.start(&self.changes).map(|_| String::new()),
            "advance" => self.panel.advance().map(|_| String::new()),
            _ => self.panel.cancel().map(|()| {
                let kept = if self.panel.last().is_ok() { ", with the last answer kept" } else { "" };
                format!("Cancelled: the session is loaded, as after load{}.", kept)
            }),
        };
        match said {
            Err(refusal) => self.refused = format!("{}: {}", name, refused(refusal, in_words(state))),
            Ok(note) => {
                let earlier = std::mem::replace(&mut self.earlier, so_far(old.session()));
                self.before.push((old, earlier, std::mem::replace(&mut self.note, note)));
                self.refused.clear();
            }
        }
    }

    /// What the page is to show now.
    pub fn lines(&self, shown: &BTreeSet<u16>) -> Vec<String> {
        let (session, parts) = (self.panel.session(), self.roots.len());
        let (state, done) = (session.state(), session.parts_done() as usize);
        let (links, passed) = so_far(session);
        let named = |state: u8| self.names.state(state);
        let last = self.panel.last().map(|answer| {
            let phrase =
                [count(answer.parts, "part"), count(answer.links, "link"), count(answer.passed, "node")].join(", ");
            format!("{}, state {}, {} passed over", cleared(answer.yes), named(answer.state), phrase)
        });
        let last = last.unwrap_or_else(|refusal| refused(refusal, "no question is finished since load"));
        let (verdict, class) = self.verdict();
        let worked = format!("{} of {} worked out again; {}", done, nodes(self.nodes()), count(links, "link"));
        let say = if self.note.is_empty() { self.say() } else { self.note.clone() };
        let mut lines = vec![
            format!("session\t{}", in_words(state).trim_start_matches("it is ")),
            format!("bar\t{}\t{}", done, parts),
            format!("count\t{} of {}", done, count(parts as u32, "part")),
            format!("say\t{}", say),
            format!("worked\t{}, {} passed over", worked, nodes(passed as usize)),
            format!("verdict\t{}\t{}", class, verdict),
            format!("read\t{}", last),
            format!("refused\t{}", self.refused),
        ];
        let refuses = |call: &str| match call {
            "start" => state == Some(State::Running),
            _ => state != Some(State::Running),
        };
        lines.extend(["start", "advance", "cancel"].map(|call| format!("disabled\t{}\t{}", call, refuses(call))));
        lines.extend((0..done).map(|i| format!("part\t{}", self.sentence(i))));
        let hidden = state != Some(State::Answered);
        lines.extend(self.mend.iter().map(|mend| format!("mend\t{}\t{}", hidden, mend)));
        for &v in shown {
            lines.extend(self.node(v, shown));
            lines.extend(self.edge(v, shown));
        }
        lines
    }

    /// What is written between a node and the next one above it that is drawn.
    fn edge(&self, v: u16, shown: &BTreeSet<u16>) -> Option<String> {
        let (mut at, mut between) = (self.panel.node(v)?.parent, 0);
        while !shown.contains(&at) {
            at = self.panel.node(at)?.parent;
            between += 1;
        }
        let climb = self.climbs.get(&at).filter(|climb| climb.0 == v);
        let part = self.roots.iter().position(|&root| root == at);
        let phrase = match (climb, part) {
            (Some(_), Some(i)) => format!("in {}", count(self.climbed(i).0, "link")),
            _ => "between".to_string(),
        };
        (between > 0).then(|| format!("e{}\t{} {}", v, nodes(between), phrase))
    }

    pub fn nodes(&self) -> usize {
        self.panel.plan().nodes()
    }

    fn verdict(&self) -> (String, &'static str) {
        let (session, root) = (self.panel.session(), self.panel.node(self.nodes() as u16 - 1).unwrap());
        let class = |yes: bool| if yes { "yes" } else { "no" };
        match session.state() {
            Some(State::Running) => ("Not answered yet.".into(), "open"),
            Some(State::Answered) => {
                let answer = self.panel.current().unwrap();
                let phrase = format!("The plan is {}, state {}.", cleared(answer.yes), self.names.state(answer.state));
                (phrase, class(answer.yes))
            }
            _ => {
                let yes = self.panel.rules().accepts(root.state);
                let phrase = format!("As it is, the plan is {}, state {}.", cleared(yes), self.names.state(root.state));
                (phrase, class(yes))
            }
        }
    }

    fn say(&self) -> String {
        let (session, parts) = (self.panel.session(), self.roots.len());
        match (session.state(), session.parts_done() as usize) {
            (Some(State::Loaded), _) => {
                let (s, k) = (self.panel.rules().states() as u32, self.panel.rules().labels() as u32);
                let loaded = format!("Loaded: {}, {}, {}.", nodes(self.nodes()), count(s, "state"), count(k, "label"));
                format!("{} {} Press start.", loaded, self.verdict().0)
            }
            (_, 0) => {
                let some: Vec<String> = self.roots.iter().take(16).map(u16::to_string).collect();
                let more = if parts > 16 { format!(" and {} more", parts - 16) } else { String::new() };
                let noun = if parts == 1 { "node" } else { "nodes" };
                let roots = format!("Their roots, in the order of the advances: {} {}{}.", noun, some.join(", "), more);
                format!("Started: {}. {} Nothing is worked out again yet.", count(parts as u32, "part"), roots)
            }
            (_, done) if done == parts => {
                let phrase = self.verdict().0.replace("The plan", "Finished: the plan");
                format!("{} {}", self.sentence(done - 1), phrase)
            }
            (_, done) => self.sentence(done - 1),
        }
    }

    /// Of a part that is handled. Links come from a question of the library's own: the sum up to here less that before.
    fn sentence(&self, i: usize) -> String {
        let (root, new) = (self.roots[i], self.changed.node(self.roots[i]).unwrap());
        let part = self.panel.session().handled().nth(i).unwrap();
        assert_eq!((part.root, part.state), (root, new.state), "the record, and the changed plan's run");
        let (old, named) = (self.panel.node(root).unwrap().state, |state: u8| self.names.state(state));
        let becomes = if old == part.state { "stays".into() } else { format!("becomes {}", named(part.state)) };
        let because = match self.panel.plan().children()[usize::from(root)] {
            None => format!("a leaf with label {} has state", self.names.label(new.label)),
            Some((left, right)) => {
                let (left, right) = (self.changed.node(left).unwrap().state, self.changed.node(right).unwrap().state);
                assert_eq!(self.panel.rules().inner(left, new.label, right), Some(part.state));
                let label = self.names.label(new.label);
                format!("left state {}, label {} and right state {} give", named(left), label, named(right))
            }
        };
        let climb = match self.climbs.get(&root) {
            None => "No climb.".to_string(),
            Some(&(from, to)) => {
                let (links, passed) = self.climbed(i);
                let ends = format!("from node {} to node {}", from, to);
                let phrase = format!("{}, {} passed over", count(links, "link"), count(passed, "node"));
                format!(
                    "Its climb carried state {} up {}: {}.",
                    named(self.changed.node(to).unwrap().state),
                    ends,
                    phrase
                )
            }
        };
        let at = format!("Part {} of {}: at node {} state {} {}", i + 1, self.roots.len(), root, named(old), becomes);
        format!("{}, because {} {}. {}", at, because, named(part.state), climb)
    }

    /// Links and nodes passed over of a part, by records of a session of its own.
    fn climbed(&self, i: usize) -> (u32, u32) {
        let mut panel = self.panel.clone();
        if panel.session().state() == Some(State::Running) {
            panel.cancel().unwrap();
        }
        panel.start(&self.changes).unwrap();
        (0..i).for_each(|_| assert!(panel.advance().is_ok()));
        let before = so_far(panel.session());
        panel.advance().unwrap();
        let after = so_far(panel.session());
        (after.0 - before.0, after.1 - before.1)
    }

    /// The labels that a node may take, where they are shown now.
    fn allowed(&self, v: u16) -> Option<LabelSet> {
        let answered = self.panel.session().state() == Some(State::Answered);
        self.allowed.as_ref().filter(|_| answered).map(|allowed| allowed[usize::from(v)])
    }

    /// `only label 2 clears`, and so on.
    fn clears(&self, set: LabelSet) -> String {
        let names: Vec<String> = set.iter().map(|label| self.names.label(label)).collect();
        match names.len() {
            0 => "no label clears".into(),
            1 => format!("only label {} clears", names[0]),
            all if all == self.panel.rules().labels() => "every label clears".into(),
            some if some > 8 => format!("labels {} and {} more clear", names[..8].join(", "), some - 8),
            _ => format!("labels {} clear", names.join(", ")),
        }
    }

    /// A node, and before it what a screen reader hears where that is not the same.
    fn node(&self, v: u16, shown: &BTreeSet<u16>) -> Vec<String> {
        let (session, old) = (self.panel.session(), self.panel.node(v).unwrap());
        let done = session.parts_done() as usize;
        let is_root = usize::from(v) + 1 == self.nodes();
        let part = self.roots.iter().position(|&root| root == v);
        let handled = part.filter(|&i| i < done).map(|i| session.handled().nth(i).unwrap().state);
        let now = part.is_some() && part == done.checked_sub(1);
        let takes = self.changes.iter().rev().find(|change| change.0 == v).map(|change| change.1);
        let climbed = self.climbs.iter().filter(|(root, _)| self.roots[..done].contains(root));
        let (mut passed, mut carried) = (false, false);
        for (_, &(from, to)) in climbed {
            carried |= v == to;
            // above `from` and below `to`
            let size = |v: u16| self.panel.node(v).unwrap().size;
            passed |= from < v && v - from < size(v) && v < to;
        }
        let named = |state: u8| self.names.state(state);
        let mut classes = vec!["node"];
        let marks = [
            (takes.is_some(), "changed"),
            (part.is_some(), "root"),
            (handled.is_some(), "done"),
            (handled.map_or(false, |state| state != old.state), "other"),
            (now, "now"),
            (passed || carried, "pass"),
            (self.allowed(v).map_or(false, |set| set.is_empty()), "none"),
            (self.allowed(v).map_or(false, |set| set.len() == 1), "one"),
            (is_root && self.verdict().1 != "open", self.verdict().1),
            (self.nodes() > 100 && old.kind == whatif::Kind::Inner, "opens"),
        ];
        classes.extend(marks.iter().filter(|mark| mark.0).map(|mark| mark.1));
        let head = part.map_or(String::new(), |i| format!(", part {}", i + 1));
        let to = takes.map_or(String::new(), |to| format!(" → {}", self.names.label(to)));
        let state = match handled {
            Some(state) if state == old.state => format!("state {}, as before", named(state)),
            Some(state) => format!("state {} → {}", named(old.state), named(state)),
            None if carried => format!("state {}, carried up", named(self.changed.node(v).unwrap().state)),
            None if passed => "passed over".to_string(),
            None => format!("state {}", named(old.state)),
        };
        let mut lines = vec![
            format!("{}node {}{}", if now { "▶ " } else { "" }, v, head),
            format!("label {}{}", self.names.label(old.label), to),
            state,
        ];
        lines.extend(is_root.then(|| {
            let phrase = match self.panel.session().state() {
                Some(State::Running) => "not answered yet",
                Some(State::Answered) => cleared(self.panel.current().unwrap().yes),
                _ => cleared(self.panel.rules().accepts(old.state)),
            };
            format!("the root: {}", phrase)
        }));
        lines.extend(self.allowed(v).filter(|set| set.len() < 2).map(|set| self.clears(set)));
        let several = self.allowed(v).filter(|set| set.len() > 1).map(|set| self.clears(set));
        let heard = several.map(|several| format!("label\t{}; {}", lines.join(", "), several));
        let sign = self.panel.plan().children()[usize::from(v)].filter(|_| self.nodes() > 100).map(|(left, right)| {
            let open = shown.contains(&left) && shown.contains(&right);
            if open {
                ""
            } else {
                "+"
            }
        });
        let seen = format!("n{}\t{}\t{}\t{}", v, classes.join(" "), lines.join(" / "), sign.unwrap_or(""));
        heard.into_iter().chain([seen]).collect()
    }
}

/// From each root up to the child of the next root above it, where that is another node.
fn climbs(panel: &Panel, roots: &[u16]) -> BTreeMap<u16, (u16, u16)> {
    let mut climbs = BTreeMap::new();
    for &root in &roots[..roots.len() - 1] {
        let mut at = root;
        while !roots.contains(&panel.node(at).unwrap().parent) {
            at = panel.node(at).unwrap().parent;
        }
        if at != root {
            let before = climbs.insert(panel.node(at).unwrap().parent, (root, at));
            assert_eq!(before, None, "a part has one climb");
        }
    }
    climbs
}

/// Links and nodes passed over so far: docs/LAYOUT.md.
fn so_far(session: &Session) -> (u32, u32) {
    (number(session.as_bytes(), 9).unwrap(), number(session.as_bytes(), 975).unwrap())
}

fn refused(refusal: Refusal, about: &str) -> String {
    format!("refused {}: {} ({})", refusal.number(), refusal.sentence(), about)
}

fn in_words(state: Option<State>) -> &'static str {
    match state {
        Some(State::Loaded) => "it is loaded",
        Some(State::Running) => "it is running",
        _ => "it is answered",
    }
}

fn cleared(yes: bool) -> &'static str {
    if yes {
        "cleared"
    } else {
        "not cleared"
    }
}

fn count(number: u32, what: &str) -> String {
    format!("{} {}{}", number, what, if number == 1 { "" } else { "s" })
}

/// With commas between the thousands.
fn nodes(number: usize) -> String {
    let phrase = if number < 1_000 { number.to_string() } else { format!("{},{:03}", number / 1_000, number % 1_000) };
    format!("{} node{}", phrase, if number == 1 { "" } else { "s" })
}

/// Of a small plan: the labels with which a fresh run clears it, node by node.
fn allowed_by_runs(panel: &Panel) -> Option<Vec<LabelSet>> {
    let (nodes, labels) = (panel.plan().nodes() as u16, panel.rules().labels() as u8);
    let clears = |v: u16, label: &u8| panel.fresh_run(&[(v, *label)]).unwrap().yes;
    let bits = |v: u16| (0..labels).filter(|label| clears(v, label)).fold(0, |bits, label| bits | 1 << label);
    (nodes <= 100).then(|| (0..nodes).map(|v| LabelSet::from_bits(bits(v))).collect())
}

/// The least that must change on a plan with changes made, whose nodes keep their labels.
fn mend(changed: &Panel, changes: &[(u16, u8)], names: &Names) -> Option<String> {
    let listed: Vec<u16> = changes.iter().map(|change| change.0).collect();
    let every = changed.may_change();
    let may = if listed.is_empty() { every } else { every.keep(&listed).unwrap() };
    let fewest = changed.fewest(Want::Cleared, &may).unwrap();
    let (kept, noun) =
        if changes.is_empty() { ("", "change") } else { ("With the question's changes kept, ", "more change") };
    let said = match &fewest {
        Fewest::AsItIs => return None,
        Fewest::NoWay => format!("{} clears the plan.", if changes.is_empty() { "Nothing" } else { "nothing" }),
        Fewest::Number(least) => {
            format!("{} clear the plan, and no fewer do: too many to be listed.", count(*least, noun))
        }
        Fewest::Changes(list) if list.len() == 1 => format!("1 {} clears the plan.", noun),
        Fewest::Changes(list) => format!("{} clear the plan, and no fewer do.", count(list.len() as u32, noun)),
    };
    let list = match fewest {
        Fewest::Changes(list) => list,
        _ => return Some(format!("{}{}\t", kept, said)),
    };
    assert!(list.iter().all(|change| !listed.contains(&change.0)), "the question's changes are kept");
    no_fewer_clear(changed, &listed, list.len());
    let answer = changed.clone().ask(&list).unwrap();
    let fresh = changed.fresh_run(&list).unwrap();
    assert!(fresh.yes && answer.yes && fresh.state == answer.state);
    let change = |&(v, to): &(u16, u8)| {
        let from = changed.node(v).unwrap().label;
        format!("node {} from label {} to {}", v, names.label(from), names.label(to))
    };
    let listed: Vec<String> = list.iter().map(change).collect();
    let then = format!("Then the plan is cleared, state {}.", names.state(fresh.state));
    let by = "The list is the library's answer, by whatif_fewest; the verdict is a fresh run's.";
    let climbs = format!("{}, {} passed over", count(answer.links, "link"), count(answer.passed, "node"));
    let picture = format!("cleared, state {}, {}, {}", names.state(answer.state), count(answer.parts, "part"), climbs);
    let title = format!("The mended plan: {}. (before: the plan with the question's changes)", picture);
    Some(format!("{}{} / {} / {} / {}\t{}", kept, said, listed.join(" / "), then, by, title))
}

/// On a small plan no list of one change fewer clears it, by fresh runs; shorter ones are lists with own labels.
fn no_fewer_clear(changed: &Panel, listed: &[u16], least: usize) {
    let (nodes, labels) = (changed.plan().nodes() as u16, changed.rules().labels() as u8);
    if nodes > 31 || least > 3 {
        return;
    }
    let mut lists: Vec<Vec<(u16, u8)>> = vec![vec![]];
    for _ in 1..least {
        let longer = |list: &Vec<(u16, u8)>| {
            let first = list.last().map_or(0, |change| change.0 + 1);
            let nodes = (first..nodes).filter(|v| !listed.contains(v));
            let changes = nodes.flat_map(|v| (0..labels).map(move |label| (v, label)));
            changes.map(|change| [&list[..], &[change]].concat()).collect::<Vec<_>>()
        };
        lists = lists.iter().flat_map(longer).collect();
    }
    assert!(lists.iter().all(|list| !changed.fresh_run(list).unwrap().yes), "fewer are enough");
}
