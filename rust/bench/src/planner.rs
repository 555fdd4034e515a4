//! The calls on the planner's files: out and home.

use crate::measure::{by_turns, Pair};
use crate::table::Single;
use compare::random::Random;
use compare::rounds::planner_files::{file, Form};
use whatif::sizes::{planner_bytes, planner_plan_bytes, MAX_PLANNER_NODES};

/// What is measured on what: a form, its nodes, and how many files a turn has.
const FILES: [(&str, Form, usize, usize); 4] = [
    ("a chain, N 65,535", Form::Chain, MAX_PLANNER_NODES, 3),
    ("a star of 255 children, N 513", Form::Star, 256, 65),
    ("random, N 65,535", Form::Random, MAX_PLANNER_NODES, 3),
    ("lists of 255, N 65,535", Form::Wide, MAX_PLANNER_NODES, 3),
];

/// A file with its plan and places, twice: one for each side.
struct One {
    file: Vec<u8>,
    out: [(Vec<u8>, Vec<u16>); 2],
    home: [Vec<u8>; 2],
}

impl One {
    fn new(form: Form, n: usize, random: &mut Random) -> One {
        let file = file(form, n, random);
        let out = (vec![0; planner_plan_bytes(n)], vec![0; n]);
        let home = vec![0; planner_bytes(n)];
        One { file, out: [out.clone(), out], home: [home.clone(), home] }
    }

    fn out_by_library(&mut self) -> bool {
        let (plan, places) = &mut self.out[0];
        whatif::plan_of_planner(&self.file, plan, places).is_ok()
    }

    fn out_by_yardstick(&mut self) -> bool {
        let (plan, places) = &mut self.out[1];
        yardstick::plan_of_planner(&self.file, plan, places).is_ok()
    }

    /// After going out.
    fn home_by_library(&mut self) -> bool {
        whatif::planner_of_plan(&self.out[0].0, &mut self.home[0]).is_ok()
    }

    fn home_by_yardstick(&mut self) -> bool {
        yardstick::planner_of_plan(&self.out[0].0, &mut self.home[1]).is_ok()
    }

    fn same(&self) -> bool {
        self.out[0] == self.out[1] && self.home[0] == self.home[1]
    }
}

/// Both sides by turns on files of their own.
fn times(files: &mut [One], library: fn(&mut One) -> bool, yardstick: fn(&mut One) -> bool) -> Pair {
    let (count, cell) = (files.len(), std::cell::RefCell::new(files));
    by_turns(
        count,
        || assert!(cell.borrow_mut().iter_mut().all(library)),
        || assert!(cell.borrow_mut().iter_mut().all(yardstick)),
    )
}

/// Those whose work has this text in its name, each handed on when it is measured.
pub fn singles(wanted: &str, keep: &mut dyn FnMut(Single)) {
    let random = &mut Random::new(7);
    for (on, form, n, count) in FILES {
        if !"planner out".contains(wanted) && !"planner home".contains(wanted) {
            return;
        }
        let mut files: Vec<One> = (0..count).map(|_| One::new(form, n, random)).collect();
        let out = times(&mut files, One::out_by_library, One::out_by_yardstick);
        let home = times(&mut files, One::home_by_library, One::home_by_yardstick);
        assert!(
            files.iter().all(|one| one.same() && one.home[0] == one.file),
            "both write the same, and the file again"
        );
        keep(Single { work: "planner out", on, goal: 2.0, times: out });
        keep(Single { work: "planner home", on, goal: 2.0, times: home });
    }
}

/// Twenty calls by both sides.
pub fn calls(random: &mut Random) {
    for _ in 0..20 {
        let mut one = One::new(Form::Random, 1_000, random);
        assert!(one.out_by_library() && one.out_by_yardstick() && one.home_by_library() && one.home_by_yardstick());
        assert!(one.same(), "both write the same");
    }
}
