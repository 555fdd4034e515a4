//! The reference implementation against what document 02, S-8, says of eight screens, on document 01's sample.

use reference::panel::{Answer, Inputs};
use reference::sample::{plan_a, table_a};
use reference::screens::{call, References, Reply, ScreenAnswer, ScreenCall, RUN_BYTES};
use reference::tables::Tables;

/// A run, the number, and the reference models, which must settle every answer here.
struct Lab {
    run: Vec<u8>,
    first: u32,
    models: References,
    plan: Vec<u8>,
    rules: Vec<u8>,
    tables: Tables,
}

impl Lab {
    fn new() -> Lab {
        let (plan, rules) = (plan_a(), table_a());
        let tables = reference::build(&plan, &rules, 28, 21).unwrap();
        Lab { run: vec![0; RUN_BYTES], first: 5, models: References::default(), plan, rules, tables }
    }

    fn told(&mut self, make: impl Fn(Inputs<'_>, &mut dyn FnMut(ScreenCall<'_>))) -> ScreenAnswer {
        let Lab { run, first, models, plan, rules, tables } = self;
        let inputs = Inputs { plan, rules, node_table: &tables.node_table, state_table: &tables.state_table };
        let mut told = ScreenAnswer::refused(0);
        make(inputs, &mut |one| {
            let done = call(run, &one);
            match models.reply(&one) {
                Reply::Settled(answer, after) => {
                    assert_eq!(answer, done.answer);
                    *models = after;
                }
                Reply::Unsettled(_) => panic!("tables as built leave nothing to the program"),
            }
            (*run, told) = (done.run, done.answer);
        });
        *first = told.number().unwrap_or(*first);
        told
    }

    fn load(&mut self) -> ScreenAnswer {
        self.told(|inputs, make| make(ScreenCall::Load(inputs)))
    }

    fn start(&mut self, screen: u32, nodes: &[u16], labels: &[u8]) -> ScreenAnswer {
        self.told(|inputs, make| make(ScreenCall::Start(screen, inputs, nodes, labels)))
    }

    fn deal(&mut self) -> ScreenAnswer {
        let first = self.first;
        self.told(|inputs, make| make(ScreenCall::Deal(first, inputs)))
    }
}

/// "0 after a Load, else one past the screen served, 0 past 7"; "going from 7 back to 0".
#[test]
fn turns() {
    let mut lab = Lab::new();
    assert_eq!(lab.deal(), ScreenAnswer::refused(1), "a deal with no screen running gives 1");
    assert_eq!((lab.load(), lab.first), (ScreenAnswer::Loaded(0), 0));
    for screen in [1, 7] {
        assert_eq!(lab.start(screen, &[0, 3], &[0, 1]), ScreenAnswer::One(Answer::Parts(5)));
    }
    assert_eq!(lab.load(), ScreenAnswer::refused(1), "refused while any screen runs");
    let numbers: Vec<Option<u32>> = (0..10).map(|_| lab.deal().number()).collect();
    assert_eq!(numbers, [2, 0, 2, 0, 2, 0, 2, 0, 2, 0].map(Some));
    assert_eq!(lab.deal(), ScreenAnswer::refused(1));
    assert_eq!(lab.load(), ScreenAnswer::Loaded(0));
    assert_eq!(lab.told(|_, make| make(ScreenCall::Read(7))), ScreenAnswer::refused(1), "clears them all");
}

/// "A screen number above 7, the one to try first included, or a run of another length, gives 25, before everything
/// else."
#[test]
fn twenty_five() {
    let mut lab = Lab::new();
    for number in [8, 259, u32::MAX] {
        assert_eq!(lab.start(number, &[], &[]), ScreenAnswer::refused(25));
        lab.first = number;
        assert_eq!(lab.deal(), ScreenAnswer::refused(25));
    }
    for len in [0, RUN_BYTES - 1, RUN_BYTES + 1] {
        assert_eq!(call(&vec![0; len], &ScreenCall::Cancel(0)).answer, ScreenAnswer::refused(25));
    }
}
