//! What passes between the panel and a session: the calls with what is lent beside the record, and the answers.

/// Plan, rule table, node table and state table.
#[derive(Clone, Copy)]
pub struct Inputs<'a> {
    pub plan: &'a [u8],
    pub rules: &'a [u8],
    pub node_table: &'a [u16],
    pub state_table: &'a [u8],
}

#[derive(Clone, Copy)]
pub enum Call<'a> {
    Load(Inputs<'a>),
    /// With the listed nodes and their labels.
    Start(Inputs<'a>, &'a [u16], &'a [u8]),
    Advance(Inputs<'a>),
    Cancel,
    Read,
}

#[derive(Clone, Copy, Debug, PartialEq, Eq)]
pub enum Answer {
    Refused(u32),
    Accepted,
    Parts(u32),
    More,
    Finished,
    Outcome(Outcome),
}

/// "state, yes or no, parts, links", and the nodes passed over (document 02, S-7), last
#[derive(Clone, Copy, Debug, PartialEq, Eq)]
pub struct Outcome {
    pub state: u32,
    pub yes: bool,
    pub parts: u32,
    pub links: u32,
    pub passed: u32,
}

/// "Load is allowed unless running; Start in loaded or answered; advance and Cancel in running"; Read, whatever the state,
/// once a finished answer is there.
#[derive(Clone, Copy, Debug, PartialEq, Eq)]
pub enum Phase {
    Empty,
    Loaded,
    Running,
    Answered,
}

/// N, S and K.
#[derive(Clone, Copy, Debug, PartialEq, Eq)]
pub struct Sizes {
    pub n: usize,
    pub s: usize,
    pub k: usize,
}

impl Sizes {
    pub const NONE: Sizes = Sizes { n: 0, s: 0, k: 0 };

    /// "lent plan, rules and tables at least as long as N, S and K need, plan and rules exactly?"
    pub fn fit(&self, inputs: &Inputs) -> Result<(), u32> {
        let Sizes { n, s, k } = *self;
        let exact = inputs.plan.len() == 12 + 2 * n && inputs.rules.len() == 20 + k + s * k * s + s;
        if exact && inputs.node_table.len() >= 4 * n && inputs.state_table.len() >= (s + 1) * n {
            Ok(())
        } else {
            Err(17)
        }
    }
}

impl Phase {
    /// "may it be made in this state? 1"; `last` is whether a finished answer is there.
    pub fn allows(self, call: &Call, last: bool) -> Result<(), u32> {
        let allowed = match call {
            Call::Load(_) => self != Phase::Running,
            Call::Start(..) => self == Phase::Loaded || self == Phase::Answered,
            Call::Advance(_) | Call::Cancel => self == Phase::Running,
            Call::Read => last,
        };
        if allowed {
            Ok(())
        } else {
            Err(1)
        }
    }
}
