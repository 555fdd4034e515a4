//! A plan and its rules on a panel of the library: loaded once, then asked.

use crate::input::Input;
use crate::json::Object;
use crate::names::Names;
use crate::outcome::Failure;
use crate::questions::Change;
use crate::sentences::{list_refused, load_refused};
use whatif::{Answer, LabelSet, Node, Panel, Plan, Refusal, Rules, StateSet};

pub struct Loaded {
    pub panel: Panel,
    pub names: Names,
}

/// An answered question: its answer, and the roots of its parts with their states, as the record has them.
pub struct Asked {
    pub answer: Answer,
    pub roots: Vec<usize>,
    pub states: Vec<u8>,
    /// Where they are to be shown: the labels that each node may take, with the changes made.
    pub allowed: Option<Vec<LabelSet>>,
}

impl Loaded {
    /// Of any bytes: what a Load refuses is refused here, in its order.
    pub fn new(plan: &[u8], rules: &[u8]) -> Result<Loaded, Failure> {
        let panel = panel(plan, rules).map_err(|refusal| load_refused(refusal, plan, rules))?;
        Ok(Loaded { panel, names: Names::default() })
    }

    /// Of an input, with its names.
    pub fn of(input: &Input) -> Result<Loaded, Failure> {
        let loaded = Loaded::new(&input.plan, &input.rules)?;
        Ok(Loaded { names: input.names.clone(), ..loaded })
    }

    pub fn nodes(&self) -> usize {
        self.panel.plan().nodes()
    }

    pub fn labels(&self) -> &[u8] {
        self.panel.plan().labels()
    }

    pub fn rules(&self) -> &Rules {
        self.panel.rules()
    }

    /// A node of the plan, with what the tables say of it.
    pub fn node(&self, v: usize) -> Node {
        u16::try_from(v).ok().and_then(|v| self.panel.node(v)).expect("a node of the plan")
    }

    pub fn parent(&self, v: usize) -> usize {
        self.node(v).parent.into()
    }

    pub fn size(&self, v: usize) -> usize {
        self.node(v).size.into()
    }

    /// The state of a node in the run of the plan as it is.
    pub fn before(&self, v: usize) -> u8 {
        self.node(v).state
    }

    /// Is the plan cleared as it is?
    pub fn is_cleared(&self) -> bool {
        self.rules().accepts(self.before(self.nodes() - 1))
    }

    /// A question, from Start to its answer.
    pub fn ask(&mut self, changes: &[Change]) -> Result<Asked, Failure> {
        let answer = self.panel.ask(changes).map_err(|refusal| self.list_refused(refusal, changes))?;
        let (roots, states) = self.panel.session().handled().map(|part| (usize::from(part.root), part.state)).unzip();
        Ok(Asked { answer, roots, states, allowed: None })
    }

    /// A question at once, where its parts are not looked at.
    pub fn what_if(&self, changes: &[Change]) -> Result<Answer, Failure> {
        self.panel.what_if(changes).map_err(|refusal| self.list_refused(refusal, changes))
    }

    /// For each node the labels with which the plan is cleared, all other nodes as they are.
    pub fn allowed(&self) -> Result<Vec<LabelSet>, Failure> {
        self.panel.allowed().map_err(Failure::refused)
    }

    /// For each node the states with which the plan is cleared, all else as it is.
    pub fn clearing(&self) -> Result<Vec<StateSet>, Failure> {
        self.panel.clearing().map_err(Failure::refused)
    }

    /// These nodes, or all where none is given.
    pub fn these_or_all(&self, nodes: &[usize]) -> Result<Vec<usize>, Failure> {
        let n = self.nodes();
        match nodes.iter().find(|&&v| v >= n) {
            Some(v) => Err(Failure::wrong(format!("there is no node {}: the plan's are 0 to {}", v, n - 1))),
            None if nodes.is_empty() => Ok((0..n).collect()),
            None => Ok(nodes.to_vec()),
        }
    }

    /// The verdict on the plan as it is, as fields.
    pub fn as_it_is(&self, object: Object) -> Object {
        let object = object.truth("was_cleared", self.is_cleared());
        object.state("was_state", self.before(self.nodes() - 1), &self.names)
    }

    /// The same plan with changes made, on a panel of its own: its states are those of the changed run.
    pub fn changed(&self, changes: &[Change]) -> Result<Loaded, Failure> {
        let plan = self.panel.changed_plan(changes);
        let panel = plan.and_then(|plan| Panel::new(plan, self.rules().clone()));
        panel
            .map(|panel| Loaded { panel, names: self.names.clone() })
            .map_err(|refusal| self.list_refused(refusal, changes))
    }

    fn list_refused(&self, refusal: Refusal, changes: &[Change]) -> Failure {
        list_refused(refusal, changes, self.nodes(), self.rules().labels())
    }
}

fn panel(plan: &[u8], rules: &[u8]) -> Result<Panel, Refusal> {
    Panel::new(Plan::from_bytes(plan)?, Rules::from_bytes(rules)?)
}
