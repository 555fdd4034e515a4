//! `whatif-text build` and `whatif-text check`: the tables as files, as a panel would keep them: the node table's
//! 16-bit numbers with the lower byte first, and the state table's bytes.

use crate::input::Input;
use crate::json::Object;
use crate::loaded::Loaded;
use crate::outcome::{Failure, Made, NO};
use crate::sentences::{count, load_refused};
use whatif::layout::number;

/// Both tables as bytes, as the library builds them.
pub fn build(input: &Input) -> Result<[Vec<u8>; 2], Failure> {
    let loaded = Loaded::new(&input.plan, &input.rules)?;
    let lent = loaded.panel.lent();
    Ok([lent.node_table.iter().flat_map(|number| number.to_le_bytes()).collect(), lent.state_table.to_vec()])
}

/// The library's full check; where it says no, the first node whose entries are others than the build's.
pub fn check(input: &Input, node_table: &[u8], state_table: &[u8], json: bool) -> Result<Made, Failure> {
    if node_table.len() % 2 == 1 {
        return Err(Failure::wrong("the node table has an odd number of bytes, and its numbers have two each"));
    }
    let node_table: Vec<u16> = node_table.chunks_exact(2).map(|two| u16::from_le_bytes([two[0], two[1]])).collect();
    let (plan, rules) = (&input.plan, &input.rules);
    let as_built =
        whatif::check(plan, rules, &node_table, state_table).map_err(|refusal| load_refused(refusal, plan, rules))?;
    if as_built && json {
        let nodes = number(plan, 0).unwrap_or(0);
        return Ok(Made::answered(Object::new().truth("as_built", true).number("nodes", nodes).line()));
    }
    if as_built {
        let nodes = count(number(plan, 0).unwrap_or(0) as usize, "node");
        return Ok(Made::answered(format!("the tables are what the build writes, {}\n", nodes)));
    }
    let built = Loaded::new(plan, rules)?;
    let wrong = first_wrong(&built, &node_table, state_table);
    let wrong =
        wrong.ok_or_else(|| Failure::wrong("a fault of whatif-text: the library says no, and no node is wrong"))?;
    let told = match json {
        true => wrong.object().line(),
        false => format!("the tables are not what the build writes; the first wrong {}\n", wrong.sentence()),
    };
    Ok(Made { bytes: told.into_bytes(), status: NO })
}

const NUMBERS: [&str; 4] = ["parent", "jump", "depth", "size"];

/// An entry that is not as built.
struct Entry {
    node: usize,
    what: String,
    is: usize,
    wanted: usize,
}

impl Entry {
    fn sentence(&self) -> String {
        let Entry { node, what, is, wanted } = self;
        format!("node is {}: its {} is {}, and should be {}", node, what, is, wanted)
    }

    fn object(&self) -> Object {
        let object = Object::new().truth("as_built", false).count("node", self.node).text("entry", &self.what);
        object.count("is", self.is).count("should_be", self.wanted)
    }
}

fn first_wrong(built: &Loaded, node_table: &[u16], state_table: &[u8]) -> Option<Entry> {
    let (row, lent) = (built.rules().states() + 1, built.panel.lent());
    (0..built.nodes()).find_map(|v| {
        let numbers = (4 * v..4 * v + 4).find(|&i| node_table[i] != lent.node_table[i]);
        let bytes = (row * v..row * (v + 1)).find(|&i| state_table[i] != lent.state_table[i]);
        let of_byte = |i: usize| match i - row * v {
            0 => "state".to_string(),
            entry => format!("map of state {}", entry - 1),
        };
        let entry = |what: String, is: usize, wanted: usize| Some(Entry { node: v, what, is, wanted });
        match (numbers, bytes) {
            (Some(i), _) => entry(NUMBERS[i % 4].into(), node_table[i].into(), lent.node_table[i].into()),
            (None, Some(i)) => entry(of_byte(i), state_table[i].into(), lent.state_table[i].into()),
            (None, None) => None,
        }
    })
}
