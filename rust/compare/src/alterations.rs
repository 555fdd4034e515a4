//! Inputs that are not as built, or not those of Start.

use crate::faults::shorter;
use crate::inputs::Case;
use crate::panel::Lent;
use crate::random::Random;
use crate::trace;

/// Puts another value at every place that chance hits, one in `share`; at one place at least.
pub fn damage<T>(list: &mut [T], share: usize, random: &mut Random, mut value: impl FnMut(&mut Random) -> T) {
    if list.is_empty() {
        return;
    }
    let sure = random.below(list.len());
    for (i, place) in list.iter_mut().enumerate() {
        if i == sure || random.below(share) == 0 {
            *place = value(random);
        }
    }
}

/// What an alteration does to inputs of a case.
#[derive(Clone, Copy, Debug, PartialEq, Eq)]
pub enum Alteration {
    /// Longer tables with anything behind: nothing to any call.
    Excess,
    /// Run states and maps, all below S.
    BytesBelow,
    /// Run states and maps, some not below S.
    Bytes,
    /// The node table, inside the plan or not.
    Numbers,
    /// Labels of the plan, some not below K.
    Labels,
    Kinds,
    /// Offsets and counts of the headers.
    Headers,
    /// Leaf states, inner states and marks, some not below S.
    Rules,
    /// Another length of one of the four.
    Length,
}

pub const ALTERATIONS: [Alteration; 9] = [
    Alteration::Excess,
    Alteration::BytesBelow,
    Alteration::Bytes,
    Alteration::Numbers,
    Alteration::Labels,
    Alteration::Kinds,
    Alteration::Headers,
    Alteration::Rules,
    Alteration::Length,
];

/// Lays alterations over what is lent for as long as chance has it, once in `seldom` turns: the same again with another
/// excess is as often as all others together, and a clean question may become firm. Nothing follows another length.
pub fn lay_some(lent: &mut Lent, case: &Case, seldom: usize, random: &mut Random) {
    while random.below(seldom) == 0 {
        let kind = match random.below(4) {
            0 | 1 => Alteration::Excess,
            2 => Alteration::BytesBelow,
            _ => *random.pick(&ALTERATIONS),
        };
        kind.lay(lent, case, random);
        if kind == Alteration::Length {
            break;
        }
    }
}

impl Alteration {
    pub fn lay(self, lent: &mut Lent, case: &Case, random: &mut Random) {
        let Case { n, s, k, .. } = *case;
        let share = *random.pick(&[2, 10, 50, 1_000]);
        trace::say(format!("{:?} altered", self));
        match self {
            Alteration::Excess => {
                let (more_nodes, more_states) = (random.below(5), random.below(5));
                lent.node_table.truncate(4 * n);
                lent.state_table.truncate((s + 1) * n);
                lent.node_table.extend(random.numbers(more_nodes));
                lent.state_table.extend(random.bytes(more_states));
            }
            Alteration::BytesBelow => damage(&mut lent.state_table, share, random, |random| random.below(s) as u8),
            Alteration::Bytes => damage(&mut lent.state_table, share, random, |random| random.below(s + 2) as u8),
            Alteration::Numbers => {
                let limit = *random.pick(&[n, n + 1, 65_536]);
                damage(&mut lent.node_table, share, random, |random| random.below(limit) as u16);
            }
            Alteration::Labels => {
                let limit = k + random.below(2);
                damage(&mut lent.plan[12..12 + n], share, random, |random| random.below(limit) as u8);
            }
            Alteration::Kinds => damage(&mut lent.plan[12 + n..], share, random, |random| random.below(3) as u8),
            Alteration::Headers => {
                let header = if random.below(2) == 0 { &mut lent.plan[..12] } else { &mut lent.rules[..20] };
                damage(header, 4, random, |random| random.byte());
            }
            Alteration::Rules => damage(&mut lent.rules[20..], share, random, |random| random.below(s + 1) as u8),
            Alteration::Length => wrong_length(lent, case, random.below(6), random),
        }
    }
}

/// One of the four is too short, or the plan or the rules too long: which, by `way`.
pub fn wrong_length(lent: &mut Lent, case: &Case, way: usize, random: &mut Random) {
    match way {
        0 => lent.plan.push(0),
        1 => lent.plan.truncate(shorter(case.plan.len(), random)),
        2 => lent.rules.push(0),
        3 => lent.rules.truncate(shorter(case.rules.len(), random)),
        4 => lent.node_table.truncate(shorter(case.node_table_len(), random)),
        _ => lent.state_table.truncate(shorter(case.state_table_len(), random)),
    }
}
