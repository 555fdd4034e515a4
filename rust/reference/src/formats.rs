//! Plans, rule tables and branch tables as bytes, and the checks 2 to 10 on them, in document 01's order.

pub const MAX_NODES: u32 = 65_535;
pub const MAX_STATES: u32 = 16;
pub const MAX_LABELS: u32 = 64;

/// A plan that passed 2 to 5.
pub struct Plan<'a> {
    pub labels: &'a [u8],
    pub kinds: &'a [u8],
}

/// A rule table that passed 6 to 9.
pub struct Rules<'a> {
    pub states: usize,
    pub labels: usize,
    leaf: &'a [u8],
    inner: &'a [u8],
    marks: &'a [u8],
}

/// A branch table that passed 6 to 9.
pub struct Branch<'a> {
    pub states: usize,
    pub labels: usize,
    steps: &'a [u8],
    marks: &'a [u8],
}

/// The 32-bit little-endian number at a place.
pub fn number(bytes: &[u8], at: usize) -> u32 {
    u32::from_le_bytes([bytes[at], bytes[at + 1], bytes[at + 2], bytes[at + 3]])
}

/// 2 to 5.
pub fn read_plan(bytes: &[u8]) -> Result<Plan<'_>, u32> {
    if bytes.len() < 12 {
        return Err(2);
    }
    let n = number(bytes, 0);
    if !(1..=MAX_NODES).contains(&n) {
        return Err(3);
    }
    let n = n as usize;
    let offsets = [number(bytes, 4) as usize, number(bytes, 8) as usize];
    if offsets != [12, 12 + n] || bytes.len() != 12 + 2 * n {
        return Err(4);
    }
    let plan = Plan { labels: &bytes[12..12 + n], kinds: &bytes[12 + n..] };
    if !one_tree(plan.kinds) {
        return Err(5);
    }
    Ok(plan)
}

/// "kinds 0 or 1, two trees waiting at each inner node, one at the end?"
fn one_tree(kinds: &[u8]) -> bool {
    let mut waiting = 0;
    for kind in kinds {
        match kind {
            0 => waiting += 1,
            1 if waiting >= 2 => waiting -= 1,
            _ => return false,
        }
    }
    waiting == 1
}

impl Plan<'_> {
    pub fn nodes(&self) -> usize {
        self.labels.len()
    }

    /// 10.
    pub fn labels_below(&self, k: usize) -> Result<(), u32> {
        if self.labels.iter().all(|&a| (a as usize) < k) {
            Ok(())
        } else {
            Err(10)
        }
    }
}

/// 7: S and K, in their limits.
fn counts(bytes: &[u8]) -> Result<(usize, usize), u32> {
    let (s, k) = (number(bytes, 0), number(bytes, 4));
    if !(1..=MAX_STATES).contains(&s) || !(1..=MAX_LABELS).contains(&k) {
        return Err(7);
    }
    Ok((s as usize, k as usize))
}

/// 9: every state below S, every mark 0 or 1.
fn entries(states: &[&[u8]], marks: &[u8], s: usize) -> Result<(), u32> {
    let states_fit = states.iter().all(|part| part.iter().all(|&q| (q as usize) < s));
    if states_fit && marks.iter().all(|&mark| mark <= 1) {
        Ok(())
    } else {
        Err(9)
    }
}

/// 6 to 9 for a rule table.
pub fn read_rules(bytes: &[u8]) -> Result<Rules<'_>, u32> {
    if bytes.len() < 20 {
        return Err(6);
    }
    let (s, k) = counts(bytes)?;
    let (leaf, inner, marks) = (20, 20 + k, 20 + k + s * k * s);
    let offsets = [number(bytes, 8) as usize, number(bytes, 12) as usize, number(bytes, 16) as usize];
    if offsets != [leaf, inner, marks] || bytes.len() != marks + s {
        return Err(8);
    }
    let rules =
        Rules { states: s, labels: k, leaf: &bytes[leaf..inner], inner: &bytes[inner..marks], marks: &bytes[marks..] };
    entries(&[rules.leaf, rules.inner], rules.marks, s)?;
    Ok(rules)
}

/// 6 to 9 for a branch table.
pub fn read_branch(bytes: &[u8]) -> Result<Branch<'_>, u32> {
    if bytes.len() < 16 {
        return Err(6);
    }
    let (s, k) = counts(bytes)?;
    let (steps, marks) = (16, 16 + s * k);
    let offsets = [number(bytes, 8) as usize, number(bytes, 12) as usize];
    if offsets != [steps, marks] || bytes.len() != marks + s {
        return Err(8);
    }
    let branch = Branch { states: s, labels: k, steps: &bytes[steps..marks], marks: &bytes[marks..] };
    entries(&[branch.steps], branch.marks, s)?;
    Ok(branch)
}

impl Rules<'_> {
    /// The state of a leaf by its label.
    pub fn leaf(&self, a: u8) -> u8 {
        self.leaf[a as usize]
    }

    /// "the state for left p, label a, right q at (p×K+a)×S+q"
    pub fn inner(&self, p: u8, a: u8, q: u8) -> u8 {
        self.inner[(p as usize * self.labels + a as usize) * self.states + q as usize]
    }

    pub fn accepts(&self, q: u8) -> bool {
        self.marks[q as usize] == 1
    }
}

impl Branch<'_> {
    /// "the state after state s reads label a at s×K+a"
    pub fn step(&self, s: u8, a: u8) -> u8 {
        self.steps[s as usize * self.labels + a as usize]
    }

    pub fn accepts(&self, s: u8) -> bool {
        self.marks[s as usize] == 1
    }
}
