//! Checks 2 to 11, and the parts of plan, rule table and branch table.

pub struct Plan<'a> {
    pub n: usize,
    pub labels: &'a [u8],
    pub kinds: &'a [u8],
}

pub struct Rules<'a> {
    pub s: usize,
    pub k: usize,
    pub leaf: &'a [u8],
    pub inner: &'a [u8],
    pub marks: &'a [u8],
}

pub struct Branch<'a> {
    pub s: usize,
    pub k: usize,
    pub steps: &'a [u8],
    pub marks: &'a [u8],
}

pub fn number(bytes: &[u8], at: usize) -> usize {
    u32::from_le_bytes(bytes[at..at + 4].try_into().unwrap()) as usize
}

pub fn plan(bytes: &[u8]) -> Result<Plan<'_>, u32> {
    if bytes.len() < 12 {
        return Err(2);
    }
    let n = number(bytes, 0);
    if !(1..=65_535).contains(&n) {
        return Err(3);
    }
    if number(bytes, 4) != 12 || number(bytes, 8) != 12 + n || bytes.len() != 12 + 2 * n {
        return Err(4);
    }
    let (labels, kinds) = bytes[12..].split_at(n);
    // no branch on the kind, and no early end: a leaf adds a tree that waits, an inner node takes two and adds one
    let (mut waiting, mut fits) = (0i32, true);
    for &kind in kinds {
        waiting += 1 - 2 * i32::from(kind);
        fits &= (kind <= 1) & (waiting >= 1);
    }
    if !fits || waiting != 1 {
        return Err(5);
    }
    Ok(Plan { n, labels, kinds })
}

/// No early end, so that many bytes are tested at a time.
pub fn all_below(bytes: &[u8], bound: usize) -> bool {
    bytes.iter().fold(true, |ok, &b| ok & (b < bound as u8))
}

fn counts(bytes: &[u8]) -> Result<(usize, usize), u32> {
    let (s, k) = (number(bytes, 0), number(bytes, 4));
    if !(1..=16).contains(&s) || !(1..=64).contains(&k) {
        return Err(7);
    }
    Ok((s, k))
}

pub fn rules(bytes: &[u8]) -> Result<Rules<'_>, u32> {
    if bytes.len() < 20 {
        return Err(6);
    }
    let (s, k) = counts(bytes)?;
    let marks = 20 + k + s * k * s;
    if number(bytes, 8) != 20 || number(bytes, 12) != 20 + k || number(bytes, 16) != marks || bytes.len() != marks + s {
        return Err(8);
    }
    if !all_below(&bytes[20..marks], s) || !all_below(&bytes[marks..], 2) {
        return Err(9);
    }
    Ok(Rules { s, k, leaf: &bytes[20..20 + k], inner: &bytes[20 + k..marks], marks: &bytes[marks..] })
}

pub fn branch(bytes: &[u8]) -> Result<Branch<'_>, u32> {
    if bytes.len() < 16 {
        return Err(6);
    }
    let (s, k) = counts(bytes)?;
    let marks = 16 + s * k;
    if number(bytes, 8) != 16 || number(bytes, 12) != marks || bytes.len() != marks + s {
        return Err(8);
    }
    if !all_below(&bytes[16..marks], s) || !all_below(&bytes[marks..], 2) {
        return Err(9);
    }
    Ok(Branch { s, k, steps: &bytes[16..marks], marks: &bytes[marks..] })
}

pub fn labels(plan: &Plan, k: usize) -> Result<(), u32> {
    if !all_below(plan.labels, k) {
        return Err(10);
    }
    Ok(())
}

pub fn buffers(n: usize, s: usize, node_table: usize, state_table: usize) -> Result<(), u32> {
    if node_table < 4 * n || state_table < (s + 1) * n {
        return Err(11);
    }
    Ok(())
}
