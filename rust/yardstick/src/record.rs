//! The session record as bytes: where things stand, and whether the bytes can be a session's.

pub const RECORD_BYTES: usize = 983;

pub const YES: usize = 1;
pub const M: usize = 6;
pub const PARTS: usize = 7;
pub const HANDLED: usize = 8;
pub const LINKS: usize = 9;
pub const NODES: usize = 13;
pub const LABELS: usize = 141;
pub const ROOTS: usize = 205;
pub const STATES: usize = 713;
/// The last finished answer: whether there is one, its state, its yes or no, its parts, its links.
pub const LAST: usize = 967;
/// The nodes passed over so far, and those of the last finished answer.
pub const PASSED: usize = 975;
pub const LAST_PASSED: usize = 979;

pub const EMPTY: u8 = 0;
pub const LOADED: u8 = 1;
pub const RUNNING: u8 = 2;
pub const ANSWERED: u8 = 3;

/// The counts of a record.
pub struct Head {
    pub phase: u8,
    pub n: usize,
    pub s: usize,
    pub k: usize,
    pub m: usize,
    pub parts: usize,
    pub handled: usize,
    pub links: u32,
    pub passed: u32,
}

#[inline]
pub fn double(bytes: &[u8], at: usize) -> u32 {
    u32::from_le_bytes(bytes[at..at + 4].try_into().unwrap())
}

#[inline]
pub fn word(bytes: &[u8], at: usize) -> u16 {
    u16::from_le_bytes([bytes[at], bytes[at + 1]])
}

/// The counts, if the bytes can be a session's; else 1.
pub fn head(record: &[u8]) -> Result<Head, u32> {
    let record: &[u8; RECORD_BYTES] = record.try_into().map_err(|_| 1u32)?;
    let head = Head {
        phase: record[0],
        n: word(record, 4) as usize,
        s: record[2] as usize,
        k: record[3] as usize,
        m: record[M] as usize,
        parts: record[PARTS] as usize,
        handled: record[HANDLED] as usize,
        links: double(record, LINKS),
        passed: double(record, PASSED),
    };
    let sized = head.n >= 1 && (1..=16).contains(&head.s) && (1..=64).contains(&head.k);
    let valid = match head.phase {
        EMPTY => zero(&record[1..]),
        LOADED => sized && record[YES] == 0 && zero(&record[M..LAST]) && head.passed == 0 && last(record, &head),
        RUNNING => {
            sized && record[YES] == 0 && head.handled < head.parts && question(record, &head) && last(record, &head)
        }
        ANSWERED => {
            sized
                && record[YES] <= 1
                && head.handled == head.parts
                && question(record, &head)
                && record[LAST..PASSED] == answer(record, &head)
                && record[LAST_PASSED..] == record[PASSED..LAST_PASSED]
        }
        _ => false,
    };
    if valid {
        Ok(head)
    } else {
        Err(1)
    }
}

fn question(record: &[u8; RECORD_BYTES], head: &Head) -> bool {
    if head.m > 64 || head.parts < 1 || head.parts > 254 {
        return false;
    }
    let (nodes, no_nodes) = record[NODES..LABELS].split_at(2 * head.m);
    let (labels, no_labels) = record[LABELS..ROOTS].split_at(head.m);
    let (roots, no_roots) = record[ROOTS..STATES].split_at(2 * head.parts);
    let (states, no_states) = record[STATES..LAST].split_at(head.handled);
    let words = |bytes: &[u8]| -> u16 { bytes.chunks_exact(2).map(|b| word(b, 0)).fold(0, u16::max) };
    let greatest = |bytes: &[u8]| bytes.iter().copied().fold(0, u8::max);
    let rising = roots.windows(4).step_by(2).fold(true, |ok, b| ok & (word(b, 0) < word(b, 2)));
    (head.m == 0 || (words(nodes) as usize) < head.n && (greatest(labels) as usize) < head.k)
        && rising
        && word(roots, roots.len() - 2) as usize == head.n - 1
        && (head.handled == 0 || (greatest(states) as usize) < head.s)
        && head.links <= head.passed
        && head.passed as usize <= 65_535 * head.handled
        && zero(no_nodes)
        && zero(no_labels)
        && zero(no_roots)
        && zero(no_states)
}

fn last(record: &[u8; RECORD_BYTES], head: &Head) -> bool {
    let [there, state, yes, parts, links @ ..]: [u8; 8] = record[LAST..PASSED].try_into().unwrap();
    let (links, passed) = (u32::from_le_bytes(links), double(record, LAST_PASSED));
    match there {
        0 => zero(&record[LAST..PASSED]) && passed == 0,
        1 => {
            let few = links <= passed && passed as usize <= 65_535 * parts as usize;
            (state as usize) < head.s && yes <= 1 && (1..=254).contains(&parts) && few
        }
        _ => false,
    }
}

/// The answer of an answered record, its nodes passed over apart, as the eight bytes at LAST have it.
pub fn answer(record: &[u8], head: &Head) -> [u8; 8] {
    let [a, b, c, d] = head.links.to_le_bytes();
    [1, record[STATES + head.handled - 1], record[YES], head.parts as u8, a, b, c, d]
}

fn zero(bytes: &[u8]) -> bool {
    bytes.iter().fold(0, |all, b| all | b) == 0
}
