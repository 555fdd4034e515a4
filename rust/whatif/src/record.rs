//! The fields of a session's record that this crate reads by itself, at the offsets of docs/LAYOUT.md. The gate
//! compares offsets and words with that page.

use crate::sizes::{MAX_CHANGES, MAX_PARTS, RECORD_BYTES};

const STATE: usize = 0; // state
const S: usize = 2; // S
const K: usize = 3; // K
const N: usize = 4; // N
const CHANGES: usize = 6; // m, how many changes are listed
const PARTS: usize = 7; // how many parts there are
const PARTS_DONE: usize = 8; // how many parts are handled
const NODES: usize = 13; // nodes as listed
const LABELS: usize = 141; // labels as listed
const ROOTS: usize = 205; // root nodes of the parts
const STATES: usize = 713; // states of the parts handled so far

/// The bytes of a record. Nothing is tested: of bytes that are no record these are some numbers in their limits.
pub(crate) type Record = [u8; RECORD_BYTES];

pub(crate) const fn state(record: &Record) -> u8 {
    record[STATE]
}

/// N, S and K of the plan and the rules that were loaded.
pub(crate) const fn counts(record: &Record) -> [usize; 3] {
    [word(record, N) as usize, record[S] as usize, record[K] as usize]
}

pub(crate) const fn changes(record: &Record) -> usize {
    at_most(record[CHANGES], MAX_CHANGES)
}

pub(crate) const fn parts(record: &Record) -> usize {
    at_most(record[PARTS], MAX_PARTS)
}

pub(crate) const fn parts_done(record: &Record) -> usize {
    at_most(record[PARTS_DONE], MAX_PARTS)
}

const fn at_most(byte: u8, most: usize) -> usize {
    if (byte as usize) < most {
        byte as usize
    } else {
        most
    }
}

/// The node of a listed change.
pub(crate) const fn node(record: &Record, i: usize) -> u16 {
    word(record, NODES + 2 * i)
}

/// The label of a listed change.
pub(crate) const fn label(record: &Record, i: usize) -> u8 {
    record[LABELS + i]
}

/// The root node of a part.
pub(crate) const fn root(record: &Record, i: usize) -> u16 {
    word(record, ROOTS + 2 * i)
}

/// The state of a part that is handled.
pub(crate) const fn part_state(record: &Record, i: usize) -> u8 {
    record[STATES + i]
}

const fn word(record: &Record, at: usize) -> u16 {
    u16::from_le_bytes([record[at], record[at + 1]])
}

#[cfg(test)]
mod tests {
    use super::*;

    /// The last entry of each list is the last before the next field.
    #[test]
    fn lists_end_where_the_next_begins() {
        let mut record = [0; RECORD_BYTES];
        record[NODES + 2 * MAX_CHANGES - 1] = 1;
        record[LABELS + MAX_CHANGES - 1] = 2;
        record[ROOTS + 2 * MAX_PARTS - 1] = 3;
        record[STATES + MAX_PARTS - 1] = 4;
        assert_eq!((node(&record, MAX_CHANGES - 1), label(&record, MAX_CHANGES - 1)), (256, 2));
        assert_eq!((root(&record, MAX_PARTS - 1), part_state(&record, MAX_PARTS - 1)), (768, 4));
        assert_eq!((NODES + 2 * MAX_CHANGES, LABELS + MAX_CHANGES), (LABELS, ROOTS));
        assert_eq!((ROOTS + 2 * MAX_PARTS, STATES + MAX_PARTS), (STATES, 967));
    }

    /// Counts of bytes that are no record stay inside the lists.
    #[test]
    fn counts_are_in_their_limits() {
        let record = [255; RECORD_BYTES];
        assert_eq!((changes(&record), parts(&record), parts_done(&record)), (MAX_CHANGES, MAX_PARTS, MAX_PARTS));
    }
}
