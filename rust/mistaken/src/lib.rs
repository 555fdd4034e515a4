//! The reference implementation as it is, unless a mistake is being made (`mistakes::making`).

// the reference itself is linted; an edit may leave a name unused
#![allow(clippy::all, dead_code)]

pub mod mistakes;

include!(concat!(env!("OUT_DIR"), "/lib.rs"));
