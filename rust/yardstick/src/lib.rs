//! The what-if checker as one would write it in plain fast Rust: the yardstick of the bench.
//!
//! Order: `checks` (2 to 11 and the parts of the lent bytes), `node_tables` (parents, jumps, depths, sizes), `rules`, `load`,
//! `full_check` and `branch` (the bytes, full checks, branch questions), `fresh`, `allowed` (labels and states that clear
//! the plan, at every node), `fewest` (the least that must change), `merge` and `agree` (two rule tables), `lists` (one list over another), `planner` (the
//! planner's files);
//! `record` (the session's bytes), `question` (roots and parts), `count` (how many choices end in each state),
//! `layers` (both alone), `whole` (a question at once), `session` (the five calls on bytes), `place` (the session as a struct); `colours` and
//! `colour_branch` (branch questions by colours), `colour_rules` (questions by colours). Each call gives the
//! same answers as the library's; the comparison tests hold it to the reference implementation as well.
//! Maps are composed: a far jump's map is the step, then the parent's map, then the map of the parent's jump.

mod agree;
mod allowed;
mod branch;
mod checks;
mod colour_branch;
mod colour_rules;
mod colours;
mod count;
mod fewest;
mod fresh;
mod full_check;
pub mod layers;
mod lists;
mod load;
mod merge;
mod node_tables;
pub mod place;
mod planner;
mod question;
mod record;
mod rules;
pub mod session;
mod whole;

pub use agree::agree;
pub use allowed::{allowed, clearing};
pub use branch::{ask, ask_with_upper, branch_build, branch_check, Told};
pub use colour_branch::{ask_colours, ask_colours_with_upper, colour_branch_build, ColourTold};
pub use colour_rules::{colour_ask, colour_build, ColourAnswer};
pub use count::count;
pub use fewest::{fewest, FAR};
pub use fresh::fresh_run;
pub use lists::lay_over;
pub use merge::merge;
pub use planner::{plan_of_planner, planner_of_plan};
pub use rules::{build, check};
pub use whole::ask_whole;
