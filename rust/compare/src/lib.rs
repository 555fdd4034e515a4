//! The library against the reference implementation.
//!
//! `random` (a small seeded generator), `shapes` (kinds of trees), `inputs` (plans and tables as bytes), `calls` (the
//! library's calls with everything lent held to account), `colour_calls` (those on colour tables), `built` (a case with
//! its tables), `faults` (one for each check); for the session `sides` (its calls, made by every side), `panel` (a
//! record that passes from call to call, with the reference model beside it), `screens` (eight records, with eight reference models),
//! `alterations` (inputs that are not as built); `rounds` (random comparisons of every kind, for the tests and for the
//! program), `counts` (what came), `difference` and `trace` (what was found, and the case); `slices` (the library's
//! functions on slices, as `whatif` has them).

pub mod alterations;
pub mod built;
pub mod calls;
pub mod colour_calls;
pub mod counts;
pub mod difference;
pub mod faults;
pub mod inputs;
pub mod panel;
pub mod random;
pub mod rounds;
pub mod screens;
pub mod shapes;
pub mod sides;
// The crate `whatif` keeps these to itself. Here every number and every output is looked at, so they are taken by their
// path.
#[path = "../../whatif/src/slices/mod.rs"]
pub mod slices;
pub mod trace;
