//! The library's functions on slices: each pointer with its own slice's count, kept apart by the borrows. The answer is
//! a number, 0 or a refusal's; what a call returns goes to its last parameter, in the header's order, and only where
//! the answer is 0. For this crate's own functions, and by its path for the comparison, which looks at every number.
#![allow(missing_docs)]

mod allowed;
mod ask;
mod colours;
mod fewest;
mod screens;
mod session;
mod tables;

pub use allowed::*;
pub use ask::*;
pub use colours::*;
pub use fewest::*;
pub use screens::*;
pub use session::*;
pub use tables::*;
