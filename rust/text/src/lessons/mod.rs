//! Lessons: a question to step through, eight screens by turns, sheets to hand out, exercises.
//!
//! Order: `advance` (what an advance did, in words), `walk` (the record of a question after each call), `html` (the frame
//! of a page), `mended` (the least that must change, on a page), then a file a verb: `page`, `screens_page`, `sheet`,
//! `exercise`.

pub mod advance;
pub mod exercise;
pub mod html;
pub mod mended;
pub mod page;
pub mod screens_page;
pub mod sheet;
pub mod walk;
