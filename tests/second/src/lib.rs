//! A second, independent reading of document 01 ("What is to be built").
//!
//! The modules stand in the document's layers: conditions lowest, then
//! polyvalues, the book with its events, and the sheet. `demand3`, `rng` and
//! `generator` are for checking only; the program itself does not use them.

pub mod book;
pub mod conditions;
pub mod demand3;
pub mod events;
pub mod generator;
pub mod morning;
pub mod play;
pub mod polyvalue;
pub mod program;
pub mod refusal;
pub mod rng;
pub mod sheet;
pub mod tally;
pub mod text;
