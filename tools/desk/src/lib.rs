//! Sheets for people. `text` and `print` are the two ways between a sheet and
//! its text, `binary` reads its bytes, `beside` puts a program's answers into
//! words.

pub mod answer;
pub mod beside;
pub mod binary;
pub mod condition;
pub mod explain;
mod fields;
mod lines;
pub mod names;
pub mod print;
pub mod program;
pub mod run;
pub mod sheet;
pub mod text;
pub mod words;
