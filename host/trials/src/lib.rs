//! Random and damaged input for the boundary, and what documents 01 and 02 say of it.
//!
//! [`paper`] is the documents in plain Rust, and [`logs`] what they say of logs. [`draw`] makes input: whole transcripts, faulty ones, damaged memory, questions.
//! [`Question`] is one question to a transcript, which both can be asked. [`recorded`] is a file of answers, and its replay.
//! The program `fuzz` joins the first two.

pub mod draw;
mod lent;
pub mod logs;
pub mod paper;
mod question;
pub mod recorded;

pub use lent::{Lent, Place};
pub use question::{Kind, Question};
