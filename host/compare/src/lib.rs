//! Compares the port with the mapper of crate hgvs 4.0.1, and records the crate's answers.
//!
//! [`original`] puts questions to the crate. [`departures`] has the rules by which document 02 departs from it. [`settle`] says what to
//! expect of the port: the crate's answer where it counts, and the documents' elsewhere, holding the two to each other. [`Judge`] holds
//! a [`Port`] to it.

pub mod departures;
pub mod differences;
mod exons;
mod judge;
pub mod original;
mod port;
pub mod random;
pub mod record;
pub mod settle;
pub mod small;

pub use judge::Judge;
pub use port::{Entries, Port};
