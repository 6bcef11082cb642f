//! Maps genome positions (g.) to transcript (n.) and coding (c.) numbers and back, through entries that are proved.
//!
//! A [`Transcript`] is built from exon records, from a card or from a length alone, and is then asked. Positions are read
//! and written as HGVS names; those that are [`asked`] and those that are [`answered`] are types of their own, and an answer
//! becomes a question by `into`. An answer to or from g. has the exon's number at both of its ends. What cannot be answered
//! is a [`Refusal`] with the number and the words of the documents. A record's CIGAR is text; [`cigar`] makes it from BAM's
//! words too. Sorted g. positions are answered in one walk ([`Room::worklist`]), and a g. interval's alleles are read as the
//! transcript reads them ([`Room::g_to_c_alleles`], [`alleles`]). A [`Log`] keeps questions with their answers, and says which of
//! them another transcript answers otherwise.
//!
//! ```
//! use pulindraxi::{Bounds, Exon, Input, Transcript};
//!
//! let exons = [
//!     Exon { alt_start_i: 10, alt_end_i: 20, tx_start_i: 0, tx_end_i: 10, ord: 0, cigar: b"10M" },
//!     Exon { alt_start_i: 25, alt_end_i: 33, tx_start_i: 10, tx_end_i: 18, ord: 1, cigar: b"8M" },
//! ];
//! let input = Input { strand: 1, cds_start: Some(3), cds_end: Some(15), exons: &exons };
//! let transcript = Transcript::build(&input)?;
//!
//! let c = transcript.g_to_c("g.24".parse()?, Bounds::Strict)?;
//! assert_eq!(c.to_string(), "c.8-2");
//! assert_eq!(c.interval().start.exon, Some(2));
//! assert_eq!(transcript.c_to_g(c.interval().into(), Bounds::Strict)?.to_string(), "g.24");
//! # Ok::<(), Box<dyn std::error::Error>>(())
//! ```
//!
//! The entries are linked from `libentry.a`, which `host/archive.sh` proves and writes. The library needs nothing but the
//! standard library. A host that keeps off the heap builds a [`Room`] from a card and asks it.

pub mod alleles;
pub mod answered;
pub mod asked;
pub mod boundary;
pub mod cigar;
mod input;
pub mod limits;
pub mod log;
pub mod name;
mod question;
mod refusal;
mod transcript;

pub use answered::{Joined, Mapped};
pub use boundary::Slot;
pub use cigar::Element;
pub use input::{Exon, Input};
pub use log::Log;
pub use name::{Named, NoName};
pub use question::{Answer, Question};
pub use refusal::{Refusal, Unnamed};
pub use transcript::{Bounds, Room, Segment, Transcript};
