//! Crate hgvs behind the questions of this repository: what it answers, which refusal its error stands for, or that it panics.

use std::{
    cell::Cell,
    panic::{self, catch_unwind, AssertUnwindSafe},
    sync::Arc,
};

use hgvs::{
    data::{
        error::Error as DataError,
        interface::{
            GeneInfoRecord, Provider, TxExonsRecord, TxForRegionRecord, TxIdentityInfo, TxInfoRecord,
            TxMappingOptionsRecord, TxSimilarityRecord,
        },
    },
    mapper::{
        alignment::{Config, Mapper},
        cigar::{parse_cigar_string, CigarElement, CigarOp, CigarString},
        Error,
    },
    parser::{CdsFrom, CdsInterval, CdsPos, GenomeInterval, Mu, TxInterval, TxPos},
    sequences::{trim_common_prefixes, trim_common_suffixes},
};
use indexmap::IndexMap;
use pulindraxi::{
    asked,
    boundary::{Answer, Asked, Position},
    Element, Refusal,
};
use trials::{draw::Case, Kind, Question};

/// What the crate did.
#[derive(Clone, Debug, PartialEq)]
pub enum Outcome<T> {
    /// It answered.
    Answered(T),
    /// It gave an error, which document 01 has under this number.
    Refused(Refusal),
    /// It panicked, or a number overflowed.
    Panicked,
}

impl<T> Outcome<T> {
    /// The same outcome with another answer.
    pub fn map<U>(self, f: impl FnOnce(T) -> U) -> Outcome<U> {
        match self {
            Outcome::Answered(answer) => Outcome::Answered(f(answer)),
            Outcome::Refused(refusal) => Outcome::Refused(refusal),
            Outcome::Panicked => Outcome::Panicked,
        }
    }
}

thread_local! {
    /// Whether the crate is at work, so that its panics are expected.
    static AT_WORK: Cell<bool> = const { Cell::new(false) };
}

/// Keeps the crate's panics from being printed.
pub fn silence_panics() {
    let printed = panic::take_hook();
    panic::set_hook(Box::new(move |info| {
        if !AT_WORK.get() {
            printed(info);
        }
    }));
}

/// Lets the crate do something that may panic.
fn guarded<T>(f: impl FnOnce() -> Result<T, Error>) -> Outcome<T> {
    AT_WORK.set(true);
    let result = catch_unwind(AssertUnwindSafe(f));
    AT_WORK.set(false);
    match result {
        Ok(Ok(answer)) => Outcome::Answered(answer),
        Ok(Err(error)) => Outcome::Refused(refusal_of(&error)),
        Err(_) => Outcome::Panicked,
    }
}

/// The refusal that an error of the crate stands for.
fn refusal_of(error: &Error) -> Refusal {
    match error {
        Error::NoExons(..) | Error::EmptyExons => Refusal::NoRecords,
        Error::NonAdjacentExons(..) => Refusal::NotAdjacent,
        Error::InvalidCigarString(_) | Error::InvalidCigarValue(_) => Refusal::NoElement,
        Error::InconsistentCdsStartEnd => Refusal::HalfCds,
        Error::CdsUndefined(_) => Refusal::NotCoding,
        Error::PositionBeyondTranscriptBounds(..) => Refusal::Outside,
        Error::CoordinateOutsideReference => Refusal::NOutside,
        Error::CoordinateOutOfBounds(_) => Refusal::COutside,
        Error::MissingGenomeIntervalPosition(_) => Refusal::MissingEnd,
        other => panic!("an error that document 01 has no number for: {other:?}"),
    }
}

/// Provider of one transcript.
struct Card {
    cds_start_i: Option<i32>,
    cds_end_i: Option<i32>,
    lengths: Vec<i32>,
    exons: Vec<TxExonsRecord>,
}

impl Provider for Card {
    fn data_version(&self) -> &str {
        ""
    }
    fn schema_version(&self) -> &str {
        ""
    }
    fn get_assembly_map(&self, _: &str) -> Result<IndexMap<String, String>, DataError> {
        unimplemented!()
    }
    fn get_gene_info(&self, _: &str) -> Result<GeneInfoRecord, DataError> {
        unimplemented!()
    }
    fn get_pro_ac_for_tx_ac(&self, _: &str) -> Result<Option<String>, DataError> {
        unimplemented!()
    }
    fn get_seq_part(&self, _: &str, _: Option<usize>, _: Option<usize>) -> Result<String, DataError> {
        unimplemented!()
    }
    fn get_acs_for_protein_seq(&self, _: &str) -> Result<Vec<String>, DataError> {
        unimplemented!()
    }
    fn get_similar_transcripts(&self, _: &str) -> Result<Vec<TxSimilarityRecord>, DataError> {
        unimplemented!()
    }
    fn get_tx_exons(&self, _: &str, _: &str, _: &str) -> Result<Vec<TxExonsRecord>, DataError> {
        Ok(self.exons.clone())
    }
    fn get_tx_for_gene(&self, _: &str) -> Result<Vec<TxInfoRecord>, DataError> {
        unimplemented!()
    }
    fn get_tx_for_region(&self, _: &str, _: &str, _: i32, _: i32) -> Result<Vec<TxForRegionRecord>, DataError> {
        unimplemented!()
    }
    fn get_tx_identity_info(&self, _: &str) -> Result<TxIdentityInfo, DataError> {
        Ok(TxIdentityInfo {
            cds_start_i: self.cds_start_i,
            cds_end_i: self.cds_end_i,
            lengths: self.lengths.clone(),
            ..Default::default()
        })
    }
    fn get_tx_info(&self, _: &str, _: &str, _: &str) -> Result<TxInfoRecord, DataError> {
        Ok(TxInfoRecord { cds_start_i: self.cds_start_i, cds_end_i: self.cds_end_i, ..Default::default() })
    }
    fn get_tx_mapping_options(&self, _: &str) -> Result<Vec<TxMappingOptionsRecord>, DataError> {
        unimplemented!()
    }
}

fn mapper(card: Card, method: &str) -> Outcome<Mapper> {
    guarded(|| Mapper::new(&Config::default(), Arc::new(card), "TX", "ALT", method))
}

/// The crate's transcript of building's input; none where the input cannot be put to the crate, which takes a strand of 16
/// bits and CIGARs that are UTF-8.
pub fn build(case: &Case) -> Option<Outcome<Mapper>> {
    let alt_strand = i16::try_from(case.strand).ok()?;
    let mut exons = Vec::new();
    for record in &case.records {
        let [alt_start_i, alt_end_i, tx_start_i, tx_end_i, ord] = record.numbers;
        exons.push(TxExonsRecord {
            alt_strand,
            alt_start_i,
            alt_end_i,
            tx_start_i,
            tx_end_i,
            ord,
            cigar: String::from_utf8(record.cigar.clone()).ok()?,
            ..Default::default()
        });
    }
    let card = Card { cds_start_i: case.cds_start, cds_end_i: case.cds_end, lengths: Vec::new(), exons };
    Some(mapper(card, "splign"))
}

/// The crate's length-only transcript.
pub fn build_length(length: i32, cds_start_i: Option<i32>, cds_end_i: Option<i32>) -> Outcome<Mapper> {
    mapper(Card { cds_start_i, cds_end_i, lengths: vec![length], exons: Vec::new() }, "transcript")
}

/// An offset of 0 as none and as `Some(0)`, which the crate holds for equal.
fn offset(asked: Asked) -> Option<i32> {
    (asked.offset != 0 || asked.base % 2 == 0).then_some(asked.offset)
}

/// The g. interval of a question, for the crate.
pub fn g_interval(question: &Question) -> GenomeInterval {
    let asked::GInterval { start, end } = question.g().into();
    GenomeInterval { start, end }
}

fn n_interval(question: &Question) -> TxInterval {
    let position = |asked: Asked| TxPos { base: asked.base, offset: offset(asked) };
    TxInterval { start: position(question.start), end: position(question.end) }
}

/// The c. interval of a question, for the crate.
pub fn c_interval(question: &Question) -> CdsInterval {
    let position = |asked: Asked| CdsPos {
        base: asked.base,
        offset: offset(asked),
        cds_from: if asked.star { CdsFrom::End } else { CdsFrom::Start },
    };
    CdsInterval { start: position(question.start), end: position(question.end) }
}

/// An interval of the crate in the form of an answer, without exon numbers: the crate knows none.
trait Interval {
    fn ends(&self) -> [Position; 2];
}

impl Interval for GenomeInterval {
    fn ends(&self) -> [Position; 2] {
        [self.start, self.end]
            .map(|end| Position { base: end.expect("an answer has both ends"), ..Position::default() })
    }
}

impl Interval for TxInterval {
    fn ends(&self) -> [Position; 2] {
        [&self.start, &self.end].map(|end| Position {
            base: end.base,
            offset: end.offset.unwrap_or(0),
            ..Position::default()
        })
    }
}

impl Interval for CdsInterval {
    fn ends(&self) -> [Position; 2] {
        [&self.start, &self.end].map(|end| Position {
            base: end.base,
            offset: end.offset.unwrap_or(0),
            star: u32::from(end.cds_from == CdsFrom::End),
            ..Position::default()
        })
    }
}

fn answer(mark: u32, interval: &impl Interval) -> Answer {
    let [start, end] = interval.ends();
    Answer { number: 0, mark, start, end }
}

fn marked<T: Interval>(result: Result<Mu<T>, Error>) -> Result<Answer, Error> {
    result.map(|mu| match mu {
        Mu::Certain(interval) => answer(Answer::CERTAIN, &interval),
        Mu::Uncertain(interval) => answer(Answer::UNCERTAIN, &interval),
    })
}

fn unmarked<T: Interval>(result: Result<T, Error>) -> Result<Answer, Error> {
    result.map(|interval| answer(Answer::UNMARKED, &interval))
}

fn said(yes: bool) -> Result<Answer, Error> {
    Ok(Answer { mark: u32::from(yes), ..Answer::default() })
}

/// What the crate answers to a question.
pub fn ask(mapper: &mut Mapper, question: &Question) -> Outcome<Answer> {
    mapper.config.strict_bounds = question.strict;
    guarded(|| match question.kind {
        Kind::GToN => marked(mapper.g_to_n(&g_interval(question))),
        Kind::GToC => marked(mapper.g_to_c(&g_interval(question))),
        Kind::NToG => marked(mapper.n_to_g(&n_interval(question))),
        Kind::NToC => unmarked(mapper.n_to_c(&n_interval(question))),
        Kind::CToN => unmarked(mapper.c_to_n(&c_interval(question))),
        Kind::CToG => marked(mapper.c_to_g(&c_interval(question))),
        Kind::InBounds => said(mapper.is_g_interval_in_bounds(&g_interval(question))),
        Kind::IsCoding => said(mapper.is_coding_transcript()),
    })
}

/// What the crate reads from CIGAR text; none where the text is not UTF-8.
pub fn read_cigar(text: &[u8]) -> Option<Outcome<Vec<Element>>> {
    let text = std::str::from_utf8(text).ok()?;
    let element = |element: &CigarElement| Element::new(element.count, char::from(element.op) as u8);
    Some(guarded(|| parse_cigar_string(text)).map(|cigar| cigar.iter().map(element).collect()))
}

/// What the crate prints for elements.
pub fn write_cigar(elements: &[Element]) -> Outcome<Vec<u8>> {
    let element = |element: &Element| {
        let op = CigarOp::try_from(char::from(element.letter))?;
        Ok(CigarElement { count: element.count, op })
    };
    guarded(|| {
        let elems = elements.iter().map(element).collect::<Result<_, Error>>()?;
        Ok(CigarString { elems }.to_string().into_bytes())
    })
}

/// How many bytes the crate trims from the front and from the back; none where an allele is not UTF-8.
pub fn trim(reference: &[u8], alternative: &[u8]) -> Option<[Outcome<usize>; 2]> {
    let reference = std::str::from_utf8(reference).ok()?;
    let alternative = std::str::from_utf8(alternative).ok()?;
    Some([
        guarded(|| Ok(trim_common_prefixes(reference, alternative).0)),
        guarded(|| Ok(trim_common_suffixes(reference, alternative).0)),
    ])
}
