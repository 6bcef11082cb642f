//! What to expect of the port: the crate's answer where it counts, and the documents' where it does not.

use hgvs::mapper::alignment::Mapper;
use pulindraxi::{
    boundary::{Answer, Cds, Position},
    limits::MOST_SEGMENTS,
    Element, Refusal,
};
use trials::{
    draw::Case,
    paper::{self, Aligned, Source},
    Question,
};

use crate::{
    departures,
    original::{self, Outcome},
};

/// Where an expected answer comes from.
#[derive(Clone, Copy, Debug, PartialEq, Eq, PartialOrd, Ord)]
#[repr(u8)]
pub enum Origin {
    /// The crate answered.
    Answered = 1,
    /// The crate gave an error, which document 01 has under this number.
    Refused = 2,
    /// The crate panics or overflows; document 01 says what to expect.
    Panicked = 3,
    /// A refusal that narrows the crate applies.
    Narrowed = 4,
    /// The crate has no such question, or cannot be asked it.
    Added = 5,
    /// Document 02 departs from the crate.
    Requested = 6,
}

/// Whose answer is due on an input.
#[derive(Clone, Copy, Debug, PartialEq, Eq)]
pub enum Due {
    /// The crate's.
    Crates,
    /// Document 01's, which narrows the crate here or differs from it as it is listed.
    Narrowed,
    /// Document 02's, which departs from the crate here.
    Requested,
}

/// An expected answer or refusal, and where it comes from.
pub type Expected<T> = (Result<T, Refusal>, Origin);

/// The refusals by which building narrows the crate.
const NARROWING: [Refusal; 7] = [
    Refusal::NoStrand,
    Refusal::TooMuch,
    Refusal::BadBound,
    Refusal::BadOrd,
    Refusal::TooLong,
    Refusal::NoSegment,
    Refusal::BadCds,
];

/// Puts the crate's outcome beside the documents'. Where the crate's is due and they differ, that is the error; so it is where a
/// departure is due and there is none.
pub fn settle<T: PartialEq + std::fmt::Debug>(
    outcome: Option<Outcome<T>>,
    paper: Result<T, Refusal>,
    due: Due,
) -> Result<Expected<T>, String> {
    let (said, origin) = match outcome {
        None => return Ok((paper, Origin::Added)),
        Some(_) if due == Due::Narrowed => return Ok((paper, Origin::Narrowed)),
        Some(Outcome::Panicked) if due == Due::Requested => return Ok((paper, Origin::Requested)),
        Some(Outcome::Panicked) => return Ok((paper, Origin::Panicked)),
        Some(Outcome::Answered(answer)) => (Ok(answer), Origin::Answered),
        Some(Outcome::Refused(refusal)) => (Err(refusal), Origin::Refused),
    };
    match (due == Due::Requested, said == paper) {
        (false, true) => Ok((said, origin)),
        (true, false) => Ok((paper, Origin::Requested)),
        (false, false) => Err(format!("the crate says {said:?}, the documents {paper:?}")),
        (true, true) => Err(format!("document 02 departs from the crate, but both say {paper:?}")),
    }
}

/// Whether every `ord` rises on strand 1, and falls otherwise.
fn is_in_order(case: &Case) -> bool {
    case.records.windows(2).all(|pair| {
        let (before, after) = (pair[0].numbers[4], pair[1].numbers[4]);
        if case.strand == 1 {
            before < after
        } else {
            before > after
        }
    })
}

/// Whose answer is due where a narrowing refusal may apply.
fn due(narrowed: bool) -> Due {
    if narrowed {
        Due::Narrowed
    } else {
        Due::Crates
    }
}

/// Whose answer is due to building's input. Records out of order are refused by 5, or by 6 where an earlier record in the list isn't
/// adjacent to the one before it. The crate holds no CIGAR to its bounds.
fn due_to<T>(case: &Case, paper: &Result<T, Refusal>) -> Due {
    match paper {
        Err(Refusal::NotSpanning) => Due::Requested,
        Err(Refusal::NotAdjacent) => due(!is_in_order(case)),
        Err(refusal) => due(NARROWING.contains(refusal)),
        Ok(_) => Due::Crates,
    }
}

/// The crate's CDS.
fn cds(mapper: &Mapper) -> Option<(i64, i64)> {
    mapper.cds_start_i.zip(mapper.cds_end_i).map(|(start, end)| (i64::from(start), i64::from(end)))
}

/// The crate's tables in document 01's form. The crate knows no exon numbers: these are the documents', where they build it.
fn aligned(mapper: &Mapper, paper: &Result<Source, Refusal>) -> Aligned {
    let (of, records) = match paper {
        Ok(Source::Records(aligned)) => (aligned.of.clone(), aligned.records),
        _ => (Vec::new(), 0),
    };
    let starts = |starts: &[i32]| starts.iter().map(|&start| i64::from(start)).collect();
    let cigar = &mapper.cigar_mapper;
    Aligned {
        strand: i32::from(mapper.strand),
        first: i64::from(mapper.gc_offset),
        genome: starts(&cigar.ref_pos),
        transcript: starts(&cigar.tgt_pos),
        letters: cigar.cigar_op.iter().map(|&op| char::from(op) as u8).collect(),
        of,
        records,
        cds: cds(mapper),
    }
}

/// A transcript in the crate and in document 01.
pub struct Built {
    /// Document 01's.
    pub source: Source,
    /// The crate's.
    pub mapper: Mapper,
}

/// What to expect of building, and the transcript where both built one.
pub type Building = Result<(Expected<Source>, Option<Built>), String>;

/// Settles what was built.
fn settle_built(outcome: Option<Outcome<(Source, Mapper)>>, paper: Result<Source, Refusal>, due: Due) -> Building {
    let mut mapper = None;
    let outcome = outcome.map(|outcome| {
        outcome.map(|(source, built)| {
            mapper = Some(built);
            source
        })
    });
    let expected = settle(outcome, paper, due)?;
    let built = match (&expected.0, mapper) {
        (Ok(source), Some(mapper)) => Some(Built { source: source.clone(), mapper }),
        _ => None,
    };
    Ok((expected, built))
}

/// What to expect of building from records.
pub fn build(case: &Case) -> Building {
    let bytes = case.lay();
    let paper = paper::build(case.laid(&bytes)).map(Source::Records);
    let due = due_to(case, &paper);
    let outcome = original::build(case);
    let outcome = outcome.map(|built| built.map(|mapper| (Source::Records(aligned(&mapper, &paper)), mapper)));
    settle_built(outcome, paper, due)
}

/// What to expect of building from a length.
pub fn build_length(length: i32, cds_start: Option<i32>, cds_end: Option<i32>) -> Building {
    let paper = paper::build_length(length, Cds::new(cds_start, cds_end));
    let due = due(paper.as_ref().is_err_and(|refusal| NARROWING.contains(refusal)));
    let outcome = original::build_length(length, cds_start, cds_end);
    let outcome = outcome.map(|mapper| (Source::Length(i64::from(mapper.tgt_len), cds(&mapper)), mapper));
    settle_built(Some(outcome), paper, due)
}

/// An answer of the crate, which knows no exon numbers, with those of another answer.
pub fn numbered(answer: Answer, other: Answer) -> Answer {
    let end = |end: Position, other: Position| Position { exon: other.exon, ..end };
    Answer { start: end(answer.start, other.start), end: end(answer.end, other.end), ..answer }
}

/// What to expect of a question.
pub fn ask(built: &mut Built, question: &Question) -> Result<Expected<Answer>, String> {
    let answer = question.expect(Some(&built.source));
    let paper = Refusal::check(answer.number).map(|()| answer);
    let departs = departures::departs(&built.source, question);
    let due = if departs { Due::Requested } else { due(paper == Err(Refusal::NoGenome)) };
    let outcome = original::ask(&mut built.mapper, question).map(|said| numbered(said, answer));
    settle(Some(outcome), paper, due)
}

/// What to expect of reading CIGAR text: the elements.
pub fn read_cigar(text: &[u8]) -> Result<Expected<Vec<Element>>, String> {
    let paper = paper::read_cigar(text, MOST_SEGMENTS);
    let due = due(paper == Err(Refusal::TooMuch));
    let element = |(count, letter): paper::Counted| Element::new(count as i32, letter);
    settle(original::read_cigar(text), paper.map(|elements| elements.into_iter().map(element).collect()), due)
}

/// What to expect of writing the first `number` elements into so many bytes: the text. The crate prints, into as many bytes
/// as it takes; a count of 0 or less it prints as a bare letter, which is a listed difference.
pub fn write_cigar(number: usize, elements: &[Element], room: usize) -> Result<Expected<Vec<u8>>, String> {
    let elements = &elements[..number.min(elements.len())];
    let (counts, letters): (Vec<i32>, Vec<u8>) = elements.iter().map(|e| (e.count, e.letter)).unzip();
    let paper = paper::write_cigar(number, &counts, &letters, room);
    let due = due(paper.is_err() || counts.iter().any(|&count| count <= 0));
    settle(Some(original::write_cigar(elements)), paper, due)
}

/// What to expect of trimming the front and the back.
pub fn trim(reference: &[u8], alternative: &[u8]) -> [Result<Expected<usize>, String>; 2] {
    let due = due(!reference.is_ascii() || !alternative.is_ascii());
    let [front, back] = original::trim(reference, alternative).map_or([None, None], |trimmed| trimmed.map(Some));
    [
        settle(front, Ok(paper::prefix(reference, alternative)), due),
        settle(back, Ok(paper::suffix(reference, alternative)), due),
    ]
}
