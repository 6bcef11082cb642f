//! The transcripts and positions that are timed, on both sides.

use compare::{
    original::{self, Outcome},
    settle,
};
use hgvs::{
    mapper::alignment::Mapper,
    parser::{CdsInterval, GenomeInterval},
};
use pulindraxi::{
    boundary::Asked,
    limits::{MOST_SEGMENTS, MOST_WORD_COUNT},
    Refusal,
};
use trials::{
    draw::{Case, Record},
    paper::{self, Source},
    Kind, Lent, Question,
};

/// The segment counts.
pub const SIZES: [usize; 3] = [10, 200, 2_000];
/// How many positions are asked.
pub const POSITIONS: usize = 30_000;

/// The letters of the transcripts that are timed.
#[derive(Clone, Copy, PartialEq, Eq)]
pub enum Letters {
    /// Exons that match, with introns between them.
    Matches,
    /// An insertion or a deletion in each exon.
    Mixed,
}

/// The three elements of an exon, which has so many bases of the genome and of the transcript.
struct Exon {
    parts: [&'static str; 3],
    genome: i32,
    transcript: i32,
}

const MATCHES: Exon = Exon { parts: ["40=", "X", "59="], genome: 100, transcript: 100 };
const INSERTED: Exon = Exon { parts: ["40=", "2I", "58="], genome: 100, transcript: 98 };
const DELETED: Exon = Exon { parts: ["40=", "D", "60="], genome: 100, transcript: 101 };
const PARTS: usize = MATCHES.parts.len();
const INTRON: i32 = 900;

/// The exon at an index.
fn exon(letters: Letters, index: usize) -> Exon {
    match letters {
        Letters::Matches => MATCHES,
        Letters::Mixed if index % 2 == 0 => INSERTED,
        Letters::Mixed => DELETED,
    }
}

/// A transcript of so many segments: exons of three elements with introns between them, and what is left over as elements of
/// the last exon. Its CDS leaves out a tenth at each end.
pub fn transcript(letters: Letters, segments: usize, strand: i32) -> Case {
    let exons = segments.div_ceil(PARTS + 1).max(1);
    let exons = if exons * (PARTS + 1) - 1 > segments { exons - 1 } else { exons };
    let left_over = segments - (exons * (PARTS + 1) - 1);
    let further = |index: usize| if index + 1 == exons { left_over } else { 0 };
    let total = (0..exons).map(|index| exon(letters, index).transcript).sum::<i32>() + left_over as i32;
    let mut records = Vec::new();
    let mut alt = 1_000;
    let mut tx = if strand == 1 { 0 } else { total };
    for index in 0..exons {
        let Exon { parts, genome, transcript } = exon(letters, index);
        let (genome, transcript) = (genome + further(index) as i32, transcript + further(index) as i32);
        let cigar = parts.concat() + &"M".repeat(further(index));
        let tx_start = if strand == 1 { tx } else { tx - transcript };
        let numbers = [alt, alt + genome, tx_start, tx_start + transcript, strand * index as i32];
        records.push(Record { numbers, cigar: cigar.into_bytes() });
        alt += genome + INTRON;
        tx += strand * transcript;
    }
    Case { strand, cds_start: Some(total / 10), cds_end: Some(total - total / 10), records }
}

/// One transcript, built by the port, with the positions that are asked of it.
pub struct Asking {
    /// How it is built.
    pub case: Case,
    /// The port's memory.
    pub lent: Lent,
    /// Document 01's, by which positions get their c. names.
    source: Source,
    /// g. positions, spread evenly and asked in a scattered order.
    pub g: Vec<i32>,
}

impl Asking {
    /// Builds a transcript.
    pub fn new(letters: Letters, segments: usize, strand: i32) -> Asking {
        let case = transcript(letters, segments, strand);
        let bytes = case.lay();
        let source = Source::Records(paper::build(case.laid(&bytes)).expect("it builds"));
        let mut lent = Lent::filled(0);
        assert_eq!(lent.build(case.laid(&bytes)), 0);
        assert_eq!(lent.head.segment_count as usize, segments);
        let genome = u64::from(lent.genome[segments]);
        // 7,919 is a prime that doesn't divide the number of positions.
        let place = |index: usize| (index * 7_919 % POSITIONS) as u64 * genome / POSITIONS as u64;
        let g = (0..POSITIONS).map(|index| lent.head.first_start + 1 + place(index) as i32).collect();
        Asking { case, lent, source, g }
    }

    /// A question about the g. position at an index.
    pub fn about_g(&self, kind: Kind, index: usize) -> Question {
        question(kind, Asked { base: self.g[index], ..Asked::default() })
    }

    /// A question about the c. name of the g. position at an index.
    pub fn about_c(&self, kind: Kind, index: usize) -> Question {
        question(kind, self.about_g(Kind::GToC, index).expect(Some(&self.source)).start.into())
    }
}

/// A strict question about one position.
fn question(kind: Kind, at: Asked) -> Question {
    Question { kind, start: at, end: at, missing: 0, strict: true }
}

/// One transcript on both sides, with its questions in both forms.
pub struct Bench {
    /// The port's side.
    pub asking: Asking,
    /// The crate's side.
    pub mapper: Mapper,
    /// The positions' questions g. to n.
    pub g_to_n: Vec<Question>,
    /// The positions' questions g. to c.
    pub g_to_c: Vec<Question>,
    /// The c. names' questions c. to g.
    pub c_to_g: Vec<Question>,
    /// The g. positions for the crate.
    pub crate_g: Vec<GenomeInterval>,
    /// The c. names for the crate.
    pub crate_c: Vec<CdsInterval>,
}

impl Bench {
    /// Builds a transcript on both sides, and holds them to each other at every position, but for the exon numbers.
    pub fn new(letters: Letters, segments: usize, strand: i32) -> Bench {
        let asking = Asking::new(letters, segments, strand);
        let Some(Outcome::Answered(mut mapper)) = original::build(&asking.case) else { panic!("it builds") };
        let about_g = |kind| (0..POSITIONS).map(|index| asking.about_g(kind, index)).collect::<Vec<_>>();
        let (g_to_n, g_to_c) = (about_g(Kind::GToN), about_g(Kind::GToC));
        let c_to_g: Vec<_> = (0..POSITIONS).map(|index| asking.about_c(Kind::CToG, index)).collect();
        for question in g_to_n.iter().chain(&g_to_c).chain(&c_to_g) {
            let answer = question.ask(&asking.lent);
            let said = original::ask(&mut mapper, question).map(|said| settle::numbered(said, answer));
            assert_eq!(said, Outcome::Answered(answer));
        }
        let crate_g = g_to_n.iter().map(original::g_interval).collect();
        let crate_c = c_to_g.iter().map(original::c_interval).collect();
        Bench { asking, mapper, g_to_n, g_to_c, c_to_g, crate_g, crate_c }
    }
}

/// Words as an aligner writes them: exons of three words with introns between them, and now and then an insertion or a deletion.
pub fn words(count: usize) -> Vec<u32> {
    let of = |length: u32, code: u32| length << 4 | code;
    let exon = [of(120, 0), of(2, 1), of(60, 7), of(900, 3), of(80, 7), of(1, 8), of(3, 2), of(40, 0), of(15_000, 3)];
    exon.into_iter().cycle().take(count).collect()
}

/// Reads words into elements as one would in plain Rust: by document 02's rules, judged first, then written. Gives the refusal's number.
pub fn read_plainly(words: &[u32], counts: &mut [i32], letters: &mut [u8]) -> u32 {
    const LETTERS: [u8; 16] = *b"MDIN\0\0\0=X\0\0\0\0\0\0\0";
    let letter = |word: u32| LETTERS[(word & 15) as usize];
    if words.iter().any(|&word| letter(word) == 0) {
        return Refusal::NoOperation.number();
    }
    if words.len() > MOST_SEGMENTS {
        return Refusal::TooMuch.number();
    }
    if words.len() > counts.len() || words.len() > letters.len() {
        return Refusal::NoRoom.number();
    }
    for ((&word, count), place) in words.iter().zip(counts).zip(letters) {
        (*count, *place) = ((word >> 4) as i32, letter(word));
    }
    0
}

/// Writes elements as words as one would in plain Rust, in the same way.
pub fn write_plainly(counts: &[i32], letters: &[u8], words: &mut [u32]) -> u32 {
    let code = |letter: u8| b"MDIN\0\0\0=X".iter().position(|&own| own == letter && own != 0);
    for (&count, &letter) in counts.iter().zip(letters) {
        if code(letter).is_none() {
            return Refusal::NoElement.number();
        }
        if !(0..=MOST_WORD_COUNT).contains(&count) {
            return Refusal::NoWord.number();
        }
    }
    if counts.len() > MOST_SEGMENTS {
        return Refusal::TooMuch.number();
    }
    if counts.len() > words.len() {
        return Refusal::NoRoom.number();
    }
    for ((&count, &letter), word) in counts.iter().zip(letters).zip(words) {
        *word = (count as u32) << 4 | code(letter).unwrap_or(0) as u32;
    }
    0
}
