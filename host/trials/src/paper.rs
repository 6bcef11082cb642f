//! Document 01, and what has landed of document 02, in plain Rust on 64-bit numbers: what to expect of every entry on any input.
//!
//! The crate hgvs says what to expect only where it neither panics nor overflows and is not narrowed. This module, written
//! from the document's text, says the rest, and the comparison holds it to the crate wherever the crate answers.

use pulindraxi::{
    boundary::{Answer, Asked, AskedG, Cds, Head, Laid, Part, Position, Reading, Said, Starts},
    limits::{MOST_BASES, MOST_CARD, MOST_RECORDS, MOST_SEGMENTS, MOST_TEXT, MOST_WORD_COUNT},
    Exon, Refusal,
};

/// An element: a count and a letter.
pub type Counted = (i64, u8);

/// Whether a letter advances the genome.
pub fn along_genome(letter: u8) -> bool {
    letter != b'D'
}

/// Whether a letter advances the transcript.
pub fn along_transcript(letter: u8) -> bool {
    !matches!(letter, b'I' | b'N')
}

/// Whether a letter is one of the six.
pub fn is_letter(letter: u8) -> bool {
    b"=DIMNX".contains(&letter)
}

/// What a segment comes from. Records are counted from 0 in genomic order.
#[derive(Clone, Copy, Debug, PartialEq, Eq)]
pub enum Of {
    /// An element of this record.
    Record(usize),
    /// The gap between this record and the next.
    Gap(usize),
}

/// A transcript built from records.
#[derive(Clone, Debug, PartialEq, Eq)]
pub struct Aligned {
    /// 1 or -1.
    pub strand: i32,
    /// Where the first record begins on the genome.
    pub first: i64,
    /// The segments' starts on the genome, and the total.
    pub genome: Vec<i64>,
    /// The segments' starts on the transcript, and the total.
    pub transcript: Vec<i64>,
    /// The segments' letters.
    pub letters: Vec<u8>,
    /// What the segments come from.
    pub of: Vec<Of>,
    /// How many records there are, empty ones among them.
    pub records: usize,
    /// The CDS.
    pub cds: Option<(i64, i64)>,
}

/// A transcript of either kind.
#[derive(Clone, Debug, PartialEq, Eq)]
pub enum Source {
    /// Built from records.
    Records(Aligned),
    /// Built from a length alone, with its CDS.
    Length(i64, Option<(i64, i64)>),
}

fn last(starts: &[i64]) -> i64 {
    starts[starts.len() - 1]
}

// ---- CIGAR text

/// The elements of a text that fit a room: 3 for its size, then each element's 7, 8, 3 in text order.
pub fn read_cigar(text: &[u8], room: usize) -> Result<Vec<Counted>, Refusal> {
    if text.len() > MOST_TEXT {
        return Err(Refusal::TooMuch);
    }
    let mut elements = Vec::new();
    let mut digits: &[u8] = &text[..0];
    for (at, &byte) in text.iter().enumerate() {
        if byte.is_ascii_digit() {
            digits = &text[at - digits.len()..=at];
            continue;
        }
        if !is_letter(byte) {
            return Err(Refusal::NoElement);
        }
        elements.push((count(digits).ok_or(Refusal::BadCount)?, byte));
        if elements.len() > room {
            return Err(Refusal::TooMuch);
        }
        digits = &text[..0];
    }
    if digits.is_empty() {
        Ok(elements)
    } else {
        Err(Refusal::NoElement)
    }
}

/// The count of digits, 1 for none, if it is not above the largest.
fn count(digits: &[u8]) -> Option<i64> {
    if digits.is_empty() {
        return Some(1);
    }
    let count = digits.iter().fold(0u64, |sum, d| sum.saturating_mul(10).saturating_add(u64::from(d - b'0')));
    (count <= i32::MAX as u64).then_some(count as i64)
}

/// The text of elements: 3 for their number, each 7, 8, then 3 for the text, 20.
pub fn write_cigar(number: usize, counts: &[i32], letters: &[u8], room: usize) -> Result<Vec<u8>, Refusal> {
    if number > MOST_SEGMENTS {
        return Err(Refusal::TooMuch);
    }
    let mut text = Vec::new();
    for (&count, &letter) in counts.iter().zip(letters).take(number) {
        if !is_letter(letter) {
            return Err(Refusal::NoElement);
        }
        if count < 0 {
            return Err(Refusal::BadCount);
        }
        if count != 1 {
            text.extend(count.to_string().bytes());
        }
        text.push(letter);
    }
    if text.len() > MOST_TEXT {
        return Err(Refusal::TooMuch);
    }
    if text.len() > room {
        return Err(Refusal::NoRoom);
    }
    Ok(text)
}

// ---- BAM's words: document 02, Ask 1

/// The operations of the SAM specification, each at its number.
const OPERATIONS: &[u8] = b"MIDNSHP=X";

/// BAM's I becomes our D and its D our I; the others carry over. The same leads back.
fn exchanged(letter: u8) -> u8 {
    match letter {
        b'I' => b'D',
        b'D' => b'I',
        other => other,
    }
}

/// The element of a word: its length above the lowest 4 bits, and the letter of its operation; 30 for any other.
fn element(word: u32) -> Result<Counted, Refusal> {
    let operation = OPERATIONS.get((word % 16) as usize);
    let letter = operation.map(|&letter| exchanged(letter)).filter(|&letter| is_letter(letter));
    Ok((i64::from(word / 16), letter.ok_or(Refusal::NoOperation)?))
}

/// The word of an element: 7 for a letter that is not one of the six, then 31 for a count that 28 bits do not hold.
fn word(count: i32, letter: u8) -> Result<u32, Refusal> {
    if !is_letter(letter) {
        return Err(Refusal::NoElement);
    }
    if !(0..=MOST_WORD_COUNT).contains(&count) {
        return Err(Refusal::NoWord);
    }
    let operation = OPERATIONS.iter().position(|&operation| operation == exchanged(letter)).expect("one of the six");
    Ok(count as u32 * 16 + operation as u32)
}

/// What was judged, where it is not too much (3) and finds room (20).
fn fitting<T>(judged: Vec<T>, number: usize, room: usize) -> Result<Vec<T>, Refusal> {
    if number > MOST_SEGMENTS {
        return Err(Refusal::TooMuch);
    }
    if number > room {
        return Err(Refusal::NoRoom);
    }
    Ok(judged)
}

/// The elements of words: every word's 30 first, also of those past the most, then 3, then 20. The room is the shorter slice's.
pub fn read_bam(words: &[u32], room: usize) -> Result<Vec<Counted>, Refusal> {
    let elements = words.iter().map(|&word| element(word)).collect::<Result<Vec<_>, _>>()?;
    fitting(elements, words.len(), room)
}

/// The words of elements: each 7, 31 of those that the tables hold, then 3 for their number, then 20.
pub fn write_bam(number: usize, counts: &[i32], letters: &[u8], room: usize) -> Result<Vec<u32>, Refusal> {
    let given = counts.iter().zip(letters).take(number);
    let words = given.map(|(&count, &letter)| word(count, letter)).collect::<Result<Vec<_>, _>>()?;
    fitting(words, number, room)
}

// ---- Building

/// The number of bytes of a card before its records.
pub const CARD_HEAD: usize = 17;

/// Bytes as just that many records.
pub fn records(count: usize, mut bytes: &[u8]) -> Option<Vec<Exon<'_>>> {
    let mut exons = Vec::new();
    for _ in 0..count {
        let (numbers, rest) = bytes.split_at_checked(20)?;
        let number = |i: usize| i32::from_le_bytes(numbers[4 * i..4 * i + 4].try_into().expect("four bytes"));
        let (size, rest) = rest.split_at_checked(2)?;
        let size = u16::from_le_bytes(size.try_into().expect("two bytes"));
        let (cigar, rest) = rest.split_at_checked(usize::from(size))?;
        exons.push(Exon {
            alt_start_i: number(0),
            alt_end_i: number(1),
            tx_start_i: number(2),
            tx_end_i: number(3),
            ord: number(4),
            cigar,
        });
        bytes = rest;
    }
    bytes.is_empty().then_some(exons)
}

/// A card as building's input: 3 for its size, 21 for its mark, 22, 21 for all else.
pub fn read_card(card: &[u8]) -> Result<Laid<'_>, Refusal> {
    if card.len() > MOST_CARD {
        return Err(Refusal::TooMuch);
    }
    if card.len() < 5 || &card[..3] != b"TXC" {
        return Err(Refusal::NoCard);
    }
    if card[3..5] != [1, 0] {
        return Err(Refusal::BadVersion);
    }
    let (head, records) = card.split_at_checked(CARD_HEAD).ok_or(Refusal::NoCard)?;
    let number = |at: usize| i32::from_le_bytes(head[at..at + 4].try_into().expect("four bytes"));
    let (strand, cds) = (head[5], Cds { bits: u32::from(head[6]), start: number(7), end: number(11) });
    let count = usize::from(u16::from_le_bytes([head[15], head[16]]));
    if strand > 1 || cds.bits > 3 || cds != given(cds) || self::records(count, records).is_none() {
        return Err(Refusal::NoCard);
    }
    Ok(Laid { strand: if strand == 0 { 1 } else { -1 }, cds, count, records })
}

/// CDS bounds with 0 for one that is not given.
fn given(cds: Cds) -> Cds {
    let given = |bit: u32, bound: i32| if cds.bits & bit == 0 { 0 } else { bound };
    Cds { bits: cds.bits, start: given(Cds::START, cds.start), end: given(Cds::END, cds.end) }
}

/// The bytes of the card of building's input, whether it builds or not. Any strand but -1 is written as plus.
pub fn card(from: Laid<'_>) -> Vec<u8> {
    let Cds { bits, start, end } = given(from.cds);
    let mut card = b"TXC\x01\x00".to_vec();
    card.push(u8::from(from.strand == -1));
    card.push(bits as u8);
    card.extend(start.to_le_bytes());
    card.extend(end.to_le_bytes());
    card.extend((from.count as u16).to_le_bytes());
    card.extend(from.records);
    card
}

/// The card of building's input, which must build: then 3 for its size, 20.
pub fn write_card(from: Laid<'_>, room: usize) -> Result<Vec<u8>, Refusal> {
    build(from)?;
    let card = card(from);
    if card.len() > MOST_CARD {
        return Err(Refusal::TooMuch);
    }
    if card.len() > room {
        return Err(Refusal::NoRoom);
    }
    Ok(card)
}

/// 4, 5 and 6 of a record and the one before it.
fn judge_record(strand: i32, before: Option<&Exon<'_>>, exon: &Exon<'_>) -> Result<(), Refusal> {
    let bounds = [exon.alt_start_i, exon.alt_end_i, exon.tx_start_i, exon.tx_end_i];
    let overlaps = before.is_some_and(|before| exon.alt_start_i < before.alt_end_i);
    if bounds.iter().any(|&b| b < 0) || bounds[1] < bounds[0] || bounds[3] < bounds[2] || overlaps {
        return Err(Refusal::BadBound);
    }
    let Some(before) = before else { return Ok(()) };
    let (earlier, later) = if strand == 1 { (before, exon) } else { (exon, before) };
    if earlier.ord >= later.ord {
        return Err(Refusal::BadOrd);
    }
    if earlier.tx_end_i != later.tx_start_i {
        return Err(Refusal::NotAdjacent);
    }
    Ok(())
}

/// How far elements go along the genome.
pub fn span(elements: &[Counted]) -> i64 {
    elements.iter().filter(|(_, letter)| along_genome(*letter)).map(|(count, _)| count).sum()
}

/// The elements of all records in genomic order, each with what it comes from: per record 3 for the CIGAR's size, 3 for the gap, its
/// elements, 32.
fn elements(strand: i32, exons: &[Exon<'_>]) -> Result<Vec<(Counted, Of)>, Refusal> {
    let mut all = Vec::new();
    let mut before: Option<&Exon<'_>> = None;
    for (index, exon) in exons.iter().enumerate() {
        if exon.cigar.len() > MOST_TEXT {
            return Err(Refusal::TooMuch);
        }
        if let Some(before) = before {
            if all.len() == MOST_SEGMENTS {
                return Err(Refusal::TooMuch);
            }
            let gap = i64::from(exon.alt_start_i) - i64::from(before.alt_end_i);
            all.push(((gap, b'N'), Of::Gap(index - 1)));
        }
        let mut own = read_cigar(exon.cigar, MOST_SEGMENTS - all.len())?;
        if span(&own) != i64::from(exon.alt_end_i) - i64::from(exon.alt_start_i) {
            return Err(Refusal::NotSpanning);
        }
        if strand == -1 {
            own.reverse();
        }
        all.extend(own.into_iter().map(|element| (element, Of::Record(index))));
        before = Some(exon);
    }
    Ok(all)
}

/// Running starts and the total.
fn running(elements: &[Counted], advances: fn(u8) -> bool) -> Vec<i64> {
    let mut starts = vec![0];
    for &(count, letter) in elements {
        starts.push(last(&starts) + if advances(letter) { count } else { 0 });
    }
    starts
}

/// 11: one CDS bound given, the other not.
fn judge_half(cds: Cds) -> Result<(), Refusal> {
    match cds.bits {
        Cds::START | Cds::END => Err(Refusal::HalfCds),
        _ => Ok(()),
    }
}

/// 12, and the CDS.
fn judge_cds(cds: Cds, length: i64) -> Result<Option<(i64, i64)>, Refusal> {
    let (start, end) = (i64::from(cds.start), i64::from(cds.end));
    match cds.bits {
        0 => Ok(None),
        _ if 0 <= start && start <= end && end <= length => Ok(Some((start, end))),
        _ => Err(Refusal::BadCds),
    }
}

/// CDS bits of no such value are 23, before all else.
fn judge_bits(cds: Cds) -> Result<(), Refusal> {
    match cds.bits {
        0..=3 => Ok(()),
        _ => Err(Refusal::NotTogether),
    }
}

/// The transcript of records, by building's order.
pub fn build(from: Laid<'_>) -> Result<Aligned, Refusal> {
    judge_bits(from.cds)?;
    let exons = records(from.count, from.records).ok_or(Refusal::NoCard)?;
    let first = i64::from(exons.first().ok_or(Refusal::NoRecords)?.alt_start_i);
    if from.strand != 1 && from.strand != -1 {
        return Err(Refusal::NoStrand);
    }
    if exons.len() > MOST_RECORDS {
        return Err(Refusal::TooMuch);
    }
    for (index, exon) in exons.iter().enumerate() {
        judge_record(from.strand, index.checked_sub(1).map(|before| &exons[before]), exon)?;
    }
    judge_half(from.cds)?;
    let (elements, of): (Vec<_>, Vec<_>) = elements(from.strand, &exons)?.into_iter().unzip();
    if elements.is_empty() {
        return Err(Refusal::NoSegment);
    }
    let (genome, transcript) = (running(&elements, along_genome), running(&elements, along_transcript));
    if last(&transcript) > i64::from(MOST_BASES) || first + last(&genome) > i64::from(MOST_BASES) {
        return Err(Refusal::TooLong);
    }
    let cds = judge_cds(from.cds, last(&transcript))?;
    let letters = elements.iter().map(|&(_, letter)| letter).collect();
    Ok(Aligned { strand: from.strand, first, genome, transcript, letters, of, records: exons.len(), cds })
}

/// A length-only transcript: 4, 9, 11, 12.
pub fn build_length(length: i32, cds: Cds) -> Result<Source, Refusal> {
    judge_bits(cds)?;
    let length = i64::from(length);
    if length < 0 {
        return Err(Refusal::BadBound);
    }
    if length > i64::from(MOST_BASES) {
        return Err(Refusal::TooLong);
    }
    judge_half(cds)?;
    Ok(Source::Length(length, judge_cds(cds, length)?))
}

impl Source {
    /// The head of the transcript.
    pub fn head(&self) -> Head {
        let narrow = |bound: i64| bound as i32;
        let (start, end) = self.cds().unzip();
        let cds = Cds::new(start.map(narrow), end.map(narrow));
        let own = Head { cds_bits: cds.bits as i32, cds_start: cds.start, cds_end: cds.end, ..Head::filled(0) };
        match self {
            Source::Records(aligned) => Head {
                kind: Head::RECORDS,
                strand: aligned.strand,
                first_start: aligned.first as i32,
                segment_count: aligned.letters.len() as i32,
                record_count: aligned.records as i32,
                ..own
            },
            Source::Length(length, _) => Head { kind: Head::LENGTH_ONLY, length: *length as i32, ..own },
        }
    }

    /// The CDS.
    pub fn cds(&self) -> Option<(i64, i64)> {
        match self {
            Source::Records(aligned) => aligned.cds,
            Source::Length(_, cds) => *cds,
        }
    }

    /// The transcript length.
    pub fn length(&self) -> i64 {
        match self {
            Source::Records(aligned) => last(&aligned.transcript),
            Source::Length(length, _) => *length,
        }
    }
}

// ---- Check 23

/// What lent memory stands for, where it holds together.
pub fn source(lent: Reading<'_>) -> Option<Source> {
    let Head { kind, strand, first_start, segment_count, cds_bits, cds_start, cds_end, length, record_count } =
        *lent.head;
    let bits = u32::try_from(cds_bits).ok().filter(|&bits| bits == 0 || bits == Cds::START | Cds::END)?;
    let cds = Cds { bits, start: cds_start, end: cds_end };
    match kind {
        Head::RECORDS => {
            let count = usize::try_from(segment_count).ok().filter(|count| (1..=MOST_SEGMENTS).contains(count))?;
            let whole = |starts: &Starts| starts[..=count].iter().map(|&s| i64::from(s)).collect::<Vec<_>>();
            let (genome, transcript, letters) =
                (whole(lent.genome), whole(lent.transcript), lent.letters[..count].to_vec());
            let first = i64::from(first_start);
            let records = usize::try_from(record_count).ok().filter(|count| (1..=MOST_RECORDS).contains(count))?;
            let of = runs(strand, records, &letters, &lent.exons[..count])?;
            let together = (strand == 1 || strand == -1)
                && first >= 0
                && segments_hold(&genome, &transcript, &letters)
                && first + last(&genome) <= i64::from(MOST_BASES)
                && last(&transcript) <= i64::from(MOST_BASES);
            let cds = judge_cds(cds, last(&transcript)).ok()?;
            together.then_some(Source::Records(Aligned {
                strand,
                first,
                genome,
                transcript,
                letters,
                of,
                records,
                cds,
            }))
        }
        Head::LENGTH_ONLY => build_length(length, cds).ok(),
        _ => None,
    }
}

fn segments_hold(genome: &[i64], transcript: &[i64], letters: &[u8]) -> bool {
    let steps = genome.windows(2).zip(transcript.windows(2));
    genome[0] == 0
        && transcript[0] == 0
        && steps.zip(letters).all(|((g, t), &letter)| {
            let (g, t) = (g[1] - g[0], t[1] - t[0]);
            is_letter(letter)
                && g >= 0
                && t >= 0
                && (along_genome(letter) || g == 0)
                && (along_transcript(letter) || t == 0)
                && (!(along_genome(letter) && along_transcript(letter)) || g == t)
        })
}

/// The number of a record: exons are counted from 1 in transcript order.
fn exon_number(strand: i32, records: usize, record: usize) -> usize {
    match strand {
        1 => record + 1,
        _ => records - record,
    }
}

/// What segments with these exon numbers come from. From the genomic left the numbers run from 1 to the record count, on strand -1
/// back to 1, stepping by one across each gap and nowhere else: a gap is an N after which the number steps. It holds its left record's
/// number; after the last segment stands the last record's.
fn runs(strand: i32, records: usize, letters: &[u8], exons: &[u16]) -> Option<Vec<Of>> {
    let number = |record: usize| exon_number(strand, records, record);
    let mut record = 0;
    let mut of = Vec::new();
    for (index, &letter) in letters.iter().enumerate() {
        let next = exons.get(index + 1).map_or(number(records - 1), |&next| next.into());
        let steps = next != usize::from(exons[index]);
        if usize::from(exons[index]) != number(record) || steps && letter != b'N' {
            return None;
        }
        of.push(if steps { Of::Gap(record) } else { Of::Record(record) });
        record += usize::from(steps);
        if record == records {
            return None;
        }
    }
    (record + 1 == records).then_some(of)
}

// ---- Finding and mapping a place

struct Spot {
    place: i64,
    offset: i64,
    sure: bool,
    /// The segment that was chosen.
    segment: usize,
    /// Whether the place counts from the chosen segment's right.
    right: bool,
}

/// Maps a place by the first segment whose end is above it, or else the last.
fn map_place(from: &[i64], to: &[i64], letters: &[u8], p: i64, is_start: bool, forward: bool) -> Spot {
    let index = (0..letters.len()).find(|&i| from[i + 1] > p).unwrap_or(letters.len() - 1);
    let (f, t, h) = (from[index], to[index], from[index + 1]);
    let spot = |place, offset, sure| Spot { place, offset, sure, segment: index, right: false };
    match letters[index] {
        b'I' | b'D' => spot(if is_start { t - 1 } else { t }, 0, false),
        b'N' => {
            let (left, right) = (p - f + 1, h - p);
            if left < right || (left == right && forward) {
                spot(t - 1, left, true)
            } else {
                Spot { right: true, ..spot(t, -right, true) }
            }
        }
        _ => spot(t + (p - f), 0, true),
    }
}

/// Strict: a place is below the last entry.
fn inside(strict: bool, from: &[i64], p: i64) -> Result<(), Refusal> {
    if strict && !(0..last(from)).contains(&p) {
        return Err(Refusal::Outside);
    }
    Ok(())
}

fn n_of_place(place: i64) -> i64 {
    if place >= 0 {
        place + 1
    } else {
        place
    }
}

fn place_of_n(n: i64) -> i64 {
    if n >= 1 {
        n - 1
    } else {
        n
    }
}

/// The exon of a position that is mapped without the genome.
const NO_EXON: usize = 0;

/// A position in whole numbers.
#[derive(Clone, Copy, Debug)]
struct Whole {
    base: i64,
    offset: i64,
    star: bool,
    exon: usize,
}

impl Whole {
    fn plain(base: i64, offset: i64, exon: usize) -> Whole {
        Whole { base, offset, star: false, exon }
    }

    /// 17, or the position.
    fn fit(self) -> Result<Position, Refusal> {
        let fit = |number: i64| i32::try_from(number).map_err(|_| Refusal::TooWide);
        let (base, offset) = (fit(self.base)?, fit(self.offset)?);
        Ok(Position { base, offset, star: u32::from(self.star), exon: self.exon as u32 })
    }
}

fn answer(mark: u32, start: Position, end: Position) -> Answer {
    Answer { number: 0, mark, start, end }
}

/// A refusal in the form of an answer.
pub fn refused(refusal: Refusal) -> Answer {
    Answer { number: refusal.number(), ..Answer::default() }
}

fn mark(a: &Spot, b: &Spot) -> u32 {
    if a.sure && b.sure {
        Answer::CERTAIN
    } else {
        Answer::UNCERTAIN
    }
}

impl Aligned {
    /// 19, or the places of a g. interval.
    fn places(&self, g: AskedG) -> Result<(i64, i64), Refusal> {
        if g.missing & (AskedG::START | AskedG::END) != 0 {
            return Err(Refusal::MissingEnd);
        }
        let place = |base: i32| i64::from(base) - 1 - self.first;
        Ok((place(g.start), place(g.end)))
    }

    fn exon(&self, record: usize) -> usize {
        exon_number(self.strand, self.records, record)
    }

    /// The segments' exon numbers: a gap holds its left record's.
    pub fn exons(&self) -> impl Iterator<Item = u16> + '_ {
        self.of.iter().map(|&(Of::Record(record) | Of::Gap(record))| self.exon(record) as u16)
    }

    /// The exon of a spot that was mapped from the genome: the record that its segment belongs to, and in a gap the record on the side
    /// that the N rule took.
    fn exon_from_genome(&self, spot: &Spot) -> usize {
        match self.of[spot.segment] {
            Of::Record(record) => self.exon(record),
            Of::Gap(left) if spot.right => self.exon(left + 1),
            Of::Gap(left) => self.exon(left),
        }
    }

    /// The exon of a spot that was mapped from the transcript: the record that its segment belongs to, and for a gap the record before it
    /// in transcript order.
    fn exon_from_transcript(&self, spot: &Spot) -> usize {
        match self.of[spot.segment] {
            Of::Record(record) => self.exon(record),
            Of::Gap(left) => self.exon(left).min(self.exon(left + 1)),
        }
    }
}

impl Source {
    fn aligned(&self) -> Result<&Aligned, Refusal> {
        match self {
            Source::Records(aligned) => Ok(aligned),
            Source::Length(..) => Err(Refusal::NoGenome),
        }
    }

    /// g. to n.: 18, 19, 14, 17.
    pub fn g_to_n(&self, g: AskedG, strict: bool) -> Result<Answer, Refusal> {
        let t = self.aligned()?;
        let (start, end) = t.places(g)?;
        inside(strict, &t.genome, start)?;
        inside(strict, &t.genome, end)?;
        let map = |p, is_start| map_place(&t.genome, &t.transcript, &t.letters, p, is_start, t.strand == 1);
        let (a, b) = (map(start, true), map(end, false));
        let mark = mark(&a, &b);
        let n = |spot: &Spot| match t.strand {
            1 => Whole::plain(n_of_place(spot.place), spot.offset, t.exon_from_genome(spot)),
            _ => {
                let place = last(&t.transcript) - 1 - spot.place;
                Whole::plain(n_of_place(place), -spot.offset, t.exon_from_genome(spot))
            }
        };
        let (a, b) = if t.strand == 1 { (n(&a), n(&b)) } else { (n(&b), n(&a)) };
        Ok(answer(mark, a.fit()?, b.fit()?))
    }

    /// n. to g.: 18, 14, 17.
    pub fn n_to_g(&self, start: Asked, end: Asked, strict: bool) -> Result<Answer, Refusal> {
        let t = self.aligned()?;
        let turned = |asked: Asked| {
            let place = place_of_n(i64::from(asked.base));
            match t.strand {
                1 => (place, i64::from(asked.offset)),
                _ => (last(&t.transcript) - 1 - place, -i64::from(asked.offset)),
            }
        };
        let (a, b) = if t.strand == 1 { (start, end) } else { (end, start) };
        let ((a, a_offset), (b, b_offset)) = (turned(a), turned(b));
        inside(strict, &t.transcript, a)?;
        inside(strict, &t.transcript, b)?;
        let map = |p, is_start| map_place(&t.transcript, &t.genome, &t.letters, p, is_start, true);
        let (a, b) = (map(a, true), map(b, false));
        let g = |spot: &Spot, offset: i64| {
            let base = spot.place + t.first + 1 + offset;
            Whole::plain(base, 0, t.exon_from_transcript(spot)).fit()
        };
        Ok(answer(mark(&a, &b), g(&a, a_offset)?, g(&b, b_offset)?))
    }

    /// n. to c.: 13, 15, 17. Strict: both numbers are those of a base.
    pub fn n_to_c(&self, start: Asked, end: Asked, strict: bool) -> Result<Answer, Refusal> {
        let (s, e) = self.cds().ok_or(Refusal::NotCoding)?;
        let is_base = |n: Asked| (1..=self.length()).contains(&i64::from(n.base));
        if strict && !(is_base(start) && is_base(end)) {
            return Err(Refusal::NOutside);
        }
        let c = |n: Asked| {
            let b = i64::from(n.base);
            let (base, star) = match b {
                _ if b <= s => (b - s - i64::from(b > 0), false),
                _ if b <= e => (b - s, false),
                _ => (b - e, true),
            };
            Whole { base, offset: i64::from(n.offset), star, exon: NO_EXON }.fit()
        };
        Ok(answer(Answer::UNMARKED, c(start)?, c(end)?))
    }

    /// c. to n.: 13, then start 16, 17, then end.
    pub fn c_to_n(&self, start: Asked, end: Asked, strict: bool) -> Result<Answer, Refusal> {
        let (s, e) = self.cds().ok_or(Refusal::NotCoding)?;
        let n = |c: Asked| {
            let b = i64::from(c.base);
            let n = if c.star { b + e } else { b + s + i64::from(b < 0) };
            let n = if n <= 0 { n - 1 } else { n };
            if strict && (n <= 0 || n > self.length()) {
                return Err(Refusal::COutside);
            }
            Whole::plain(n, i64::from(c.offset), NO_EXON).fit()
        };
        Ok(answer(Answer::UNMARKED, n(start)?, n(end)?))
    }

    /// g. to c.: the first mapping wholly, then the second. The ends keep the exons that the first found.
    pub fn g_to_c(&self, g: AskedG, strict: bool) -> Result<Answer, Refusal> {
        let n = self.g_to_n(g, strict)?;
        let c = self.n_to_c(n.start.into(), n.end.into(), strict)?;
        let end = |c: Position, n: Position| Position { exon: n.exon, ..c };
        Ok(answer(n.mark, end(c.start, n.start), end(c.end, n.end)))
    }

    /// c. to g.: the first mapping wholly, then the second.
    pub fn c_to_g(&self, start: Asked, end: Asked, strict: bool) -> Result<Answer, Refusal> {
        let n = self.c_to_n(start, end, strict)?;
        self.n_to_g(n.start.into(), n.end.into(), strict)
    }

    /// In bounds: 18, 19. Both places are below the length, and neither is below 0.
    pub fn in_bounds(&self, g: AskedG) -> Result<Said, Refusal> {
        let t = self.aligned()?;
        let (start, end) = t.places(g)?;
        let yes = [start, end].iter().all(|place| (0..last(&t.genome)).contains(place));
        Ok(Said { number: 0, yes: u32::from(yes) })
    }

    /// Whether it codes.
    pub fn is_coding(&self) -> Said {
        Said { number: 0, yes: u32::from(self.cds().is_some()) }
    }

    /// A worklist (document 02, Ask 4): 18, then 33 where it falls anywhere. Else each position's answer or refusal, which is that of
    /// the strict g. to n. of this one base, and the index of the segment that holds the largest position within strict bounds, 0 if none.
    pub fn worklist(&self, positions: &[i32]) -> Result<(Vec<Answer>, u32), Refusal> {
        let t = self.aligned()?;
        if positions.windows(2).any(|pair| pair[1] < pair[0]) {
            return Err(Refusal::Falling);
        }
        let single = |base: i32| self.g_to_n(AskedG { start: base, end: base, missing: 0 }, true);
        let answers = positions.iter().map(|&base| single(base).unwrap_or_else(refused)).collect();
        let places = positions.iter().map(|&base| i64::from(base) - 1 - t.first);
        let largest = places.filter(|&place| inside(true, &t.genome, place).is_ok()).max();
        let holds = |place: i64| t.genome.windows(2).position(|ends| (ends[0]..ends[1]).contains(&place));
        Ok((answers, largest.and_then(holds).map_or(0, |index| index as u32)))
    }
}

// ---- Trimming

/// The length of the common prefix.
pub fn prefix(reference: &[u8], alternative: &[u8]) -> usize {
    reference.iter().zip(alternative).take_while(|(r, a)| r == a).count()
}

/// The length of the common suffix.
pub fn suffix(reference: &[u8], alternative: &[u8]) -> usize {
    reference.iter().rev().zip(alternative.iter().rev()).take_while(|(r, a)| r == a).count()
}

/// What remains of the longer allele, the reference's when lengths tie.
pub fn changed(reference: &[u8], alternative: &[u8]) -> Part {
    let from = prefix(reference, alternative);
    let cut = suffix(&reference[from..], &alternative[from..]);
    let is_alternative = alternative.len() > reference.len();
    let longer = reference.len().max(alternative.len());
    Part { alternative: u32::from(is_alternative), from, to: longer - cut }
}

// ---- Alleles on the reverse strand: document 02, Ask 6

/// The letters that complement each other; a letter that stands alone is its own complement.
const PAIRS: [&[u8]; 9] = [b"AT", b"CG", b"RY", b"KM", b"BV", b"DH", b"S", b"W", b"N"];

/// The complement of a letter, in its case; 34 for any other byte.
fn complement(letter: u8) -> Result<u8, Refusal> {
    let upper = letter.to_ascii_uppercase();
    let pair = PAIRS.iter().find(|pair| pair.contains(&upper)).ok_or(Refusal::NoBase)?;
    let other = if pair[0] == upper { pair[pair.len() - 1] } else { pair[0] };
    Ok(if letter == upper { other } else { other.to_ascii_lowercase() })
}

/// An allele as the other strand reads it; 34 for a letter outside the list, wherever it stands.
fn turned(allele: &[u8]) -> Result<Vec<u8>, Refusal> {
    allele.iter().rev().map(|&letter| complement(letter)).collect()
}

/// An allele as the other strand reads it, in a room: 34, 20.
pub fn turn(allele: &[u8], room: usize) -> Result<Vec<u8>, Refusal> {
    let turned = turned(allele)?;
    if turned.len() > room {
        return Err(Refusal::NoRoom);
    }
    Ok(turned)
}

/// What a g. interval with two alleles answers.
#[derive(Clone, Debug, Default, PartialEq, Eq)]
pub struct Both {
    /// The plain mapping's answer.
    pub answer: Answer,
    /// How many letters went at the front, and then at the back, in transcript direction.
    pub removed: [usize; 2],
    /// What is left of the reference and of the alternative.
    pub left: [Vec<u8>; 2],
}

impl Source {
    /// A g. interval with a reference and an alternative, each with the room for what is left of it: 34 on either strand, 20, then as
    /// g. to c. Turned on strand -1, then without the common prefix, then without the common suffix.
    pub fn g_to_c_alleles(
        &self,
        g: AskedG,
        strict: bool,
        given: [&[u8]; 2],
        rooms: [usize; 2],
    ) -> Result<Both, Refusal> {
        let [turned_reference, turned_alternative] = given.map(turned);
        let turned = [turned_reference?, turned_alternative?];
        let backwards = matches!(self, Source::Records(Aligned { strand: -1, .. }));
        let mut left = if backwards { turned } else { given.map(<[u8]>::to_vec) };
        let prefix = prefix(&left[0], &left[1]);
        left.iter_mut().for_each(|allele| drop(allele.drain(..prefix)));
        let suffix = suffix(&left[0], &left[1]);
        left.iter_mut().for_each(|allele| allele.truncate(allele.len() - suffix));
        if left[0].len() > rooms[0] || left[1].len() > rooms[1] {
            return Err(Refusal::NoRoom);
        }
        Ok(Both { answer: self.g_to_c(g, strict)?, removed: [prefix, suffix], left })
    }
}

#[cfg(test)]
mod tests {
    use super::*;

    /// `10M2I3D500N8=1X` as the SAM specification lays it out, 2 the length of its I.
    #[test]
    fn words_are_read_and_written_as_document_02_says() {
        let words = [160, 33, 50, 8_003, 135, 24];
        let elements = [(10, b'M'), (2, b'D'), (3, b'I'), (500, b'N'), (8, b'='), (1, b'X')];
        assert_eq!(read_bam(&words, 6).unwrap(), elements);
        let (counts, letters): (Vec<_>, Vec<_>) =
            elements.iter().map(|&(count, letter)| (count as i32, letter)).unzip();
        assert_eq!(write_bam(6, &counts, &letters, 6).unwrap(), words);
    }

    /// Records of genome bounds and CIGARs, laid out for building.
    fn built(strand: i32, cds: Cds, exons: &[([i32; 2], &str)]) -> Result<Source, Refusal> {
        let mut records = Vec::new();
        for (index, ([start, end], cigar)) in exons.iter().enumerate() {
            for number in [*start, *end, 0, 0, strand * index as i32] {
                records.extend(number.to_le_bytes());
            }
            records.extend((cigar.len() as u16).to_le_bytes());
            records.extend(cigar.bytes());
        }
        build(Laid { strand, cds, count: exons.len(), records: &records }).map(Source::Records)
    }

    #[test]
    fn a_cigar_is_held_to_its_bounds_after_its_elements_and_before_the_next_record() {
        let number = |exons: &[([i32; 2], &str)]| built(1, Cds::new(None, None), exons).err().map(Refusal::number);
        assert_eq!(number(&[([10, 14], "4M")]), None);
        assert_eq!(number(&[([10, 17], "4M")]), Some(32));
        assert_eq!(number(&[([10, 14], "4M2I")]), Some(32));
        assert_eq!(number(&[([10, 17], "4MS")]), Some(7));
        assert_eq!(number(&[([2, 5], "2M"), ([10, 14], "S")]), Some(32));
        assert_eq!(number(&[([0, 1], "")]), Some(32));
        assert_eq!(number(&[([0, 0], "2147483647M2147483647M2M")]), Some(32));
        assert_eq!(number(&[([0, 0], "2000000001D")]), Some(9));
    }

    #[test]
    fn strict_bounds_end_with_the_last_base() {
        for strand in [1, -1] {
            let source = built(strand, Cds::new(Some(3), Some(15)), &[([10, 20], "10M"), ([25, 33], "8M")]).unwrap();
            let asked = |base| Asked { base, ..Asked::default() };
            let g = |start, end| AskedG { start, end, missing: 0 };
            for number in [10, 34] {
                assert_eq!(source.g_to_n(g(number, number), true), Err(Refusal::Outside));
                assert_eq!(source.in_bounds(g(number, 11)).unwrap().yes, 0);
                assert_eq!(source.in_bounds(g(11, number)).unwrap().yes, 0);
            }
            assert_eq!(source.in_bounds(g(33, 11)).unwrap().yes, 1);
            for number in [-1, 19] {
                assert_eq!(source.n_to_g(asked(number), asked(number), true), Err(Refusal::Outside));
                assert_eq!(source.n_to_c(asked(number), asked(1), true), Err(Refusal::NOutside));
                assert_eq!(source.n_to_c(asked(1), asked(number), true), Err(Refusal::NOutside));
                assert!(source.n_to_c(asked(1), asked(number), false).is_ok());
            }
        }
        let inserted = built(1, Cds::new(Some(0), Some(4)), &[([0, 6], "4M2I")]).unwrap();
        let g = AskedG { start: 5, end: 5, missing: 0 };
        let n = inserted.g_to_n(g, true).unwrap();
        assert_eq!((n.mark, n.start.base, n.end.base), (Answer::UNCERTAIN, 4, 5));
        assert_eq!(inserted.g_to_c(g, true), Err(Refusal::NOutside));
    }

    #[test]
    fn a_worklist_is_answered_as_document_02_says() {
        let a = built(1, Cds::new(None, None), &[([10, 20], "10M"), ([25, 33], "8M")]).unwrap();
        let steps = |positions: &[i32]| a.worklist(positions).map(|(_, steps)| steps);
        assert_eq!(steps(&[]), Ok(0));
        assert_eq!(steps(&[i32::MIN, 10, 34, i32::MAX]), Ok(0));
        assert_eq!(steps(&[11, 20, 20, 34]), Ok(0));
        assert_eq!(steps(&[11, 21]), Ok(1));
        assert_eq!(steps(&[25, 26]), Ok(2));
        assert_eq!(steps(&[33, 33, 32]), Err(Refusal::Falling));
        let (answers, _) = a.worklist(&[10, 23, 23, 34]).unwrap();
        let numbers: Vec<_> =
            answers.iter().map(|answer| (answer.number, answer.start.base, answer.end.offset)).collect();
        assert_eq!(numbers, [(14, 0, 0), (0, 10, 3), (0, 10, 3), (14, 0, 0)]);
        assert_eq!(Source::Length(18, None).worklist(&[2, 1]), Err(Refusal::NoGenome));
        // A segment of no bases holds none.
        let hollow = built(1, Cds::new(None, None), &[([0, 4], "2M0I3D2M")]).unwrap();
        assert_eq!(hollow.worklist(&[2]).unwrap().1, 0);
        assert_eq!(hollow.worklist(&[3]).unwrap().1, 3);
    }

    /// The exons of an answer's ends.
    fn exons(answer: Result<Answer, Refusal>) -> [u32; 2] {
        answer.map_or([0, 0], |answer| [answer.start.exon, answer.end.exon])
    }

    #[test]
    fn exons_are_counted_in_transcript_order() {
        // An N of four inside the first record, a gap of five on each side of an empty record.
        let records = [([10, 20], "3M4N3M"), ([25, 25], ""), ([30, 36], "6M")];
        let g = |source: &Source, base| exons(source.g_to_n(AskedG { start: base, end: base, missing: 0 }, true))[0];
        let plus = built(1, Cds::new(None, None), &records).unwrap();
        let minus = built(-1, Cds::new(None, None), &records).unwrap();
        let of = |source: &Source| (11..=36).map(|base| g(source, base)).collect::<Vec<_>>();
        let [one, two, three] = [1, 2, 3];
        let gaps = [one, one, one, two, two, two, two, two, three, three];
        assert_eq!(of(&plus), [&[one; 10][..], &gaps, &[three; 6]].concat());
        // The middle of a gap goes upstream: to the right.
        let gaps = [three, three, two, two, two, two, two, one, one, one];
        assert_eq!(of(&minus), [&[three; 10][..], &gaps, &[one; 6]].concat());
        let Source::Records(plus) = plus else { panic!() };
        let Source::Records(minus) = minus else { panic!() };
        assert_eq!(plus.exons().collect::<Vec<_>>(), [1, 1, 1, 1, 2, 3]);
        assert_eq!(minus.exons().collect::<Vec<_>>(), [3, 3, 3, 3, 2, 1]);
    }

    #[test]
    fn exons_go_with_their_ends() {
        let records = [([10, 20], "10M"), ([25, 33], "8M")];
        let at = |base| Asked { base, ..Asked::default() };
        let g = AskedG { start: 11, end: 33, missing: 0 };
        for (strand, on_genome) in [(1, [1, 2]), (-1, [2, 1])] {
            let source = built(strand, Cds::new(Some(3), Some(15)), &records).unwrap();
            assert_eq!(exons(source.g_to_n(g, true)), [1, 2]);
            assert_eq!(exons(source.g_to_c(g, true)), [1, 2]);
            assert_eq!(exons(source.n_to_g(at(1), at(18), true)), on_genome);
            assert_eq!(exons(source.c_to_g(at(-3), at(12), true)), on_genome);
            assert_eq!(exons(source.n_to_c(at(1), at(18), true)), [0, 0]);
            assert_eq!(exons(source.c_to_n(at(-3), at(12), true)), [0, 0]);
        }
    }

    #[test]
    fn a_gap_from_the_transcript_counts_as_the_record_before_it() {
        let records = [([5, 5], ""), ([10, 14], "4M"), ([20, 20], "")];
        let lenient = |source: &Source, base| {
            let at = Asked { base, ..Asked::default() };
            exons(source.n_to_g(at, at, false))[0]
        };
        for strand in [1, -1] {
            let source = built(strand, Cds::new(None, None), &records).unwrap();
            assert_eq!([-1, 1, 4, 5].map(|n| lenient(&source, n)), [1, 2, 2, 2], "strand {strand}");
        }
    }

    #[test]
    fn exon_numbers_run_from_the_left() {
        let run = |strand, records, letters: &str, exons: &[u16]| {
            runs(strand, records, letters.as_bytes(), exons)
                .map(|of| of.iter().map(|of| if matches!(of, Of::Gap(_)) { '|' } else { '.' }).collect::<String>())
        };
        let said = |text: &str| Some(text.to_string());
        assert_eq!(run(1, 3, "MNMNNM", &[1, 1, 1, 1, 2, 3]), said("...||."));
        assert_eq!(run(-1, 3, "MNMNNM", &[3, 3, 3, 3, 2, 1]), said("...||."));
        assert_eq!(run(1, 4, "MNMNNM", &[1, 1, 2, 2, 3, 4]), said(".|.||."));
        assert_eq!(run(1, 1, "MNM", &[1, 1, 1]), said("..."));
        assert_eq!(run(1, 3, "NMN", &[1, 2, 2]), said("|.|"));
        assert_eq!(run(-1, 3, "NMN", &[3, 2, 2]), said("|.|"));
        assert_eq!(run(1, 3, "NN", &[1, 2]), said("||"));
        for (strand, records, exons) in [
            (1, 2, [0, 0, 1]),
            (1, 2, [2, 2, 3]),
            (1, 2, [1, 1, 1]),
            (1, 2, [1, 2, 2]),
            (1, 3, [1, 1, 2]),
            (1, 3, [1, 1, 3]),
            (1, 1, [1, 1, 2]),
            (1, 2, [2, 2, 1]),
            (-1, 2, [1, 1, 2]),
            (-1, 2, [2, 2, 2]),
            (-1, 2, [2, 1, 1]),
            (-1, 3, [2, 2, 1]),
            (-1, 2, [2, 2, 0]),
        ] {
            assert_eq!(run(strand, records, "MNM", &exons), None, "{strand} {records} {exons:?}");
        }
    }

    #[test]
    fn letters_are_turned_as_document_02_says() {
        assert_eq!(turn(b"ACGTRYKMBDHVSWN", 15).unwrap(), b"NWSBDHVKMRYACGT");
        assert_eq!(turn(b"aCgTrYkMbDhVsWn", 15).unwrap(), b"nWsBdHvKmRyAcGt");
        assert_eq!(turn(b"", 0).unwrap(), b"");
        let others = (0..=255u8).filter(|letter| !b"ACGTRYKMBDHVSWNacgtrykmbdhvswn".contains(letter));
        for other in others {
            for allele in [vec![other], vec![b'A', other], vec![other, b'A']] {
                assert_eq!(turn(&allele, 0), Err(Refusal::NoBase), "{other}");
            }
        }
        assert_eq!(turn(b"AC", 1), Err(Refusal::NoRoom));
    }

    #[test]
    fn alleles_are_joined_as_document_02_says() {
        let records = [([10, 20], "10M"), ([25, 33], "8M")];
        let cds = Cds::new(Some(3), Some(15));
        let [plus, minus] = [1, -1].map(|strand| built(strand, cds, &records).unwrap());
        let g = AskedG { start: 12, end: 14, missing: 0 };
        let joined = |source: &Source, reference: &str, alternative: &str| {
            let given = [reference.as_bytes(), alternative.as_bytes()];
            let Both { answer, removed: [prefix, suffix], left } =
                source.g_to_c_alleles(g, true, given, [9, 9]).unwrap();
            assert_eq!(Ok(answer), source.g_to_c(g, true));
            let [reference, alternative] = left.map(|allele| String::from_utf8(allele).unwrap());
            format!("{prefix} {suffix} {reference}>{alternative}")
        };
        for (reference, alternative, on_plus, on_minus) in [
            ("CAC", "C", "1 0 AC>", "1 0 TG>"),
            ("CAG", "CTG", "1 1 A>T", "1 1 T>A"),
            ("CAA", "CA", "2 0 A>", "1 1 T>"),
            ("AAC", "AC", "1 1 A>", "2 0 T>"),
            ("CCC", "CCC", "3 0 >", "3 0 >"),
            ("acg", "ACG", "0 0 acg>ACG", "0 0 cgt>CGT"),
            ("", "NR", "0 0 >NR", "0 0 >YN"),
            ("", "", "0 0 >", "0 0 >"),
        ] {
            assert_eq!(joined(&plus, reference, alternative), on_plus, "{reference} {alternative}");
            assert_eq!(joined(&minus, reference, alternative), on_minus, "{reference} {alternative}, strand -1");
        }
    }

    #[test]
    fn refusals_of_the_join_have_their_order() {
        let one = [([10, 20], "10M")];
        let coding = built(-1, Cds::new(Some(3), Some(7)), &one).unwrap();
        let plain = built(1, Cds::new(None, None), &one).unwrap();
        let length = Source::Length(10, None);
        let g = |start, missing| AskedG { start, end: start, missing };
        let number = |source: &Source, g, given: [&str; 2], rooms| {
            source.g_to_c_alleles(g, true, given.map(str::as_bytes), rooms).err().map_or(0, Refusal::number)
        };
        for source in [&coding, &plain, &length] {
            assert_eq!(number(source, g(99, 1), ["U", "A"], [0, 0]), 34);
            assert_eq!(number(source, g(99, 1), ["A", "u"], [0, 0]), 34);
            assert_eq!(number(source, g(99, 1), ["AG", "A"], [0, 0]), 20);
            assert_eq!(number(source, g(99, 1), ["A", "AG"], [0, 0]), 20);
        }
        assert_eq!(number(&length, g(99, 1), ["AG", "A"], [1, 0]), 18);
        assert_eq!(number(&coding, g(99, 1), ["AG", "A"], [1, 0]), 19);
        assert_eq!(number(&coding, g(99, 0), ["AG", "A"], [1, 0]), 14);
        assert_eq!(number(&plain, g(11, 0), ["AG", "A"], [1, 0]), 13);
        assert_eq!(number(&coding, g(11, 0), ["AG", "A"], [1, 0]), 0);
    }

    #[test]
    fn refusals_of_words_have_their_order() {
        for code in [4, 5, 6, 9, 10, 11, 12, 13, 14, 15] {
            let mut many = vec![16; 2_049];
            many[2_048] = 16 + code;
            assert_eq!(read_bam(&many, 0), Err(Refusal::NoOperation));
        }
        assert_eq!(read_bam(&[16; 2_049], 0), Err(Refusal::TooMuch));
        assert_eq!(read_bam(&[16; 2_048], 2_047), Err(Refusal::NoRoom));
        let write = |number, count, letter, room| write_bam(number, &[1, count], &[b'M', letter], room);
        assert_eq!(write(2, -1, b'S', 0), Err(Refusal::NoElement));
        assert_eq!(write(2, 268_435_456, b'X', 0), Err(Refusal::NoWord));
        assert_eq!(write(2_049, 268_435_455, b'X', 0), Err(Refusal::TooMuch));
        assert_eq!(write(2, 268_435_455, b'X', 1), Err(Refusal::NoRoom));
        assert_eq!(write(1, -1, b'S', 1).unwrap(), [16]);
    }
}
