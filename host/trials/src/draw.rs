//! Input drawn at random: transcripts, faults in them, damage to memory, questions, logs.

use pulindraxi::{
    boundary::{Answer, Asked, Cds, Head, Laid, Question as Numbers},
    limits::{ENTRY, LOG_HEAD, MOST_ENTRIES, MOST_LOG, MOST_SEGMENTS, MOST_TEXT, MOST_WORD_COUNT},
    Element,
};
use rand::{seq::SliceRandom, Rng};

use crate::{
    lent::Place,
    logs::{self, Entry},
    paper::{self, Aligned, Source},
    Kind, Lent, Question,
};

/// Numbers at and around the limits.
pub const LIMITS: [i32; 22] = [
    i32::MIN,
    i32::MIN + 1,
    -2_000_000_001,
    -2_000_000_000,
    -65_537,
    -2,
    -1,
    0,
    1,
    2,
    3,
    4,
    512,
    2_047,
    2_048,
    2_049,
    65_536,
    1_999_999_999,
    2_000_000_000,
    2_000_000_001,
    i32::MAX - 1,
    i32::MAX,
];

/// A number at a limit, a small one, or any.
pub fn number<R: Rng>(rng: &mut R) -> i32 {
    match rng.gen_range(0..10) {
        0..=4 => *LIMITS.choose(rng).expect("not empty"),
        5..=7 => rng.gen_range(-20..60),
        _ => rng.gen(),
    }
}

/// One exon record.
#[derive(Clone, Debug, PartialEq, Eq)]
pub struct Record {
    /// `alt_start_i`, `alt_end_i`, `tx_start_i`, `tx_end_i`, `ord`.
    pub numbers: [i32; 5],
    /// The CIGAR.
    pub cigar: Vec<u8>,
}

/// Building's input.
#[derive(Clone, Debug, PartialEq, Eq)]
pub struct Case {
    /// 1 or -1, if it is to build.
    pub strand: i32,
    /// The CDS start, if given.
    pub cds_start: Option<i32>,
    /// The CDS end, if given.
    pub cds_end: Option<i32>,
    /// The records.
    pub records: Vec<Record>,
}

impl Case {
    /// The records laid out as in a card. A CIGAR is at most 65,535 bytes.
    pub fn lay(&self) -> Vec<u8> {
        let mut bytes = Vec::new();
        for record in &self.records {
            for number in record.numbers {
                bytes.extend(number.to_le_bytes());
            }
            bytes.extend((record.cigar.len() as u16).to_le_bytes());
            bytes.extend(&record.cigar);
        }
        bytes
    }

    /// The input at the boundary, over records that [`Case::lay`] laid out.
    pub fn laid<'a>(&self, records: &'a [u8]) -> Laid<'a> {
        let cds = Cds::new(self.cds_start, self.cds_end);
        Laid { strand: self.strand, cds, count: self.records.len(), records }
    }

    /// The card of the input, whether it builds or not.
    pub fn card(&self) -> Vec<u8> {
        paper::card(self.laid(&self.lay()))
    }
}

/// How far a CIGAR goes on both sides.
#[derive(Clone, Copy, Default)]
struct Reach {
    genome: i64,
    transcript: i64,
}

/// A count as digits: now and then with leading zeros, and 1 with or without.
fn digits<R: Rng>(rng: &mut R, count: i64, text: &mut Vec<u8>) {
    if count == 1 && rng.gen() {
        return;
    }
    if rng.gen_ratio(1, 12) {
        text.extend(b"00");
    }
    text.extend(count.to_string().bytes());
}

/// A CIGAR of some elements with counts up to a largest, and how far it goes.
fn cigar<R: Rng>(rng: &mut R, elements: usize, largest: i64) -> (Vec<u8>, Reach) {
    let mut text = Vec::new();
    let mut reach = Reach::default();
    for _ in 0..elements {
        let count = if rng.gen_ratio(1, 6) { 0 } else { rng.gen_range(1..=largest) };
        let letter = *b"=MXMIDN".choose(rng).expect("not empty");
        digits(rng, count, &mut text);
        text.push(letter);
        reach.genome += if paper::along_genome(letter) { count } else { 0 };
        reach.transcript += if paper::along_transcript(letter) { count } else { 0 };
    }
    (text, reach)
}

fn narrow(number: i64) -> i32 {
    number.clamp(0, i64::from(i32::MAX)) as i32
}

/// A transcript that builds, unless its numbers grow too large or a record's bounds are not as far apart as its CIGAR goes. The
/// tx bounds need not match the CIGARs.
pub fn whole<R: Rng>(rng: &mut R) -> Case {
    let strand = if rng.gen() { 1 } else { -1 };
    let (count, most_elements, largest) = match rng.gen_range(0..1000) {
        0 => (rng.gen_range(400..=512), 4, 9),
        1..=9 => (rng.gen_range(13..=60), 5, 60),
        10..=49 => (rng.gen_range(1..=3), 4, 200_000_000),
        50..=449 => (rng.gen_range(4..=9), 5, 12),
        _ => (rng.gen_range(1..=3), 6, 5),
    };
    of_records(rng, strand, count, most_elements, largest)
}

/// The same with so many records that its segments come to between some hundred and the most, so that a place is looked for among few and among many.
pub fn long<R: Rng>(rng: &mut R) -> Case {
    let strand = if rng.gen() { 1 } else { -1 };
    let count = if rng.gen() { rng.gen_range(30..=90) } else { rng.gen_range(90..=512) };
    of_records(rng, strand, count, 4, 9)
}

/// A transcript of so many records, with CIGARs of up to so many elements and counts up to a largest.
fn of_records<R: Rng>(rng: &mut R, strand: i32, count: i32, most_elements: usize, largest: i64) -> Case {
    let (spanning, matching) = (rng.gen_ratio(5, 6), rng.gen_ratio(2, 3));
    let largest_gap = *[0, 3, 9, 1000].choose(rng).expect("not empty");
    let mut at = match rng.gen_range(0..10) {
        0..=2 => 0,
        3..=6 => rng.gen_range(0..30),
        7..=8 => rng.gen_range(0..250_000_000),
        _ => rng.gen_range(1_999_999_900..=2_000_000_000),
    };
    let mut records = Vec::new();
    let mut reach = Reach::default();
    for _ in 0..count {
        let elements = rng.gen_range(usize::from(count == 1)..=most_elements);
        let (cigar, own) = cigar(rng, elements, largest);
        let other = *[own.transcript, own.genome + 3, rng.gen_range(0..=largest)].choose(rng).expect("not empty");
        let end = at + if spanning || rng.gen() { own.genome } else { other };
        let long = if matching { own.transcript } else { rng.gen_range(0..=largest) };
        records.push(Record { numbers: [narrow(at), narrow(end), 0, narrow(long), 0], cigar });
        reach.transcript += own.transcript;
        at = narrow(end).into();
        at += rng.gen_range(0..=largest_gap);
    }
    number_exons(rng, strand, &mut records);
    let (cds_start, cds_end) = cds(rng, narrow(reach.transcript));
    Case { strand, cds_start, cds_end, records }
}

/// Gives the records their `ord` and tx bounds; each has its tx length where its tx end will stand.
fn number_exons<R: Rng>(rng: &mut R, strand: i32, records: &mut [Record]) {
    let mut ord = rng.gen_range(-2..3);
    let mut at = if rng.gen_ratio(1, 8) { rng.gen_range(0..50) } else { 0 };
    let count = records.len();
    for index in 0..count {
        let record = &mut records[if strand == 1 { index } else { count - 1 - index }];
        let end = narrow(i64::from(at) + i64::from(record.numbers[3]));
        record.numbers[2..].copy_from_slice(&[at, end, ord]);
        at = end;
        ord += rng.gen_range(1..3);
    }
}

/// CDS bounds within a length, or none.
fn cds<R: Rng>(rng: &mut R, length: i32) -> (Option<i32>, Option<i32>) {
    if rng.gen_ratio(1, 5) {
        return (None, None);
    }
    let (a, b) = (rng.gen_range(0..=length), rng.gen_range(0..=length));
    match rng.gen_range(0..8) {
        0 => (Some(0), Some(length)),
        1 => (Some(a), Some(a)),
        _ => (Some(a.min(b)), Some(a.max(b))),
    }
}

/// So many records with one CIGAR, one after the other, each as long on the genome as that goes.
pub fn alike(strand: i32, count: usize, cigar: &[u8]) -> Case {
    let span = paper::read_cigar(cigar, MOST_SEGMENTS).map_or(0, |elements| paper::span(&elements));
    let record = |index: usize| {
        let [start, end] = [index, index + 1].map(|index| narrow(index as i64 * span));
        Record { numbers: [start, end, 0, 0, index as i32 * strand], cigar: cigar.to_vec() }
    };
    Case { strand, cds_start: None, cds_end: None, records: (0..count).map(record).collect() }
}

/// Moves a record's end to where its CIGAR ends, and the records after it along.
fn fit(case: &mut Case, index: usize) {
    let Record { numbers: [start, end, ..], cigar } = &case.records[index];
    let Ok(elements) = paper::read_cigar(cigar, MOST_SEGMENTS) else { return };
    let by = i64::from(*start) + paper::span(&elements) - i64::from(*end);
    let bounds = case.records[index..].iter_mut().flat_map(|record| &mut record.numbers[..2]);
    for bound in bounds.skip(1) {
        *bound = narrow(i64::from(*bound) + by);
    }
}

/// Puts one fault, or what may be one, into a transcript.
pub fn spoil<R: Rng>(rng: &mut R, case: &mut Case) {
    let index = rng.gen_range(0..case.records.len());
    let record = &mut case.records[index];
    match rng.gen_range(0..12) {
        0 => case.strand = *[0, 2, -2, i32::from(i16::MAX)].choose(rng).expect("not empty"),
        1..=3 => record.numbers[rng.gen_range(0..5)] = number(rng),
        4 => {
            let step = rng.gen_range(-3..=3);
            let field = &mut record.numbers[rng.gen_range(0..5)];
            *field = field.saturating_add(step);
        }
        5 => case.cds_start = rng.gen::<bool>().then(|| number(rng)),
        6 => case.cds_end = rng.gen::<bool>().then(|| number(rng)),
        7 => {
            let other = rng.gen_range(0..case.records.len());
            case.records.swap(index, other);
        }
        8 => {
            let texts = [&b""[..], b"0M", b"5", b"2147483647M", b"2147483648M", b"99999999999S", b"2147483647D"];
            record.cigar = texts.choose(rng).expect("not empty").to_vec();
        }
        9 => {
            // The last goes 2 to the power of 32 along the genome, of which 32 bits keep 0.
            let texts = [&b"2147483647M"[..], b"2147483647D", b"2147483647I2147483647N2X"];
            record.cigar.extend(*texts.choose(rng).expect("not empty"));
        }
        10 => {
            let at = rng.gen_range(0..=record.cigar.len());
            record.cigar.insert(at, *b"=DIMNXSHP*0129 \xc3-".choose(rng).expect("not empty"));
        }
        _ => {
            case.records.truncate(index);
        }
    }
    if index < case.records.len() && rng.gen() {
        fit(case, index);
    }
}

/// A transcript, of which some have one fault or more.
pub fn case<R: Rng>(rng: &mut R) -> Case {
    let mut case = whole(rng);
    while rng.gen_ratio(1, 5) && !case.records.is_empty() {
        spoil(rng, &mut case);
    }
    case
}

/// Elements to be written, and how many bytes there are for them: some have a fault, a number or a text around its limit, or too
/// little room.
pub fn elements<R: Rng>(rng: &mut R) -> (Vec<Element>, usize) {
    let number = match rng.gen_range(0..16) {
        0 => rng.gen_range(MOST_SEGMENTS - 8..MOST_SEGMENTS + 12),
        _ => rng.gen_range(0..20),
    };
    let element = |rng: &mut R| Element::new(rng.gen_range(0..40), *b"=DIMNX".choose(rng).expect("not empty"));
    let mut elements: Vec<_> = (0..number).map(|_| element(rng)).collect();
    if rng.gen_ratio(1, 32) {
        // Three bytes each, and single ones up to the limit and beyond.
        elements = vec![Element::new(10, b'M'); MOST_TEXT / 3 - 1];
        elements.resize(elements.len() + rng.gen_range(2..8), Element::new(1, b'X'));
    }
    if let Some(element) = elements.choose_mut(rng) {
        match rng.gen_range(0..16) {
            0..=3 => element.count = self::number(rng),
            4 | 5 => element.letter = rng.gen(),
            6 => *element = Element::new(self::number(rng), rng.gen()),
            _ => (),
        }
    }
    let room = if rng.gen_ratio(1, 3) { rng.gen_range(0..60) } else { MOST_TEXT + 4 };
    (elements, room)
}

/// A BAM word: mostly of the six operations, its length small, at a limit or any.
fn word<R: Rng>(rng: &mut R) -> u32 {
    let operation =
        if rng.gen_ratio(1, 60) { rng.gen_range(0..16) } else { *[0, 1, 2, 3, 7, 8].choose(rng).expect("not empty") };
    let length = match rng.gen_range(0..8) {
        0 => *[0, 1, (1 << 27) - 1, 1 << 27, (1 << 28) - 1].choose(rng).expect("not empty"),
        1 => rng.gen_range(0..1 << 28),
        _ => rng.gen_range(0..40),
    };
    length << 4 | operation
}

/// How many elements or words there are: few, or around the most.
fn much<R: Rng>(rng: &mut R) -> usize {
    match rng.gen_range(0..16) {
        0 => rng.gen_range(MOST_SEGMENTS - 4..MOST_SEGMENTS + 6),
        _ => rng.gen_range(0..20),
    }
}

/// Room for so many: enough, just that, or too little.
pub fn room<R: Rng>(rng: &mut R, number: usize) -> usize {
    match rng.gen_range(0..6) {
        0 => rng.gen_range(0..=number),
        1 => number,
        _ => number + rng.gen_range(0..5),
    }
}

/// BAM words to be read, and the lengths of the slices for their counts and letters. A fault may stand anywhere, also past the most.
pub fn words<R: Rng>(rng: &mut R) -> (Vec<u32>, [usize; 2]) {
    let number = much(rng);
    // Each word has its chance of a fault, so that most long lists would have one; half of them are given M in its place.
    let whole = number > 20 && rng.gen();
    let mended = |word: u32| if whole && paper::read_bam(&[word], 1).is_err() { word & !15 } else { word };
    let mut words: Vec<_> = (0..number).map(|_| mended(word(rng))).collect();
    if let Some(last) = words.last_mut().filter(|_| whole && rng.gen()) {
        // Any operation, by the lowest bits of its length.
        let word = self::word(rng);
        *last = word ^ (word >> 4 & 15);
    }
    (words, [room(rng, number), room(rng, number)])
}

/// Elements to be written as BAM words, and the room for them: some have a fault, or a count around the largest.
pub fn worded<R: Rng>(rng: &mut R) -> (Vec<Element>, usize) {
    let number = much(rng);
    let element = |rng: &mut R| Element::new(rng.gen_range(0..40), *b"=DIMNX".choose(rng).expect("not empty"));
    let mut elements: Vec<_> = (0..number).map(|_| element(rng)).collect();
    for _ in 0..rng.gen_range(0..3) {
        let Some(element) = elements.choose_mut(rng) else { break };
        match rng.gen_range(0..6) {
            0 => element.count = MOST_WORD_COUNT - rng.gen_range(-2..3),
            1 => element.count = self::number(rng),
            2 => element.letter = rng.gen(),
            3 => *element = Element::new(self::number(rng), *b"SHP*m\0".choose(rng).expect("not empty")),
            _ => (),
        }
    }
    (elements, room(rng, number))
}

/// Moves the exon numbers on one side of a segment by one, up or down, so that a step behind it comes, goes or doubles: mostly an N. Where
/// the record count moves along, and the numbers begin and end as they must, an N is now a gap, or a gap an N inside a record.
fn restep<R: Rng>(rng: &mut R, lent: &mut Lent, count: usize) {
    let skipped: Vec<_> = (0..count).filter(|&index| lent.letters[index] == b'N').collect();
    let index = match skipped.choose(rng) {
        Some(&index) if rng.gen_ratio(9, 10) => index,
        _ => rng.gen_range(0..=count),
    };
    let by: i16 = if rng.gen() { 1 } else { -1 };
    // Numbers fall on strand -1: there those from the segment to the left move, and the last stays 1.
    let on_the_right = if rng.gen_ratio(9, 10) { lent.head.strand == 1 } else { rng.gen() };
    let moved = if on_the_right { index + 1..count } else { 0..index + 1 };
    for number in lent.exons.get_mut(moved).unwrap_or_default() {
        *number = number.wrapping_add_signed(by);
    }
    if rng.gen_ratio(3, 4) {
        lent.head.record_count = lent.head.record_count.wrapping_add(by.into());
    }
}

/// Changes the exon numbers or the record count: near misses for the most part.
fn renumber<R: Rng>(rng: &mut R, lent: &mut Lent, index: usize, count: usize) {
    let by: i16 = if rng.gen() { 1 } else { -1 };
    match rng.gen_range(0..10) {
        0..=3 => restep(rng, lent, count),
        4 => lent.exons[index] = lent.exons[index].wrapping_add_signed(by),
        5 => lent.head.record_count = lent.head.record_count.wrapping_add(by.into()),
        6 => lent.head.record_count = *[0, 1, -1, 511, 512, 513, 65_536].choose(rng).expect("not empty"),
        7 => {
            // All of them, with the record count or without it.
            for number in &mut lent.exons[..count] {
                *number = number.wrapping_add_signed(by);
            }
            if rng.gen() {
                lent.head.record_count = lent.head.record_count.wrapping_add(by.into());
            }
        }
        8 => {
            // As on the other strand.
            lent.exons[..count].reverse();
        }
        _ => lent.exons[index] = number(rng) as u16,
    }
}

/// Changes one number or letter of lent memory, or a start on both sides, or the exon numbers.
pub fn damage<R: Rng>(rng: &mut R, lent: &mut Lent) {
    let last = lent.letters.len() - 1;
    let count = usize::try_from(lent.head.segment_count).unwrap_or(0).min(last);
    // Mostly among the places in use.
    let index = if rng.gen_ratio(9, 10) { rng.gen_range(0..=count) } else { rng.gen_range(0..=last) };
    let place = match rng.gen_range(0..9) {
        0 | 1 => Place::Head(rng.gen_range(0..Head::COUNT)),
        2 => Place::Genome(index),
        3 => Place::Transcript(index),
        4 => {
            lent.letters[index] = *b"=DIMNXS\0m\xff".choose(rng).expect("not empty");
            return;
        }
        5..=7 => return renumber(rng, lent, index, count),
        _ => {
            // Both sides at once can keep a matched segment whole.
            let by = rng.gen_range(0..3);
            lent.genome[index] = lent.genome[index].wrapping_add(by);
            lent.transcript[index] = lent.transcript[index].wrapping_add(by);
            return;
        }
    };
    let old = lent.get(place);
    let new = match rng.gen_range(0..3) {
        0 => old.wrapping_add(rng.gen_range(-2..3)),
        1 => old ^ 1 << rng.gen_range(0..32),
        _ => number(rng),
    };
    lent.put(place, new);
}

/// Random bytes, or a card with some bytes changed, cut or added.
pub fn card<R: Rng>(rng: &mut R) -> Vec<u8> {
    if rng.gen_ratio(1, 6) {
        let mut bytes = vec![0; rng.gen_range(0..80)];
        rng.fill(&mut bytes[..]);
        let known = rng.gen_range(0..=5.min(bytes.len()));
        bytes[..known].copy_from_slice(&b"TXC\x01\x00"[..known]);
        return bytes;
    }
    let mut card = case(rng).card();
    for _ in 0..rng.gen_range(0..4) {
        let at = rng.gen_range(0..card.len());
        match rng.gen_range(0..8) {
            0 => card.truncate(at),
            1 => card.push(rng.gen()),
            2 => card[at.min(16)] = rng.gen(),
            3 => card[at] ^= 1 << rng.gen_range(0..8),
            4 if rng.gen_ratio(1, 50) => card.resize(65_537, 0),
            _ => (),
        }
        if card.is_empty() {
            break;
        }
    }
    card
}

/// A number near the places of a table, a limit, or any; `base` is the number of place 0.
fn near<R: Rng>(rng: &mut R, starts: &[i64], base: i64) -> i32 {
    let total = starts[starts.len() - 1];
    let number = match rng.gen_range(0..20) {
        0 => return number(rng),
        1..=9 => starts[rng.gen_range(0..starts.len())] + rng.gen_range(-2..=2),
        _ => rng.gen_range(-2..=total + 2),
    };
    (number + base).clamp(i64::from(i32::MIN), i64::from(i32::MAX)) as i32
}

fn offset<R: Rng>(rng: &mut R) -> i32 {
    match rng.gen_range(0..20) {
        0 => number(rng),
        1..=7 => rng.gen_range(-5..=5),
        _ => 0,
    }
}

/// A position that suits a kind of question to a transcript.
fn asked<R: Rng>(rng: &mut R, kind: Kind, source: &Source) -> Asked {
    let length = [0, source.length()];
    let (starts, base): (&[i64], i64) = match source {
        Source::Records(Aligned { genome, first, .. }) if kind.is_about_g() => (genome, first + 1),
        Source::Records(Aligned { transcript, .. }) => (transcript, 1),
        Source::Length(..) => (&length, 1),
    };
    if !kind.is_about_c() {
        let base = near(rng, starts, base);
        return Asked { base, offset: if kind.is_about_g() { 0 } else { offset(rng) }, star: false };
    }
    let (s, e) = source.cds().unwrap_or((0, 0));
    let star = rng.gen_ratio(1, 3);
    let base = near(rng, starts, if star { 1 - e } else { 1 - s });
    Asked { base, offset: offset(rng), star }
}

/// The positions of a worklist for a transcript: few, or now and then many, mostly in order and with equal ones among them. Some fall,
/// in one place or throughout.
pub fn worklist<R: Rng>(rng: &mut R, source: &Source) -> Vec<i32> {
    let count = if rng.gen_ratio(1, 40) { rng.gen_range(200..600) } else { rng.gen_range(0..24) };
    let mut positions: Vec<_> = (0..count).map(|_| asked(rng, Kind::GToN, source).base).collect();
    if rng.gen_ratio(1, 12) {
        return positions;
    }
    positions.sort_unstable();
    if count > 1 && rng.gen_ratio(1, 4) {
        // The last pair as often as any other.
        let at = if rng.gen() { count - 1 } else { rng.gen_range(1..count) };
        match rng.gen_range(0..3) {
            0 => positions[at] = positions[at - 1],
            1 => positions[at] = positions[at - 1].saturating_sub(1),
            _ => positions.swap(at - 1, at),
        }
    }
    positions
}

/// A question to a transcript.
pub fn question<R: Rng>(rng: &mut R, source: &Source) -> Question {
    let kind = if rng.gen_ratio(1, 40) { Kind::IsCoding } else { Kind::ALL[rng.gen_range(0..7)] };
    if kind == Kind::IsCoding {
        return Question { kind, start: Asked::default(), end: Asked::default(), missing: 0, strict: false };
    }
    question_of(rng, kind, source)
}

/// A question of a kind that is about an interval, to a transcript.
pub fn question_of<R: Rng>(rng: &mut R, kind: Kind, source: &Source) -> Question {
    let start = asked(rng, kind, source);
    let end = if rng.gen() { start } else { asked(rng, kind, source) };
    let missing = if kind.is_about_g() && rng.gen_ratio(1, 50) { rng.gen_range(1..4) } else { 0 };
    let strict = kind != Kind::InBounds && rng.gen();
    Question { kind, start, end, missing, strict }
}

/// A letter outside the nucleotide list: one that people write, a neighbour of those in it, or any.
fn other_letter<R: Rng>(rng: &mut R) -> u8 {
    let letter = if rng.gen() { *b"UuEIiZz@[`{-.*?0 X".choose(rng).expect("not empty") } else { rng.gen() };
    if b"ACGTRYKMBDHVSWN".contains(&letter.to_ascii_uppercase()) {
        letter | 0x80
    } else {
        letter
    }
}

/// So many letters of the nucleotide list at most: any of them, or of two alone, so that alleles share some.
fn letters<R: Rng>(rng: &mut R, most: usize) -> Vec<u8> {
    let lists = [&b"AC"[..], b"AT", b"aA", b"ACGTRYKMBDHVSWNacgtrykmbdhvswn"];
    let list = lists.choose(rng).expect("not empty");
    (0..rng.gen_range(0..=most)).map(|_| *list.choose(rng).expect("not empty")).collect()
}

/// An allele, now and then with a letter outside the list, and the room for it.
pub fn allele<R: Rng>(rng: &mut R) -> (Vec<u8>, usize) {
    let most = if rng.gen_ratio(1, 20) { 600 } else { 12 };
    let mut allele = letters(rng, most);
    spoil_letter(rng, &mut allele);
    let room = room(rng, allele.len());
    (allele, room)
}

/// Puts a letter outside the list into an allele now and then.
fn spoil_letter<R: Rng>(rng: &mut R, allele: &mut [u8]) {
    if rng.gen_ratio(1, 12) {
        if let Some(letter) = allele.choose_mut(rng) {
            *letter = other_letter(rng);
        }
    }
}

/// A reference and an alternative, which share a front and a back more often than not, and the rooms for what is left of them: mostly
/// around just that.
pub fn alleles<R: Rng>(rng: &mut R) -> ([Vec<u8>; 2], [usize; 2]) {
    let most = if rng.gen_ratio(1, 30) { 300 } else { 5 };
    let (front, back) = (letters(rng, most), letters(rng, most));
    let mut both = [(); 2].map(|()| [&front[..], &letters(rng, 3), &back].concat());
    let least = both[0].len().min(both[1].len());
    let common = (paper::prefix(&both[0], &both[1]) + paper::suffix(&both[0], &both[1])).min(least);
    let rooms = [0, 1].map(|index| room(rng, both[index].len() - common));
    both.iter_mut().for_each(|allele| spoil_letter(rng, allele));
    (both, rooms)
}

// ---- Questions as one value, and logs

/// A question as one value that an entry can hold.
fn held<R: Rng>(rng: &mut R, source: &Source) -> Numbers {
    let kind = Kind::MAPPINGS[rng.gen_range(0..Kind::MAPPINGS.len())];
    question_of(rng, kind, source).numbers().expect("one of the six mappings")
}

/// A question as one value, now and then with a number that no entry can hold.
pub fn numbers<R: Rng>(rng: &mut R, source: &Source) -> Numbers {
    let mut numbers = held(rng, source);
    if !rng.gen_ratio(1, 3) {
        return numbers;
    }
    let no_such = *[1, 2, 3, 4, 128, 256, 257, 258, 1 << 31, u32::MAX].choose(rng).expect("not empty");
    match rng.gen_range(0..9) {
        0 => numbers.kind = *[6, 7, 255, 256, 261, u32::MAX].choose(rng).expect("not empty"),
        1 => numbers.kind = rng.gen_range(0..6),
        2 => numbers.strict = no_such,
        3 => numbers.start_marks = no_such,
        4 => numbers.end_marks = no_such,
        5 => (numbers.start_marks, numbers.start) = (2, 0),
        6 => (numbers.end_marks, numbers.end) = (2, 0),
        7 => numbers.start_offset = number(rng),
        _ => numbers.end_offset = number(rng),
    }
    numbers
}

/// What was said to a question: by one of some transcripts (none: it did not hold together), and now and then otherwise, also as no
/// mapping answers.
fn said<R: Rng>(rng: &mut R, question: Numbers, of: &[Option<&Source>]) -> Answer {
    let mut answer = logs::ask(of[rng.gen_range(0..of.len())], &question);
    if rng.gen_ratio(1, 6) {
        match rng.gen_range(0..8) {
            0 => answer.start.exon ^= 1,
            1 => answer.end.exon ^= 1,
            2 => answer.start.base ^= 1,
            3 => answer.end.offset = number(rng),
            4 => answer.end.star ^= 1,
            5 => answer.mark = rng.gen_range(0..4),
            6 => answer = Answer { number: rng.gen_range(12..25), ..Answer::default() },
            _ => answer.number = rng.gen_range(0..40),
        }
    }
    answer
}

/// Sets a byte of an entry, or of mark and version, to a value that some field has, a neighbour of what was there, or any.
fn spoil_byte<R: Rng>(rng: &mut R, log: &mut [u8]) {
    let Some(byte) = log.choose_mut(rng) else { return };
    *byte = match rng.gen_range(0..3) {
        0 => *[0, 1, 2, 3, 4, 5, 6, 13, 14, 15, 16, 17, 18, 19, 23, 35, 36].choose(rng).expect("not empty"),
        1 => *byte ^ 1 << rng.gen_range(0..8),
        _ => rng.gen(),
    };
}

/// Gives a log another mark or version, cuts it, or puts bytes behind it.
fn spoil_log<R: Rng>(rng: &mut R, log: &mut Vec<u8>) {
    match rng.gen_range(0..8) {
        0 => log.truncate(rng.gen_range(0..=log.len())),
        1 => log.truncate(rng.gen_range(0..=log.len().min(LOG_HEAD))),
        2 => log.extend(vec![0; rng.gen_range(1..2 * ENTRY)]),
        3 => log.extend(vec![0; MOST_LOG + rng.gen_range(0..3) - log.len().min(MOST_LOG)]),
        4 => {
            let version = [0u16, 2, 256, 257].choose(rng).expect("not empty").to_le_bytes();
            log[3..LOG_HEAD].copy_from_slice(&version);
        }
        5 => log[rng.gen_range(0..3)] ^= 32,
        _ => spoil_byte(rng, log),
    }
}

/// A log of questions to a transcript, with what this or another transcript said to them: few, or now and then about as many as a
/// log holds, which are then alike. Some logs are damaged.
pub fn log<R: Rng>(rng: &mut R, source: &Source, of: &[Option<&Source>]) -> Vec<u8> {
    let mut entries = Vec::new();
    for _ in 0..rng.gen_range(0..14) {
        let question = held(rng, source);
        let entry = Entry { question, answer: said(rng, question, of) };
        // Each wrong field would refuse the log, so that most would be: few are kept.
        if logs::is_entry(&entry) || rng.gen_ratio(1, 6) {
            entries.push(entry);
        }
    }
    if rng.gen_ratio(1, 400) && !entries.is_empty() {
        let most = rng.gen_range(MOST_ENTRIES - 1..MOST_ENTRIES + 2);
        entries = entries.into_iter().cycle().take(most).collect();
    }
    let mut log = logs::write(&entries);
    if rng.gen_ratio(1, 4) {
        spoil_log(rng, &mut log);
    }
    log
}

/// Bytes lent for recording, and how many of them are said to be in use: none, a log's, as many as a log has whatever stands in them, or
/// any number.
pub fn recording<R: Rng>(rng: &mut R, source: &Source) -> (Vec<u8>, usize) {
    let mut log = match rng.gen_range(0..8) {
        0..=2 => Vec::new(),
        3..=5 => log(rng, source, &[Some(source)]),
        6 if rng.gen_ratio(1, 20) => {
            let count = rng.gen_range(MOST_ENTRIES - 2..MOST_ENTRIES + 2);
            [&logs::HEAD[..], &vec![rng.gen(); ENTRY * count]].concat()
        }
        _ => [&logs::HEAD[..], &vec![rng.gen(); ENTRY * rng.gen_range(0..4)]].concat(),
    };
    let used = if rng.gen_ratio(1, 12) { rng.gen_range(0..=log.len() + 2) } else { log.len() };
    let room = match rng.gen_range(0..6) {
        0 => used + rng.gen_range(0..ENTRY + LOG_HEAD + 1),
        1 => used + ENTRY,
        2 => used + ENTRY + LOG_HEAD,
        _ => used + rng.gen_range(ENTRY..3 * ENTRY),
    };
    log.resize(room, rng.gen());
    let used = if rng.gen_ratio(1, 40) {
        *[room, room + 1, room + ENTRY, usize::MAX].choose(rng).expect("not empty")
    } else {
        used
    };
    (log, used)
}

#[cfg(test)]
mod tests {
    use super::*;
    use rand::SeedableRng;
    use rand_xorshift::XorShiftRng;

    /// Few are up to 256 for the finders.
    #[test]
    fn long_transcripts_have_few_segments_and_many() {
        let mut rng = XorShiftRng::seed_from_u64(1);
        let mut counts = Vec::new();
        for _ in 0..200 {
            let case = long(&mut rng);
            if let Ok(built) = paper::build(case.laid(&case.lay())) {
                counts.push(built.letters.len());
            }
        }
        let few = counts.iter().filter(|&&count| count <= 256).count();
        assert!(few >= 10 && counts.len() - few >= 50, "{few} of {}", counts.len());
    }
}
