//! The boundary as `include/txc.h` has it: plain numbers and lent memory, one function an entry.
//!
//! Every entry answers any numbers and any bytes, so each is safe to call. The rest of the crate stands on this module; it
//! alone says `unsafe`, for the entries that take a pointer and a length. A question is handed its transcript as a
//! [`Reading`], a building its memory as a [`Filling`]: the tables that an entry takes are spelled out here alone.
#![allow(unsafe_code)]

use crate::limits::{MOST_SEGMENTS, MOST_STARTS};

// ---- What is lent

/// Declares the head by the names of its numbers, in their order.
macro_rules! head {
    ($($(#[$words:meta])* $name:ident)*) => {
        /// The head of a transcript. A number that its kind or its bit does not use is written 0 and not looked at.
        #[repr(C)]
        #[derive(Clone, Copy, Debug, PartialEq, Eq)]
        pub struct Head {
            $($(#[$words])* pub $name: i32,)*
        }

        impl Head {
            /// How many numbers it has.
            pub const COUNT: usize = [$(stringify!($name)),*].len();

            /// A head that holds one number throughout.
            pub const fn filled(with: i32) -> Head {
                Head { $($name: with),* }
            }

            /// Its numbers in their order.
            pub const fn numbers(self) -> [i32; Head::COUNT] {
                [$(self.$name),*]
            }
        }

        impl From<[i32; Head::COUNT]> for Head {
            fn from([$($name),*]: [i32; Head::COUNT]) -> Head {
                Head { $($name),* }
            }
        }
    };
}

head! {
    /// [`Head::RECORDS`] or [`Head::LENGTH_ONLY`].
    kind
    /// 1 or -1.
    strand
    /// Where the first record begins on the genome.
    first_start
    /// How many segments there are.
    segment_count
    /// Which CDS bounds are given: the bits of [`Cds`].
    cds_bits
    /// The CDS start.
    cds_start
    /// The CDS end.
    cds_end
    /// The length of a length-only transcript.
    length
    /// How many records there are.
    record_count
}

impl Head {
    /// The kind of a transcript that was built from records.
    pub const RECORDS: i32 = 0;
    /// The kind of a transcript that was built from a length alone.
    pub const LENGTH_ONLY: i32 = 1;
}

// The entries see an array of numbers.
const _: () = assert!(size_of::<Head>() == size_of::<[i32; Head::COUNT]>());
const _: () = assert!(align_of::<Head>() == align_of::<i32>());

/// The running starts of the segments on one side, and the total.
pub type Starts = [u32; MOST_STARTS];
/// The segments' letters.
pub type Letters = [u8; MOST_SEGMENTS];
/// The segments' exon numbers. A gap between records has that of the record to its left on the genome.
pub type Exons = [u16; MOST_SEGMENTS];
/// The counts of elements.
pub type Counts = [i32; MOST_SEGMENTS];

/// A transcript that is lent to a question (`TXC_READ`).
#[derive(Clone, Copy, Debug)]
pub struct Reading<'a> {
    /// The head.
    pub head: &'a Head,
    /// The starts on the genome.
    pub genome: &'a Starts,
    /// The starts on the transcript.
    pub transcript: &'a Starts,
    /// The letters.
    pub letters: &'a Letters,
    /// The exon numbers.
    pub exons: &'a Exons,
}

/// Memory that is lent to a building (`TXC_LENT`).
#[derive(Debug)]
pub struct Filling<'a> {
    /// The head.
    pub head: &'a mut Head,
    /// The starts on the genome.
    pub genome: &'a mut Starts,
    /// The starts on the transcript.
    pub transcript: &'a mut Starts,
    /// The letters.
    pub letters: &'a mut Letters,
    /// The exon numbers.
    pub exons: &'a mut Exons,
}

// ---- What is asked

/// CDS bounds, each given or not.
#[derive(Clone, Copy, Debug, PartialEq, Eq)]
pub struct Cds {
    /// [`Cds::START`] and [`Cds::END`], each where it is given.
    pub bits: u32,
    /// The start, 0 where it is not given.
    pub start: i32,
    /// The end, 0 where it is not given.
    pub end: i32,
}

impl Cds {
    /// The bit of a start that is given.
    pub const START: u32 = 1;
    /// The bit of an end that is given.
    pub const END: u32 = 2;

    /// The bounds that are given.
    pub fn new(start: Option<i32>, end: Option<i32>) -> Cds {
        let bit = |bound: Option<i32>, bit| if bound.is_some() { bit } else { 0 };
        Cds { bits: bit(start, Cds::START) | bit(end, Cds::END), start: start.unwrap_or(0), end: end.unwrap_or(0) }
    }
}

/// Building's input. The records are laid out as in a card.
#[derive(Clone, Copy, Debug, PartialEq, Eq)]
pub struct Laid<'a> {
    /// 1 or -1.
    pub strand: i32,
    /// The CDS bounds.
    pub cds: Cds,
    /// How many records there are.
    pub count: usize,
    /// Their bytes.
    pub records: &'a [u8],
}

/// A g. interval that is asked.
#[derive(Clone, Copy, Debug, Default, PartialEq, Eq)]
pub struct AskedG {
    /// The first base.
    pub start: i32,
    /// The last base.
    pub end: i32,
    /// [`AskedG::START`] and [`AskedG::END`], each where it is missing.
    pub missing: u32,
}

impl AskedG {
    /// The bit of a start that is missing.
    pub const START: u32 = 1;
    /// The bit of an end that is missing.
    pub const END: u32 = 2;
}

/// An n. or c. position that is asked; of an n. position the star does not count.
#[derive(Clone, Copy, Debug, Default, PartialEq, Eq)]
pub struct Asked {
    /// The number.
    pub base: i32,
    /// The intron offset, 0 for none.
    pub offset: i32,
    /// Whether the number counts from the end of the CDS.
    pub star: bool,
}

/// A question of the six mappings as one value. Those that no entry of a log can hold are refused (35).
#[repr(C)]
#[derive(Clone, Copy, Debug, Default, PartialEq, Eq)]
pub struct Question {
    /// [`Question::G_TO_N`] or another of the six.
    pub kind: u32,
    /// 1 where bounds are strict, else 0.
    pub strict: u32,
    /// Of the start: [`Question::STAR`] in c. alone, [`Question::MISSING`] in g. alone.
    pub start_marks: u32,
    /// Of the end, likewise.
    pub end_marks: u32,
    /// The start's number, 0 where it is missing.
    pub start: i32,
    /// Its offset, 0 in g.
    pub start_offset: i32,
    /// The end's number, 0 where it is missing.
    pub end: i32,
    /// Its offset, 0 in g.
    pub end_offset: i32,
}

impl Question {
    /// The kind of [`g_to_n`].
    pub const G_TO_N: u32 = 0;
    /// The kind of [`n_to_g`].
    pub const N_TO_G: u32 = 1;
    /// The kind of [`n_to_c`].
    pub const N_TO_C: u32 = 2;
    /// The kind of [`c_to_n`].
    pub const C_TO_N: u32 = 3;
    /// The kind of [`g_to_c`].
    pub const G_TO_C: u32 = 4;
    /// The kind of [`c_to_g`].
    pub const C_TO_G: u32 = 5;

    /// The mark of a number that counts from the end of the CDS.
    pub const STAR: u32 = 1;
    /// The mark of an end that is missing.
    pub const MISSING: u32 = 2;
}

// ---- What is answered

/// A position that is answered; a g. position has no offset and no star.
#[repr(C)]
#[derive(Clone, Copy, Debug, Default, PartialEq, Eq)]
pub struct Position {
    /// The number.
    pub base: i32,
    /// The intron offset, 0 for none.
    pub offset: i32,
    /// 1 where the number counts from the end of the CDS.
    pub star: u32,
    /// The exon's number, from 1 in transcript order; 0 in answers of n. to c. and back.
    pub exon: u32,
}

impl From<Position> for Asked {
    fn from(answered: Position) -> Asked {
        Asked { base: answered.base, offset: answered.offset, star: answered.star != 0 }
    }
}

/// What a mapping answers; where `number` is not 0, all else is.
#[repr(C)]
#[derive(Clone, Copy, Debug, Default, PartialEq, Eq)]
pub struct Answer {
    /// The refusal's number, 0 for none.
    pub number: u32,
    /// [`Answer::CERTAIN`], [`Answer::UNCERTAIN`] or [`Answer::UNMARKED`].
    pub mark: u32,
    /// The interval's start.
    pub start: Position,
    /// The interval's end.
    pub end: Position,
}

impl Answer {
    /// The mark of a certain interval.
    pub const CERTAIN: u32 = 1;
    /// The mark of an uncertain interval.
    pub const UNCERTAIN: u32 = 2;
    /// The mark of n. to c. and back.
    pub const UNMARKED: u32 = 3;
}

/// What a question of yes or no answers.
#[repr(C)]
#[derive(Clone, Copy, Debug, Default, PartialEq, Eq)]
pub struct Said {
    /// The refusal's number, 0 for none.
    pub number: u32,
    /// 1 for yes.
    pub yes: u32,
}

/// A place of a worklist: a g. position, and room for its answer.
#[repr(C)]
#[derive(Clone, Copy, Debug, PartialEq, Eq)]
pub struct Slot {
    /// The g. position, which stays.
    pub position: i32,
    /// What [`g_to_n`] says of that one base in strict mode, its refusal included.
    pub answer: Answer,
}

/// What a worklist answers; where `number` is not 0, `steps` is 0 and no slot has changed.
#[repr(C)]
#[derive(Clone, Copy, Debug, Default, PartialEq, Eq)]
pub struct Steps {
    /// The refusal's number, 0 for none.
    pub number: u32,
    /// The number, from 0, of the segment that holds the largest position within strict bounds, or 0 where there is none.
    pub steps: u32,
}

/// How much was read or written.
#[repr(C)]
#[derive(Clone, Copy, Debug, Default, PartialEq, Eq)]
pub struct Length {
    /// The refusal's number, 0 for none.
    pub number: u32,
    /// Elements read, or bytes or words written.
    pub length: usize,
}

/// What a g. interval with two alleles answers; where the answer's number is not 0, all else is, and no buffer has changed.
#[repr(C)]
#[derive(Clone, Copy, Debug, Default, PartialEq, Eq)]
pub struct Joined {
    /// What [`g_to_c`] answers.
    pub answer: Answer,
    /// How many letters went at the front, in transcript direction.
    pub prefix: usize,
    /// How many letters went at the back.
    pub suffix: usize,
    /// How many letters of the reference stand in its buffer.
    pub reference: usize,
    /// How many letters of the alternative stand in its buffer.
    pub alternative: usize,
}

/// What recording answers; where `number` is not 0, all else is, and no byte of the log has changed.
#[repr(C)]
#[derive(Clone, Copy, Debug, Default, PartialEq, Eq)]
pub struct Recorded {
    /// The refusal's number, 0 for none.
    pub number: u32,
    /// How many bytes the log has now.
    pub length: usize,
    /// What [`ask`] answers, a refusal too: it stands in the log.
    pub answer: Answer,
}

/// A part of the reference or of the alternative.
#[repr(C)]
#[derive(Clone, Copy, Debug, Default, PartialEq, Eq)]
pub struct Part {
    /// 0 the reference, 1 the alternative.
    pub alternative: u32,
    /// Where the part begins.
    pub from: usize,
    /// Where it ends.
    pub to: usize,
}

// ---- The entries

/// Declares the entries that are asked of a transcript, and for each a function that hands it over. An entry stands as in the
/// header but for `TXC_READ`, each number with what it is taken from.
macro_rules! questions {
    ($(
        $(#[$words:meta])*
        $name:ident($($given:ident: $given_as:ty),*) -> $answer:ty,
        $entry:ident($($number:ident: $kind:ty = $from:expr),*);
    )*) => {
        // SAFETY: the types are those of include/txc.h, and the entries are proved to answer whatever they are given.
        unsafe extern "C" {
            $(safe fn $entry(
                head: &Head,
                genome: &Starts,
                transcript: &Starts,
                letters: &Letters,
                exons: &Exons,
                $($number: $kind),*
            ) -> $answer;)*
        }

        $(
            $(#[$words])*
            #[inline]
            pub fn $name(of: Reading<'_> $(, $given: $given_as)*) -> $answer {
                let Reading { head, genome, transcript, letters, exons } = of;
                $entry(head, genome, transcript, letters, exons $(, $from)*)
            }
        )*
    };
}

questions! {
    /// g. to n.
    g_to_n(g: AskedG, strict: bool) -> Answer,
    txc_g_to_n(start: i32 = g.start, end: i32 = g.end, missing: u32 = g.missing, strict: bool = strict);

    /// g. to c.
    g_to_c(g: AskedG, strict: bool) -> Answer,
    txc_g_to_c(start: i32 = g.start, end: i32 = g.end, missing: u32 = g.missing, strict: bool = strict);

    /// n. to g.
    n_to_g(start: Asked, end: Asked, strict: bool) -> Answer,
    txc_n_to_g(
        start: i32 = start.base,
        start_offset: i32 = start.offset,
        end: i32 = end.base,
        end_offset: i32 = end.offset,
        strict: bool = strict
    );

    /// n. to c.
    n_to_c(start: Asked, end: Asked, strict: bool) -> Answer,
    txc_n_to_c(
        start: i32 = start.base,
        start_offset: i32 = start.offset,
        end: i32 = end.base,
        end_offset: i32 = end.offset,
        strict: bool = strict
    );

    /// c. to n.
    c_to_n(start: Asked, end: Asked, strict: bool) -> Answer,
    txc_c_to_n(
        start: i32 = start.base,
        start_offset: i32 = start.offset,
        start_star: bool = start.star,
        end: i32 = end.base,
        end_offset: i32 = end.offset,
        end_star: bool = end.star,
        strict: bool = strict
    );

    /// c. to g.
    c_to_g(start: Asked, end: Asked, strict: bool) -> Answer,
    txc_c_to_g(
        start: i32 = start.base,
        start_offset: i32 = start.offset,
        start_star: bool = start.star,
        end: i32 = end.base,
        end_offset: i32 = end.offset,
        end_star: bool = end.star,
        strict: bool = strict
    );

    /// Whether a g. interval is in bounds.
    in_bounds(g: AskedG) -> Said,
    txc_in_bounds(start: i32 = g.start, end: i32 = g.end, missing: u32 = g.missing);

    /// Whether the transcript codes.
    is_coding() -> Said,
    txc_is_coding();

    /// The one of the six mappings that a question names.
    ask(question: Question) -> Answer,
    txc_ask(question: Question = question);
}

// SAFETY: as above. Those with a pointer and a length read, or write, just that many bytes, numbers or slots.
unsafe extern "C" {
    fn txc_worklist(
        head: &Head,
        genome: &Starts,
        transcript: &Starts,
        letters: &Letters,
        exons: &Exons,
        slots: *mut Slot,
        slots_len: usize,
    ) -> Steps;

    fn txc_g_to_c_alleles(
        head: &Head,
        genome: &Starts,
        transcript: &Starts,
        letters: &Letters,
        exons: &Exons,
        start: i32,
        end: i32,
        missing: u32,
        strict: bool,
        reference: *const u8,
        reference_len: usize,
        alternative: *const u8,
        alternative_len: usize,
        reference_out: *mut u8,
        reference_room: usize,
        alternative_out: *mut u8,
        alternative_room: usize,
    ) -> Joined;

    fn txc_record(
        head: &Head,
        genome: &Starts,
        transcript: &Starts,
        letters: &Letters,
        exons: &Exons,
        question: Question,
        log: *mut u8,
        log_room: usize,
        log_len: usize,
    ) -> Recorded;
    fn txc_replay(
        head: &Head,
        genome: &Starts,
        transcript: &Starts,
        letters: &Letters,
        exons: &Exons,
        log: *const u8,
        log_len: usize,
        buffer: *mut u8,
        buffer_len: usize,
    ) -> Length;

    fn txc_build(
        strand: i32,
        cds: u32,
        cds_start: i32,
        cds_end: i32,
        count: usize,
        records: *const u8,
        records_len: usize,
        head: &mut Head,
        genome: &mut Starts,
        transcript: &mut Starts,
        letters: &mut Letters,
        exons: &mut Exons,
    ) -> u32;
    fn txc_build_card(
        card: *const u8,
        card_len: usize,
        head: &mut Head,
        genome: &mut Starts,
        transcript: &mut Starts,
        letters: &mut Letters,
        exons: &mut Exons,
    ) -> u32;
    safe fn txc_build_length(length: i32, cds: u32, cds_start: i32, cds_end: i32, head: &mut Head) -> u32;

    fn txc_read_cigar(text: *const u8, text_len: usize, counts: &mut Counts, letters: &mut Letters) -> Length;
    fn txc_write_cigar(number: usize, counts: &Counts, letters: &Letters, buffer: *mut u8, buffer_len: usize)
        -> Length;
    fn txc_write_card(
        strand: i32,
        cds: u32,
        cds_start: i32,
        cds_end: i32,
        count: usize,
        records: *const u8,
        records_len: usize,
        buffer: *mut u8,
        buffer_len: usize,
    ) -> Length;

    fn txc_read_bam(
        words: *const u32,
        words_len: usize,
        counts: *mut i32,
        counts_len: usize,
        letters: *mut u8,
        letters_len: usize,
    ) -> Length;
    fn txc_write_bam(number: usize, counts: &Counts, letters: &Letters, words: *mut u32, words_len: usize) -> Length;

    fn txc_trim_prefix(
        reference: *const u8,
        reference_len: usize,
        alternative: *const u8,
        alternative_len: usize,
    ) -> usize;
    fn txc_trim_suffix(
        reference: *const u8,
        reference_len: usize,
        alternative: *const u8,
        alternative_len: usize,
    ) -> usize;
    fn txc_changed(reference: *const u8, reference_len: usize, alternative: *const u8, alternative_len: usize) -> Part;
    fn txc_turn(allele: *const u8, allele_len: usize, buffer: *mut u8, buffer_len: usize) -> Length;
}

/// Answers the slots of a sorted worklist in one walk, and says how many segments it stepped over.
#[inline]
pub fn worklist(of: Reading<'_>, slots: &mut [Slot]) -> Steps {
    let Reading { head, genome, transcript, letters, exons } = of;
    // SAFETY: pointer and length are the slice's.
    unsafe { txc_worklist(head, genome, transcript, letters, exons, slots.as_mut_ptr(), slots.len()) }
}

/// g. to c. with two alleles of the genome, which are written as the transcript reads them, trimmed.
#[inline]
pub fn g_to_c_alleles(
    of: Reading<'_>,
    g: AskedG,
    strict: bool,
    reference: &[u8],
    alternative: &[u8],
    reference_out: &mut [u8],
    alternative_out: &mut [u8],
) -> Joined {
    let Reading { head, genome, transcript, letters, exons } = of;
    // SAFETY: pointers and lengths are the slices'.
    unsafe {
        txc_g_to_c_alleles(
            head,
            genome,
            transcript,
            letters,
            exons,
            g.start,
            g.end,
            g.missing,
            strict,
            reference.as_ptr(),
            reference.len(),
            alternative.as_ptr(),
            alternative.len(),
            reference_out.as_mut_ptr(),
            reference_out.len(),
            alternative_out.as_mut_ptr(),
            alternative_out.len(),
        )
    }
}

/// Asks a question, and writes it with its answer behind the first `used` bytes of a log.
#[inline]
pub fn record(of: Reading<'_>, question: Question, log: &mut [u8], used: usize) -> Recorded {
    let Reading { head, genome, transcript, letters, exons } = of;
    // SAFETY: pointer and room are the slice's; a length in use that is above the room is refused.
    unsafe { txc_record(head, genome, transcript, letters, exons, question, log.as_mut_ptr(), log.len(), used) }
}

/// Asks the questions of a log again, and writes the index of each entry whose answer differs, a line each, then the total.
#[inline]
pub fn replay(of: Reading<'_>, log: &[u8], buffer: &mut [u8]) -> Length {
    let Reading { head, genome, transcript, letters, exons } = of;
    let (bytes, text) = (log.as_ptr(), buffer.as_mut_ptr());
    // SAFETY: pointers and lengths are the slices'.
    unsafe { txc_replay(head, genome, transcript, letters, exons, bytes, log.len(), text, buffer.len()) }
}

/// Builds a transcript from records, and says the refusal's number.
#[inline]
pub fn build(from: Laid<'_>, into: Filling<'_>) -> u32 {
    let Laid { strand, cds, count, records } = from;
    let Filling { head, genome, transcript, letters, exons } = into;
    // SAFETY: pointer and length are the slice's.
    unsafe {
        txc_build(
            strand,
            cds.bits,
            cds.start,
            cds.end,
            count,
            records.as_ptr(),
            records.len(),
            head,
            genome,
            transcript,
            letters,
            exons,
        )
    }
}

/// Builds a transcript from a card, and says the refusal's number.
#[inline]
pub fn build_card(card: &[u8], into: Filling<'_>) -> u32 {
    let Filling { head, genome, transcript, letters, exons } = into;
    // SAFETY: pointer and length are the slice's.
    unsafe { txc_build_card(card.as_ptr(), card.len(), head, genome, transcript, letters, exons) }
}

/// Builds the head of a length-only transcript, and says the refusal's number.
#[inline]
pub fn build_length(length: i32, cds: Cds, head: &mut Head) -> u32 {
    txc_build_length(length, cds.bits, cds.start, cds.end, head)
}

/// Reads CIGAR text into elements.
#[inline]
pub fn read_cigar(text: &[u8], counts: &mut Counts, letters: &mut Letters) -> Length {
    // SAFETY: pointer and length are the slice's.
    unsafe { txc_read_cigar(text.as_ptr(), text.len(), counts, letters) }
}

/// Writes the first `number` elements as CIGAR text.
#[inline]
pub fn write_cigar(number: usize, counts: &Counts, letters: &Letters, buffer: &mut [u8]) -> Length {
    // SAFETY: pointer and length are the slice's.
    unsafe { txc_write_cigar(number, counts, letters, buffer.as_mut_ptr(), buffer.len()) }
}

/// Writes a card from building's input.
#[inline]
pub fn write_card(from: Laid<'_>, buffer: &mut [u8]) -> Length {
    let Laid { strand, cds, count, records } = from;
    // SAFETY: pointers and lengths are the slices'.
    unsafe {
        txc_write_card(
            strand,
            cds.bits,
            cds.start,
            cds.end,
            count,
            records.as_ptr(),
            records.len(),
            buffer.as_mut_ptr(),
            buffer.len(),
        )
    }
}

/// Reads BAM words into elements.
#[inline]
pub fn read_bam(words: &[u32], counts: &mut [i32], letters: &mut [u8]) -> Length {
    // SAFETY: pointers and lengths are the slices'.
    unsafe {
        txc_read_bam(
            words.as_ptr(),
            words.len(),
            counts.as_mut_ptr(),
            counts.len(),
            letters.as_mut_ptr(),
            letters.len(),
        )
    }
}

/// Writes the first `number` elements as BAM words.
#[inline]
pub fn write_bam(number: usize, counts: &Counts, letters: &Letters, words: &mut [u32]) -> Length {
    // SAFETY: pointer and length are the slice's.
    unsafe { txc_write_bam(number, counts, letters, words.as_mut_ptr(), words.len()) }
}

/// The length of the longest common prefix.
#[inline]
pub fn trim_prefix(reference: &[u8], alternative: &[u8]) -> usize {
    // SAFETY: pointers and lengths are the slices'.
    unsafe { txc_trim_prefix(reference.as_ptr(), reference.len(), alternative.as_ptr(), alternative.len()) }
}

/// The length of the longest common suffix.
#[inline]
pub fn trim_suffix(reference: &[u8], alternative: &[u8]) -> usize {
    // SAFETY: pointers and lengths are the slices'.
    unsafe { txc_trim_suffix(reference.as_ptr(), reference.len(), alternative.as_ptr(), alternative.len()) }
}

/// What remains of the longer allele, the reference's when lengths tie.
#[inline]
pub fn changed(reference: &[u8], alternative: &[u8]) -> Part {
    // SAFETY: pointers and lengths are the slices'.
    unsafe { txc_changed(reference.as_ptr(), reference.len(), alternative.as_ptr(), alternative.len()) }
}

/// Writes an allele reversed and complemented.
#[inline]
pub fn turn(allele: &[u8], buffer: &mut [u8]) -> Length {
    // SAFETY: pointers and lengths are the slices'.
    unsafe { txc_turn(allele.as_ptr(), allele.len(), buffer.as_mut_ptr(), buffer.len()) }
}
