//! A transcript: the memory that it takes, how it is built, and the questions to it.

use std::ops::Deref;

use crate::{
    answered::{self, Joined, Mapped},
    asked,
    boundary::{self, Cds, Exons, Filling, Head, Letters, Reading, Slot, Starts},
    input::Input,
    limits::{MOST_SEGMENTS, MOST_STARTS},
    log::Entry,
    Answer, Question, Refusal,
};

/// Whether positions must lie within the transcript's bounds.
#[derive(Clone, Copy, Debug, PartialEq, Eq, Hash)]
pub enum Bounds {
    /// A position outside is refused.
    Strict,
    /// Positions outside are numbered on.
    Lenient,
}

impl Bounds {
    const fn strict(self) -> bool {
        matches!(self, Bounds::Strict)
    }
}

/// One segment of the alignment.
#[derive(Clone, Copy, Debug, PartialEq, Eq)]
pub struct Segment {
    /// `=`, `D`, `I`, `M`, `N` or `X`.
    pub letter: u8,
    /// Where it begins on the genome, from the transcript's first base.
    pub genome: u32,
    /// Where it begins on the transcript, in genomic direction.
    pub transcript: u32,
    /// How many columns it has.
    pub count: u32,
    /// The number of its exon, from 1 in transcript order; of a gap between records that of the record to its left on the genome.
    pub exon: u16,
}

/// The memory of one transcript, which is lent to the entries: a head and four tables, some 22 KiB.
///
/// A host that keeps off the heap has a `Room` where it likes, builds into it from a card, and asks it. What stands in it may
/// be anything: a question to a room that doesn't hold together is refused (23). A refused building leaves it as it was.
///
/// ```
/// use pulindraxi::{Refusal, Room};
///
/// let mut room = Room::new();
/// assert_eq!(room.is_coding(), Err(Refusal::NotTogether));
/// room.build_length(100, Some(9), Some(90))?;
/// assert_eq!(room.is_coding(), Ok(true));
/// # Ok::<(), Refusal>(())
/// ```
#[derive(Clone, Debug, PartialEq, Eq)]
pub struct Room {
    /// The numbers that stand beside the tables.
    pub head: Head,
    /// The segments' starts on the genome, and the total.
    pub genome: Starts,
    /// The segments' starts on the transcript, and the total.
    pub transcript: Starts,
    /// The segments' letters.
    pub letters: Letters,
    /// The segments' exon numbers.
    pub exons: Exons,
}

impl Default for Room {
    fn default() -> Room {
        Room::new()
    }
}

impl Room {
    /// A room in which nothing is built yet.
    pub const fn new() -> Room {
        Room {
            head: Head::filled(0),
            genome: [0; MOST_STARTS],
            transcript: [0; MOST_STARTS],
            letters: [0; MOST_SEGMENTS],
            exons: [0; MOST_SEGMENTS],
        }
    }

    fn reading(&self) -> Reading<'_> {
        let Room { head, genome, transcript, letters, exons } = self;
        Reading { head, genome, transcript, letters, exons }
    }

    fn filling(&mut self) -> Filling<'_> {
        let Room { head, genome, transcript, letters, exons } = self;
        Filling { head, genome, transcript, letters, exons }
    }

    /// Builds a transcript from records.
    pub fn build(&mut self, input: &Input<'_>) -> Result<(), Refusal> {
        Refusal::check(input.laid(|laid| boundary::build(laid, self.filling())))
    }

    /// Builds a transcript from a card.
    pub fn build_card(&mut self, card: &[u8]) -> Result<(), Refusal> {
        Refusal::check(boundary::build_card(card, self.filling()))
    }

    /// Builds a length-only transcript, which knows n. and c. only. The tables stay as they were.
    pub fn build_length(&mut self, length: i32, cds_start: Option<i32>, cds_end: Option<i32>) -> Result<(), Refusal> {
        Refusal::check(boundary::build_length(length, Cds::new(cds_start, cds_end), &mut self.head))
    }

    /// The n. interval of a g. interval.
    pub fn g_to_n(&self, g: asked::GInterval, bounds: Bounds) -> Result<Mapped<answered::NInterval>, Refusal> {
        boundary::g_to_n(self.reading(), g.into(), bounds.strict()).try_into()
    }

    /// The c. interval of a g. interval.
    pub fn g_to_c(&self, g: asked::GInterval, bounds: Bounds) -> Result<Mapped<answered::CInterval>, Refusal> {
        boundary::g_to_c(self.reading(), g.into(), bounds.strict()).try_into()
    }

    /// The c. interval of a g. interval with two alleles, and the alleles as the transcript reads them, trimmed, at the fronts of
    /// two buffers. It refuses like [`Room::g_to_c`], but behind 23 stand 34, a letter that
    /// [`turn`](crate::alleles::turn) refuses, on either strand, and 20, a buffer that is too short for what is left.
    pub fn g_to_c_alleles_into<'b>(
        &self,
        g: asked::GInterval,
        bounds: Bounds,
        reference: &[u8],
        alternative: &[u8],
        reference_out: &'b mut [u8],
        alternative_out: &'b mut [u8],
    ) -> Result<Joined<&'b [u8]>, Refusal> {
        let (of, strict) = (self.reading(), bounds.strict());
        let boundary::Joined { answer, prefix, suffix, reference, alternative } =
            boundary::g_to_c_alleles(of, g.into(), strict, reference, alternative, reference_out, alternative_out);
        let c = answer.try_into()?;
        let (reference, alternative) = (&reference_out[..reference], &alternative_out[..alternative]);
        Ok(Joined { c, prefix, suffix, reference, alternative })
    }

    /// The c. interval of a g. interval with two alleles, and the alleles as the transcript reads them: on strand -1 turned, then
    /// without their common prefix, then without their common suffix. The interval is the plain one, not narrowed.
    ///
    /// ```
    /// use pulindraxi::{asked::GInterval, Bounds, Exon, Input, Refusal, Transcript};
    ///
    /// let exons = [
    ///     Exon { alt_start_i: 10, alt_end_i: 20, tx_start_i: 8, tx_end_i: 18, ord: 1, cigar: b"10M" },
    ///     Exon { alt_start_i: 25, alt_end_i: 33, tx_start_i: 0, tx_end_i: 8, ord: 0, cigar: b"8M" },
    /// ];
    /// let b = Transcript::build(&Input { strand: -1, cds_start: Some(3), cds_end: Some(15), exons: &exons })?;
    ///
    /// let joined = b.g_to_c_alleles(GInterval::new(12, 14), Bounds::Strict, b"CAC", b"C")?;
    /// assert_eq!(joined.c.to_string(), "c.12_*2");
    /// assert_eq!((joined.prefix, joined.suffix), (1, 0));
    /// assert_eq!((&joined.reference[..], &joined.alternative[..]), (&b"TG"[..], &b""[..]));
    /// assert_eq!(b.g_to_c_alleles(GInterval::at(12), Bounds::Strict, b"U", b""), Err(Refusal::NoBase));
    /// # Ok::<(), Refusal>(())
    /// ```
    pub fn g_to_c_alleles(
        &self,
        g: asked::GInterval,
        bounds: Bounds,
        reference: &[u8],
        alternative: &[u8],
    ) -> Result<Joined<Vec<u8>>, Refusal> {
        let (mut reference_out, mut alternative_out) = (vec![0; reference.len()], vec![0; alternative.len()]);
        let Joined { c, prefix, suffix, reference, alternative } =
            self.g_to_c_alleles_into(g, bounds, reference, alternative, &mut reference_out, &mut alternative_out)?;
        let [reference, alternative] = [reference.len(), alternative.len()];
        reference_out.truncate(reference);
        alternative_out.truncate(alternative);
        Ok(Joined { c, prefix, suffix, reference: reference_out, alternative: alternative_out })
    }

    /// The g. interval of an n. interval.
    pub fn n_to_g(&self, n: asked::NInterval, bounds: Bounds) -> Result<Mapped<answered::GInterval>, Refusal> {
        boundary::n_to_g(self.reading(), n.start.into(), n.end.into(), bounds.strict()).try_into()
    }

    /// The c. interval of an n. interval.
    pub fn n_to_c(&self, n: asked::NInterval, bounds: Bounds) -> Result<answered::CInterval, Refusal> {
        boundary::n_to_c(self.reading(), n.start.into(), n.end.into(), bounds.strict()).try_into()
    }

    /// The n. interval of a c. interval.
    pub fn c_to_n(&self, c: asked::CInterval, bounds: Bounds) -> Result<answered::NInterval, Refusal> {
        boundary::c_to_n(self.reading(), c.start.into(), c.end.into(), bounds.strict()).try_into()
    }

    /// The g. interval of a c. interval.
    pub fn c_to_g(&self, c: asked::CInterval, bounds: Bounds) -> Result<Mapped<answered::GInterval>, Refusal> {
        boundary::c_to_g(self.reading(), c.start.into(), c.end.into(), bounds.strict()).try_into()
    }

    /// The one of the six mappings that a question names.
    pub fn ask(&self, question: Question) -> Result<Answer, Refusal> {
        question.read(boundary::ask(self.reading(), question.into()))
    }

    /// Asks a question, and writes it with its answer or refusal, which may be 23, behind the first `used` bytes of a log: of a new
    /// one none are in use. It gives how many bytes the log has now, and what was written. Refusals: 35 where what is in use has
    /// another mark, version or length than a log has (its entries are not looked at) or is longer than the slice; 3 where the log
    /// would be over 65,536 bytes; 20 where the slice is too short. No other byte changes.
    ///
    /// ```
    /// use pulindraxi::{Bounds, Question, Refusal, Room};
    ///
    /// let mut room = Room::new();
    /// room.build_length(18, Some(3), Some(15))?;
    /// let question = Question::NToC("n.16".parse()?, Bounds::Strict);
    /// let mut log = [0; 60];
    /// let (used, entry) = room.record_into(question, &mut log, 0)?;
    /// assert_eq!((used, entry.answer?.to_string()), (49, "c.*1".to_string()));
    /// assert_eq!(room.record_into(question, &mut log, used), Err(Refusal::NoRoom));
    ///
    /// let mut text = [0; 8];
    /// let length = room.replay_into(&log[..used], &mut text)?;
    /// assert_eq!(&text[..length], b"0\n");
    /// # Ok::<(), Box<dyn std::error::Error>>(())
    /// ```
    pub fn record_into(&self, question: Question, log: &mut [u8], used: usize) -> Result<(usize, Entry), Refusal> {
        let recorded = boundary::record(self.reading(), question.into(), log, used);
        Refusal::check(recorded.number)?;
        Ok((recorded.length, Entry { question, answer: question.read(recorded.answer) }))
    }

    /// Asks the questions of a log again, and writes the index, from 0, of each entry whose answer differs, exon numbers too, a
    /// line each, then their number, into the front of a buffer; it says how many bytes were written, at most
    /// [`MOST_REPLAYED`](crate::limits::MOST_REPLAYED). Before anything is asked the log is judged: 3, 35.
    pub fn replay_into(&self, log: &[u8], buffer: &mut [u8]) -> Result<usize, Refusal> {
        let replayed = boundary::replay(self.reading(), log, buffer);
        Refusal::check(replayed.number)?;
        Ok(replayed.length)
    }

    /// Whether a g. interval is in bounds: its start place at 0 or above, its end place at most the genome length.
    pub fn is_in_bounds(&self, g: asked::GInterval) -> Result<bool, Refusal> {
        said(boundary::in_bounds(self.reading(), g.into()))
    }

    /// Whether the transcript codes.
    pub fn is_coding(&self) -> Result<bool, Refusal> {
        said(boundary::is_coding(self.reading()))
    }

    /// Answers a sorted worklist in place: each slot gets what [`Room::g_to_n`] says of its position with strict bounds, its
    /// refusal included, in one walk along the segments. Positions may be equal; where one is below the one before it, the
    /// whole list is refused (33) and no slot changes.
    ///
    /// It says how many segments were stepped over: the number, from 0, of the segment that holds the largest position within
    /// bounds, or 0 where there is none.
    ///
    /// ```
    /// use pulindraxi::{Exon, Input, Refusal, Slot, Transcript};
    ///
    /// let exons = [
    ///     Exon { alt_start_i: 10, alt_end_i: 20, tx_start_i: 0, tx_end_i: 10, ord: 0, cigar: b"10M" },
    ///     Exon { alt_start_i: 25, alt_end_i: 33, tx_start_i: 10, tx_end_i: 18, ord: 1, cigar: b"8M" },
    /// ];
    /// let a = Transcript::build(&Input { strand: 1, cds_start: None, cds_end: None, exons: &exons })?;
    ///
    /// let mut slots = [11, 23, 26, 34].map(Slot::new);
    /// assert_eq!(a.worklist(&mut slots), Ok(2));
    /// assert_eq!(slots[1].n()?.to_string(), "n.10+3");
    /// assert_eq!(slots[3].n(), Err(Refusal::Outside));
    /// assert_eq!(a.worklist(&mut [24, 23].map(Slot::new)), Err(Refusal::Falling));
    /// # Ok::<(), Refusal>(())
    /// ```
    pub fn worklist(&self, slots: &mut [Slot]) -> Result<u32, Refusal> {
        let walked = boundary::worklist(self.reading(), slots);
        Refusal::check(walked.number)?;
        Ok(walked.steps)
    }

    /// How many segments the head counts, at most those that have a place. A length-only transcript has none.
    pub fn segment_count(&self) -> usize {
        usize::try_from(self.head.segment_count).unwrap_or(0).min(MOST_SEGMENTS)
    }

    /// How many records the transcript was built from, as the head has it: its exons. A length-only transcript has none.
    pub fn record_count(&self) -> usize {
        usize::try_from(self.head.record_count).unwrap_or(0)
    }

    /// The segments in genomic order.
    pub fn segments(&self) -> impl Iterator<Item = Segment> + '_ {
        let step = |starts: &Starts, index: usize| starts[index + 1].wrapping_sub(starts[index]);
        (0..self.segment_count()).map(move |index| Segment {
            letter: self.letters[index],
            genome: self.genome[index],
            transcript: self.transcript[index],
            count: step(&self.genome, index).max(step(&self.transcript, index)),
            exon: self.exons[index],
        })
    }

    /// 1 or -1.
    pub fn strand(&self) -> i32 {
        self.head.strand
    }

    /// How many bases the segments span on the genome.
    pub fn genome_length(&self) -> u32 {
        self.genome[self.segment_count()]
    }

    /// How many bases the segments span on the transcript.
    pub fn transcript_length(&self) -> u32 {
        self.transcript[self.segment_count()]
    }
}

/// A transcript in memory of its own. Its questions are those of [`Room`].
///
/// ```
/// use pulindraxi::{asked::GInterval, Bounds, Exon, Input, Refusal, Transcript};
///
/// let exons = [
///     Exon { alt_start_i: 10, alt_end_i: 20, tx_start_i: 0, tx_end_i: 10, ord: 0, cigar: b"10M" },
///     Exon { alt_start_i: 25, alt_end_i: 33, tx_start_i: 10, tx_end_i: 18, ord: 1, cigar: b"8M" },
/// ];
/// let a = Transcript::build(&Input { strand: 1, cds_start: Some(3), cds_end: Some(15), exons: &exons })?;
///
/// assert_eq!(a.g_to_c(GInterval::at(23), Bounds::Strict)?.to_string(), "c.7+3");
/// assert_eq!(a.c_to_g("c.*3".parse()?, Bounds::Strict)?.to_string(), "g.33");
/// assert_eq!(a.g_to_n(GInterval::at(10), Bounds::Strict), Err(Refusal::Outside));
/// assert_eq!(a.g_to_n(GInterval::at(10), Bounds::Lenient)?.to_string(), "n.-1");
/// # Ok::<(), Box<dyn std::error::Error>>(())
/// ```
#[derive(Clone, Debug, PartialEq, Eq)]
pub struct Transcript {
    room: Box<Room>,
}

impl Transcript {
    /// Builds a transcript from records.
    pub fn build(input: &Input<'_>) -> Result<Transcript, Refusal> {
        Transcript::made(|room| room.build(input))
    }

    /// Builds a transcript from a card.
    ///
    /// ```
    /// use pulindraxi::{Refusal, Transcript};
    ///
    /// assert_eq!(Transcript::from_card(b"TXC\x02\x00"), Err(Refusal::BadVersion));
    /// ```
    pub fn from_card(card: &[u8]) -> Result<Transcript, Refusal> {
        Transcript::made(|room| room.build_card(card))
    }

    /// Builds a length-only transcript, which knows n. and c. only.
    ///
    /// ```
    /// use pulindraxi::{asked::GInterval, Bounds, Refusal, Transcript};
    ///
    /// let transcript = Transcript::of_length(18, Some(3), Some(15))?;
    /// assert_eq!(transcript.n_to_c("n.16".parse()?, Bounds::Strict)?.to_string(), "c.*1");
    /// assert_eq!(transcript.g_to_n(GInterval::at(1), Bounds::Strict), Err(Refusal::NoGenome));
    /// # Ok::<(), Box<dyn std::error::Error>>(())
    /// ```
    pub fn of_length(length: i32, cds_start: Option<i32>, cds_end: Option<i32>) -> Result<Transcript, Refusal> {
        Transcript::made(|room| room.build_length(length, cds_start, cds_end))
    }

    fn made(build: impl FnOnce(&mut Room) -> Result<(), Refusal>) -> Result<Transcript, Refusal> {
        let mut room = Box::new(Room::new());
        build(&mut room)?;
        Ok(Transcript { room })
    }
}

impl Deref for Transcript {
    type Target = Room;

    fn deref(&self) -> &Room {
        &self.room
    }
}

fn said(answer: boundary::Said) -> Result<bool, Refusal> {
    Refusal::check(answer.number)?;
    Ok(answer.yes != 0)
}
