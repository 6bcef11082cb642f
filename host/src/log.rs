//! Logs: questions of the six mappings with what was answered, in bytes; and their replay, which says what a transcript answers
//! otherwise.
//!
//! A [`Log`] owns its bytes. A host that keeps off the heap records by [`Room::record_into`], replays by [`Room::replay_into`] and
//! reads by [`entries`], over bytes that it has where it likes. Whether bytes are a log is judged by the entry that replays them.

use crate::{
    boundary::{self, Head, Position},
    limits::{ENTRY, LOG_HEAD, MOST_REPLAYED},
    Answer, Question, Refusal, Room,
};

/// The mark and the version.
const HEAD: [u8; LOG_HEAD] = *b"QLG\x01\x00";

/// A question, and what was said to it.
#[derive(Clone, Copy, Debug, PartialEq, Eq, Hash)]
pub struct Entry {
    /// The question.
    pub question: Question,
    /// Its answer, or its refusal.
    pub answer: Result<Answer, Refusal>,
}

/// Questions with what was answered, at most [`MOST_ENTRIES`](crate::limits::MOST_ENTRIES) of them.
///
/// ```
/// use pulindraxi::{Bounds, Log, Question, Refusal, Transcript};
///
/// let old = Transcript::of_length(18, Some(3), Some(15))?;
/// let mut log = Log::new();
/// let at = |n: &str| n.parse().map(|n| Question::NToC(n, Bounds::Strict));
/// assert_eq!(log.record(&old, at("n.3")?)?.answer?.to_string(), "c.-1");
/// assert_eq!(log.record(&old, at("n.16")?)?.answer?.to_string(), "c.*1");
/// assert_eq!(log.record(&old, at("n.19")?)?.answer, Err(Refusal::NOutside));
///
/// // The card is replaced: its CDS ends a base later.
/// let new = Transcript::of_length(18, Some(3), Some(16))?;
/// assert_eq!(log.replay(&old)?, []);
/// assert_eq!(log.replay(&new)?, [1]);
///
/// let read = Log::read(log.bytes())?;
/// assert_eq!(read.entries().nth(1).map(|entry| entry.question.to_string()), Some("n.16 to c.".to_string()));
/// # Ok::<(), Box<dyn std::error::Error>>(())
/// ```
#[derive(Clone, Debug, PartialEq, Eq)]
pub struct Log {
    bytes: Vec<u8>,
}

impl Default for Log {
    fn default() -> Log {
        Log::new()
    }
}

impl Log {
    /// A log without entries.
    pub fn new() -> Log {
        Log { bytes: HEAD.to_vec() }
    }

    /// The log of bytes: 3 where there are too many, 35 where they are none.
    pub fn read(bytes: &[u8]) -> Result<Log, Refusal> {
        judge(bytes)?;
        Ok(Log { bytes: bytes.to_vec() })
    }

    /// The bytes.
    pub fn bytes(&self) -> &[u8] {
        &self.bytes
    }

    /// How many entries there are.
    pub fn len(&self) -> usize {
        (self.bytes.len() - LOG_HEAD) / ENTRY
    }

    /// Whether there are no entries.
    pub fn is_empty(&self) -> bool {
        self.len() == 0
    }

    /// The entries in their order.
    pub fn entries(&self) -> impl ExactSizeIterator<Item = Entry> + '_ {
        read_entries(&self.bytes)
    }

    /// Asks a question and appends it with its answer or refusal, which may be 23. A full log is refused (3) and stays as it was.
    pub fn record(&mut self, room: &Room, question: Question) -> Result<Entry, Refusal> {
        let used = self.bytes.len();
        self.bytes.resize(used + ENTRY, 0);
        let recorded = room.record_into(question, &mut self.bytes, used);
        self.bytes.truncate(recorded.map_or(used, |(length, _)| length));
        recorded.map(|(_, entry)| entry)
    }

    /// The indices, from 0 and rising, of the entries whose answers are others on a transcript, exon numbers too.
    pub fn replay(&self, room: &Room) -> Result<Vec<usize>, Refusal> {
        let mut text = vec![0; MOST_REPLAYED];
        let length = room.replay_into(&self.bytes, &mut text)?;
        let mut indices: Vec<usize> = text[..length].split(|&byte| byte == b'\n').filter_map(number).collect();
        // The last line is their number.
        indices.pop();
        Ok(indices)
    }
}

/// The number of a line.
fn number(line: &[u8]) -> Option<usize> {
    std::str::from_utf8(line).ok()?.parse().ok()
}

/// The entries of a log's bytes: 3 where there are too many, 35 where they are none.
pub fn entries(log: &[u8]) -> Result<impl ExactSizeIterator<Item = Entry> + '_, Refusal> {
    judge(log)?;
    Ok(read_entries(log))
}

/// A transcript of no bases.
static NO_BASES: Room = Room { head: Head { kind: Head::LENGTH_ONLY, ..Head::filled(0) }, ..Room::new() };

/// 3 or 35, by a replay, which judges the whole log before it writes: any transcript will do. No text is lent, so that a log is told
/// from other bytes by 20.
fn judge(bytes: &[u8]) -> Result<(), Refusal> {
    match NO_BASES.replay_into(bytes, &mut []) {
        Err(refusal) if refusal != Refusal::NoRoom => Err(refusal),
        _ => Ok(()),
    }
}

/// The entries of bytes that were judged.
fn read_entries(log: &[u8]) -> impl ExactSizeIterator<Item = Entry> + '_ {
    log[LOG_HEAD..].chunks_exact(ENTRY).map(read_entry)
}

/// An entry of a log that was judged: each of its bytes is one that a question and its answer have.
fn read_entry(entry: &[u8]) -> Entry {
    let byte = |at: usize| u32::from(entry[at]);
    let half = |at: usize| byte(at) | byte(at + 1) << 8;
    let number = |at: usize| (half(at) | half(at + 2) << 16) as i32;
    let question = Question::of(boundary::Question {
        kind: byte(0),
        strict: byte(1),
        start_marks: byte(2),
        end_marks: byte(3),
        start: number(4),
        start_offset: number(8),
        end: number(12),
        end_offset: number(16),
    });
    let said = boundary::Answer {
        mark: byte(20),
        number: byte(21),
        start: Position { star: byte(22), base: number(24), offset: number(28), exon: half(40) },
        end: Position { star: byte(23), base: number(32), offset: number(36), exon: half(42) },
    };
    Entry { question, answer: question.read(said) }
}
