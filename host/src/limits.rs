//! The limits of documents 01 and 02, each named once.

/// The most exon records of a transcript.
pub const MOST_RECORDS: usize = 512;
/// The most segments of a transcript.
pub const MOST_SEGMENTS: usize = 2048;
/// The length of a table of starts: one for each segment, and the total.
pub const MOST_STARTS: usize = MOST_SEGMENTS + 1;
/// The most bytes of a CIGAR's text.
pub const MOST_TEXT: usize = 4096;
/// The most bytes of a card.
pub const MOST_CARD: usize = 65_536;
/// The largest transcript length, and the largest genome end.
pub const MOST_BASES: u32 = 2_000_000_000;
/// The largest count that a BAM word has bits for.
pub const MOST_WORD_COUNT: i32 = (1 << 28) - 1;
/// The most bytes of a log.
pub const MOST_LOG: usize = 65_536;
/// The number of bytes of a log before its entries: mark and version.
pub const LOG_HEAD: usize = 5;
/// The number of bytes of an entry.
pub const ENTRY: usize = 44;
/// The most entries of a log.
pub const MOST_ENTRIES: usize = (MOST_LOG - LOG_HEAD) / ENTRY;
/// The most bytes that a replay writes: all of the most entries differ.
pub const MOST_REPLAYED: usize = 6_340;
