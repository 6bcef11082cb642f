//! Exon numbers worked by hand from document 02: on both strands, in both halves of a gap and in its middle, in an N inside a record,
//! beside empty records, past both ends; and numbers of lent memory that run as they must, or do not (23).

use trials::{
    draw::{self, Case},
    Kind,
};

use crate::record::case;

/// A question by its name, the answer's name or refusal, and the exons of both ends.
pub type Place = (Kind, &'static str, &'static str, [u32; 2]);

/// What is written into lent memory, each a table, an index and a value; and a strict question to it.
pub type Wound = (&'static [[i32; 3]], Place);

/// The records of a transcript.
enum Records {
    /// Each by its genome bounds, its CIGAR, and how far that goes along the transcript.
    Each(&'static [([i32; 2], &'static str, i32)]),
    /// So many with one CIGAR, one after the other.
    Alike(usize, &'static str),
}

/// A transcript, and what is asked of it.
pub struct Worked {
    strand: i32,
    cds: Option<[i32; 2]>,
    records: Records,
    /// The strict questions.
    pub strict: &'static [Place],
    /// The lenient questions.
    pub lenient: &'static [Place],
    /// What is done to its memory.
    pub wounds: &'static [Wound],
}

const HEAD: i32 = 0;
const LETTERS: i32 = 3;
const EXONS: i32 = 4;
/// The record count's place in the head.
const RECORDS: i32 = 8;

/// Those of transcripts A and B.
const TWO: Records = Records::Each(&[([10, 20], "10M", 10), ([25, 33], "8M", 8)]);
/// An N inside a record, and an empty record with a gap on both sides.
const THREE: Records = Records::Each(&[([10, 20], "4M2N4M", 8), ([25, 25], "", 0), ([30, 36], "6M", 6)]);
/// An empty record at both ends: a gap is the first segment and the last.
const HOLLOW: Records = Records::Each(&[([5, 5], "", 0), ([10, 14], "4M", 4), ([20, 20], "", 0)]);
/// As many as can be.
const MOST: Records = Records::Alike(512, "NM");

const A: Worked = Worked {
    strand: 1,
    cds: Some([3, 15]),
    records: TWO,
    strict: &[
        (Kind::GToN, "g.11", "n.1", [1, 1]),
        (Kind::GToN, "g.20", "n.10", [1, 1]),
        (Kind::GToN, "g.21", "n.10+1", [1, 1]),
        (Kind::GToN, "g.23", "n.10+3", [1, 1]),
        (Kind::GToN, "g.24", "n.11-2", [2, 2]),
        (Kind::GToN, "g.25", "n.11-1", [2, 2]),
        (Kind::GToN, "g.33", "n.18", [2, 2]),
        (Kind::GToN, "g.11_33", "n.1_18", [1, 2]),
        (Kind::GToN, "g.23_24", "n.10+3_11-2", [1, 2]),
        (Kind::GToN, "g.33_11", "n.18_1", [2, 1]),
        (Kind::GToC, "g.23", "c.7+3", [1, 1]),
        (Kind::GToC, "g.24", "c.8-2", [2, 2]),
        (Kind::GToC, "g.11_33", "c.-3_*3", [1, 2]),
        // The chosen segment's, wherever the offset leads.
        (Kind::NToG, "n.10+3", "g.23", [1, 1]),
        (Kind::NToG, "n.10+4", "g.24", [1, 1]),
        (Kind::NToG, "n.11-3", "g.23", [2, 2]),
        (Kind::NToG, "n.1_18", "g.11_33", [1, 2]),
        (Kind::CToG, "c.7+4", "g.24", [1, 1]),
        (Kind::CToG, "c.8-2", "g.24", [2, 2]),
        (Kind::CToG, "c.-3_*3", "g.11_33", [1, 2]),
        // Without the genome there is none.
        (Kind::NToC, "n.10+3", "c.7+3", [0, 0]),
        (Kind::CToN, "c.8-2_*3", "n.11-2_18", [0, 0]),
        (Kind::GToN, "g.34", "refuses 14", [0, 0]),
    ],
    lenient: &[
        (Kind::GToN, "g.10", "n.-1", [1, 1]),
        (Kind::GToN, "g.34", "n.19", [2, 2]),
        (Kind::NToG, "n.-1", "g.10", [1, 1]),
        (Kind::NToG, "n.19", "g.34", [2, 2]),
    ],
    wounds: &[],
};

const B: Worked = Worked {
    strand: -1,
    cds: Some([3, 15]),
    records: TWO,
    strict: &[
        (Kind::GToN, "g.33", "n.1", [1, 1]),
        (Kind::GToN, "g.24", "n.8+2", [1, 1]),
        (Kind::GToN, "g.23", "n.8+3", [1, 1]),
        (Kind::GToN, "g.22", "n.9-2", [2, 2]),
        (Kind::GToN, "g.11", "n.18", [2, 2]),
        // The numbers go with their ends.
        (Kind::GToN, "g.11_33", "n.1_18", [1, 2]),
        (Kind::GToN, "g.22_33", "n.1_9-2", [1, 2]),
        (Kind::GToC, "g.11_33", "c.-3_*3", [1, 2]),
        (Kind::GToC, "g.23", "c.5+3", [1, 1]),
        (Kind::NToG, "n.1_18", "g.11_33", [2, 1]),
        (Kind::NToG, "n.8+4", "g.22", [1, 1]),
        (Kind::CToG, "c.-3_*3", "g.11_33", [2, 1]),
    ],
    lenient: &[
        (Kind::GToN, "g.34", "n.-1", [1, 1]),
        (Kind::GToN, "g.10", "n.19", [2, 2]),
        (Kind::NToG, "n.-1", "g.34", [1, 1]),
        (Kind::NToG, "n.19", "g.10", [2, 2]),
    ],
    wounds: &[],
};

/// Letters MNMNNM, numbers 1 1 1 1 2 3.
const PLUS: Worked = Worked {
    strand: 1,
    cds: Some([2, 10]),
    records: THREE,
    strict: &[
        // The N inside a record.
        (Kind::GToN, "g.15", "n.4+1", [1, 1]),
        (Kind::GToN, "g.16", "n.5-1", [1, 1]),
        (Kind::GToN, "g.21", "n.8+1", [1, 1]),
        (Kind::GToN, "g.23", "n.8+3", [1, 1]),
        // The empty record has its number on both of its sides.
        (Kind::GToN, "g.24", "n.9-2", [2, 2]),
        (Kind::GToN, "g.25", "n.9-1", [2, 2]),
        (Kind::GToN, "g.26", "n.8+1", [2, 2]),
        (Kind::GToN, "g.28", "n.8+3", [2, 2]),
        (Kind::GToN, "g.29", "n.9-2", [3, 3]),
        (Kind::GToN, "g.31", "n.9", [3, 3]),
        (Kind::GToC, "g.16_29", "c.3-1_7-2", [1, 3]),
        (Kind::GToC, "g.25_26", "c.7-1_6+1", [2, 2]),
        (Kind::NToG, "n.8_9", "g.20_31", [1, 3]),
    ],
    lenient: &[(Kind::GToN, "g.10_37", "n.-1_15", [1, 3]), (Kind::NToG, "n.-1_15", "g.10_37", [1, 3])],
    wounds: &[
        // The first number, and the last.
        (&[[EXONS, 0, 0]], (Kind::GToN, "g.21", "refuses 23", [0, 0])),
        (&[[EXONS, 0, 2]], (Kind::NToG, "n.9", "refuses 23", [0, 0])),
        (&[[EXONS, 5, 2]], (Kind::GToC, "g.21", "refuses 23", [0, 0])),
        (&[[EXONS, 5, 4]], (Kind::CToG, "c.1", "refuses 23", [0, 0])),
        // One number within.
        (&[[EXONS, 1, 2]], (Kind::NToC, "n.1", "refuses 23", [0, 0])),
        (&[[EXONS, 1, 65_535]], (Kind::CToN, "c.1", "refuses 23", [0, 0])),
        // A step after an M.
        (&[[EXONS, 3, 2]], (Kind::GToN, "g.31", "refuses 23", [0, 0])),
        // No step across the first gap, and two across the second.
        (&[[EXONS, 4, 1]], (Kind::GToN, "g.31", "refuses 23", [0, 0])),
        // A step of two that the record count has too.
        (&[[EXONS, 5, 4], [HEAD, RECORDS, 4]], (Kind::GToN, "g.31", "refuses 23", [0, 0])),
        // Up, down and up.
        (
            &[[EXONS, 2, 2], [EXONS, 3, 2], [EXONS, 4, 1], [EXONS, 5, 2], [HEAD, RECORDS, 2]],
            (Kind::GToN, "g.31", "refuses 23", [0, 0]),
        ),
        // The numbers of the other strand.
        (
            &[[EXONS, 0, 3], [EXONS, 1, 3], [EXONS, 2, 3], [EXONS, 3, 3], [EXONS, 5, 1]],
            (Kind::GToN, "g.31", "refuses 23", [0, 0]),
        ),
        // The record count.
        (&[[HEAD, RECORDS, 0]], (Kind::GToN, "g.31", "refuses 23", [0, 0])),
        (&[[HEAD, RECORDS, 2]], (Kind::GToN, "g.11", "refuses 23", [0, 0])),
        (&[[HEAD, RECORDS, 4]], (Kind::GToN, "g.11", "refuses 23", [0, 0])),
        (&[[HEAD, RECORDS, -3]], (Kind::GToC, "g.11", "refuses 23", [0, 0])),
        (&[[HEAD, RECORDS, 65_539]], (Kind::NToG, "n.1", "refuses 23", [0, 0])),
        // What is behind the segments is not looked at.
        (&[[EXONS, 6, 7], [EXONS, 2_047, 9]], (Kind::GToN, "g.31", "n.9", [3, 3])),
        // The N inside the record becomes a gap: a step, and one record more.
        (&[[EXONS, 2, 2], [EXONS, 3, 2], [EXONS, 4, 3], [EXONS, 5, 4]], (Kind::GToN, "g.15_16", "refuses 23", [0, 0])),
        (
            &[[EXONS, 2, 2], [EXONS, 3, 2], [EXONS, 4, 3], [EXONS, 5, 4], [HEAD, RECORDS, 4]],
            (Kind::GToN, "g.15_16", "n.4+1_5-1", [1, 2]),
        ),
        (
            &[[EXONS, 2, 2], [EXONS, 3, 2], [EXONS, 4, 3], [EXONS, 5, 4], [HEAD, RECORDS, 4]],
            (Kind::NToG, "n.5_9", "g.17_31", [2, 4]),
        ),
        // The first gap becomes an N inside a record.
        (&[[EXONS, 4, 1], [EXONS, 5, 2]], (Kind::GToN, "g.23_24", "refuses 23", [0, 0])),
        (&[[EXONS, 4, 1], [EXONS, 5, 2], [HEAD, RECORDS, 2]], (Kind::GToN, "g.23_24", "n.8+3_9-2", [1, 1])),
        (&[[EXONS, 4, 1], [EXONS, 5, 2], [HEAD, RECORDS, 2]], (Kind::GToC, "g.28_29", "c.6+3_7-2", [1, 2])),
        // A gap that is no N any more.
        (&[[LETTERS, 3, b'I' as i32]], (Kind::GToN, "g.31", "refuses 23", [0, 0])),
    ],
};

/// Numbers 3 3 3 3 2 1.
const MINUS: Worked = Worked {
    strand: -1,
    cds: Some([2, 10]),
    records: THREE,
    strict: &[
        (Kind::GToN, "g.15", "n.11-1", [3, 3]),
        (Kind::GToN, "g.16", "n.10+1", [3, 3]),
        (Kind::GToN, "g.22", "n.7-2", [3, 3]),
        // The middle goes to the side that is upstream, which is the right one here.
        (Kind::GToN, "g.23", "n.6+3", [2, 2]),
        (Kind::GToN, "g.25", "n.6+1", [2, 2]),
        (Kind::GToN, "g.26", "n.7-1", [2, 2]),
        (Kind::GToN, "g.27", "n.7-2", [2, 2]),
        (Kind::GToN, "g.28", "n.6+3", [1, 1]),
        (Kind::GToN, "g.31", "n.6", [1, 1]),
        (Kind::GToN, "g.22_28", "n.6+3_7-2", [1, 3]),
        (Kind::GToC, "g.25_26", "c.5-1_4+1", [2, 2]),
        (Kind::NToG, "n.6_7", "g.20_31", [3, 1]),
        (Kind::CToG, "c.4+1_5-1", "g.21_30", [3, 1]),
    ],
    lenient: &[(Kind::GToN, "g.10_37", "n.-1_15", [1, 3]), (Kind::NToG, "n.-1_15", "g.10_37", [3, 1])],
    wounds: &[
        (&[[EXONS, 0, 2]], (Kind::GToN, "g.21", "refuses 23", [0, 0])),
        (&[[EXONS, 0, 4]], (Kind::NToC, "n.1", "refuses 23", [0, 0])),
        (&[[EXONS, 5, 2]], (Kind::GToN, "g.31", "refuses 23", [0, 0])),
        (&[[EXONS, 5, 0]], (Kind::NToG, "n.1", "refuses 23", [0, 0])),
        (&[[EXONS, 4, 3]], (Kind::GToC, "g.31", "refuses 23", [0, 0])),
        (&[[EXONS, 3, 2]], (Kind::CToN, "c.1", "refuses 23", [0, 0])),
        (
            &[[EXONS, 0, 2], [EXONS, 1, 2], [EXONS, 2, 1], [EXONS, 3, 1], [HEAD, RECORDS, 2]],
            (Kind::GToN, "g.31", "refuses 23", [0, 0]),
        ),
        (&[[HEAD, RECORDS, 0]], (Kind::CToG, "c.1", "refuses 23", [0, 0])),
        (&[[HEAD, RECORDS, 2]], (Kind::GToN, "g.11", "refuses 23", [0, 0])),
        (&[[HEAD, RECORDS, 4]], (Kind::GToN, "g.11", "refuses 23", [0, 0])),
        (&[[EXONS, 0, 4], [EXONS, 1, 4], [HEAD, RECORDS, 4]], (Kind::GToN, "g.15_16", "n.10+1_11-1", [3, 4])),
        (
            &[[EXONS, 0, 2], [EXONS, 1, 2], [EXONS, 2, 2], [EXONS, 3, 2], [HEAD, RECORDS, 2]],
            (Kind::GToN, "g.22_23", "n.6+3_7-2", [2, 2]),
        ),
    ],
};

/// Letters NMN, numbers 1 2 2, behind them 3.
const HOLLOW_PLUS: Worked = Worked {
    strand: 1,
    cds: Some([0, 4]),
    records: HOLLOW,
    strict: &[
        (Kind::GToN, "g.6", "n.-1+1", [1, 1]),
        (Kind::GToN, "g.8", "n.-1+3", [1, 1]),
        (Kind::GToN, "g.9", "n.1-2", [2, 2]),
        (Kind::GToN, "g.11", "n.1", [2, 2]),
        (Kind::GToN, "g.15", "n.4+1", [2, 2]),
        (Kind::GToN, "g.17", "n.4+3", [2, 2]),
        (Kind::GToN, "g.18", "n.5-3", [3, 3]),
        (Kind::GToN, "g.20", "n.5-1", [3, 3]),
        (Kind::NToG, "n.1_4", "g.11_14", [2, 2]),
    ],
    lenient: &[
        (Kind::GToN, "g.5", "n.-1", [1, 1]),
        (Kind::GToN, "g.21", "n.5", [3, 3]),
        // From the transcript, a gap counts as the record before it.
        (Kind::NToG, "n.-1", "g.5", [1, 1]),
        (Kind::NToG, "n.5", "g.15", [2, 2]),
        (Kind::CToG, "c.-1_*1", "g.5_15", [1, 2]),
    ],
    wounds: &[
        (&[[EXONS, 2, 3]], (Kind::GToN, "g.20", "refuses 23", [0, 0])),
        (&[[EXONS, 0, 2]], (Kind::GToN, "g.20", "refuses 23", [0, 0])),
        // The last gap becomes an N inside the last record.
        (&[[HEAD, RECORDS, 2]], (Kind::GToN, "g.17_18", "n.4+3_5-3", [2, 2])),
    ],
};

/// Numbers 3 2 2, behind them 1.
const HOLLOW_MINUS: Worked = Worked {
    strand: -1,
    cds: Some([0, 4]),
    records: HOLLOW,
    strict: &[
        (Kind::GToN, "g.7", "n.5-2", [3, 3]),
        (Kind::GToN, "g.8", "n.4+3", [2, 2]),
        (Kind::GToN, "g.14", "n.1", [2, 2]),
        (Kind::GToN, "g.17", "n.1-3", [2, 2]),
        (Kind::GToN, "g.18", "n.-1+3", [1, 1]),
        (Kind::GToN, "g.20", "n.-1+1", [1, 1]),
        (Kind::NToG, "n.1_4", "g.11_14", [2, 2]),
    ],
    lenient: &[
        (Kind::GToN, "g.5", "n.5", [3, 3]),
        (Kind::GToN, "g.21", "n.-1", [1, 1]),
        (Kind::NToG, "n.-1", "g.15", [1, 1]),
        (Kind::NToG, "n.5", "g.5", [2, 2]),
        (Kind::CToG, "c.-1_*1", "g.5_15", [2, 1]),
    ],
    wounds: &[
        (&[[EXONS, 0, 2]], (Kind::GToN, "g.20", "refuses 23", [0, 0])),
        (&[[EXONS, 2, 1]], (Kind::GToN, "g.20", "refuses 23", [0, 0])),
    ],
};

/// The last two segments are the N and the M of exon 512.
const MOST_PLUS: Worked = Worked {
    strand: 1,
    cds: None,
    records: MOST,
    strict: &[(Kind::GToN, "g.2_1024", "n.1_512", [1, 512]), (Kind::NToG, "n.256", "g.512", [256, 256])],
    lenient: &[],
    wounds: &[
        // The numbers run to 513, and there are as many records, which is one too many.
        (&[[EXONS, 1_534, 513], [HEAD, RECORDS, 513]], (Kind::GToN, "g.2", "refuses 23", [0, 0])),
    ],
};

/// The first two segments are the M and the N of exon 512.
const MOST_MINUS: Worked = Worked {
    strand: -1,
    cds: None,
    records: MOST,
    strict: &[(Kind::GToN, "g.1_1023", "n.1_512", [1, 512]), (Kind::NToG, "n.256", "g.513", [256, 256])],
    lenient: &[],
    wounds: &[(&[[EXONS, 0, 513], [EXONS, 1, 513], [HEAD, RECORDS, 513]], (Kind::GToN, "g.1", "refuses 23", [0, 0]))],
};

/// The worked transcripts.
pub const WORKED: [Worked; 8] = [A, B, PLUS, MINUS, HOLLOW_PLUS, HOLLOW_MINUS, MOST_PLUS, MOST_MINUS];

impl Worked {
    /// How it is built.
    pub fn case(&self) -> Case {
        let Worked { strand, cds, ref records, .. } = *self;
        let records = match *records {
            Records::Alike(count, cigar) => return draw::alike(strand, count, cigar.as_bytes()),
            Records::Each(records) => records,
        };
        let total: i32 = records.iter().map(|record| record.2).sum();
        let mut at = if strand == 1 { 0 } else { total };
        let numbered = records.iter().enumerate().map(|(index, &([start, end], cigar, long))| {
            let tx_start = if strand == 1 { at } else { at - long };
            at += strand * long;
            ([start, end, tx_start, tx_start + long, strand * index as i32], cigar)
        });
        case(strand, cds, &numbered.collect::<Vec<_>>())
    }
}
