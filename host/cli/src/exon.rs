//! The exon column of `map`: in which exon or intron both ends of a position lie, said from their exon numbers and offsets.

use std::fmt;

/// An end of a position: the number of its exon, and its offset.
pub type End = (u32, i32);

/// Where an end lies. Introns are counted in transcript order: intron 1 is that between exons 1 and 2.
#[derive(Clone, Copy, PartialEq, Eq)]
enum Region {
    Exon(u32),
    Intron(u32),
}

impl Region {
    /// An offset leads from its exon into the intron after it, or before it. Where a transcript of so many exons has no such intron,
    /// the end is said by its exon.
    fn of((exon, offset): End, exons: u32) -> Region {
        let intron = if offset > 0 { exon } else { exon.saturating_sub(1) };
        if offset != 0 && (1..exons).contains(&intron) {
            Region::Intron(intron)
        } else {
            Region::Exon(exon)
        }
    }
}

impl fmt::Display for Region {
    fn fmt(&self, f: &mut fmt::Formatter<'_>) -> fmt::Result {
        match self {
            Region::Exon(number) => write!(f, "exon {number}"),
            Region::Intron(number) => write!(f, "intron {number}"),
        }
    }
}

/// Where a position lies, from start to end in transcript direction: `exon 2`, `exons 2_3`, `intron 2`, `intron 1_exon 2`.
pub fn said([start, end]: [End; 2], exons: u32) -> String {
    match [start, end].map(|end| Region::of(end, exons)) {
        [start, end] if start == end => start.to_string(),
        [Region::Exon(start), Region::Exon(end)] => format!("exons {start}_{end}"),
        [Region::Intron(start), Region::Intron(end)] => format!("introns {start}_{end}"),
        [start, end] => format!("{start}_{end}"),
    }
}

#[cfg(test)]
mod tests {
    use super::*;

    #[test]
    fn a_base_of_an_exon_and_of_an_intron() {
        let at = |exon, offset| said([(exon, offset); 2], 3);
        assert_eq!(at(2, 0), "exon 2");
        assert_eq!([at(1, 3), at(2, -2)], ["intron 1", "intron 1"]);
        assert_eq!([at(2, 1), at(3, -1)], ["intron 2", "intron 2"]);
        assert_eq!([at(2, i32::MAX), at(2, i32::MIN)], ["intron 2", "intron 1"]);
        // No intron is there.
        assert_eq!([at(1, -3), at(3, 3)], ["exon 1", "exon 3"]);
        assert_eq!(said([(1, 2); 2], 1), "exon 1");
    }

    #[test]
    fn ends_that_differ() {
        assert_eq!(said([(2, 0), (3, 0)], 3), "exons 2_3");
        assert_eq!(said([(2, 0), (1, 0)], 3), "exons 2_1");
        assert_eq!(said([(1, 1), (3, -1)], 3), "introns 1_2");
        assert_eq!(said([(1, 1), (2, -1)], 3), "intron 1");
        assert_eq!(said([(1, 1), (2, 0)], 3), "intron 1_exon 2");
        assert_eq!(said([(2, 0), (2, 1)], 3), "exon 2_intron 2");
    }
}
