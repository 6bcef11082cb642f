//! Building's input: a strand, CDS bounds and exon records; and the card that holds them.

use crate::{
    boundary::{self, Cds, Laid},
    limits::MOST_CARD,
    Refusal,
};

/// One exon record, under the names of document 01.
#[derive(Clone, Copy, Debug, PartialEq, Eq)]
pub struct Exon<'a> {
    /// Where it begins on the genome, zero-based.
    pub alt_start_i: i32,
    /// Where it ends on the genome.
    pub alt_end_i: i32,
    /// Where it begins on the transcript, zero-based.
    pub tx_start_i: i32,
    /// Where it ends on the transcript.
    pub tx_end_i: i32,
    /// Its place among the transcript's exons.
    pub ord: i32,
    /// Its CIGAR text, in transcript direction.
    pub cigar: &'a [u8],
}

/// What a transcript is built from.
#[derive(Clone, Copy, Debug, PartialEq, Eq)]
pub struct Input<'a> {
    /// 1 or -1.
    pub strand: i32,
    /// Where the CDS begins on the transcript, zero-based, if given.
    pub cds_start: Option<i32>,
    /// Where the CDS ends on the transcript, if given.
    pub cds_end: Option<i32>,
    /// The exon records in genomic order.
    pub exons: &'a [Exon<'a>],
}

impl Input<'_> {
    /// Calls a function with the input as the boundary takes it.
    pub(crate) fn laid<T>(&self, f: impl FnOnce(Laid<'_>) -> T) -> T {
        let records = lay(self.exons);
        let cds = Cds::new(self.cds_start, self.cds_end);
        f(Laid { strand: self.strand, cds, count: self.exons.len(), records: &records })
    }

    /// Writes the card into the front of a buffer, and says how many bytes it took.
    pub fn card_into(&self, buffer: &mut [u8]) -> Result<usize, Refusal> {
        let written = self.laid(|laid| boundary::write_card(laid, buffer));
        Refusal::check(written.number)?;
        Ok(written.length)
    }

    /// The card. An input that does not build has none.
    ///
    /// ```
    /// use pulindraxi::{Exon, Input, Transcript};
    ///
    /// let exons = [Exon { alt_start_i: 10, alt_end_i: 20, tx_start_i: 0, tx_end_i: 10, ord: 0, cigar: b"10M" }];
    /// let input = Input { strand: 1, cds_start: None, cds_end: None, exons: &exons };
    /// let card = input.card()?;
    /// assert_eq!(&card[..3], b"TXC");
    /// assert_eq!(Transcript::from_card(&card)?, Transcript::build(&input)?);
    /// # Ok::<(), pulindraxi::Refusal>(())
    /// ```
    pub fn card(&self) -> Result<Vec<u8>, Refusal> {
        let mut card = vec![0; MOST_CARD];
        let length = self.card_into(&mut card)?;
        card.truncate(length);
        Ok(card)
    }
}

/// Records laid out as in a card.
fn lay(exons: &[Exon<'_>]) -> Vec<u8> {
    let mut bytes = Vec::new();
    for exon in exons {
        for number in [exon.alt_start_i, exon.alt_end_i, exon.tx_start_i, exon.tx_end_i, exon.ord] {
            bytes.extend(number.to_le_bytes());
        }
        // A longer CIGAR has no size in a card. Cut to the largest size it is still over the limit, and refused at the same place.
        let size = u16::try_from(exon.cigar.len()).unwrap_or(u16::MAX);
        bytes.extend(size.to_le_bytes());
        bytes.extend(&exon.cigar[..usize::from(size)]);
    }
    bytes
}
