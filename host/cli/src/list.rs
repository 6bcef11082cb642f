//! `list`: a transcript's segments, in the listing of document 01.

use std::io::Write;

use pulindraxi::Transcript;

use crate::Outcome;

/// Writes the header, then a line for each segment.
pub fn run(transcript: &Transcript, mut output: impl Write) -> Outcome {
    let sign = if transcript.strand() == 1 { '+' } else { '-' };
    writeln!(
        output,
        "TXC {sign} {} {} {}",
        transcript.segment_count(),
        transcript.genome_length(),
        transcript.transcript_length()
    )?;
    for segment in transcript.segments() {
        let letter = char::from(segment.letter);
        writeln!(output, "{letter} {} {} {}", segment.genome, segment.transcript, segment.count)?;
    }
    output.flush()?;
    Ok(true)
}

#[cfg(test)]
mod tests {
    use super::*;
    use pulindraxi::{Exon, Input};

    #[test]
    fn the_listing_of_transcript_a() {
        let exons = [
            Exon { alt_start_i: 10, alt_end_i: 20, tx_start_i: 0, tx_end_i: 10, ord: 0, cigar: b"10M" },
            Exon { alt_start_i: 25, alt_end_i: 33, tx_start_i: 10, tx_end_i: 18, ord: 1, cigar: b"8M" },
        ];
        let input = Input { strand: 1, cds_start: Some(3), cds_end: Some(15), exons: &exons };
        let mut output = Vec::new();
        run(&Transcript::build(&input).unwrap(), &mut output).unwrap();
        assert_eq!(output, b"TXC + 3 23 18\nM 0 0 10\nN 10 10 5\nM 15 10 8\n");
    }
}
