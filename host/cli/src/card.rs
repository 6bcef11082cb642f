//! `card`: a text of records, and the card that is written from it.

use std::{
    io::Write,
    num::ParseIntError,
    path::Path,
    str::{FromStr, SplitWhitespace},
};

use pulindraxi::{Exon, Input};

use crate::{store, Outcome};

/// What the lines gave so far.
#[derive(Default)]
struct Records<'a> {
    strand: Option<i32>,
    cds: Option<[Option<i32>; 2]>,
    exons: Vec<Exon<'a>>,
}

fn number<T: FromStr>(words: &mut SplitWhitespace<'_>, what: &str) -> Result<T, String> {
    let word = words.next().ok_or_else(|| format!("{what} is missing"))?;
    word.parse().map_err(|_| format!("{what} `{word}` is not a number of 32 signed bits"))
}

/// A CDS bound, or `-` for none.
#[derive(Clone, Copy)]
pub struct Bound(pub Option<i32>);

impl FromStr for Bound {
    type Err = ParseIntError;

    fn from_str(word: &str) -> Result<Bound, ParseIntError> {
        match word {
            "-" => Ok(Bound(None)),
            number => number.parse().map(|bound| Bound(Some(bound))),
        }
    }
}

fn exon<'a>(words: &mut SplitWhitespace<'a>) -> Result<Exon<'a>, String> {
    Ok(Exon {
        alt_start_i: number(words, "the genome start")?,
        alt_end_i: number(words, "the genome end")?,
        tx_start_i: number(words, "the transcript start")?,
        tx_end_i: number(words, "the transcript end")?,
        ord: number(words, "ord")?,
        cigar: match words.next().ok_or("the CIGAR is missing (`.` for an empty one)")? {
            "." => b"",
            cigar => cigar.as_bytes(),
        },
    })
}

impl<'a> Records<'a> {
    fn take(&mut self, line: &'a str) -> Result<(), String> {
        let mut words = line.split_whitespace();
        match words.next() {
            Some("strand") if self.strand.is_none() => self.strand = Some(number(&mut words, "the strand")?),
            Some("cds") if self.cds.is_none() => {
                let (Bound(start), Bound(end)) =
                    (number(&mut words, "the CDS start")?, number(&mut words, "the CDS end")?);
                self.cds = Some([start, end]);
            }
            Some("exon") => self.exons.push(exon(&mut words)?),
            Some(twice @ ("strand" | "cds")) => return Err(format!("`{twice}` stands twice")),
            _ => return Err("a line is `strand`, `cds` or `exon` and its numbers".into()),
        }
        match words.next() {
            Some(word) => Err(format!("`{word}` is too much")),
            None => Ok(()),
        }
    }
}

/// Writes the card of a text of records. Lines that are none go to `complaints` with their numbers, and then there is no card.
pub fn run(text: &[u8], path: Option<&Path>, output: impl Write, mut complaints: impl Write) -> Outcome {
    let text = String::from_utf8_lossy(text);
    let mut records = Records::default();
    let mut bad = 0u64;
    for (index, line) in text.lines().map(str::trim).enumerate() {
        if line.is_empty() || line.starts_with('#') {
            continue;
        }
        if let Err(why) = records.take(line) {
            bad += 1;
            writeln!(complaints, "line {}: `{line}`: {why}", index + 1)?;
        }
    }
    if bad > 0 {
        return Ok(false);
    }
    let [cds_start, cds_end] = records.cds.unwrap_or_default();
    let strand = records.strand.ok_or("the text has no line `strand 1` or `strand -1`")?;
    let card = Input { strand, cds_start, cds_end, exons: &records.exons }.card()?;
    store::put_or_write(path, &card, output)?;
    Ok(true)
}

#[cfg(test)]
mod tests {
    use super::*;
    use pulindraxi::Transcript;

    const A: &str = "# A\nstrand 1\ncds 3 15\nexon 10 20 0 10 0 10M\nexon 25 33 10 18 1 8M\n";

    fn write(text: &str) -> (Result<bool, String>, Vec<u8>, String) {
        let (mut card, mut complaints) = (Vec::new(), Vec::new());
        let done = run(text.as_bytes(), None, &mut card, &mut complaints).map_err(|error| error.to_string());
        (done, card, String::from_utf8(complaints).unwrap())
    }

    #[test]
    fn a_card_builds() {
        let (done, card, _) = write(A);
        assert_eq!(done, Ok(true));
        assert_eq!(card.len(), 17 + 2 * 22 + 5);
        assert_eq!(Transcript::from_card(&card).unwrap().segment_count(), 3);
    }

    #[test]
    fn every_bad_line_is_named() {
        let (done, card, complaints) = write("strand 1\nstrand 1\nexon 1 2 3\ncds 1 x\nexon 0 1 0 1 0 M M\nintron\n");
        assert_eq!(done, Ok(false));
        assert!(card.is_empty());
        let lines: Vec<_> = complaints.lines().map(|line| line.split_once(": ").unwrap().0).collect();
        assert_eq!(lines, ["line 2", "line 3", "line 4", "line 5", "line 6"]);
    }

    #[test]
    fn what_does_not_build_is_refused() {
        let (done, card, _) = write(&A.replace("8M", "8S"));
        assert!(done.unwrap_err().starts_with("refused 7: "));
        assert!(card.is_empty());
        assert!(write(&A.replace("3 15", "- 15")).0.unwrap_err().starts_with("refused 11: "));
        assert!(write("exon 0 1 0 1 0 M").0.unwrap_err().contains("strand"));
        assert!(write("strand 1\nexon 0 0 0 1 0 .").0.unwrap_err().starts_with("refused 10: "));
        let short = "refused 32: a CIGAR whose genome length differs from its bounds";
        assert_eq!(write(&A.replace("8M", "5M")).0.unwrap_err(), short);
    }
}
