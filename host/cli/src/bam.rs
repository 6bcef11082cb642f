//! `card --bam`: the alignments of a file, and the cards that are written from them.
//!
//! A card has an exon record for each stretch between N. The file runs along the genome and a record's CIGAR along the transcript, so
//! on strand -1 the elements of each record are turned round.

use std::{collections::BTreeMap, ffi::OsStr, fmt, fs, io::Write, os::unix::ffi::OsStrExt, path::Path};

use pulindraxi::{cigar, Element, Exon, Input, Refusal};

use crate::{
    about,
    hts::{Alignment, Alignments},
    store, Outcome,
};

/// CDS bounds, each given or not.
pub type Cds = [Option<i32>; 2];

// ---- From an alignment to its card

/// Flags of the SAM specification.
const UNMAPPED: u16 = 0x4;
const REVERSE: u16 = 0x10;
const SECONDARY: u16 = 0x100;
const SUPPLEMENTARY: u16 = 0x800;

/// The letters of the operations in the SAM specification, each at its number.
const OPERATIONS: &[u8] = b"MIDNSHP=X";

/// Why an alignment has no card.
#[derive(Clone, Copy, Debug, PartialEq, Eq)]
enum Fault {
    Unmapped,
    NoCigar,
    /// The first word that is no element: its number from 1, and itself.
    Word(usize, u32),
    /// An N without an exon on one of its sides.
    Intron,
    /// Building's refusal, or that of too many words.
    Refused(Refusal),
    /// How often the name stands.
    Twice(usize),
    NoName,
    LongName,
}

impl From<Refusal> for Fault {
    fn from(refusal: Refusal) -> Fault {
        Fault::Refused(refusal)
    }
}

/// A word's operation by its number, and its letter if it has one.
fn operation(word: u32) -> String {
    let code = word & 15;
    let letter = OPERATIONS.get(code as usize).map(|&letter| format!(" ({})", char::from(letter)));
    format!("code {code}{}", letter.unwrap_or_default())
}

impl fmt::Display for Fault {
    fn fmt(&self, f: &mut fmt::Formatter<'_>) -> fmt::Result {
        match *self {
            Fault::Unmapped => f.write_str("unmapped: flag 0x4 is set, or it has no position"),
            Fault::NoCigar => f.write_str("it has no CIGAR"),
            Fault::Word(number, word) => {
                let clipped = if matches!(word & 15, 4 | 5) { ": the alignment is clipped" } else { "" };
                let (refusal, operation, length) = (Refusal::NoOperation, operation(word), word >> 4);
                write!(f, "{refusal}; word {number} has {operation}, length {length}{clipped}")
            }
            Fault::Intron => f.write_str("an N of its CIGAR has no exon on one of its sides"),
            Fault::Refused(refusal) => refusal.fmt(f),
            Fault::Twice(times) => write!(f, "the name stands {times} times, each a primary alignment"),
            Fault::NoName => f.write_str("a read without a name"),
            Fault::LongName => f.write_str("its name is too long for a file"),
        }
    }
}

impl Fault {
    /// What is counted in a summary.
    fn kind(self) -> String {
        match self {
            Fault::Unmapped => "unmapped".into(),
            Fault::NoCigar => "no CIGAR".into(),
            Fault::Word(_, word) => format!("refusal 30 for {}", operation(word)),
            Fault::Intron => "an N without an exon on one side".into(),
            Fault::Refused(refusal) => format!("refusal {}", refusal.number()),
            Fault::Twice(_) => "a name that stands twice".into(),
            Fault::NoName => "no name".into(),
            Fault::LongName => "a name too long for a file".into(),
        }
    }
}

fn is_intron(element: &Element) -> bool {
    element.letter == b'N'
}

/// How far elements go on the genome and on the transcript.
fn reach(elements: &[Element]) -> [i64; 2] {
    let along = |still: &[u8]| {
        let moving = elements.iter().filter(|element| !still.contains(&element.letter));
        moving.map(|element| i64::from(element.count)).sum()
    };
    [along(b"D"), along(b"IN")]
}

/// An exon record that is not laid out yet.
struct Record {
    alt: [i64; 2],
    tx: [i64; 2],
    ord: usize,
    elements: Vec<Element>,
}

impl Record {
    /// The record with its CIGAR's text. A number that 32 bits do not hold is above the largest that building takes.
    fn exon<'a>(&self, cigar: &'a [u8]) -> Result<Exon<'a>, Refusal> {
        let narrow = |number: i64| i32::try_from(number).map_err(|_| Refusal::TooLong);
        Ok(Exon {
            alt_start_i: narrow(self.alt[0])?,
            alt_end_i: narrow(self.alt[1])?,
            tx_start_i: narrow(self.tx[0])?,
            tx_end_i: narrow(self.tx[1])?,
            ord: i32::try_from(self.ord).map_err(|_| Refusal::TooMuch)?,
            cigar,
        })
    }
}

/// A record for each stretch between N, as on strand 1.
fn records(start: i64, elements: &[Element]) -> Result<Vec<Record>, Fault> {
    let introns = elements.iter().filter(|element| is_intron(element)).map(|element| i64::from(element.count));
    let (mut alt, mut tx) = (start, 0);
    let mut records = Vec::new();
    for (ord, (stretch, intron)) in elements.split(is_intron).zip(introns.chain([0])).enumerate() {
        if stretch.is_empty() {
            return Err(Fault::Intron);
        }
        let [along_genome, along_transcript] = reach(stretch);
        let (alt_end, tx_end) = (alt + along_genome, tx + along_transcript);
        records.push(Record { alt: [alt, alt_end], tx: [tx, tx_end], ord, elements: stretch.to_vec() });
        (alt, tx) = (alt_end + intron, tx_end);
    }
    Ok(records)
}

/// Counts the transcript from its other end: the records stay in genomic order, and each runs the other way.
fn turn_round(records: &mut [Record]) {
    let (count, total) = (records.len(), records.last().map_or(0, |last| last.tx[1]));
    for record in records {
        record.tx = [total - record.tx[1], total - record.tx[0]];
        record.ord = count - 1 - record.ord;
        record.elements.reverse();
    }
}

/// The elements of an alignment's words.
fn elements(words: &[u32]) -> Result<Vec<Element>, Fault> {
    cigar::from_bam_words(words).map_err(|refusal| match refusal {
        Refusal::NoOperation => {
            let index = words.iter().position(|&word| cigar::from_bam_words(&[word]).is_err()).unwrap_or(0);
            Fault::Word(index + 1, words[index])
        }
        _ => Fault::Refused(refusal),
    })
}

/// The card of an alignment.
fn card(alignment: &Alignment, [cds_start, cds_end]: Cds) -> Result<Vec<u8>, Fault> {
    // Of an unmapped read, the specification says, nothing else means anything.
    let start = alignment.start.filter(|_| alignment.flag & UNMAPPED == 0).ok_or(Fault::Unmapped)?;
    if alignment.words.is_empty() {
        return Err(Fault::NoCigar);
    }
    let mut records = records(start, &elements(&alignment.words)?)?;
    let reverse = alignment.flag & REVERSE != 0;
    if reverse {
        turn_round(&mut records);
    }
    let texts = records.iter().map(|record| cigar::write(&record.elements)).collect::<Result<Vec<_>, _>>()?;
    let exons = records.iter().zip(&texts).map(|(record, text)| record.exon(text)).collect::<Result<Vec<_>, _>>()?;
    Ok(Input { strand: if reverse { -1 } else { 1 }, cds_start, cds_end, exons: &exons }.card()?)
}

// ---- From a file to cards

/// The alignments of a file that count, in its order.
struct Found {
    /// The primary ones, or the first of them.
    primary: Vec<Alignment>,
    /// How many primary ones there are.
    count: usize,
    /// How many secondary and supplementary ones there are.
    others: usize,
}

/// Reads a file to its end, and keeps at most so many of the primary alignments that are wanted. A file that is damaged anywhere has none.
fn find(path: &Path, most: usize, wanted: impl Fn(&Alignment) -> bool) -> Result<Found, String> {
    let unread = |unread| format!("{}: {unread}", path.display());
    let mut found = Found { primary: Vec::new(), count: 0, others: 0 };
    for alignment in Alignments::open(path).map_err(unread)? {
        let alignment = alignment.map_err(unread)?;
        if !wanted(&alignment) {
            continue;
        }
        if alignment.flag & (SECONDARY | SUPPLEMENTARY) != 0 {
            found.others += 1;
            continue;
        }
        found.count += 1;
        if found.primary.len() < most {
            found.primary.push(alignment);
        }
    }
    Ok(found)
}

/// A name as it is shown: what is not plain text is escaped.
fn shown(name: &[u8]) -> String {
    name.escape_ascii().to_string()
}

/// Why a file has no card: no primary alignment, or more than one.
fn unchosen(name: Option<&OsStr>, found: &Found) -> String {
    let whose = name.map(|name| shown(name.as_bytes()));
    match (whose, found.count, found.others) {
        (None, 0, 0) => "no alignment stands in it".into(),
        (None, 0, _) => "its alignments are secondary or supplementary (flags 0x100, 0x800)".into(),
        (None, count, _) => {
            let names: Vec<_> = found.primary.iter().map(|alignment| shown(&alignment.name)).collect();
            format!("{count} reads stand in it, the first {}: say which by --name", names.join(" and "))
        }
        (Some(name), 0, 0) => format!("no alignment has the name {name}"),
        (Some(name), 0, _) => format!("{name}: secondary or supplementary (flags 0x100, 0x800)"),
        (Some(name), count, _) => format!("{name}: {}", Fault::Twice(count)),
    }
}

/// Writes the card of the one alignment of a file, or of the one that is named.
pub fn run(path: &Path, name: Option<&OsStr>, cds: Cds, place: Option<&Path>, output: impl Write) -> Outcome {
    let found = find(path, 2, |alignment| name.is_none_or(|name| alignment.name == name.as_bytes()))?;
    let [alignment] = &found.primary[..] else {
        return Err(format!("{}: {}", path.display(), unchosen(name, &found)).into());
    };
    let no_card = |fault| format!("{}: {}: {fault}", path.display(), shown(&alignment.name));
    let card = card(alignment, cds).map_err(no_card)?;
    store::put_or_write(place, &card, output)?;
    Ok(true)
}

/// The most bytes of a file's name.
const MOST_NAME: usize = 255;

/// The name of a read's card, another for each name. What could mean something to a shell or lead elsewhere is written as `%2F`.
fn file_name(name: &[u8]) -> Result<String, Fault> {
    // A name that is not there is `*`.
    if name.is_empty() || name == b"*" {
        return Err(Fault::NoName);
    }
    let mut text = String::new();
    for (index, &byte) in name.iter().enumerate() {
        let plain = byte.is_ascii_alphanumeric() || byte == b'_' || index > 0 && b"+-.".contains(&byte);
        text.push_str(&if plain { char::from(byte).to_string() } else { format!("%{byte:02X}") });
    }
    text.push_str(".card");
    if text.len() > MOST_NAME {
        return Err(Fault::LongName);
    }
    Ok(text)
}

/// The name and the bytes of an alignment's card, where its name stands so many times.
fn filed(alignment: &Alignment, times: usize) -> Result<(String, Vec<u8>), Fault> {
    let name = file_name(&alignment.name)?;
    if times > 1 {
        return Err(Fault::Twice(times));
    }
    Ok((name, card(alignment, [None; 2])?))
}

/// How many cards were written, how many alignments were refused and why, how many do not count.
fn summary(written: usize, refused: &BTreeMap<String, usize>, others: usize) -> String {
    let mut line = format!("cards written: {written}; refused: {}", refused.values().sum::<usize>());
    for (index, (kind, count)) in refused.iter().enumerate() {
        line.push_str(&format!(", {}{kind}: {count}", if index == 0 { "of these " } else { "" }));
    }
    if others > 0 {
        line.push_str(&format!("; secondary or supplementary, passed over: {others}"));
    }
    line
}

/// Writes a card for each primary alignment of a file into a folder. Those that have none go to `complaints`, and a line that counts them
/// to `output`.
pub fn run_all(path: &Path, folder: &Path, mut output: impl Write, mut complaints: impl Write) -> Outcome {
    let found = find(path, usize::MAX, |_| true)?;
    if found.count == 0 {
        return Err(format!("{}: {}", path.display(), unchosen(None, &found)).into());
    }
    let mut times: BTreeMap<&[u8], usize> = BTreeMap::new();
    for alignment in &found.primary {
        *times.entry(&alignment.name).or_default() += 1;
    }
    fs::create_dir_all(folder).map_err(about(folder))?;
    let (mut written, mut refused) = (0, BTreeMap::new());
    for alignment in &found.primary {
        match filed(alignment, times[&alignment.name[..]]) {
            Ok((name, card)) => {
                let place = folder.join(name);
                store::replace(&place, &card).map_err(about(&place))?;
                written += 1;
            }
            Err(fault) => {
                writeln!(complaints, "{}: {}: {fault}", path.display(), shown(&alignment.name))?;
                *refused.entry(fault.kind()).or_default() += 1;
            }
        }
    }
    writeln!(output, "{}", summary(written, &refused, found.others))?;
    Ok(refused.is_empty())
}

#[cfg(test)]
mod tests {
    use super::*;
    use pulindraxi::Transcript;

    fn alignment(flag: u16, start: i64, words: &[u32]) -> Alignment {
        Alignment { name: b"read".to_vec(), flag, start: Some(start), words: words.to_vec() }
    }

    /// A word of a length and an operation's letter.
    fn of(length: u32, letter: u8) -> u32 {
        let code = b"MIDNSHP=X".iter().position(|&operation| operation == letter).unwrap();
        length << 4 | code as u32
    }

    /// Document 01's transcripts A and B, without their CDS.
    #[test]
    fn a_and_b_are_made_from_words() {
        let words = [of(10, b'M'), of(5, b'N'), of(8, b'M')];
        for (flag, strand, tx) in [(0, 1, [[0, 10], [10, 18]]), (REVERSE, -1, [[8, 18], [0, 8]])] {
            let exon = |index: usize, alt: [i32; 2], cigar| Exon {
                alt_start_i: alt[0],
                alt_end_i: alt[1],
                tx_start_i: tx[index][0],
                tx_end_i: tx[index][1],
                ord: i32::from(tx[index][0] > 0),
                cigar,
            };
            let exons = [exon(0, [10, 20], b"10M"), exon(1, [25, 33], b"8M")];
            let expected = Input { strand, cds_start: Some(3), cds_end: Some(15), exons: &exons }.card().unwrap();
            assert_eq!(card(&alignment(flag, 10, &words), [Some(3), Some(15)]), Ok(expected));
        }
    }

    #[test]
    fn the_words_are_the_transcripts_segments() {
        let letters = b"=X=IMDM";
        let mut words: Vec<_> = letters.iter().enumerate().map(|(at, &letter)| of(at as u32 + 1, letter)).collect();
        words.extend([of(40, b'N'), of(6, b'M'), of(0, b'N'), of(3, b'M')]);
        for flag in [0, REVERSE] {
            let card = card(&alignment(flag, 100, &words), [None; 2]).unwrap();
            let transcript = Transcript::from_card(&card).unwrap();
            let segments: String =
                transcript.segments().map(|s| format!("{}{}", s.count, char::from(s.letter))).collect();
            assert_eq!(segments, "1=2X3=4D5M6I7M40N6M0N3M");
            assert_eq!(transcript.head.first_start, 100);
        }
    }

    #[test]
    fn what_has_no_card_says_why() {
        let fault = |flag, words: &[u32]| card(&alignment(flag, 0, words), [None; 2]).unwrap_err();
        let m = of(5, b'M');
        assert_eq!(fault(UNMAPPED, &[m]), Fault::Unmapped);
        assert_eq!(fault(0, &[]), Fault::NoCigar);
        for letter in *b"SHP" {
            assert_eq!(fault(0, &[m, of(3, letter)]), Fault::Word(2, of(3, letter)));
        }
        assert_eq!(fault(0, &[15, m]), Fault::Word(1, 15));
        let n = of(9, b'N');
        for words in [&[n][..], &[n, m], &[m, n], &[m, n, n, m]] {
            assert_eq!(fault(0, words), Fault::Intron);
        }
        assert_eq!(fault(0, &[m; 2_049]), Fault::Refused(Refusal::TooMuch));
        assert_eq!(fault(0, &[of(268_435_455, b'D'); 9]), Fault::Refused(Refusal::TooLong));
        assert_eq!(card(&alignment(0, 1 << 40, &[m]), [None; 2]), Err(Fault::Refused(Refusal::TooLong)));
        assert_eq!(card(&alignment(0, 0, &[m]), [Some(3), None]), Err(Fault::Refused(Refusal::HalfCds)));
        assert_eq!(card(&alignment(0, 0, &[m]), [Some(3), Some(6)]), Err(Fault::Refused(Refusal::BadCds)));
        let nowhere = Alignment { start: None, ..alignment(0, 0, &[m]) };
        assert_eq!(card(&nowhere, [None; 2]), Err(Fault::Unmapped));
    }

    #[test]
    fn a_name_stays_in_its_folder_and_is_one_file() {
        assert_eq!(file_name(b"NM_000059.4").unwrap(), "NM_000059.4.card");
        assert_eq!(file_name(b"m64011/12/ccs").unwrap(), "m64011%2F12%2Fccs.card");
        assert_eq!(file_name(b"../../etc/passwd").unwrap(), "%2E.%2F..%2Fetc%2Fpasswd.card");
        assert_eq!(file_name(b"..").unwrap(), "%2E..card");
        assert_eq!(file_name(b"-rf").unwrap(), "%2Drf.card");
        assert_eq!(file_name(b"a%2Fb").unwrap(), "a%252Fb.card");
        assert_eq!(file_name(b"a\xffb c").unwrap(), "a%FFb%20c.card");
        assert_eq!(file_name(&[b'a'; 250]).unwrap().len(), 255);
        assert_eq!(file_name(&[b'a'; 251]), Err(Fault::LongName));
        assert_eq!(file_name(b""), Err(Fault::NoName));
        assert_eq!(file_name(b"*"), Err(Fault::NoName));
    }
}
