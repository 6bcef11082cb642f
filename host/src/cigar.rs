//! Elements of a CIGAR, read from text or from BAM's words and written as either.

use crate::{
    boundary::{self, Counts, Letters},
    limits::{MOST_SEGMENTS, MOST_TEXT},
    Refusal,
};

/// A count and a letter of `= D I M N X`. Any other letter, or a negative count, is refused where it is written.
#[derive(Clone, Copy, Debug, PartialEq, Eq, Hash)]
pub struct Element {
    /// How many columns.
    pub count: i32,
    /// The letter.
    pub letter: u8,
}

impl Element {
    /// A count and a letter.
    pub const fn new(count: i32, letter: u8) -> Element {
        Element { count, letter }
    }
}

/// Counts and letters as they are lent to the entries.
struct Apart {
    counts: Box<Counts>,
    letters: Box<Letters>,
}

impl Apart {
    fn new() -> Apart {
        Apart { counts: Box::new([0; MOST_SEGMENTS]), letters: Box::new([0; MOST_SEGMENTS]) }
    }

    /// Elements past the most are refused by their number, so only those that have a place are lent.
    fn of(elements: &[Element]) -> Apart {
        let mut apart = Apart::new();
        for (index, element) in elements.iter().take(MOST_SEGMENTS).enumerate() {
            apart.counts[index] = element.count;
            apart.letters[index] = element.letter;
        }
        apart
    }

    /// The first elements.
    fn front(&self, length: usize) -> Vec<Element> {
        let pairs = self.counts.iter().zip(self.letters.iter());
        pairs.take(length).map(|(&count, &letter)| Element { count, letter }).collect()
    }
}

/// The elements of a CIGAR text. No digits mean 1.
///
/// ```
/// use pulindraxi::{cigar, Element, Refusal};
///
/// let elements = cigar::read(b"M0X3=")?;
/// assert_eq!(elements, [Element::new(1, b'M'), Element::new(0, b'X'), Element::new(3, b'=')]);
/// assert_eq!(cigar::read(b"3S"), Err(Refusal::NoElement));
/// # Ok::<(), Refusal>(())
/// ```
pub fn read(text: &[u8]) -> Result<Vec<Element>, Refusal> {
    let mut apart = Apart::new();
    let read = boundary::read_cigar(text, &mut apart.counts, &mut apart.letters);
    Refusal::check(read.number)?;
    Ok(apart.front(read.length))
}

/// Writes elements into the front of a buffer, and says how many bytes they took.
///
/// ```
/// use pulindraxi::{cigar, Element, Refusal};
///
/// let elements = [Element::new(1, b'M'), Element::new(0, b'X')];
/// let mut buffer = *b"......";
/// assert_eq!(cigar::write_into(&elements, &mut buffer), Ok(3));
/// assert_eq!(&buffer, b"M0X...");
/// assert_eq!(cigar::write_into(&elements, &mut buffer[..2]), Err(Refusal::NoRoom));
/// ```
pub fn write_into(elements: &[Element], buffer: &mut [u8]) -> Result<usize, Refusal> {
    let Apart { counts, letters } = Apart::of(elements);
    let written = boundary::write_cigar(elements.len(), &counts, &letters, buffer);
    Refusal::check(written.number)?;
    Ok(written.length)
}

/// The CIGAR text of elements. A count of 1 is left out, 0 is written.
///
/// ```
/// use pulindraxi::{cigar, Element};
///
/// let elements = [Element::new(1, b'M'), Element::new(0, b'X'), Element::new(3, b'=')];
/// assert_eq!(cigar::write(&elements)?, b"M0X3=");
/// # Ok::<(), pulindraxi::Refusal>(())
/// ```
pub fn write(elements: &[Element]) -> Result<Vec<u8>, Refusal> {
    let mut text = vec![0; MOST_TEXT];
    let length = write_into(elements, &mut text)?;
    text.truncate(length);
    Ok(text)
}

/// The elements of BAM's CIGAR words: a length in the upper 28 bits and an operation in the lower 4, numbered 0 to 8 for
/// `MIDNSHP=X`. BAM's I becomes our D and its D our I; S, H, P and what has no letter are refused (30).
///
/// The order is kept. BAM's runs along the genome and a record's CIGAR along the transcript, so on strand -1 the caller turns
/// the elements round.
///
/// ```
/// use pulindraxi::{cigar, Element, Refusal};
///
/// let of = |length: u32, operation: u32| length << 4 | operation;
/// let elements = cigar::from_bam_words(&[of(10, 0), of(2, 1), of(500, 3), of(8, 7)])?;
/// assert_eq!(cigar::write(&elements)?, b"10M2D500N8=");
/// assert_eq!(cigar::from_bam_words(&[of(5, 4), of(10, 0)]), Err(Refusal::NoOperation));
/// # Ok::<(), Refusal>(())
/// ```
pub fn from_bam_words(words: &[u32]) -> Result<Vec<Element>, Refusal> {
    let mut apart = Apart::new();
    let read = boundary::read_bam(words, &mut apart.counts[..], &mut apart.letters[..]);
    Refusal::check(read.number)?;
    Ok(apart.front(read.length))
}

/// Writes elements as BAM words into the front of a slice, and says how many they are.
///
/// ```
/// use pulindraxi::{cigar, Element, Refusal};
///
/// let mut words = [0; 2];
/// assert_eq!(cigar::to_bam_words_into(&[Element::new(2, b'D')], &mut words), Ok(1));
/// assert_eq!(words, [2 << 4 | 1, 0]);
/// assert_eq!(cigar::to_bam_words_into(&[Element::new(1, b'M'); 3], &mut words), Err(Refusal::NoRoom));
/// ```
pub fn to_bam_words_into(elements: &[Element], words: &mut [u32]) -> Result<usize, Refusal> {
    let Apart { counts, letters } = Apart::of(elements);
    let written = boundary::write_bam(elements.len(), &counts, &letters, words);
    Refusal::check(written.number)?;
    Ok(written.length)
}

/// The BAM words of elements, in the same order. Our D becomes BAM's I and our I its D; a letter that is not one of the six is
/// refused (7), and so is a count that 28 bits do not hold (31).
///
/// ```
/// use pulindraxi::{cigar, Element, Refusal};
///
/// let elements = cigar::read(b"10M2D500N8=")?;
/// let words = cigar::to_bam_words(&elements)?;
/// assert_eq!(words, [10 << 4, 2 << 4 | 1, 500 << 4 | 3, 8 << 4 | 7]);
/// assert_eq!(cigar::from_bam_words(&words)?, elements);
/// assert_eq!(cigar::to_bam_words(&[Element::new(268_435_456, b'M')]), Err(Refusal::NoWord));
/// # Ok::<(), Refusal>(())
/// ```
pub fn to_bam_words(elements: &[Element]) -> Result<Vec<u32>, Refusal> {
    let mut words = vec![0; elements.len().min(MOST_SEGMENTS)];
    let length = to_bam_words_into(elements, &mut words)?;
    words.truncate(length);
    Ok(words)
}
