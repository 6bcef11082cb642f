//! The memory that is lent to the entries, each table apart, so that a step over an end is seen by a memory checker.

use pulindraxi::{
    boundary::{self, Exons, Filling, Head, Laid, Letters, Reading, Starts},
    limits::{MOST_SEGMENTS, MOST_STARTS},
};

use crate::paper::{self, Source};

/// A head and four tables.
#[derive(Clone, Debug, PartialEq, Eq)]
pub struct Lent {
    /// The head.
    pub head: Box<Head>,
    /// The starts on the genome.
    pub genome: Box<Starts>,
    /// The starts on the transcript.
    pub transcript: Box<Starts>,
    /// The letters.
    pub letters: Box<Letters>,
    /// The exon numbers.
    pub exons: Box<Exons>,
}

/// A table of some entries, unused places 0.
fn table<T: Copy + Default, const SIZE: usize>(entries: impl Iterator<Item = T>) -> Box<[T; SIZE]> {
    let mut table = Box::new([T::default(); SIZE]);
    for (place, entry) in table.iter_mut().zip(entries) {
        *place = entry;
    }
    table
}

impl Lent {
    /// Memory that holds some number everywhere.
    pub fn filled(with: u8) -> Lent {
        let number = u32::from(with) * 0x0101_0101;
        Lent {
            head: Box::new(Head::filled(number as i32)),
            genome: Box::new([number; MOST_STARTS]),
            transcript: Box::new([number; MOST_STARTS]),
            letters: Box::new([with; MOST_SEGMENTS]),
            exons: Box::new([number as u16; MOST_SEGMENTS]),
        }
    }

    /// This memory after a transcript of document 01 was built into it. A length-only one leaves the tables as they were.
    pub fn holding(mut self, source: &Source) -> Lent {
        *self.head = source.head();
        if let Source::Records(aligned) = source {
            self.genome = table(aligned.genome.iter().map(|&start| start as u32));
            self.transcript = table(aligned.transcript.iter().map(|&start| start as u32));
            self.letters = table(aligned.letters.iter().copied());
            self.exons = table(aligned.exons());
        }
        self
    }

    /// What the memory stands for by document 01, if it holds together.
    pub fn source(&self) -> Option<Source> {
        paper::source(self.reading())
    }

    /// The memory for a question.
    pub fn reading(&self) -> Reading<'_> {
        let Lent { head, genome, transcript, letters, exons } = self;
        Reading { head, genome, transcript, letters, exons }
    }

    /// The memory for a building.
    #[inline]
    fn filling(&mut self) -> Filling<'_> {
        let Lent { head, genome, transcript, letters, exons } = self;
        Filling { head, genome, transcript, letters, exons }
    }

    /// Builds from records through the boundary.
    #[inline]
    pub fn build(&mut self, from: Laid<'_>) -> u32 {
        boundary::build(from, self.filling())
    }

    /// Builds from a card through the boundary.
    #[inline]
    pub fn build_card(&mut self, card: &[u8]) -> u32 {
        boundary::build_card(card, self.filling())
    }
}

/// One number of lent memory.
#[derive(Clone, Copy, Debug, PartialEq, Eq)]
pub enum Place {
    /// Of the head.
    Head(usize),
    /// Of the starts on the genome.
    Genome(usize),
    /// Of the starts on the transcript.
    Transcript(usize),
    /// Of the letters.
    Letter(usize),
    /// Of the exon numbers.
    Exon(usize),
}

impl Lent {
    /// What stands in a place.
    pub fn get(&self, place: Place) -> i32 {
        match place {
            Place::Head(index) => self.head.numbers()[index],
            Place::Genome(index) => self.genome[index] as i32,
            Place::Transcript(index) => self.transcript[index] as i32,
            Place::Letter(index) => self.letters[index].into(),
            Place::Exon(index) => self.exons[index].into(),
        }
    }

    /// Puts a number, or what the place has bits for of it, into a place.
    pub fn put(&mut self, place: Place, number: i32) {
        match place {
            Place::Head(index) => {
                let mut numbers = self.head.numbers();
                numbers[index] = number;
                *self.head = numbers.into();
            }
            Place::Genome(index) => self.genome[index] = number as u32,
            Place::Transcript(index) => self.transcript[index] = number as u32,
            Place::Letter(index) => self.letters[index] = number as u8,
            Place::Exon(index) => self.exons[index] = number as u16,
        }
    }
}
