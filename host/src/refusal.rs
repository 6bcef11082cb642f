//! The refusals of documents 01 and 02, by name, number and words.

use std::{error::Error, fmt};

macro_rules! refusals {
    ($($number:literal $name:ident $words:literal)*) => {
        /// Why a question or a building was refused. The number and the words are documents 01's and 02's.
        ///
        /// Every number but 0 is a refusal: one that has no name here is kept as it came.
        ///
        /// ```
        /// use pulindraxi::Refusal;
        ///
        /// assert_eq!(Refusal::Outside.number(), 14);
        /// assert_eq!(Refusal::from_number(14), Some(Refusal::Outside));
        /// assert_eq!(Refusal::Outside.to_string(), "refused 14: strict: place outside the from-table");
        /// assert_eq!(Refusal::from_number(99).map(Refusal::number), Some(99));
        /// ```
        #[derive(Clone, Copy, Debug, PartialEq, Eq, Hash)]
        #[non_exhaustive]
        pub enum Refusal {
            $(#[doc = $words] $name,)*
            /// A number that has no name here.
            Unnamed(Unnamed),
        }

        impl Refusal {
            /// Every refusal that has a name, in the order of the numbers.
            pub const NAMED: &'static [Refusal] = &[$(Refusal::$name,)*];

            /// The number.
            pub const fn number(self) -> u32 {
                match self {
                    $(Refusal::$name => $number,)*
                    Refusal::Unnamed(Unnamed(number)) => number,
                }
            }

            /// The documents' words: it is given exactly when these hold.
            pub const fn words(self) -> &'static str {
                match self {
                    $(Refusal::$name => $words,)*
                    Refusal::Unnamed(_) => "a refusal that has no name here",
                }
            }

            /// The refusal of a number; none for 0.
            pub const fn from_number(number: u32) -> Option<Refusal> {
                match number {
                    0 => None,
                    $($number => Some(Refusal::$name),)*
                    _ => Some(Refusal::Unnamed(Unnamed(number))),
                }
            }
        }
    };
}

/// The number of a refusal that has no name here. Only [`Refusal::from_number`] makes one, so that a number is one refusal.
#[derive(Clone, Copy, Debug, PartialEq, Eq, Hash)]
pub struct Unnamed(u32);

refusals! {
    1 NoRecords "no exon records"
    2 NoStrand "strand is neither 1 nor -1"
    3 TooMuch "over 512 records, a CIGAR over 4,096 bytes, a segment past 2,048, a card or a log over 65,536 bytes, over 2,048 BAM words"
    4 BadBound "a record's bound or a given length negative, a record's end below its start, a genome start below the previous end"
    5 BadOrd "`ord` not strictly rising (strand 1) or falling (strand -1)"
    6 NotAdjacent "consecutive exons in `ord` order: `tx_end_i` differs from the next `tx_start_i`"
    7 NoElement "a CIGAR byte or end where an element can't be finished; in writing, a letter not of the six"
    8 BadCount "a finished element's count above 2,147,483,647; in writing, a negative count"
    9 TooLong "transcript length, or first start plus genome length, above 2,000,000,000"
    10 NoSegment "no segment at all"
    11 HalfCds "one CDS bound given, the other not"
    12 BadCds "not 0 <= start <= end <= transcript length"
    13 NotCoding "c. asked, no CDS"
    14 Outside "strict: place outside the from-table"
    15 NOutside "strict n. to c.: number <= 0 or above the length"
    16 COutside "strict c. to n.: number <= 0 or above the length"
    17 TooWide "a result number doesn't fit 32 signed bits"
    18 NoGenome "g. asked of a length-only transcript"
    19 MissingEnd "g. start or end missing"
    20 NoRoom "text, words, an allele or an entry longer than the lent buffer"
    21 NoCard "bytes that are no card"
    22 BadVersion "card version not 1"
    23 NotTogether "a transcript that doesn't hold together"
    30 NoOperation "a BAM word whose operation is none of M, I, D, N, = and X"
    31 NoWord "in writing BAM words, a count below 0 or above 268,435,455"
    32 NotSpanning "a CIGAR whose genome length differs from its bounds"
    33 Falling "a worklist that falls anywhere"
    34 NoBase "an allele with a letter outside the nucleotide list"
    35 NoLog "a log with a wrong mark, version, length or field, or a question that no entry can hold"
}

impl Refusal {
    /// What an entry's number says: answered, or refused.
    pub const fn check(number: u32) -> Result<(), Refusal> {
        match Refusal::from_number(number) {
            None => Ok(()),
            Some(refusal) => Err(refusal),
        }
    }
}

impl fmt::Display for Refusal {
    fn fmt(&self, f: &mut fmt::Formatter<'_>) -> fmt::Result {
        write!(f, "refused {}: {}", self.number(), self.words())
    }
}

impl Error for Refusal {}

#[cfg(test)]
mod tests {
    use super::*;

    #[test]
    fn document_01_has_1_to_23_and_document_02_goes_on_from_30() {
        let numbers: Vec<_> = Refusal::NAMED.iter().map(|refusal| refusal.number()).collect();
        assert!(numbers.is_sorted() && numbers.starts_with(&(1..=23).chain(30..=35).collect::<Vec<_>>()));
    }

    #[test]
    fn every_number_but_0_is_one_refusal() {
        assert_eq!(Refusal::check(0), Ok(()));
        for number in (1..1_000).chain([u32::MAX - 1, u32::MAX]) {
            let refusal = Refusal::check(number).unwrap_err();
            assert_eq!(refusal.number(), number);
            assert_eq!(matches!(refusal, Refusal::Unnamed(_)), !Refusal::NAMED.contains(&refusal));
            assert!(refusal.to_string().starts_with(&format!("refused {number}: ")));
        }
    }
}
