//! Positions and intervals as they are answered, and the mark of a mapping to or from g. Only an answer makes them; each
//! becomes a question by `into` (see [`asked`](crate::asked)).

use crate::{
    boundary::{Answer, Position, Slot},
    Refusal,
};

/// A g. base.
#[derive(Clone, Copy, Debug, PartialEq, Eq, Hash)]
#[non_exhaustive]
pub struct GPosition {
    /// The number.
    pub base: i32,
    /// The exon that the asked number is of, from 1 in transcript order.
    pub exon: u32,
}

/// A g. interval.
#[derive(Clone, Copy, Debug, PartialEq, Eq, Hash)]
#[non_exhaustive]
pub struct GInterval {
    /// The first base.
    pub start: GPosition,
    /// The last base.
    pub end: GPosition,
}

/// An n. number with an intron offset, 0 for none.
#[derive(Clone, Copy, Debug, PartialEq, Eq, Hash)]
#[non_exhaustive]
pub struct NPosition {
    /// The number.
    pub base: i32,
    /// The offset.
    pub offset: i32,
    /// The exon that it counts from, from 1 in transcript order; none in an answer of c. to n.
    pub exon: Option<u32>,
}

/// An n. interval.
#[derive(Clone, Copy, Debug, PartialEq, Eq, Hash)]
#[non_exhaustive]
pub struct NInterval {
    /// Its first position.
    pub start: NPosition,
    /// Its last position.
    pub end: NPosition,
}

/// A c. number with an intron offset, 0 for none.
#[derive(Clone, Copy, Debug, PartialEq, Eq, Hash)]
#[non_exhaustive]
pub struct CPosition {
    /// The number.
    pub base: i32,
    /// The offset.
    pub offset: i32,
    /// Whether the number counts from the end of the CDS, as in `*3`.
    pub star: bool,
    /// The exon that it counts from, from 1 in transcript order; none in an answer of n. to c.
    pub exon: Option<u32>,
}

/// A c. interval.
#[derive(Clone, Copy, Debug, PartialEq, Eq, Hash)]
#[non_exhaustive]
pub struct CInterval {
    /// Its first position.
    pub start: CPosition,
    /// Its last position.
    pub end: CPosition,
}

/// What a mapping to or from g. answers: an interval, uncertain where an end fell in an I or D segment.
#[derive(Clone, Copy, Debug, PartialEq, Eq, Hash)]
pub enum Mapped<T> {
    /// Both ends lie in matched columns or introns.
    Certain(T),
    /// An end lies in a gap of the alignment.
    Uncertain(T),
}

impl<T> Mapped<T> {
    /// The interval, whatever the mark.
    pub fn interval(self) -> T {
        match self {
            Mapped::Certain(interval) | Mapped::Uncertain(interval) => interval,
        }
    }

    /// Whether the mark is certain.
    pub const fn is_certain(&self) -> bool {
        matches!(self, Mapped::Certain(_))
    }
}

/// What a g. interval with two alleles answers. The alleles are as the transcript reads them, without what they had in common at
/// the front, and then at the back. The interval is not narrowed to what is left of them.
#[derive(Clone, Copy, Debug, PartialEq, Eq, Hash)]
#[non_exhaustive]
pub struct Joined<Allele> {
    /// What g. to c. answers.
    pub c: Mapped<CInterval>,
    /// How many letters went at the front, in transcript direction.
    pub prefix: usize,
    /// How many letters went at the back.
    pub suffix: usize,
    /// What is left of the reference.
    pub reference: Allele,
    /// What is left of the alternative.
    pub alternative: Allele,
}

// ---- From the boundary

impl Slot {
    /// A slot for a g. position. Until a worklist answers it, it says 23: nothing is known of its transcript.
    pub const fn new(position: i32) -> Slot {
        let at = Position { base: 0, offset: 0, star: 0, exon: 0 };
        let answer = Answer { number: Refusal::NotTogether.number(), mark: 0, start: at, end: at };
        Slot { position, answer }
    }

    /// The n. interval of its position, as g. to n. answers it in strict mode.
    pub fn n(&self) -> Result<Mapped<NInterval>, Refusal> {
        self.answer.try_into()
    }
}

impl Position {
    /// The exon's number, where the mapping carries one.
    fn exon(self) -> Option<u32> {
        (self.exon != 0).then_some(self.exon)
    }
}

impl From<Position> for GPosition {
    fn from(g: Position) -> GPosition {
        GPosition { base: g.base, exon: g.exon }
    }
}

impl From<Position> for NPosition {
    fn from(n: Position) -> NPosition {
        NPosition { base: n.base, offset: n.offset, exon: n.exon() }
    }
}

impl From<Position> for CPosition {
    fn from(c: Position) -> CPosition {
        CPosition { base: c.base, offset: c.offset, star: c.star != 0, exon: c.exon() }
    }
}

impl TryFrom<Answer> for GInterval {
    type Error = Refusal;

    fn try_from(answer: Answer) -> Result<GInterval, Refusal> {
        Refusal::check(answer.number)?;
        Ok(GInterval { start: answer.start.into(), end: answer.end.into() })
    }
}

impl TryFrom<Answer> for NInterval {
    type Error = Refusal;

    fn try_from(answer: Answer) -> Result<NInterval, Refusal> {
        Refusal::check(answer.number)?;
        Ok(NInterval { start: answer.start.into(), end: answer.end.into() })
    }
}

impl TryFrom<Answer> for CInterval {
    type Error = Refusal;

    fn try_from(answer: Answer) -> Result<CInterval, Refusal> {
        Refusal::check(answer.number)?;
        Ok(CInterval { start: answer.start.into(), end: answer.end.into() })
    }
}

impl<T: TryFrom<Answer, Error = Refusal>> TryFrom<Answer> for Mapped<T> {
    type Error = Refusal;

    fn try_from(answer: Answer) -> Result<Mapped<T>, Refusal> {
        let interval = T::try_from(answer)?;
        Ok(match answer.mark {
            Answer::CERTAIN => Mapped::Certain(interval),
            _ => Mapped::Uncertain(interval),
        })
    }
}
