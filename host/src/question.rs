//! A question of one of the six mappings as one value, and what is answered to any of them.

use std::fmt;

use crate::{
    answered::{self, Mapped},
    asked::{CInterval, CPosition, GInterval, NInterval, NPosition},
    boundary::{self, Asked},
    Bounds, Refusal,
};

/// A question of one of the six mappings.
///
/// ```
/// use pulindraxi::{Bounds, Question, Transcript};
///
/// let transcript = Transcript::of_length(18, Some(3), Some(15))?;
/// let question = Question::NToC("n.16".parse()?, Bounds::Strict);
/// assert_eq!(question.to_string(), "n.16 to c.");
/// assert_eq!(transcript.ask(question)?.to_string(), "c.*1");
/// # Ok::<(), Box<dyn std::error::Error>>(())
/// ```
#[derive(Clone, Copy, Debug, PartialEq, Eq, Hash)]
pub enum Question {
    /// [`Room::g_to_n`](crate::Room::g_to_n).
    GToN(GInterval, Bounds),
    /// [`Room::n_to_g`](crate::Room::n_to_g).
    NToG(NInterval, Bounds),
    /// [`Room::n_to_c`](crate::Room::n_to_c).
    NToC(NInterval, Bounds),
    /// [`Room::c_to_n`](crate::Room::c_to_n).
    CToN(CInterval, Bounds),
    /// [`Room::g_to_c`](crate::Room::g_to_c).
    GToC(GInterval, Bounds),
    /// [`Room::c_to_g`](crate::Room::c_to_g).
    CToG(CInterval, Bounds),
}

/// What one of the six mappings answers.
#[derive(Clone, Copy, Debug, PartialEq, Eq, Hash)]
pub enum Answer {
    /// To g.
    G(Mapped<answered::GInterval>),
    /// g. to n.
    N(Mapped<answered::NInterval>),
    /// g. to c.
    C(Mapped<answered::CInterval>),
    /// c. to n., which bears no mark and no exon.
    UnmarkedN(answered::NInterval),
    /// n. to c., which bears no mark and no exon.
    UnmarkedC(answered::CInterval),
}

impl Question {
    /// Whether bounds are strict.
    pub const fn bounds(self) -> Bounds {
        match self {
            Question::GToN(_, bounds) | Question::GToC(_, bounds) => bounds,
            Question::NToG(_, bounds) | Question::NToC(_, bounds) => bounds,
            Question::CToN(_, bounds) | Question::CToG(_, bounds) => bounds,
        }
    }

    /// What was said to this question.
    pub(crate) fn read(self, said: boundary::Answer) -> Result<Answer, Refusal> {
        Ok(match self {
            Question::GToN(..) => Answer::N(said.try_into()?),
            Question::NToG(..) | Question::CToG(..) => Answer::G(said.try_into()?),
            Question::NToC(..) => Answer::UnmarkedC(said.try_into()?),
            Question::CToN(..) => Answer::UnmarkedN(said.try_into()?),
            Question::GToC(..) => Answer::C(said.try_into()?),
        })
    }

    /// The question of numbers that some question has.
    pub(crate) fn of(numbers: boundary::Question) -> Question {
        let bounds = if numbers.strict == 0 { Bounds::Lenient } else { Bounds::Strict };
        let given = |marks: u32, base: i32| (marks & boundary::Question::MISSING == 0).then_some(base);
        let (start, end) = (given(numbers.start_marks, numbers.start), given(numbers.end_marks, numbers.end));
        let g = GInterval { start, end };
        let star = |marks: u32| marks & boundary::Question::STAR != 0;
        let start = Asked { base: numbers.start, offset: numbers.start_offset, star: star(numbers.start_marks) };
        let end = Asked { base: numbers.end, offset: numbers.end_offset, star: star(numbers.end_marks) };
        let n = NInterval::new(start.into(), end.into());
        let c = CInterval::new(start.into(), end.into());
        match numbers.kind {
            boundary::Question::G_TO_N => Question::GToN(g, bounds),
            boundary::Question::N_TO_G => Question::NToG(n, bounds),
            boundary::Question::N_TO_C => Question::NToC(n, bounds),
            boundary::Question::C_TO_N => Question::CToN(c, bounds),
            boundary::Question::G_TO_C => Question::GToC(g, bounds),
            _ => Question::CToG(c, bounds),
        }
    }
}

impl Answer {
    /// The exons of its start and end; none in n. to c. and back.
    pub fn exons(self) -> Option<[u32; 2]> {
        match self {
            Answer::G(g) => Some([g.interval().start.exon, g.interval().end.exon]),
            Answer::N(n) => Some([n.interval().start.exon?, n.interval().end.exon?]),
            Answer::C(c) => Some([c.interval().start.exon?, c.interval().end.exon?]),
            Answer::UnmarkedN(_) | Answer::UnmarkedC(_) => None,
        }
    }
}

/// The question, with its kind of answer and lenient bounds: `g.24 to c.`, `g.10 to n., lenient`.
impl fmt::Display for Question {
    fn fmt(&self, f: &mut fmt::Formatter<'_>) -> fmt::Result {
        match self {
            Question::GToN(g, _) => write!(f, "{g} to n."),
            Question::NToG(n, _) => write!(f, "{n} to g."),
            Question::NToC(n, _) => write!(f, "{n} to c."),
            Question::CToN(c, _) => write!(f, "{c} to n."),
            Question::GToC(g, _) => write!(f, "{g} to c."),
            Question::CToG(c, _) => write!(f, "{c} to g."),
        }?;
        match self.bounds() {
            Bounds::Strict => Ok(()),
            Bounds::Lenient => f.write_str(", lenient"),
        }
    }
}

/// The answer's name.
impl fmt::Display for Answer {
    fn fmt(&self, f: &mut fmt::Formatter<'_>) -> fmt::Result {
        match self {
            Answer::G(g) => g.fmt(f),
            Answer::N(n) => n.fmt(f),
            Answer::C(c) => c.fmt(f),
            Answer::UnmarkedN(n) => n.fmt(f),
            Answer::UnmarkedC(c) => c.fmt(f),
        }
    }
}

// ---- To and from the boundary

/// The numbers of a question of a kind, without its ends.
fn kind(kind: u32, bounds: Bounds) -> boundary::Question {
    boundary::Question { kind, strict: u32::from(bounds == Bounds::Strict), ..Default::default() }
}

/// The numbers of a question about a g. interval.
fn about_g(question: boundary::Question, g: GInterval) -> boundary::Question {
    let marks = |end: Option<i32>| if end.is_none() { boundary::Question::MISSING } else { 0 };
    boundary::Question {
        start_marks: marks(g.start),
        end_marks: marks(g.end),
        start: g.start.unwrap_or(0),
        end: g.end.unwrap_or(0),
        ..question
    }
}

/// The numbers of a question about a c. interval.
fn about_c(question: boundary::Question, c: CInterval) -> boundary::Question {
    let marks = |end: CPosition| if end.star { boundary::Question::STAR } else { 0 };
    boundary::Question {
        start_marks: marks(c.start),
        end_marks: marks(c.end),
        start: c.start.base,
        start_offset: c.start.offset,
        end: c.end.base,
        end_offset: c.end.offset,
        ..question
    }
}

/// The numbers of a question about an n. interval, whose positions are those of a c. interval without a star.
fn about_n(question: boundary::Question, n: NInterval) -> boundary::Question {
    let plain = |end: NPosition| CPosition::new(end.base, end.offset);
    about_c(question, CInterval::new(plain(n.start), plain(n.end)))
}

impl From<Question> for boundary::Question {
    fn from(question: Question) -> boundary::Question {
        match question {
            Question::GToN(g, bounds) => about_g(kind(Self::G_TO_N, bounds), g),
            Question::NToG(n, bounds) => about_n(kind(Self::N_TO_G, bounds), n),
            Question::NToC(n, bounds) => about_n(kind(Self::N_TO_C, bounds), n),
            Question::CToN(c, bounds) => about_c(kind(Self::C_TO_N, bounds), c),
            Question::GToC(g, bounds) => about_g(kind(Self::G_TO_C, bounds), g),
            Question::CToG(c, bounds) => about_c(kind(Self::C_TO_G, bounds), c),
        }
    }
}

/// Numbers that are no question's are refused (35): these are the ones that no entry of a log can hold.
impl TryFrom<boundary::Question> for Question {
    type Error = Refusal;

    fn try_from(numbers: boundary::Question) -> Result<Question, Refusal> {
        let question = Question::of(numbers);
        if boundary::Question::from(question) == numbers {
            Ok(question)
        } else {
            Err(Refusal::NoLog)
        }
    }
}
