//! One question to a transcript, asked through the boundary or of document 01.

use pulindraxi::{
    boundary::{self, Answer, Asked, AskedG, Said},
    Refusal,
};

use crate::{
    paper::{self, Source},
    Lent,
};

/// Which entry is asked.
#[derive(Clone, Copy, Debug, PartialEq, Eq, Hash, PartialOrd, Ord)]
pub enum Kind {
    /// g. to n.
    GToN,
    /// g. to c.
    GToC,
    /// n. to g.
    NToG,
    /// n. to c.
    NToC,
    /// c. to n.
    CToN,
    /// c. to g.
    CToG,
    /// Whether a g. interval is in bounds.
    InBounds,
    /// Whether the transcript codes.
    IsCoding,
}

impl Kind {
    /// Every kind.
    pub const ALL: [Kind; 8] =
        [Kind::GToN, Kind::GToC, Kind::NToG, Kind::NToC, Kind::CToN, Kind::CToG, Kind::InBounds, Kind::IsCoding];

    /// The six mappings.
    pub const MAPPINGS: [Kind; 6] = [Kind::GToN, Kind::GToC, Kind::NToG, Kind::NToC, Kind::CToN, Kind::CToG];

    /// The entry's name.
    pub const fn entry(self) -> &'static str {
        match self {
            Kind::GToN => "txc_g_to_n",
            Kind::GToC => "txc_g_to_c",
            Kind::NToG => "txc_n_to_g",
            Kind::NToC => "txc_n_to_c",
            Kind::CToN => "txc_c_to_n",
            Kind::CToG => "txc_c_to_g",
            Kind::InBounds => "txc_in_bounds",
            Kind::IsCoding => "txc_is_coding",
        }
    }

    /// Whether a g. interval is asked about.
    pub const fn is_about_g(self) -> bool {
        matches!(self, Kind::GToN | Kind::GToC | Kind::InBounds)
    }

    /// Whether a c. interval is asked about.
    pub const fn is_about_c(self) -> bool {
        matches!(self, Kind::CToN | Kind::CToG)
    }
}

/// A question. What its kind does not use is 0.
#[derive(Clone, Copy, Debug, PartialEq, Eq)]
pub struct Question {
    /// Which entry.
    pub kind: Kind,
    /// The interval's start.
    pub start: Asked,
    /// The interval's end.
    pub end: Asked,
    /// Of a g. interval: which ends are missing, as in [`AskedG`].
    pub missing: u32,
    /// Whether bounds are strict.
    pub strict: bool,
}

/// A yes or no in the form of an answer: the mark is the yes.
fn as_answer(said: Said) -> Answer {
    Answer { number: said.number, mark: said.yes, ..Answer::default() }
}

impl Question {
    /// The g. interval that is asked about.
    pub fn g(&self) -> AskedG {
        AskedG { start: self.start.base, end: self.end.base, missing: self.missing }
    }

    /// Asks through the boundary.
    pub fn ask(&self, lent: &Lent) -> Answer {
        let (of, g) = (lent.reading(), self.g());
        let Question { kind, start: a, end: b, strict, .. } = *self;
        match kind {
            Kind::GToN => boundary::g_to_n(of, g, strict),
            Kind::GToC => boundary::g_to_c(of, g, strict),
            Kind::NToG => boundary::n_to_g(of, a, b, strict),
            Kind::NToC => boundary::n_to_c(of, a, b, strict),
            Kind::CToN => boundary::c_to_n(of, a, b, strict),
            Kind::CToG => boundary::c_to_g(of, a, b, strict),
            Kind::InBounds => as_answer(boundary::in_bounds(of, g)),
            Kind::IsCoding => as_answer(boundary::is_coding(of)),
        }
    }

    /// What document 01 answers; without a source the memory doesn't hold together.
    pub fn expect(&self, source: Option<&Source>) -> Answer {
        self.expect_of(source).unwrap_or_else(paper::refused)
    }

    fn expect_of(&self, source: Option<&Source>) -> Result<Answer, Refusal> {
        let source = source.ok_or(Refusal::NotTogether)?;
        let g = self.g();
        let Question { kind, start: a, end: b, strict, .. } = *self;
        match kind {
            Kind::GToN => source.g_to_n(g, strict),
            Kind::GToC => source.g_to_c(g, strict),
            Kind::NToG => source.n_to_g(a, b, strict),
            Kind::NToC => source.n_to_c(a, b, strict),
            Kind::CToN => source.c_to_n(a, b, strict),
            Kind::CToG => source.c_to_g(a, b, strict),
            Kind::InBounds => source.in_bounds(g).map(as_answer),
            Kind::IsCoding => Ok(as_answer(source.is_coding())),
        }
    }
}
