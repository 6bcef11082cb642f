//! Positions and intervals as they are asked. An answer becomes a question by `into`:
//!
//! ```
//! use pulindraxi::{asked, Bounds, Transcript};
//!
//! let transcript = Transcript::of_length(18, Some(3), Some(15))?;
//! let n = asked::NInterval::at(asked::NPosition::new(16, 0));
//! let c = transcript.n_to_c(n, Bounds::Strict)?;
//! assert_eq!(transcript.c_to_n(c.into(), Bounds::Strict)?.to_string(), "n.16");
//! # Ok::<(), pulindraxi::Refusal>(())
//! ```

use crate::{
    answered,
    boundary::{Asked, AskedG},
};

/// A g. interval. A missing end is refused (19).
#[derive(Clone, Copy, Debug, PartialEq, Eq, Hash)]
pub struct GInterval {
    /// The first base.
    pub start: Option<i32>,
    /// The last base.
    pub end: Option<i32>,
}

impl GInterval {
    /// From one base to another.
    pub const fn new(start: i32, end: i32) -> GInterval {
        GInterval { start: Some(start), end: Some(end) }
    }

    /// One base.
    pub const fn at(base: i32) -> GInterval {
        GInterval::new(base, base)
    }
}

/// An n. number with an intron offset, 0 for none.
#[derive(Clone, Copy, Debug, PartialEq, Eq, Hash)]
pub struct NPosition {
    /// The number.
    pub base: i32,
    /// The offset.
    pub offset: i32,
}

impl NPosition {
    /// A number and its offset.
    pub const fn new(base: i32, offset: i32) -> NPosition {
        NPosition { base, offset }
    }
}

/// An n. interval.
#[derive(Clone, Copy, Debug, PartialEq, Eq, Hash)]
pub struct NInterval {
    /// Its first position.
    pub start: NPosition,
    /// Its last position.
    pub end: NPosition,
}

impl NInterval {
    /// From one position to another.
    pub const fn new(start: NPosition, end: NPosition) -> NInterval {
        NInterval { start, end }
    }

    /// One position.
    pub const fn at(position: NPosition) -> NInterval {
        NInterval::new(position, position)
    }
}

/// A c. number with an intron offset, 0 for none.
#[derive(Clone, Copy, Debug, PartialEq, Eq, Hash)]
pub struct CPosition {
    /// The number.
    pub base: i32,
    /// The offset.
    pub offset: i32,
    /// Whether the number counts from the end of the CDS, as in `*3`.
    pub star: bool,
}

impl CPosition {
    /// A number from the CDS's start, and its offset.
    pub const fn new(base: i32, offset: i32) -> CPosition {
        CPosition { base, offset, star: false }
    }

    /// A number from the CDS's end, and its offset.
    pub const fn star(base: i32, offset: i32) -> CPosition {
        CPosition { base, offset, star: true }
    }
}

/// A c. interval.
#[derive(Clone, Copy, Debug, PartialEq, Eq, Hash)]
pub struct CInterval {
    /// Its first position.
    pub start: CPosition,
    /// Its last position.
    pub end: CPosition,
}

impl CInterval {
    /// From one position to another.
    pub const fn new(start: CPosition, end: CPosition) -> CInterval {
        CInterval { start, end }
    }

    /// One position.
    pub const fn at(position: CPosition) -> CInterval {
        CInterval::new(position, position)
    }
}

// ---- From answers

impl From<answered::GInterval> for GInterval {
    fn from(g: answered::GInterval) -> GInterval {
        GInterval::new(g.start.base, g.end.base)
    }
}

impl From<answered::NPosition> for NPosition {
    fn from(n: answered::NPosition) -> NPosition {
        NPosition::new(n.base, n.offset)
    }
}

impl From<answered::NInterval> for NInterval {
    fn from(n: answered::NInterval) -> NInterval {
        NInterval::new(n.start.into(), n.end.into())
    }
}

impl From<answered::CPosition> for CPosition {
    fn from(c: answered::CPosition) -> CPosition {
        CPosition { base: c.base, offset: c.offset, star: c.star }
    }
}

impl From<answered::CInterval> for CInterval {
    fn from(c: answered::CInterval) -> CInterval {
        CInterval::new(c.start.into(), c.end.into())
    }
}

// ---- To and from the boundary

impl From<GInterval> for AskedG {
    fn from(g: GInterval) -> AskedG {
        let bit = |end: Option<i32>, bit| if end.is_none() { bit } else { 0 };
        AskedG {
            start: g.start.unwrap_or(0),
            end: g.end.unwrap_or(0),
            missing: bit(g.start, AskedG::START) | bit(g.end, AskedG::END),
        }
    }
}

impl From<AskedG> for GInterval {
    fn from(g: AskedG) -> GInterval {
        let given = |bit: u32, base: i32| (g.missing & bit == 0).then_some(base);
        GInterval { start: given(AskedG::START, g.start), end: given(AskedG::END, g.end) }
    }
}

impl From<NPosition> for Asked {
    fn from(n: NPosition) -> Asked {
        Asked { base: n.base, offset: n.offset, star: false }
    }
}

impl From<Asked> for NPosition {
    fn from(n: Asked) -> NPosition {
        NPosition::new(n.base, n.offset)
    }
}

impl From<CPosition> for Asked {
    fn from(c: CPosition) -> Asked {
        Asked { base: c.base, offset: c.offset, star: c.star }
    }
}

impl From<Asked> for CPosition {
    fn from(c: Asked) -> CPosition {
        CPosition { base: c.base, offset: c.offset, star: c.star }
    }
}
