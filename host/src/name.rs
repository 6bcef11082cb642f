//! HGVS names of positions: written by `Display`, read by `FromStr` as they are asked.
//!
//! ```
//! use pulindraxi::asked::{CInterval, CPosition};
//!
//! let c: CInterval = "c.7+3_*3".parse()?;
//! assert_eq!(c, CInterval::new(CPosition::new(7, 3), CPosition::star(3, 0)));
//! assert_eq!(c.to_string(), "c.7+3_*3");
//! # Ok::<(), pulindraxi::NoName>(())
//! ```

use std::{error::Error, fmt, str::FromStr};

use crate::{
    answered::{self, Mapped},
    asked::{CInterval, CPosition, GInterval, NInterval, NPosition},
};

/// An interval that has an HGVS name.
pub trait Named {
    /// The letter before the dot.
    const KIND: char;

    /// Writes what follows the dot.
    fn span(&self, f: &mut fmt::Formatter<'_>) -> fmt::Result;
}

/// Writes two ends, or one where they are equal.
fn ends<T: fmt::Display + PartialEq>(start: T, end: T, f: &mut fmt::Formatter<'_>) -> fmt::Result {
    if start == end {
        write!(f, "{start}")
    } else {
        write!(f, "{start}_{end}")
    }
}

/// A g. end: its number, or `?` where it is missing.
#[derive(PartialEq)]
struct GEnd(Option<i32>);

impl fmt::Display for GEnd {
    fn fmt(&self, f: &mut fmt::Formatter<'_>) -> fmt::Result {
        match self.0 {
            Some(base) => write!(f, "{base}"),
            None => f.write_str("?"),
        }
    }
}

impl fmt::Display for NPosition {
    fn fmt(&self, f: &mut fmt::Formatter<'_>) -> fmt::Result {
        write!(f, "{}", self.base)?;
        if self.offset != 0 {
            write!(f, "{:+}", self.offset)?;
        }
        Ok(())
    }
}

impl fmt::Display for CPosition {
    fn fmt(&self, f: &mut fmt::Formatter<'_>) -> fmt::Result {
        if self.star {
            f.write_str("*")?;
        }
        NPosition::new(self.base, self.offset).fmt(f)
    }
}

impl Named for GInterval {
    const KIND: char = 'g';

    fn span(&self, f: &mut fmt::Formatter<'_>) -> fmt::Result {
        ends(GEnd(self.start), GEnd(self.end), f)
    }
}

impl Named for NInterval {
    const KIND: char = 'n';

    fn span(&self, f: &mut fmt::Formatter<'_>) -> fmt::Result {
        ends(self.start, self.end, f)
    }
}

impl Named for CInterval {
    const KIND: char = 'c';

    fn span(&self, f: &mut fmt::Formatter<'_>) -> fmt::Result {
        ends(self.start, self.end, f)
    }
}

/// Writes a name, which an uncertain interval has in parentheses.
fn write_name<T: Named>(interval: &T, certain: bool, f: &mut fmt::Formatter<'_>) -> fmt::Result {
    write!(f, "{}.{}", T::KIND, if certain { "" } else { "(" })?;
    interval.span(f)?;
    f.write_str(if certain { "" } else { ")" })
}

/// An interval's name, and an answer's, which is that of the same interval as it is asked.
macro_rules! named {
    ($($interval:ident)*) => {$(
        impl fmt::Display for $interval {
            fn fmt(&self, f: &mut fmt::Formatter<'_>) -> fmt::Result {
                write_name(self, true, f)
            }
        }

        impl Named for answered::$interval {
            const KIND: char = $interval::KIND;

            fn span(&self, f: &mut fmt::Formatter<'_>) -> fmt::Result {
                $interval::from(*self).span(f)
            }
        }

        impl fmt::Display for answered::$interval {
            fn fmt(&self, f: &mut fmt::Formatter<'_>) -> fmt::Result {
                write_name(self, true, f)
            }
        }
    )*};
}

named! { GInterval NInterval CInterval }

impl<T: Named> fmt::Display for Mapped<T> {
    fn fmt(&self, f: &mut fmt::Formatter<'_>) -> fmt::Result {
        match self {
            Mapped::Certain(interval) => write_name(interval, true, f),
            Mapped::Uncertain(interval) => write_name(interval, false, f),
        }
    }
}

/// A text that is no name of the wanted kind, with the reason.
#[derive(Clone, Copy, Debug, PartialEq, Eq)]
pub struct NoName(&'static str);

impl fmt::Display for NoName {
    fn fmt(&self, f: &mut fmt::Formatter<'_>) -> fmt::Result {
        f.write_str(self.0)
    }
}

impl Error for NoName {}

/// A signed number at the front of a text, and what follows it.
fn number(text: &str) -> Result<(i32, &str), NoName> {
    let unsigned = text.strip_prefix(['+', '-']).unwrap_or(text);
    let rest = unsigned.trim_start_matches(|c: char| c.is_ascii_digit());
    if rest.len() == unsigned.len() {
        return Err(NoName("a number is missing"));
    }
    let (digits, rest) = text.split_at(text.len() - rest.len());
    let number = digits.parse().map_err(|_| NoName("a number does not fit 32 signed bits"))?;
    Ok((number, rest))
}

/// A number without a plus.
fn base(text: &str) -> Result<(i32, &str), NoName> {
    match text.starts_with('+') {
        true => Err(NoName("a number is missing before the offset")),
        false => number(text),
    }
}

impl FromStr for NPosition {
    type Err = NoName;

    fn from_str(text: &str) -> Result<NPosition, NoName> {
        let (base, rest) = base(text)?;
        if rest.is_empty() {
            return Ok(NPosition::new(base, 0));
        }
        if !rest.starts_with(['+', '-']) {
            return Err(NoName("a position is a number and an offset such as +3 or -2"));
        }
        match number(rest)? {
            (offset, "") => Ok(NPosition::new(base, offset)),
            _ => Err(NoName("something follows the offset")),
        }
    }
}

impl FromStr for CPosition {
    type Err = NoName;

    fn from_str(text: &str) -> Result<CPosition, NoName> {
        let star = text.starts_with('*');
        let NPosition { base, offset } = text.strip_prefix('*').unwrap_or(text).parse()?;
        Ok(CPosition { base, offset, star })
    }
}

impl FromStr for GEnd {
    type Err = NoName;

    fn from_str(text: &str) -> Result<GEnd, NoName> {
        if text == "?" {
            return Ok(GEnd(None));
        }
        match base(text)? {
            (base, "") => Ok(GEnd(Some(base))),
            _ => Err(NoName("a g. position is a number alone")),
        }
    }
}

/// The two ends of a name of a kind.
fn read_name<T: FromStr<Err = NoName>>(text: &str, kind: char) -> Result<(T, T), NoName> {
    let span =
        text.strip_prefix(kind).and_then(|rest| rest.strip_prefix('.')).ok_or(NoName("the name has another kind"))?;
    let (start, end) = span.split_once('_').unwrap_or((span, span));
    Ok((start.parse()?, end.parse()?))
}

impl FromStr for GInterval {
    type Err = NoName;

    fn from_str(text: &str) -> Result<GInterval, NoName> {
        let (start, end): (GEnd, GEnd) = read_name(text, GInterval::KIND)?;
        Ok(GInterval { start: start.0, end: end.0 })
    }
}

impl FromStr for NInterval {
    type Err = NoName;

    fn from_str(text: &str) -> Result<NInterval, NoName> {
        let (start, end) = read_name(text, NInterval::KIND)?;
        Ok(NInterval { start, end })
    }
}

impl FromStr for CInterval {
    type Err = NoName;

    fn from_str(text: &str) -> Result<CInterval, NoName> {
        let (start, end) = read_name(text, CInterval::KIND)?;
        Ok(CInterval { start, end })
    }
}

#[cfg(test)]
mod tests {
    use super::*;

    #[test]
    fn names_read_back() {
        for name in ["g.23", "g.11_33", "g.-4_?", "g.?", "g.-2147483648"] {
            assert_eq!(name.parse::<GInterval>().unwrap().to_string(), name);
        }
        for name in ["n.8+3", "n.-1", "n.1_9-2", "n.2147483647-2147483648"] {
            assert_eq!(name.parse::<NInterval>().unwrap().to_string(), name);
        }
        for name in ["c.7+3", "c.*3", "c.-3_-1", "c.*3+1_*4", "c.8-2", "c.0"] {
            assert_eq!(name.parse::<CInterval>().unwrap().to_string(), name);
        }
    }

    #[test]
    fn other_texts_are_no_names() {
        for text in ["", "g", "g.", "g.+3", "g.2147483648", "g.1_", "g.1_2_3", "g.7+3", "n.7", "g. 7"] {
            assert!(text.parse::<GInterval>().is_err(), "{text}");
        }
        for text in ["c.", "c.*", "c.7+", "c.7++3", "c.7+3x", "c.7 +3", "c.**3", "c.+3", "c.7+2147483648", "n.7"] {
            assert!(text.parse::<CInterval>().is_err(), "{text}");
        }
    }
}
