//! Variants of the genome as people write them, and the same ones as a transcript reads them. Nothing is normalized: an interval
//! is neither moved nor narrowed, and a variant keeps the form that it was written in.

use std::fmt;

use pulindraxi::{alleles, asked::GInterval, Bounds, NoName, Refusal, Transcript};

/// How a variant is written.
#[derive(Clone, Copy, Debug, PartialEq, Eq)]
enum Form {
    /// `A>G`.
    Substitution,
    /// `del`, or `delAC`.
    Deletion,
    /// `insC`.
    Insertion,
    /// `delinsTT`, or `delACinsTT`.
    Replacement,
}

/// The letters of an allele, and where they stand in their line, counted from 1.
#[derive(Debug)]
struct Allele {
    letters: String,
    place: usize,
}

/// A variant of the genome. Where its reference is not written, it has no letters.
#[derive(Debug)]
pub struct Variant {
    /// Its interval.
    pub g: GInterval,
    form: Form,
    reference: Allele,
    alternative: Allele,
}

/// The form, the reference and the alternative of what follows an interval, if these are written there.
fn split(text: &str) -> Option<(Form, &str, &str)> {
    if let Some(inserted) = text.strip_prefix("ins") {
        return Some((Form::Insertion, "", inserted));
    }
    match text.strip_prefix("del") {
        // An `i` is no letter of an allele.
        Some(rest) => Some(match rest.split_once("ins") {
            Some((deleted, inserted)) => (Form::Replacement, deleted, inserted),
            None => (Form::Deletion, rest, ""),
        }),
        None => text.split_once('>').map(|(from, to)| (Form::Substitution, from, to)),
    }
}

/// Reads what follows `g.`, which stands at this place of its line, counted from 1. None where it is no variant.
pub fn read(text: &str, place: usize) -> Option<Result<Variant, String>> {
    let is_interval = |c: char| c.is_ascii_digit() || "+-_?".contains(c);
    let (interval, rest) = text.split_at(text.find(|c| !is_interval(c))?);
    let (form, reference, alternative) = split(rest)?;
    let g = format!("g.{interval}").parse().map_err(|error: NoName| error.to_string());
    // The reference stands behind `del`, if that is there, and the alternative last.
    let before = interval.len() + if form == Form::Substitution { 0 } else { "del".len() };
    let allele =
        |letters: &str, at: usize| Allele { letters: letters.to_string(), place: place + text[..at].chars().count() };
    Some(g.and_then(|g| {
        let (reference, alternative) = (allele(reference, before), allele(alternative, text.len() - alternative.len()));
        Variant { g, form, reference, alternative }.judged()
    }))
}

/// A form with its letters.
fn written(form: Form, reference: &str, alternative: &str) -> String {
    match form {
        Form::Substitution => format!("{reference}>{alternative}"),
        Form::Deletion => format!("del{reference}"),
        Form::Insertion => format!("ins{alternative}"),
        Form::Replacement => format!("del{reference}ins{alternative}"),
    }
}

impl fmt::Display for Variant {
    fn fmt(&self, f: &mut fmt::Formatter<'_>) -> fmt::Result {
        write!(f, "{}{}", self.g, written(self.form, &self.reference.letters, &self.alternative.letters))
    }
}

impl Variant {
    /// The variant, if its form has its letters and suits its interval.
    fn judged(self) -> Result<Variant, String> {
        let [reference, alternative] = [&self.reference, &self.alternative].map(|allele| allele.letters.len());
        if self.form == Form::Substitution && reference == 0 || self.form != Form::Deletion && alternative == 0 {
            return Err("letters are missing".into());
        }
        let GInterval { start: Some(start), end: Some(end) } = self.g else { return Ok(self) };
        let steps = i64::from(end) - i64::from(start);
        if self.form == Form::Insertion && steps != 1 {
            return Err("an insertion stands between two neighbouring bases, as in g.23_24insC".into());
        }
        let bases = steps.unsigned_abs() + 1;
        if reference != 0 && reference as u64 != bases && self.wrong_letter().is_none() {
            return Err(format!("letters of the reference: {reference}, bases of the interval: {bases}"));
        }
        Ok(self)
    }

    /// The first letter that cannot be turned, and its place in the line.
    fn wrong_letter(&self) -> Option<(usize, char)> {
        let alleles = [&self.reference, &self.alternative].into_iter();
        let mut letters = alleles.flat_map(|allele| (allele.place..).zip(allele.letters.chars()));
        letters.find(|(_, letter)| alleles::turn(letter.encode_utf8(&mut [0; 4]).as_bytes()).is_err())
    }

    /// The variant on the c. interval, with its letters as the transcript reads them; and what both alleles have in common, if
    /// anything, with what is left of them.
    pub fn on(&self, transcript: &Transcript, bounds: Bounds) -> Result<(String, Option<String>), String> {
        self.joined(transcript, bounds).map_err(|refusal| match self.wrong_letter() {
            Some((place, letter)) if refusal == Refusal::NoBase => {
                format!("{refusal}; place {place} of the line has `{letter}`")
            }
            _ => refusal.to_string(),
        })
    }

    fn joined(&self, transcript: &Transcript, bounds: Bounds) -> Result<(String, Option<String>), Refusal> {
        let [reference, alternative] = [&self.reference, &self.alternative].map(|allele| allele.letters.as_bytes());
        let joined = transcript.g_to_c_alleles(self.g, bounds, reference, alternative)?;
        let read = |allele: &[u8]| match transcript.strand() {
            1 => Ok(text(allele)),
            _ => alleles::turn(allele).map(|turned| text(&turned)),
        };
        let (reference, alternative) = (read(reference)?, read(alternative)?);
        let name = format!("{}{}", joined.c, written(self.form, &reference, &alternative));
        let (front, back) = (&reference[..joined.prefix], &reference[reference.len() - joined.suffix..]);
        let removed = match (front, back) {
            ("", "") => return Ok((name, None)),
            (front, "") => format!("{front} in front"),
            ("", back) => format!("{back} behind"),
            (front, back) => format!("{front} in front, {back} behind"),
        };
        let [reference, alternative] = [&joined.reference, &joined.alternative].map(|left| match &left[..] {
            b"" => "nothing".to_string(),
            letters => text(letters),
        });
        Ok((name, Some(format!("removed: {removed}; left: {reference}, {alternative}"))))
    }
}

fn text(letters: &[u8]) -> String {
    String::from_utf8_lossy(letters).into_owned()
}
