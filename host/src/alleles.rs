//! What two alleles have in common, what remains of them, and an allele as the other strand reads it. To trim, any bytes will
//! do; what is turned is letters.

use crate::{boundary, Refusal};

/// The length of the common prefix, and what remains of both.
///
/// ```
/// use pulindraxi::alleles;
///
/// assert_eq!(alleles::trim_prefix(b"ACGT", b"ACT"), (2, &b"GT"[..], &b"T"[..]));
/// ```
pub fn trim_prefix<'r, 'a>(reference: &'r [u8], alternative: &'a [u8]) -> (usize, &'r [u8], &'a [u8]) {
    let common = boundary::trim_prefix(reference, alternative);
    (common, &reference[common..], &alternative[common..])
}

/// The length of the common suffix, and what remains of both.
///
/// ```
/// use pulindraxi::alleles;
///
/// assert_eq!(alleles::trim_suffix(b"ACGT", b"ACT"), (1, &b"ACG"[..], &b"AC"[..]));
/// ```
pub fn trim_suffix<'r, 'a>(reference: &'r [u8], alternative: &'a [u8]) -> (usize, &'r [u8], &'a [u8]) {
    let common = boundary::trim_suffix(reference, alternative);
    (common, &reference[..reference.len() - common], &alternative[..alternative.len() - common])
}

/// A part of the allele that was longer.
#[derive(Clone, Copy, Debug, PartialEq, Eq)]
pub enum Changed<'r, 'a> {
    /// Of the reference, also when lengths tie.
    Reference(&'r [u8]),
    /// Of the alternative.
    Alternative(&'a [u8]),
}

/// What remains of the longer allele once the common prefix and then the common suffix are removed.
///
/// ```
/// use pulindraxi::alleles::{changed, Changed};
///
/// assert_eq!(changed(b"ACGT", b"ACT"), Changed::Reference(b"G"));
/// assert_eq!(changed(b"ACT", b"ACGT"), Changed::Alternative(b"G"));
/// ```
pub fn changed<'r, 'a>(reference: &'r [u8], alternative: &'a [u8]) -> Changed<'r, 'a> {
    let part = boundary::changed(reference, alternative);
    match part.alternative {
        0 => Changed::Reference(&reference[part.from..part.to]),
        _ => Changed::Alternative(&alternative[part.from..part.to]),
    }
}

/// Writes an allele as the other strand reads it, reversed and complemented, into the front of a buffer, and says how long it
/// is. A letter that [`turn`] refuses is refused first (34), then a buffer that is too short (20).
///
/// ```
/// use pulindraxi::{alleles, Refusal};
///
/// let mut buffer = *b"....";
/// assert_eq!(alleles::turn_into(b"AAC", &mut buffer), Ok(3));
/// assert_eq!(&buffer, b"GTT.");
/// assert_eq!(alleles::turn_into(b"AAC", &mut buffer[..2]), Err(Refusal::NoRoom));
/// ```
pub fn turn_into(allele: &[u8], buffer: &mut [u8]) -> Result<usize, Refusal> {
    let turned = boundary::turn(allele, buffer);
    Refusal::check(turned.number)?;
    Ok(turned.length)
}

/// An allele as the other strand reads it: reversed, and each letter complemented (A-T, C-G, R-Y, K-M, B-V, D-H; S, W and N
/// are their own), its case kept. Turning twice gives the allele back. Any other letter, U among them, is refused (34).
///
/// ```
/// use pulindraxi::{alleles, Refusal};
///
/// assert_eq!(alleles::turn(b"AACr")?, b"yGTT");
/// assert_eq!(alleles::turn(b"AAU"), Err(Refusal::NoBase));
/// # Ok::<(), Refusal>(())
/// ```
pub fn turn(allele: &[u8]) -> Result<Vec<u8>, Refusal> {
    let mut turned = vec![0; allele.len()];
    turn_into(allele, &mut turned)?;
    Ok(turned)
}
