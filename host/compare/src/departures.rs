//! Where document 02 departs from the crate, by rule: told from what is asked and from the transcript, with no answer at hand.
//!
//! Ask 3, the end of the gene: in strict mode the crate takes the place after the last, and it looks at an n. interval's start from below
//! and at its end from above alone, as it does at an interval that may be in bounds; the request looks at both ends from both sides.
//! Lenient mappings, and c. to n., keep every rule.

use pulindraxi::boundary::AskedG;
use trials::{
    paper::{Aligned, Source},
    Kind, Question,
};

/// Whether the request's answer or refusal is due to a question, and not the crate's.
pub fn departs(source: &Source, question: &Question) -> bool {
    let numbers = [question.start.base, question.end.base].map(i64::from);
    match (question.kind, source) {
        (Kind::GToN, Source::Records(of)) => question.strict && is_whole(question) && g_departs(of, numbers),
        (Kind::GToC, Source::Records(of)) if question.strict && is_whole(question) => {
            let n = source.g_to_n(question.g(), true).map(|n| [n.start.base, n.end.base].map(i64::from));
            g_departs(of, numbers) || n.is_ok_and(|n| coding_departs(source, n))
        }
        (Kind::InBounds, Source::Records(of)) => {
            let (places, length) = (genome_places(of, numbers), last(&of.genome));
            let by_the_crate = places[0] >= 0 && places[1] <= length;
            is_whole(question) && by_the_crate && !places.iter().all(|place| (0..length).contains(place))
        }
        (Kind::NToG, Source::Records(of)) => {
            question.strict && reaches(transcript_places(of, numbers), last(&of.transcript))
        }
        (Kind::NToC, _) => question.strict && coding_departs(source, numbers),
        _ => false,
    }
}

/// Whether both ends of a g. interval are there.
fn is_whole(question: &Question) -> bool {
    question.missing & (AskedG::START | AskedG::END) == 0
}

fn last(starts: &[i64]) -> i64 {
    starts[starts.len() - 1]
}

/// The places of g. numbers.
fn genome_places(of: &Aligned, numbers: [i64; 2]) -> [i64; 2] {
    numbers.map(|number| number - 1 - of.first)
}

/// The places of n. numbers, turned on strand -1.
fn transcript_places(of: &Aligned, numbers: [i64; 2]) -> [i64; 2] {
    let place = |number: i64| number - i64::from(number >= 1);
    numbers.map(|number| if of.strand == 1 { place(number) } else { last(&of.transcript) - 1 - place(number) })
}

/// 14: both places are within the crate's bounds, and one is that after the last.
fn reaches(places: [i64; 2], length: i64) -> bool {
    places.iter().all(|place| (0..=length).contains(place)) && places.contains(&length)
}

fn g_departs(of: &Aligned, numbers: [i64; 2]) -> bool {
    reaches(genome_places(of, numbers), last(&of.genome))
}

/// 15: the crate takes n. numbers of which one is not that of a base.
fn coding_departs(source: &Source, [start, end]: [i64; 2]) -> bool {
    let length = source.length();
    source.cds().is_some() && start > 0 && end <= length && (start > length || end <= 0)
}
