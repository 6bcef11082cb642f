//! Every small transcript: all letters, counts 0 to 2, one record or two, both strands; every question at and around it.

use pulindraxi::boundary::Asked;
use trials::{
    draw::{Case, Record},
    paper::{along_genome, along_transcript},
    Kind, Question,
};

use crate::{settle::Built, Judge, Port};

/// An element of a small transcript.
type Small = (i32, u8);

/// Every list of at most so many elements.
fn lists(most: usize) -> Vec<Vec<Small>> {
    let mut lists = vec![Vec::new()];
    let mut from = 0;
    for _ in 0..most {
        let to = lists.len();
        for index in from..to {
            for letter in *b"=DIMNX" {
                for count in 0..3 {
                    let mut longer: Vec<Small> = lists[index].clone();
                    longer.push((count, letter));
                    lists.push(longer);
                }
            }
        }
        from = to;
    }
    lists
}

fn reach(list: &[Small], advances: fn(u8) -> bool) -> i32 {
    list.iter().filter(|(_, letter)| advances(*letter)).map(|(count, _)| count).sum()
}

fn text(list: &[Small]) -> Vec<u8> {
    list.iter().flat_map(|(count, letter)| format!("{count}{}", char::from(*letter)).into_bytes()).collect()
}

/// A transcript of lists, with gaps between them, that begins at a place. `beyond` is how far a record's bounds go beyond
/// its CIGAR.
fn case(strand: i32, first: i32, lists: &[&[Small]], gap: i32, beyond: i32) -> Case {
    let mut at = first;
    let mut records: Vec<Record> = Vec::new();
    for list in lists {
        let end = at + reach(list, along_genome) + beyond;
        records.push(Record { numbers: [at, end, 0, 0, strand * records.len() as i32], cigar: text(list) });
        at = end + gap;
    }
    Case { strand, cds_start: None, cds_end: None, records }
}

/// Asks every question about a built transcript: g. numbers from `first - 1` to beyond the end, each pair and all of them as a
/// worklist; n. numbers and c. numbers likewise.
fn ask_all<P: Port>(judge: &mut Judge<P>, built: &mut Built, first: i32, genome: i32, transcript: i32) {
    let ask = |judge: &mut Judge<P>, built: &mut Built, kind, start, end| {
        for strict in [true, false] {
            judge.ask(built, &Question { kind, start, end, missing: 0, strict });
        }
    };
    let plain = |base| Asked { base, ..Asked::default() };
    let around: Vec<_> = (first - 1..=first + genome + 3).collect();
    judge.worklist(built, &around);
    for &start in &around {
        for &end in &around {
            for kind in [Kind::GToN, Kind::GToC, Kind::InBounds] {
                ask(judge, built, kind, plain(start), plain(end));
            }
        }
    }
    for start in -2..=transcript + 2 {
        for end in -2..=transcript + 2 {
            for kind in [Kind::NToG, Kind::NToC] {
                ask(judge, built, kind, plain(start), plain(end));
            }
        }
        for offset in -2..=2 {
            let at = Asked { base: start, offset, star: false };
            ask(judge, built, Kind::NToG, at, at);
        }
    }
    for star in [false, true] {
        for base in -transcript - 2..=transcript + 2 {
            for other in [base, 1] {
                let (start, end) = (Asked { base, offset: 0, star }, Asked { base: other, offset: 1, star: !star });
                for kind in [Kind::CToN, Kind::CToG] {
                    ask(judge, built, kind, start, start);
                    ask(judge, built, kind, start, end);
                }
            }
        }
    }
}

/// Builds a transcript with several CDSs and asks each everything.
fn try_case<P: Port>(judge: &mut Judge<P>, mut case: Case, lists: &[&[Small]], gap: i32) {
    let first = case.records[0].numbers[0];
    let gaps = gap * (lists.len() as i32 - 1);
    let genome = lists.iter().map(|list| reach(list, along_genome)).sum::<i32>() + gaps;
    let transcript = lists.iter().map(|list| reach(list, along_transcript)).sum::<i32>();
    for cds in [None, Some((0, transcript)), Some((1, transcript - 1))] {
        (case.cds_start, case.cds_end) = (cds.map(|c| c.0), cds.map(|c| c.1));
        if let Some(mut built) = judge.build(&case) {
            ask_all(judge, &mut built, first, genome, transcript);
        }
    }
}

/// Every transcript of one record with at most `elements` elements, and of two records with at most one each: with gaps of 0
/// to 2, and with records that go beyond their CIGARs.
pub fn run<P: Port>(judge: &mut Judge<P>, elements: usize) {
    let single = lists(elements);
    let halves = lists(1);
    for strand in [1, -1] {
        for list in &single {
            try_case(judge, case(strand, 3, &[list], 0, 0), &[list], 0);
        }
        for left in &halves {
            for right in &halves {
                let lists: [&[Small]; 2] = [left, right];
                for (gap, beyond) in [(0, 0), (1, 0), (2, 0), (1, 1)] {
                    try_case(judge, case(strand, 0, &lists, gap, beyond), &lists, gap);
                }
            }
        }
    }
}
