//! Every byte of an entry set to every value, and every length: the boundary takes just the logs that document 02 has.

use pulindraxi::{
    boundary::{self, Cds, Question as Numbers},
    limits::{ENTRY, LOG_HEAD, MOST_REPLAYED},
};
use trials::{
    logs::{self, Entry},
    paper::{self, Source},
    Lent,
};

/// A length-only transcript, in memory and in the documents' terms.
fn transcript() -> (Lent, Source) {
    let (mut lent, cds) = (Lent::filled(0), Cds::new(Some(3), Some(15)));
    assert_eq!(boundary::build_length(18, cds, &mut lent.head), 0);
    (lent, paper::build_length(18, cds).unwrap())
}

/// Replays a log, and holds the answer to the documents'.
fn judge(lent: &Lent, source: &Source, log: &[u8]) -> bool {
    let mut buffer = vec![0; MOST_REPLAYED];
    let replayed = boundary::replay(lent.reading(), log, &mut buffer);
    let expected = logs::replay(Some(source), log, MOST_REPLAYED);
    let number = expected.as_ref().err().map_or(0, |refusal| refusal.number());
    assert_eq!((replayed.number, replayed.length), (number, expected.as_ref().map_or(0, String::len)), "{log:?}");
    assert_eq!(&buffer[..replayed.length], expected.unwrap_or_default().as_bytes(), "{log:?}");
    number == 0
}

/// An entry of each kind with an answer that uses all that its kind has, and one of each kind with a refusal.
fn samples() -> Vec<Entry> {
    let mut samples = Vec::new();
    for kind in 0..6 {
        let question = Numbers { kind, start: 7, end: 9, ..Numbers::default() };
        let refused = boundary::Answer { number: 23, ..boundary::Answer::default() };
        let mark = if kind == 2 || kind == 3 { 3 } else { 2 };
        let end = boundary::Position { base: 4, exon: u32::from(mark == 2), ..boundary::Position::default() };
        let answered = boundary::Answer { number: 0, mark, start: end, end };
        samples.extend([refused, answered].map(|answer| Entry { question, answer }));
    }
    samples
}

#[test]
fn every_byte_with_every_value() {
    let (lent, source) = transcript();
    let (mut taken, mut tried) = (0, 0);
    for entry in samples() {
        // A good entry on both sides.
        let whole = logs::write(&[entry; 3]);
        assert!(judge(&lent, &source, &whole));
        for at in 0..ENTRY {
            for value in 0..=255 {
                let mut log = whole.clone();
                log[LOG_HEAD + ENTRY + at] = value;
                taken += usize::from(judge(&lent, &source, &log));
                tried += 1;
            }
        }
    }
    assert!(taken > tried / 10 && tried > 2 * taken, "{taken} of {tried}");
}

#[test]
fn every_mark_version_and_length() {
    let (lent, source) = transcript();
    let whole = logs::write(&samples());
    for at in 0..LOG_HEAD {
        for value in 0..=255 {
            let mut log = whole.clone();
            log[at] = value;
            assert_eq!(judge(&lent, &source, &log), log == whole);
        }
    }
    for length in 0..whole.len() {
        let is_whole = length >= LOG_HEAD && (length - LOG_HEAD) % ENTRY == 0;
        assert_eq!(judge(&lent, &source, &whole[..length]), is_whole);
    }
}
