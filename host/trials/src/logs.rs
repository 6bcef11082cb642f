//! Document 02, Ask 7, in plain Rust: a question as one value, an entry's bytes both ways, what makes a log, recording and replay.

use pulindraxi::{
    boundary::{Answer, Asked, Position, Question as Numbers},
    limits::{ENTRY, LOG_HEAD, MOST_LOG},
    Refusal,
};

use crate::{
    paper::{self, Source},
    Kind, Question,
};

/// What is asked or answered about.
#[derive(Clone, Copy, Debug, PartialEq, Eq)]
enum Unit {
    G,
    N,
    C,
}

/// One of the six mappings: from what, to what, and the refusals that it can give, strict or not.
struct Mapping {
    kind: Kind,
    from: Unit,
    to: Unit,
    refusals: &'static [u32],
}

/// The mappings, each at its number.
const MAPPINGS: [Mapping; 6] = [
    Mapping { kind: Kind::GToN, from: Unit::G, to: Unit::N, refusals: &[14, 17, 18, 19, 23] },
    Mapping { kind: Kind::NToG, from: Unit::N, to: Unit::G, refusals: &[14, 17, 18, 23] },
    Mapping { kind: Kind::NToC, from: Unit::N, to: Unit::C, refusals: &[13, 15, 17, 23] },
    Mapping { kind: Kind::CToN, from: Unit::C, to: Unit::N, refusals: &[13, 16, 17, 23] },
    Mapping { kind: Kind::GToC, from: Unit::G, to: Unit::C, refusals: &[13, 14, 15, 17, 18, 19, 23] },
    Mapping { kind: Kind::CToG, from: Unit::C, to: Unit::G, refusals: &[13, 16, 17, 18, 23] },
];

impl Mapping {
    fn of(number: u32) -> Option<&'static Mapping> {
        MAPPINGS.get(usize::try_from(number).ok()?)
    }

    /// To or from g.: the answer has a mark and exons.
    fn is_marked(&self) -> bool {
        self.from == Unit::G || self.to == Unit::G
    }
}

/// A question and what was said to it, as numbers.
#[derive(Clone, Copy, Debug, PartialEq, Eq)]
pub struct Entry {
    /// The question.
    pub question: Numbers,
    /// The answer or refusal.
    pub answer: Answer,
}

// ---- A question as one value

/// The ends of a question: marks, number, offset.
fn ends(question: &Numbers) -> [(u32, i32, i32); 2] {
    let Numbers { start_marks, end_marks, start, start_offset, end, end_offset, .. } = *question;
    [(start_marks, start, start_offset), (end_marks, end, end_offset)]
}

/// Whether an entry can hold a question.
pub fn is_held(question: &Numbers) -> bool {
    let Some(mapping) = Mapping::of(question.kind) else { return false };
    question.strict <= 1
        && ends(question).into_iter().all(|(marks, number, offset)| match (mapping.from, marks) {
            (Unit::C, 0 | Numbers::STAR) | (Unit::N, 0) => true,
            (Unit::G, 0) => offset == 0,
            (Unit::G, Numbers::MISSING) => offset == 0 && number == 0,
            _ => false,
        })
}

impl Question {
    /// The question as one value, if it is one of the six mappings. What its entry does not look at is 0: a number under a missing mark,
    /// an offset on g.
    pub fn numbers(&self) -> Option<Numbers> {
        let kind = MAPPINGS.iter().position(|mapping| mapping.kind == self.kind)? as u32;
        let marks = |end: Asked, bit: u32| match self.kind {
            kind if kind.is_about_c() && end.star => Numbers::STAR,
            kind if kind.is_about_g() && self.missing & bit != 0 => Numbers::MISSING,
            _ => 0,
        };
        let (start_marks, end_marks) = (marks(self.start, 1), marks(self.end, 2));
        let number = |end: Asked, marks: u32| if marks == Numbers::MISSING { 0 } else { end.base };
        let offset = |end: Asked| if self.kind.is_about_g() { 0 } else { end.offset };
        Some(Numbers {
            kind,
            strict: self.strict.into(),
            start_marks,
            end_marks,
            start: number(self.start, start_marks),
            start_offset: offset(self.start),
            end: number(self.end, end_marks),
            end_offset: offset(self.end),
        })
    }

    /// The question that numbers name, if an entry can hold them.
    pub fn named(numbers: &Numbers) -> Option<Question> {
        let mapping = Mapping::of(numbers.kind).filter(|_| is_held(numbers))?;
        let missing = |marks: u32, bit: u32| if marks == Numbers::MISSING { bit } else { 0 };
        let [start, end] =
            ends(numbers).map(|(marks, base, offset)| Asked { base, offset, star: marks == Numbers::STAR });
        Some(Question {
            kind: mapping.kind,
            start,
            end,
            missing: missing(numbers.start_marks, 1) | missing(numbers.end_marks, 2),
            strict: numbers.strict == 1,
        })
    }
}

/// What a question as one value answers: 35 first, then what the mapping says.
pub fn ask(source: Option<&Source>, question: &Numbers) -> Answer {
    Question::named(question).map_or_else(|| paper::refused(Refusal::NoLog), |question| question.expect(source))
}

// ---- An entry

/// Whether an end of an answer has what its kind uses, and nothing else.
fn is_answered(mapping: &Mapping, end: &Position) -> bool {
    let star = match mapping.to {
        Unit::C => end.star <= 1,
        _ => end.star == 0,
    };
    let offset = mapping.to != Unit::G || end.offset == 0;
    star && offset && (end.exon != 0) == mapping.is_marked()
}

/// Whether an entry is one of an accepted log.
pub fn is_entry(entry: &Entry) -> bool {
    let Entry { question, answer } = entry;
    let Some(mapping) = Mapping::of(question.kind).filter(|_| is_held(question)) else { return false };
    let Answer { number, mark, start, end } = *answer;
    match mark {
        0 => mapping.refusals.contains(&number) && [start, end] == [Position::default(); 2],
        Answer::CERTAIN | Answer::UNCERTAIN if !mapping.is_marked() => false,
        Answer::UNMARKED if mapping.is_marked() => false,
        Answer::CERTAIN..=Answer::UNMARKED => number == 0 && [start, end].iter().all(|end| is_answered(mapping, end)),
        _ => false,
    }
}

/// The bytes of an entry.
pub fn entry_bytes(entry: &Entry) -> Vec<u8> {
    let Entry { question: q, answer: Answer { number, mark, start, end } } = *entry;
    let mut bytes = [q.kind, q.strict, q.start_marks, q.end_marks].map(|byte| byte as u8).to_vec();
    let put = |bytes: &mut Vec<u8>, numbers: [i32; 4]| numbers.iter().for_each(|n| bytes.extend(n.to_le_bytes()));
    put(&mut bytes, [q.start, q.start_offset, q.end, q.end_offset]);
    bytes.extend([mark, number, start.star, end.star].map(|byte| byte as u8));
    put(&mut bytes, [start.base, start.offset, end.base, end.offset]);
    bytes.extend([start.exon, end.exon].into_iter().flat_map(|exon| (exon as u16).to_le_bytes()));
    bytes
}

/// What stands in the bytes of an entry.
fn entry_of(bytes: &[u8]) -> Entry {
    let byte = |at: usize| u32::from(bytes[at]);
    let number = |at: usize| i32::from_le_bytes(bytes[at..at + 4].try_into().expect("four bytes"));
    let exon = |at: usize| u16::from_le_bytes([bytes[at], bytes[at + 1]]).into();
    Entry {
        question: Numbers {
            kind: byte(0),
            strict: byte(1),
            start_marks: byte(2),
            end_marks: byte(3),
            start: number(4),
            start_offset: number(8),
            end: number(12),
            end_offset: number(16),
        },
        answer: Answer {
            mark: byte(20),
            number: byte(21),
            start: Position { base: number(24), offset: number(28), star: byte(22), exon: exon(40) },
            end: Position { base: number(32), offset: number(36), star: byte(23), exon: exon(42) },
        },
    }
}

// ---- A log

/// The mark and the version.
pub const HEAD: &[u8; LOG_HEAD] = b"QLG\x01\x00";

/// The bytes of a log.
pub fn write(entries: &[Entry]) -> Vec<u8> {
    HEAD.iter().copied().chain(entries.iter().flat_map(entry_bytes)).collect()
}

/// Whether the mark, the version and the length are a log's.
fn is_headed(log: &[u8]) -> bool {
    log.starts_with(HEAD) && (log.len() - LOG_HEAD) % ENTRY == 0
}

/// The entries of a log: 3, then 35.
pub fn read(log: &[u8]) -> Result<Vec<Entry>, Refusal> {
    if log.len() > MOST_LOG {
        return Err(Refusal::TooMuch);
    }
    let entries: Vec<_> = match is_headed(log) {
        true => log[LOG_HEAD..].chunks(ENTRY).map(entry_of).collect(),
        false => return Err(Refusal::NoLog),
    };
    if entries.iter().all(is_entry) {
        Ok(entries)
    } else {
        Err(Refusal::NoLog)
    }
}

/// Recording into lent bytes, of which so many are in use: 35, 3, 20. Else what is written behind those in use, and the answer.
pub fn record(
    source: Option<&Source>,
    question: &Numbers,
    lent: &[u8],
    used: usize,
) -> Result<(Vec<u8>, Answer), Refusal> {
    let in_use = lent.get(..used).filter(|_| is_held(question)).ok_or(Refusal::NoLog)?;
    if !in_use.is_empty() && !is_headed(in_use) {
        return Err(Refusal::NoLog);
    }
    let answer = ask(source, question);
    let entry = entry_bytes(&Entry { question: *question, answer });
    let written = if in_use.is_empty() { [HEAD, &entry[..]].concat() } else { entry };
    if used + written.len() > MOST_LOG {
        return Err(Refusal::TooMuch);
    }
    if used + written.len() > lent.len() {
        return Err(Refusal::NoRoom);
    }
    Ok((written, answer))
}

/// A replay: 23, 3, 35, 20. Else the index of each entry whose answer differs, a line each, then the total.
pub fn replay(source: Option<&Source>, log: &[u8], room: usize) -> Result<String, Refusal> {
    let source = source.ok_or(Refusal::NotTogether)?;
    let entries = read(log)?;
    let differs = |entry: &Entry| ask(Some(source), &entry.question) != entry.answer;
    let indices: Vec<_> = (0..entries.len()).filter(|&index| differs(&entries[index])).collect();
    let total = indices.len();
    let lines = indices.into_iter().chain([total]);
    let text: String = lines.map(|line| format!("{line}\n")).collect();
    if text.len() > room {
        return Err(Refusal::NoRoom);
    }
    Ok(text)
}

#[cfg(test)]
mod tests {
    use super::*;
    use pulindraxi::limits::{MOST_ENTRIES, MOST_REPLAYED};

    fn position(base: i32, offset: i32, star: u32, exon: u32) -> Position {
        Position { base, offset, star, exon }
    }

    fn answered(mark: u32, start: Position, end: Position) -> Answer {
        Answer { number: 0, mark, start, end }
    }

    /// An entry of each kind, and of a refusal.
    fn samples() -> Vec<Entry> {
        let of = |kind, start, offset| Numbers {
            kind,
            strict: 1,
            start,
            start_offset: offset,
            end: 9,
            ..Numbers::default()
        };
        let plain = |exon| position(7, 0, 0, exon);
        let entry = |question, answer| Entry { question, answer };
        vec![
            entry(of(0, 3, 0), answered(1, position(-1, 2, 0, 1), plain(2))),
            entry(of(1, 3, -2), answered(2, plain(1), plain(65_535))),
            entry(of(2, 3, 1), answered(3, position(1, -5, 1, 0), plain(0))),
            entry(Numbers { start_marks: 1, ..of(3, 3, 1) }, answered(3, plain(0), position(4, 4, 0, 0))),
            entry(of(4, 3, 0), answered(2, position(1, 2, 1, 1), plain(1))),
            entry(Numbers { end_marks: 1, ..of(5, 0, 1) }, answered(1, plain(3), plain(3))),
            entry(Numbers { start_marks: 2, ..of(4, 0, 0) }, paper::refused(Refusal::MissingEnd)),
        ]
    }

    #[test]
    fn an_entry_has_the_bytes_of_the_list() {
        let question = Numbers {
            kind: 5,
            strict: 1,
            start_marks: 1,
            end_marks: 0,
            start: 0x0403_0201,
            start_offset: -1,
            end: 5,
            end_offset: -2,
        };
        let answer = answered(2, position(6, 0, 0, 0x0807), position(-3, 0, 0, 9));
        #[rustfmt::skip]
        let expected = [
            5, 1, 1, 0,
            1, 2, 3, 4, 255, 255, 255, 255, 5, 0, 0, 0, 254, 255, 255, 255,
            2, 0, 0, 0,
            6, 0, 0, 0, 0, 0, 0, 0, 253, 255, 255, 255, 0, 0, 0, 0,
            7, 8, 9, 0,
        ];
        assert_eq!(entry_bytes(&Entry { question, answer }), expected);
        assert_eq!(entry_bytes(&Entry { question, answer }).len(), ENTRY);
    }

    #[test]
    fn what_is_written_reads_back() {
        let entries = samples();
        assert_eq!(read(&write(&entries)), Ok(entries));
        assert_eq!(read(HEAD), Ok(Vec::new()));
    }

    #[test]
    fn marks_versions_and_lengths() {
        let log = write(&samples());
        let refused = |log: &[u8]| read(log).err();
        for length in 0..log.len() {
            let is_log = length >= 5 && (length - 5) % 44 == 0;
            assert_eq!(refused(&log[..length]), (!is_log).then_some(Refusal::NoLog), "{length}");
        }
        for version in [0u16, 2, 256, 257, 65_535] {
            assert_eq!(refused(&[b"QLG", &version.to_le_bytes()[..]].concat()), Some(Refusal::NoLog), "{version}");
        }
        for mark in [b"qLG", b"QLg", b"TXC", b"QG\0"] {
            assert_eq!(refused(&[mark, &log[3..]].concat()), Some(Refusal::NoLog));
        }
        assert_eq!(refused(&[&log[..], b"\0"].concat()), Some(Refusal::NoLog));
        let full = write(&vec![samples()[0]; MOST_ENTRIES]);
        assert_eq!(full.len(), 65_521);
        assert_eq!(refused(&full), None);
        assert_eq!(refused(&vec![0; 65_536]), Some(Refusal::NoLog));
        assert_eq!(refused(&write(&vec![samples()[0]; MOST_ENTRIES + 1])), Some(Refusal::TooMuch));
        assert_eq!(refused(&vec![0; 65_537]), Some(Refusal::TooMuch));
    }

    /// Each reason of the list: a sample with one field changed.
    #[test]
    fn wrong_fields() {
        let samples = samples();
        let [g_to_n, n_to_g, n_to_c, c_to_n, g_to_c, c_to_g, refused] = samples[..] else { panic!() };
        let asking = |entry: Entry, change: &dyn Fn(&mut Numbers)| {
            let mut entry = entry;
            change(&mut entry.question);
            assert!(!is_entry(&entry), "{entry:?}");
        };
        let saying = |entry: Entry, change: &dyn Fn(&mut Answer)| {
            let mut entry = entry;
            change(&mut entry.answer);
            assert!(!is_entry(&entry), "{entry:?}");
        };
        for entry in samples.iter().copied() {
            assert!(is_entry(&entry), "{entry:?}");
            asking(entry, &|q| q.kind = 6);
            asking(entry, &|q| q.strict = 2);
            for marks in [3, 4, 128] {
                asking(entry, &|q| q.start_marks = marks);
                asking(entry, &|q| q.end_marks = marks);
            }
            saying(entry, &|a| a.mark = 4);
            saying(entry, &|a| a.number += 1);
            saying(entry, &|a| a.start.star = 2);
            saying(entry, &|a| a.end.star = 2);
        }
        // A star outside c., a missing mark outside g., an offset on g., a number under a missing mark.
        for entry in [g_to_n, n_to_g, n_to_c, g_to_c] {
            asking(entry, &|q| q.start_marks = 1);
            asking(entry, &|q| q.end_marks = 1);
        }
        for entry in [n_to_g, n_to_c, c_to_n, c_to_g] {
            asking(entry, &|q| q.start_marks = 2);
            asking(entry, &|q| (q.end_marks, q.end) = (2, 0));
        }
        for entry in [g_to_n, g_to_c, refused] {
            asking(entry, &|q| q.start_offset = 1);
            asking(entry, &|q| q.end_offset = -1);
            asking(entry, &|q| q.end_marks = 2);
        }
        asking(refused, &|q| q.start = 1);
        // A field that the tag does not use.
        saying(refused, &|a| a.start.base = 1);
        saying(refused, &|a| a.start.offset = 1);
        saying(refused, &|a| a.end.base = 1);
        saying(refused, &|a| a.end.offset = 1);
        saying(refused, &|a| a.start.star = 1);
        saying(refused, &|a| a.end.star = 1);
        saying(refused, &|a| a.start.exon = 1);
        saying(refused, &|a| a.end.exon = 1);
        // A field that the kind does not use; exon 0.
        for entry in [n_to_g, c_to_g] {
            saying(entry, &|a| a.start.offset = 1);
            saying(entry, &|a| a.end.offset = 1);
        }
        for entry in [g_to_n, n_to_g, c_to_n, c_to_g] {
            saying(entry, &|a| a.start.star = 1);
            saying(entry, &|a| a.end.star = 1);
        }
        for entry in [g_to_n, n_to_g, g_to_c, c_to_g] {
            saying(entry, &|a| a.start.exon = 0);
            saying(entry, &|a| a.end.exon = 0);
            saying(entry, &|a| a.mark = 3);
        }
        for entry in [n_to_c, c_to_n] {
            saying(entry, &|a| a.start.exon = 1);
            saying(entry, &|a| a.end.exon = 1);
            saying(entry, &|a| a.mark = 1);
            saying(entry, &|a| a.mark = 2);
        }
        // An answer that says nothing.
        for entry in samples.iter().copied() {
            saying(entry, &|a| *a = Answer::default());
        }
    }

    #[test]
    fn refusals_of_each_kind() {
        let given: [&[u32]; 6] = [
            &[14, 17, 18, 19, 23],
            &[14, 17, 18, 23],
            &[13, 15, 17, 23],
            &[13, 16, 17, 23],
            &[13, 14, 15, 17, 18, 19, 23],
            &[13, 16, 17, 18, 23],
        ];
        for (kind, given) in given.into_iter().enumerate() {
            for strict in [0, 1] {
                for number in 0..=255 {
                    let question = Numbers { kind: kind as u32, strict, ..Numbers::default() };
                    let entry = Entry { question, answer: Answer { number, ..Answer::default() } };
                    assert_eq!(is_entry(&entry), given.contains(&number), "{kind} {number}");
                }
            }
        }
    }

    #[test]
    fn recording_has_its_order() {
        let source = Source::Length(18, Some((3, 15)));
        let question = Numbers { kind: 2, start: 16, end: 16, ..Numbers::default() };
        let number = |question: &Numbers, lent: &[u8], used| {
            record(Some(&source), question, lent, used).err().map_or(0, Refusal::number)
        };
        let (first, answer) = record(Some(&source), &question, &[7; 60], 0).unwrap();
        assert_eq!(answer, answered(3, position(1, 0, 1, 0), position(1, 0, 1, 0)));
        assert_eq!(first, write(&[Entry { question, answer }]));
        let log = [&first[..], &[7; 44]].concat();
        assert_eq!(record(Some(&source), &question, &log, 49).unwrap().0, first[5..]);
        assert_eq!(record(None, &question, &log, 49).unwrap().1, paper::refused(Refusal::NotTogether));
        assert_eq!(number(&Numbers { kind: 6, ..question }, &[], 0), 35);
        assert_eq!(number(&question, &log, log.len() + 1), 35);
        assert_eq!(number(&question, &log, 48), 35);
        assert_eq!(number(&question, &[&b"QLG\x02\x00"[..], &[0; 99]].concat(), 5), 35);
        assert_eq!(number(&question, &[0; 48], 0), 20);
        assert_eq!(number(&question, &log[..92], 49), 20);
        // Entries that are there are not looked at.
        let full = [&HEAD[..], &[255; 44 * 1_489]].concat();
        assert_eq!(number(&question, &full, full.len()), 3);
        assert_eq!(number(&question, &full, full.len() - 44), 0);
        assert_eq!(number(&question, &full[..full.len() - 1], full.len() - 44), 20);
    }

    #[test]
    fn a_replay_lists_what_differs() {
        let [old, new] = [15, 16].map(|end| Source::Length(18, Some((3, end))));
        let entry = |start| {
            let question = Numbers { kind: 2, strict: 1, start, end: start, ..Numbers::default() };
            Entry { question, answer: ask(Some(&old), &question) }
        };
        let log = write(&[3, 16, 15, 18, 19].map(entry));
        assert_eq!(replay(Some(&old), &log, 2), Ok("0\n".to_string()));
        assert_eq!(replay(Some(&new), &log, 6), Ok("1\n3\n2\n".to_string()));
        assert_eq!(replay(Some(&new), &log, 5), Err(Refusal::NoRoom));
        assert_eq!(replay(None, &log, 5), Err(Refusal::NotTogether));
        assert_eq!(replay(Some(&new), &log[1..], 0), Err(Refusal::NoLog));
        let full = write(&vec![entry(16); MOST_ENTRIES]);
        assert_eq!(replay(Some(&new), &full, usize::MAX).unwrap().len(), MOST_REPLAYED);
    }
}
