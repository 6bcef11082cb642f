//! Records a sample of expected answers, spread over calls, strands, letters, strictness and refusals, for a replay that needs
//! neither the crate nor Rust.

use std::collections::BTreeMap;

use pulindraxi::{
    asked::{CInterval, GInterval, NInterval},
    boundary::{Asked, AskedG, Cds, Head, Laid},
    limits::{MOST_CARD, MOST_SEGMENTS, MOST_TEXT},
    Element, NoName, Refusal,
};
use rand::{seq::SliceRandom, Rng, SeedableRng};
use rand_xorshift::XorShiftRng;
use trials::{
    draw::{self, Case, Record},
    paper::{self, Aligned, Source},
    recorded::{self, front, Call, Row, Words},
    Kind, Lent, Question,
};

use crate::{
    differences,
    exons::{self, Worked},
    settle::{self, Built, Expected, Origin},
};

/// The file is the same for the same seed.
const SEED: u64 = 2024;
/// How many transcripts are drawn.
const DRAWN: usize = 6_000;
/// The most rows of questions that agree in call, strictness, strand, letter, mark and refusal.
const ALIKE: u32 = 6;
/// The most rows of other calls that agree in call, strand and refusal.
const ALIKE_OTHERS: u32 = 8;

/// The refusals that each call can give, 0 for an answer. A sample that lacks one is no sample.
const WANTED: [(Call, &[u32]); 19] = [
    (Call::BuildCard, &[0, 1, 3, 4, 5, 6, 7, 8, 9, 10, 11, 12, 21, 22, 32]),
    (Call::Build, &[0, 1, 2, 3, 4, 5, 6, 7, 8, 9, 10, 11, 12, 21, 32]),
    (Call::BuildLength, &[0, 4, 9, 11, 12]),
    (Call::GToN, &[0, 14, 17, 18, 19, 23]),
    (Call::GToC, &[0, 13, 14, 15, 17, 18, 19, 23]),
    (Call::NToG, &[0, 14, 17, 18, 23]),
    (Call::NToC, &[0, 13, 15, 17, 23]),
    (Call::CToN, &[0, 13, 16, 17, 23]),
    (Call::CToG, &[0, 13, 16, 17, 18, 23]),
    (Call::InBounds, &[0, 18, 19, 23]),
    (Call::IsCoding, &[0, 23]),
    (Call::ReadCigar, &[0, 3, 7, 8]),
    (Call::WriteCigar, &[0, 3, 7, 8, 20]),
    (Call::WriteCard, &[0, 1, 2, 3, 4, 5, 6, 7, 8, 9, 10, 11, 12, 20, 21, 32]),
    (Call::TrimPrefix, &[0]),
    (Call::TrimSuffix, &[0]),
    (Call::Changed, &[0]),
    (Call::ReadBam, &[0, 3, 20, 30]),
    (Call::WriteBam, &[0, 3, 7, 20, 31]),
];

/// A number for what rows of one kind have in common.
type Bucket = (Call, [i32; 5]);

struct Recorder {
    rng: XorShiftRng,
    rows: Vec<Row>,
    alike: BTreeMap<Bucket, u32>,
    /// The memory as the rows so far leave it.
    lent: Lent,
}

/// A refusal's number, 0 for none.
fn number<T>(result: &Result<T, Refusal>) -> u32 {
    result.as_ref().err().map_or(0, |refusal| refusal.number())
}

/// The letter of the segment that a question's start falls into, 0 where there is none.
fn letter(source: &Source, question: &Question) -> u8 {
    let Source::Records(Aligned { strand, first, genome, transcript, letters, .. }) = source else { return 0 };
    let n = match question.kind {
        kind if kind.is_about_c() => source.c_to_n(question.start, question.start, false).map_or(0, |n| n.start.base),
        _ => question.start.base,
    };
    let (starts, place) = match question.kind {
        kind if kind.is_about_g() => (genome, i64::from(question.start.base) - 1 - first),
        _ if *strand == 1 => (transcript, i64::from(n) - 1),
        _ => (transcript, transcript[letters.len()] - i64::from(n)),
    };
    let index = (0..letters.len()).find(|&i| starts[i + 1] > place).unwrap_or(letters.len() - 1);
    letters[index]
}

/// A question about the interval of a name.
fn by_name(kind: Kind, name: &str, strict: bool) -> Result<Question, String> {
    let fault = |error: NoName| format!("{name}: {error}");
    let (start, end) = match kind {
        _ if kind.is_about_g() => {
            let AskedG { start, end, .. } = name.parse::<GInterval>().map_err(fault)?.into();
            (Asked { base: start, ..Asked::default() }, Asked { base: end, ..Asked::default() })
        }
        _ if kind.is_about_c() => name.parse::<CInterval>().map(|c| (c.start.into(), c.end.into())).map_err(fault)?,
        _ => name.parse::<NInterval>().map(|n| (n.start.into(), n.end.into())).map_err(fault)?,
    };
    Ok(Question { kind, start, end, missing: 0, strict })
}

/// Lenient questions at the ends of 32 bits.
fn extremes() -> Vec<Question> {
    let ends = [i32::MIN, i32::MIN + 1, i32::MAX];
    let mut questions = Vec::new();
    for kind in [Kind::GToN, Kind::GToC, Kind::NToG, Kind::NToC, Kind::CToN, Kind::CToG] {
        for base in ends {
            for offset in if kind.is_about_g() { &[0] } else { &ends[..] } {
                let star = kind.is_about_c() && *offset == i32::MAX;
                let at = Asked { base, offset: *offset, star };
                questions.push(Question { kind, start: at, end: at, missing: 0, strict: false });
            }
        }
    }
    questions
}

/// Building's input that was laid out, taken apart again.
fn case_of(from: Laid<'_>) -> Option<Case> {
    let given = |bit: u32, bound: i32| (from.cds.bits & bit != 0).then_some(bound);
    let records = paper::records(from.count, from.records)?.into_iter().map(|exon| Record {
        numbers: [exon.alt_start_i, exon.alt_end_i, exon.tx_start_i, exon.tx_end_i, exon.ord],
        cigar: exon.cigar.to_vec(),
    });
    Some(Case {
        strand: from.strand,
        cds_start: given(Cds::START, from.cds.start),
        cds_end: given(Cds::END, from.cds.end),
        records: records.collect(),
    })
}

/// Elements of five bytes each.
fn five_bytes(elements: &[Element]) -> Vec<u8> {
    elements.iter().flat_map(|element| element.count.to_le_bytes().into_iter().chain([element.letter])).collect()
}

/// Words of four bytes each.
fn four_bytes(words: &[u32]) -> Vec<u8> {
    words.iter().flat_map(|word| word.to_le_bytes()).collect()
}

/// The row of a call that takes building's input.
fn row_of(call: Call, from: Laid<'_>, room: usize) -> Row {
    let numbers = [from.strand, from.cds.start, from.cds.end, from.count as i32, room as i32, 0];
    Row { flags: from.cds.bits as u8, numbers, payload: from.records.to_vec(), ..Row::new(call) }
}

impl Recorder {
    /// Whether a bucket has room; if so, one more is in it.
    fn has_room(&mut self, bucket: Bucket, most: u32) -> bool {
        let count = self.alike.entry(bucket).or_default();
        *count += 1;
        *count <= most
    }

    fn push(&mut self, row: Row, answer: Words, origin: Origin) {
        self.rows.push(Row { answer, origin: origin as u8, ..row });
    }

    /// A row of building; the memory follows it.
    fn push_built(&mut self, row: Row, expected: &Result<Source, Refusal>, origin: Origin) {
        if let Ok(source) = expected {
            self.lent = self.lent.clone().holding(source);
        }
        let answer = recorded::built(number(expected), &self.lent);
        self.push(row, answer, origin);
        if expected.is_err() && self.rng.gen_ratio(1, 4) {
            self.push_memory_stays();
        }
    }

    /// After a refused building: the memory still answers as it did.
    fn push_memory_stays(&mut self) {
        let source = self.lent.source();
        let Some(drawn) = source.as_ref() else { return };
        for kind in [Kind::IsCoding, Kind::NToG] {
            let question = Question { kind, missing: 0, ..draw::question(&mut self.rng, drawn) };
            let answer = question.expect(source.as_ref());
            self.push(Row::asking(&question), recorded::words(answer), Origin::Added);
        }
    }

    /// A question to what the memory holds, whole or damaged.
    fn push_question(&mut self, question: &Question, built: Option<&mut Built>) -> Result<(), String> {
        let row = Row::asking(question);
        let (answer, origin) = match built {
            Some(built) => settle::ask(built, question)
                .map(|(_, origin)| (question.expect(Some(&built.source)), origin))
                .map_err(|fault| format!("{question:?}: {fault}"))?,
            None => {
                let source = self.lent.source();
                let origin = if source.is_none() { Origin::Narrowed } else { Origin::Added };
                (question.expect(source.as_ref()), origin)
            }
        };
        self.push(row, recorded::words(answer), origin);
        Ok(())
    }

    /// The questions among many drawn ones whose buckets have room.
    fn choose(&mut self, source: &Source, drawn: usize) -> Vec<Question> {
        let mut chosen = Vec::new();
        let drawn = (0..drawn).map(|_| draw::question(&mut self.rng, source)).collect::<Vec<_>>();
        for question in drawn.into_iter().chain(extremes()) {
            let answer = question.expect(Some(source));
            let strand = source.head().strand;
            let numbers = [strand, letter(source, &question).into(), answer.mark as i32, answer.number as i32];
            let [a, b, c, d] = numbers;
            if self.has_room((question.kind.into(), [question.strict.into(), a, b, c, d]), ALIKE) {
                chosen.push(question);
            }
        }
        chosen
    }

    /// A transcript with questions to it, as a card or as records.
    fn transcript(&mut self, case: &Case) -> Result<(), String> {
        let bytes = case.lay();
        let from = case.laid(&bytes);
        let ((expected, origin), built) = settle::build(case).map_err(|fault| format!("{case:?}: {fault}"))?;
        let as_card = case.strand.abs() == 1 && self.rng.gen();
        let call = if as_card { Call::BuildCard } else { Call::Build };
        let questions = match &expected {
            Ok(source) => self.choose(source, 60),
            Err(_) => Vec::new(),
        };
        let is_kept = match expected {
            Ok(_) => questions.len() > 2,
            Err(refusal) => self.has_room((call, [case.strand, refusal.number() as i32, 0, 0, 0]), ALIKE_OTHERS),
        };
        if !is_kept {
            return Ok(());
        }
        let row = if as_card { Row { payload: case.card(), ..Row::new(call) } } else { row_of(call, from, 0) };
        self.push_built(row, &expected, origin);
        let Some(mut built) = built else { return Ok(()) };
        for question in &questions {
            self.push_question(question, Some(&mut built))?;
        }
        self.damaged(&built.source)
    }

    /// A worked transcript, and the questions to it that are answered by name.
    fn places(&mut self, index: usize, case: &Case) -> Result<(), String> {
        let mut built = self.push_card(case)?;
        for ((_, kind, numbers, name), strict) in places().into_iter().filter(|(place, _)| place.0 == index) {
            let [start, end] = numbers.map(|base| Asked { base, ..Asked::default() });
            let question = Question { kind, start, end, missing: 0, strict: strict && kind != Kind::InBounds };
            let answer = differences::named(kind, question.expect(Some(&built.source)));
            if answer != name {
                return Err(format!("{question:?}: {answer}, not {name}"));
            }
            self.push_question(&question, Some(&mut built))?;
        }
        Ok(())
    }

    /// A row of building from a card, of a transcript that builds in the crate too.
    fn push_card(&mut self, case: &Case) -> Result<Built, String> {
        let built = settle::build(case)?.1.ok_or("a worked transcript is not built")?;
        let row = Row { payload: case.card(), ..Row::new(Call::BuildCard) };
        self.push_built(row, &Ok(built.source.clone()), Origin::Answered);
        Ok(built)
    }

    /// A question whose answer has this name and these exons.
    fn push_numbered(
        &mut self,
        &(kind, asked, name, exons): &exons::Place,
        strict: bool,
        built: Option<&mut Built>,
    ) -> Result<(), String> {
        let question = by_name(kind, asked, strict)?;
        let answer = question.expect(self.lent.source().as_ref());
        let said = (differences::named(kind, answer), [answer.start.exon, answer.end.exon]);
        if said != (name.into(), exons) {
            return Err(format!("{question:?}: {said:?}, not {name} {exons:?}"));
        }
        self.push_question(&question, built)
    }

    /// A transcript whose exon numbers are worked by hand, and its memory with other numbers.
    fn exons(&mut self, worked: &Worked) -> Result<(), String> {
        let case = worked.case();
        let mut built = self.push_card(&case)?;
        for (places, strict) in [(worked.strict, true), (worked.lenient, false)] {
            for place in places {
                self.push_numbered(place, strict, Some(&mut built))?;
            }
        }
        for (written, place) in worked.wounds {
            self.push_card(&case)?;
            for &[table, index, value] in *written {
                self.damage([table, index, value, 0, 0, 0]);
            }
            self.push_numbered(place, true, None)?;
        }
        Ok(())
    }

    /// Records that may not span their bounds, as records and as a card.
    fn span(&mut self, case: &Case, number: u32) -> Result<(), String> {
        let ((expected, origin), _) = settle::build(case)?;
        if self::number(&expected) != number {
            return Err(format!("{case:?}: {expected:?}, not {number}"));
        }
        let bytes = case.lay();
        self.push_built(row_of(Call::Build, case.laid(&bytes), 0), &expected, origin);
        self.push_built(Row { payload: case.card(), ..Row::new(Call::BuildCard) }, &expected, origin);
        Ok(())
    }

    /// Now and then: memory changed in one place, and questions to it.
    fn damaged(&mut self, source: &Source) -> Result<(), String> {
        if !self.rng.gen_ratio(1, 3) {
            return Ok(());
        }
        let numbers = self.wound(source);
        self.damage(numbers);
        for kind in Kind::ALL {
            let question = draw::question(&mut self.rng, source);
            let question = Question { kind, missing: 0, ..question };
            let refused = self.lent.source().is_none();
            if self.has_room((kind.into(), [2, refused.into(), numbers[0], 0, 0]), ALIKE) {
                self.push_question(&question, None)?;
            }
        }
        Ok(())
    }

    /// A row of damage; the memory follows it.
    fn damage(&mut self, numbers: [i32; 6]) {
        recorded::damage(&mut self.lent, numbers);
        self.rows.push(Row { numbers, ..Row::new(Call::Damage) });
    }

    /// A table, a place in it and another value.
    fn wound(&mut self, source: &Source) -> [i32; 6] {
        let rng = &mut self.rng;
        let within = rng.gen_range(0..=source.head().segment_count);
        let table = rng.gen_range(0..5);
        let index = if table == 0 { rng.gen_range(0..Head::COUNT as i32) } else { within };
        let old = self.lent.get(recorded::place([table, index, 0, 0, 0, 0]));
        let value = match table {
            0 => *[old.wrapping_add(1), -1, 2, draw::number(rng)].choose(rng).expect("not empty"),
            3 => i32::from(*b"=DIMNXS\0".choose(rng).expect("not empty")),
            4 => old.wrapping_add(*[-1, 1, 2].choose(rng).expect("not empty")),
            _ if rng.gen() => old.wrapping_add(1),
            _ => draw::number(rng),
        };
        [table, index, value, 0, 0, 0]
    }

    fn length(&mut self) -> Result<(), String> {
        let rng = &mut self.rng;
        let (length, start, end) = if rng.gen() {
            (rng.gen_range(0..20), Some(rng.gen_range(0..4)), Some(rng.gen_range(3..20)))
        } else {
            let given = [draw::number(rng), draw::number(rng)].map(|bound| rng.gen_ratio(9, 10).then_some(bound));
            (draw::number(rng), given[0], given[1])
        };
        let ((expected, origin), built) =
            settle::build_length(length, start, end).map_err(|fault| format!("{length} {start:?} {end:?}: {fault}"))?;
        if !self.has_room((Call::BuildLength, [number(&expected) as i32, 0, 0, 0, 0]), ALIKE_OTHERS) {
            return Ok(());
        }
        let cds = Cds::new(start, end);
        let numbers = [length, cds.start, cds.end, 0, 0, 0];
        self.push_built(Row { flags: cds.bits as u8, numbers, ..Row::new(Call::BuildLength) }, &expected, origin);
        let Some(mut built) = built else { return Ok(()) };
        for question in self.choose(&built.source.clone(), 60) {
            self.push_question(&question, Some(&mut built))?;
        }
        Ok(())
    }

    /// Bytes that may be a card.
    fn card(&mut self, card: Vec<u8>) -> Result<(), String> {
        let (expected, origin): Expected<Source> = match paper::read_card(&card) {
            Err(refusal) => (Err(refusal), Origin::Added),
            Ok(from) => {
                let case = case_of(from).expect("a card holds its records");
                settle::build(&case).map_err(|fault| format!("{case:?}: {fault}"))?.0
            }
        };
        if self.has_room((Call::BuildCard, [0, number(&expected) as i32, 0, 0, 0]), ALIKE_OTHERS) {
            self.push_built(Row { payload: card, ..Row::new(Call::BuildCard) }, &expected, origin);
        }
        Ok(())
    }

    /// Bytes that are not just that many records, for building.
    fn no_records(&mut self, from: Laid<'_>) {
        let expected = paper::build(from).map(Source::Records);
        if !self.has_room((Call::Build, [2, number(&expected) as i32, 0, 0, 0]), ALIKE_OTHERS) {
            return;
        }
        self.push_built(row_of(Call::Build, from, 0), &expected, Origin::Added);
    }

    fn read_cigar(&mut self, text: &[u8]) -> Result<(), String> {
        let (expected, origin) = settle::read_cigar(text)?;
        if !self.has_room((Call::ReadCigar, [number(&expected) as i32, 0, 0, 0, 0]), 4 * ALIKE_OTHERS) {
            return Ok(());
        }
        let elements = expected.as_deref().unwrap_or(&[]);
        let answer = front([number(&expected) as i32, elements.len() as i32]);
        let numbers = [text.len() as i32, 0, 0, 0, 0, 0];
        let payload = [text, &five_bytes(elements)].concat();
        self.push(Row { numbers, payload, ..Row::new(Call::ReadCigar) }, answer, origin);
        Ok(())
    }

    fn write_cigar(&mut self, elements: &[Element], number_given: usize, room: usize) -> Result<(), String> {
        let (expected, origin) = settle::write_cigar(number_given, elements, room)?;
        if !self.has_room((Call::WriteCigar, [number(&expected) as i32, 0, 0, 0, 0]), 2 * ALIKE_OTHERS) {
            return Ok(());
        }
        let written = expected.as_deref().unwrap_or(&[]);
        let answer = front([number(&expected) as i32, written.len() as i32]);
        let numbers = [number_given as i32, elements.len() as i32, room as i32, 0, 0, 0];
        let payload = [&five_bytes(elements), written].concat();
        self.push(Row { numbers, payload, ..Row::new(Call::WriteCigar) }, answer, origin);
        Ok(())
    }

    fn read_bam(&mut self, words: &[u32], [counts_room, letters_room]: [usize; 2]) {
        let expected = paper::read_bam(words, counts_room.min(letters_room));
        if !self.has_room((Call::ReadBam, [number(&expected) as i32, 0, 0, 0, 0]), 2 * ALIKE_OTHERS) {
            return;
        }
        let elements: Vec<_> =
            expected.iter().flatten().map(|&(count, letter)| Element::new(count as i32, letter)).collect();
        let answer = front([number(&expected) as i32, elements.len() as i32]);
        let numbers = [words.len() as i32, counts_room as i32, letters_room as i32, 0, 0, 0];
        let payload = [four_bytes(words), five_bytes(&elements)].concat();
        self.push(Row { numbers, payload, ..Row::new(Call::ReadBam) }, answer, Origin::Added);
    }

    fn write_bam(&mut self, elements: &[Element], number_given: usize, room: usize) {
        let (counts, letters): (Vec<i32>, Vec<u8>) = elements.iter().map(|e| (e.count, e.letter)).unzip();
        let expected = paper::write_bam(number_given, &counts, &letters, room);
        if !self.has_room((Call::WriteBam, [number(&expected) as i32, 0, 0, 0, 0]), 2 * ALIKE_OTHERS) {
            return;
        }
        let written = expected.as_deref().unwrap_or(&[]);
        let answer = front([number(&expected) as i32, written.len() as i32]);
        let numbers = [number_given as i32, elements.len() as i32, room as i32, 0, 0, 0];
        let payload = [five_bytes(elements), four_bytes(written)].concat();
        self.push(Row { numbers, payload, ..Row::new(Call::WriteBam) }, answer, Origin::Added);
    }

    fn write_card(&mut self, from: Laid<'_>, room: usize) {
        let expected = paper::write_card(from, room);
        if !self.has_room((Call::WriteCard, [number(&expected) as i32, from.strand, 0, 0, 0]), ALIKE_OTHERS / 2) {
            return;
        }
        let length = expected.as_ref().map_or(0, Vec::len) as i32;
        let row = row_of(Call::WriteCard, from, room);
        self.push(row, front([number(&expected) as i32, length]), Origin::Added);
    }

    fn trim(&mut self, reference: &[u8], alternative: &[u8]) -> Result<(), String> {
        let payload = [reference, alternative].concat();
        let numbers = [reference.len() as i32, 0, 0, 0, 0, 0];
        let trims = settle::trim(reference, alternative);
        for (call, settled) in [Call::TrimPrefix, Call::TrimSuffix].into_iter().zip(trims) {
            let (expected, origin) = settled?;
            let length = expected.map_or(0, |length| length as i32);
            let row = Row { numbers, payload: payload.clone(), ..Row::new(call) };
            self.push(row, front([0, length]), origin);
        }
        let part = paper::changed(reference, alternative);
        let answer = front([0, part.alternative as i32, part.from as i32, part.to as i32]);
        self.push(Row { numbers, payload, ..Row::new(Call::Changed) }, answer, Origin::Added);
        Ok(())
    }
}

/// A transcript of records: genome bounds, tx bounds, `ord`, CIGAR.
pub(crate) fn case(strand: i32, cds: Option<[i32; 2]>, records: &[([i32; 5], &str)]) -> Case {
    let record = |(numbers, cigar): &([i32; 5], &str)| Record { numbers: *numbers, cigar: cigar.as_bytes().to_vec() };
    Case {
        strand,
        cds_start: cds.map(|c| c[0]),
        cds_end: cds.map(|c| c[1]),
        records: records.iter().map(record).collect(),
    }
}

/// The transcripts of the table of places, and `4M2I`, whose last g. numbers stand beside its last base.
fn worked() -> [Case; 6] {
    [
        case(1, Some([3, 15]), &[([10, 20, 0, 10, 0], "10M"), ([25, 33, 10, 18, 1], "8M")]),
        case(-1, Some([3, 15]), &[([10, 20, 8, 18, 1], "10M"), ([25, 33, 0, 8, 0], "8M")]),
        case(1, None, &[([100, 110, 0, 8, 0], "4M2I4M")]),
        case(1, None, &[([100, 108, 0, 10, 0], "4M2D4M")]),
        case(1, Some([0, 4]), &[([0, 6, 0, 4, 0], "4M2I")]),
        case(-1, Some([0, 4]), &[([0, 6, 0, 4, 0], "4M2I")]),
    ]
}

/// A question to one of the worked transcripts: which of them, what is asked from where to where, and the answer's name or refusal.
type Place = (usize, Kind, [i32; 2], &'static str);

/// The table of places, asked strictly.
const PLACES: [Place; 23] = [
    (0, Kind::GToN, [11, 11], "n.1"),
    (0, Kind::GToC, [11, 11], "c.-3"),
    (0, Kind::GToC, [13, 13], "c.-1"),
    (0, Kind::GToC, [14, 14], "c.1"),
    (0, Kind::GToC, [21, 21], "c.7+1"),
    (0, Kind::GToC, [23, 23], "c.7+3"),
    (0, Kind::GToC, [24, 24], "c.8-2"),
    (0, Kind::GToC, [33, 33], "c.*3"),
    (0, Kind::GToN, [34, 34], "refuses 14"),
    (0, Kind::GToN, [35, 35], "refuses 14"),
    (0, Kind::GToN, [10, 10], "refuses 14"),
    (1, Kind::GToN, [33, 33], "n.1"),
    (1, Kind::GToC, [23, 23], "c.5+3"),
    (1, Kind::GToN, [11, 33], "n.1_18"),
    (1, Kind::GToN, [22, 33], "n.1_9-2"),
    (1, Kind::NToG, [1, 18], "g.11_33"),
    (2, Kind::GToN, [105, 105], "n.4_5, uncertain"),
    (3, Kind::NToG, [5, 5], "g.104_105, uncertain"),
    (3, Kind::GToN, [105, 105], "n.7"),
    (4, Kind::GToN, [5, 5], "n.4_5, uncertain"),
    (4, Kind::GToC, [5, 5], "refuses 15"),
    (5, Kind::GToN, [1, 1], "n.4_5, uncertain"),
    (5, Kind::GToC, [1, 1], "refuses 15"),
];

/// What lies at both ends of transcript A and of B, and behind them, asked strictly.
const ENDS: [(Kind, [i32; 2], &str); 26] = [
    (Kind::GToN, [34, 34], "refuses 14"),
    (Kind::GToN, [11, 34], "refuses 14"),
    (Kind::GToN, [34, 11], "refuses 14"),
    (Kind::GToN, [10, 33], "refuses 14"),
    (Kind::GToN, [33, 10], "refuses 14"),
    (Kind::GToC, [34, 34], "refuses 14"),
    (Kind::GToC, [34, 11], "refuses 14"),
    (Kind::NToG, [19, 19], "refuses 14"),
    (Kind::NToG, [1, 19], "refuses 14"),
    (Kind::NToG, [19, 1], "refuses 14"),
    (Kind::NToG, [-1, -1], "refuses 14"),
    (Kind::NToG, [-1, 18], "refuses 14"),
    (Kind::NToG, [18, -1], "refuses 14"),
    (Kind::NToC, [18, 1], "c.*3_-3"),
    (Kind::NToC, [19, 1], "refuses 15"),
    (Kind::NToC, [1, 19], "refuses 15"),
    (Kind::NToC, [-1, 1], "refuses 15"),
    (Kind::NToC, [1, -1], "refuses 15"),
    (Kind::NToC, [1, 0], "refuses 15"),
    (Kind::InBounds, [11, 33], "yes"),
    (Kind::InBounds, [33, 11], "yes"),
    (Kind::InBounds, [11, 34], "no"),
    (Kind::InBounds, [34, 11], "no"),
    (Kind::InBounds, [34, 34], "no"),
    (Kind::InBounds, [10, 33], "no"),
    (Kind::InBounds, [33, 10], "no"),
];

/// The same ends, and n.0, asked leniently.
const LENIENT_ENDS: [Place; 11] = [
    (0, Kind::GToN, [10, 10], "n.-1"),
    (0, Kind::GToC, [10, 10], "c.-4"),
    (0, Kind::GToN, [34, 34], "n.19"),
    (0, Kind::NToG, [19, 19], "g.34"),
    (0, Kind::NToC, [19, 1], "c.*4_-3"),
    (0, Kind::NToC, [1, -1], "c.-3_-4"),
    (1, Kind::GToN, [34, 34], "n.-1"),
    (1, Kind::GToC, [10, 10], "c.*4"),
    (1, Kind::NToG, [-1, -1], "g.34"),
    (1, Kind::NToG, [19, 19], "g.10"),
    (4, Kind::NToC, [0, 0], "c.0"),
];

/// The worked questions, each with whether it is strict.
fn places() -> Vec<(Place, bool)> {
    let ends = (0..2).flat_map(|index| ENDS.map(|(kind, numbers, name)| (index, kind, numbers, name)));
    let strict = PLACES.into_iter().chain(ends).map(|place| (place, true));
    strict.chain(LENIENT_ENDS.map(|place| (place, false))).collect()
}

/// Records whose CIGARs go further or less far than their bounds, what else is wrong with them, and the refusal.
fn spans() -> Vec<(Case, u32)> {
    let mut cases = Vec::new();
    for strand in [1, -1] {
        let one = |end: i32, cigar: &str, number| (case(strand, None, &[([10, end, 0, 4, 0], cigar)]), number);
        let two = |bounds: [[i32; 2]; 2], [left, right]: [&str; 2], number| {
            let numbers = |index: usize| [bounds[index][0], bounds[index][1], 0, 0, strand * index as i32];
            (case(strand, None, &[(numbers(0), left), (numbers(1), right)]), number)
        };
        cases.extend([
            one(14, "4M", 0),
            one(17, "4M", 32),
            one(13, "4M", 32),
            // As far as it goes along the transcript.
            one(14, "4M2I", 32),
            one(16, "4M2D", 32),
            one(17, "4MS", 7),
            one(17, "4M2", 7),
            one(17, "2147483648M", 8),
            one(11, "", 32),
            one(10, "2147483647M2147483647M2M", 32),
            one(10, "2000000001D", 9),
        ]);
        cases.extend([
            two([[2, 5], [10, 14]], ["2M", "4M"], 32),
            two([[2, 4], [10, 14]], ["2M", "5M"], 32),
            two([[2, 5], [10, 14]], ["2M", "S"], 32),
            two([[2, 4], [10, 15]], ["S", "4M"], 7),
            two([[2, 2], [10, 11]], ["", ""], 32),
        ]);
    }
    cases
}

/// What is over a limit, and what is just within.
fn large() -> Vec<Case> {
    let many = |count: usize, cigar: &[u8]| draw::alike(1, count, cigar);
    let long = |length: usize| [vec![b'0'; length - 1], b"M".to_vec()].concat();
    vec![
        many(512, b"=M="),
        many(513, b""),
        many(1, &vec![b'D'; MOST_SEGMENTS]),
        many(1, &vec![b'D'; MOST_SEGMENTS + 1]),
        many(1, &long(MOST_TEXT)),
        many(1, &long(MOST_TEXT + 1)),
        many(1, b"2000000000M"),
        many(1, b"2000000001M"),
        many(1, b"2147483647D2147483647D"),
        many(1, b"99999999999M"),
        many(1, b"99999999999S"),
        many(1, b"99999999999"),
        many(2, b""),
        many(1, b""),
        many(1, b"0M"),
    ]
}

fn draw_all(recorder: &mut Recorder) -> Result<(), String> {
    for case in worked().iter().chain(&large()) {
        for _ in 0..2 {
            recorder.transcript(case)?;
        }
    }
    for (index, case) in worked().iter().enumerate() {
        recorder.places(index, case)?;
    }
    for worked in &exons::WORKED {
        recorder.exons(worked)?;
    }
    // P14 and P15.
    let elements = settle::read_cigar(b"M0X3=")?.0.unwrap_or_default();
    recorder.read_cigar(b"M0X3=")?;
    recorder.write_cigar(&elements, elements.len(), 5)?;
    recorder.trim(b"ACGT", b"ACT")?;
    for (case, number) in spans() {
        recorder.span(&case, number)?;
    }
    recorder.card([b"TXC\x01\x00".to_vec(), vec![0; MOST_CARD - 4]].concat())?;
    for _ in 0..DRAWN {
        let mut case = draw::case(&mut recorder.rng);
        case.records.truncate(12);
        recorder.transcript(&case)?;
        let card = draw::card(&mut recorder.rng);
        if card.len() < 1000 {
            recorder.card(card)?;
        }
        recorder.length()?;
        draw_texts(recorder, &case)?;
    }
    Ok(())
}

/// CIGAR texts, cards and alleles.
fn draw_texts(recorder: &mut Recorder, case: &Case) -> Result<(), String> {
    let Some(record) = case.records.first() else { return Ok(()) };
    recorder.read_cigar(&record.cigar)?;
    let mut elements = settle::read_cigar(&record.cigar)?.0.unwrap_or_default();
    let rng = &mut recorder.rng;
    if rng.gen_ratio(1, 5) {
        let wounds = [(-1, b'M'), (i32::MIN, b'='), (3, b'S'), (-1, b'S')];
        elements.extend(wounds.choose(rng).map(|&(count, letter)| Element::new(count, letter)));
    }
    let room = if rng.gen_ratio(1, 4) { rng.gen_range(0..12) } else { 64 };
    let number = if rng.gen_ratio(1, 50) { MOST_SEGMENTS + 1 } else { elements.len() };
    let mut allele =
        || (0..rng.gen_range(0..7)).map(|_| *b"AC\xff".choose(rng).expect("not empty")).collect::<Vec<u8>>();
    let alleles = [allele(), allele()];
    let card_room = if rng.gen_ratio(1, 4) { rng.gen_range(0..60) } else { 1 << 17 };
    let cut = rng.gen_ratio(1, 10);
    recorder.write_cigar(&elements, number, room)?;
    let mut bytes = case.lay();
    if cut {
        bytes.pop();
        recorder.no_records(case.laid(&bytes));
    }
    recorder.write_card(case.laid(&bytes), card_room);
    if recorder.has_room((Call::Changed, [alleles[0].len() as i32, alleles[1].len() as i32, 0, 0, 0]), 2) {
        recorder.trim(&alleles[0], &alleles[1])?;
    }
    Ok(())
}

/// Longer texts at the limits.
fn draw_long(recorder: &mut Recorder) -> Result<(), String> {
    for text in
        [vec![b'M'; MOST_SEGMENTS + 1], vec![b'0'; MOST_TEXT + 1], [vec![b'M'; MOST_SEGMENTS], b"S".to_vec()].concat()]
    {
        recorder.read_cigar(&text)?;
    }
    let long = vec![Element::new(i32::MAX, b'M'); 400];
    recorder.write_cigar(&long, long.len(), 5000)?;
    for case in large() {
        let bytes = case.lay();
        recorder.write_card(case.laid(&bytes), MOST_CARD);
    }
    let empty = Case { strand: 1, cds_start: None, cds_end: None, records: Vec::new() };
    recorder.write_card(empty.laid(&[]), MOST_CARD);
    Ok(())
}

/// BAM words, few but for those at the limit.
fn draw_words(recorder: &mut Recorder) {
    let mut many = vec![16; MOST_SEGMENTS + 1];
    recorder.read_bam(&many, [MOST_SEGMENTS; 2]);
    many[MOST_SEGMENTS] = 20;
    recorder.read_bam(&many, [0; 2]);
    recorder.read_bam(&many[..MOST_SEGMENTS], [MOST_SEGMENTS; 2]);
    let full = vec![Element::new(1, b'M'); MOST_SEGMENTS];
    for number in [MOST_SEGMENTS, MOST_SEGMENTS + 1] {
        recorder.write_bam(&full, number, MOST_SEGMENTS);
    }
    for _ in 0..DRAWN {
        let (words, rooms) = draw::words(&mut recorder.rng);
        if words.len() < 20 {
            recorder.read_bam(&words, rooms);
        }
        let (elements, room) = draw::worded(&mut recorder.rng);
        if elements.len() < 20 {
            recorder.write_bam(&elements, elements.len(), room);
        }
    }
}

/// The file: a head row, then the sample.
pub fn run() -> Result<Vec<u8>, String> {
    let mut recorder = Recorder {
        rng: XorShiftRng::seed_from_u64(SEED),
        rows: Vec::new(),
        alike: BTreeMap::new(),
        lent: Lent::filled(0),
    };
    draw_long(&mut recorder)?;
    draw_all(&mut recorder)?;
    draw_words(&mut recorder);
    let mut counts: BTreeMap<(Call, u32), u32> = BTreeMap::new();
    for row in &recorder.rows {
        *counts.entry((row.call, row.answer[0] as u32)).or_default() += 1;
    }
    for (call, numbers) in WANTED {
        let line: Vec<String> =
            numbers.iter().map(|&n| format!("{n}: {}", counts.get(&(call, n)).copied().unwrap_or(0))).collect();
        eprintln!("{call:?} {}", line.join(", "));
        if let Some(lacking) = numbers.iter().find(|&&n| !counts.contains_key(&(call, n))) {
            return Err(format!("the sample has no {call:?} with {lacking}"));
        }
    }
    let mut file = Vec::new();
    let head = Row { numbers: [recorded::VERSION, recorder.rows.len() as i32, 0, 0, 0, 0], ..Row::new(Call::Head) };
    head.write(&mut file);
    for row in &recorder.rows {
        row.write(&mut file);
    }
    eprintln!("{} rows, {} bytes", recorder.rows.len(), file.len());
    Ok(file)
}
