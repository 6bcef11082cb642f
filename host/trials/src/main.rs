//! Calls every entry with random, damaged and extreme input, a given number of times from a given seed. Each answer must be
//! the documents', and a refusal must leave lent memory as it was.

use std::{collections::BTreeMap, mem};

use clap::Parser;
use pulindraxi::{
    boundary::{self, Answer, Cds, Joined, Laid, Length, Position, Question as Numbers, Recorded, Slot, Steps},
    limits::{MOST_RECORDS, MOST_SEGMENTS},
    Element, Refusal,
};
use rand::{seq::SliceRandom, Rng, SeedableRng};
use rand_xorshift::XorShiftRng;
use trials::{
    draw::{self, Case},
    logs,
    paper::{self, Both, Source, CARD_HEAD},
    Kind, Lent, Question,
};

/// Tries the boundary with bad input.
#[derive(Parser)]
struct Options {
    /// Where the random numbers start.
    #[arg(long, default_value_t = 1)]
    seed: u64,
    /// How many calls to make at least.
    #[arg(long, default_value_t = 1_000_000)]
    count: u64,
}

/// The memory that is lent, what it must hold, and what was called so far.
struct Trial {
    rng: XorShiftRng,
    lent: Lent,
    /// What `lent` holds between calls.
    before: Lent,
    /// The last transcript that was built, from which questions are drawn.
    source: Source,
    /// The one before it, whose answers stand in logs too.
    earlier: Source,
    calls: u64,
    /// Calls by entry and refusal number.
    tally: BTreeMap<(&'static str, u32), u64>,
}

/// The tables of elements. What stands past the elements would be refused.
fn apart(elements: &[Element]) -> (Box<[i32; MOST_SEGMENTS]>, Box<[u8; MOST_SEGMENTS]>) {
    let mut counts = Box::new([-7; MOST_SEGMENTS]);
    let mut letters = Box::new([b'?'; MOST_SEGMENTS]);
    for (place, element) in elements.iter().take(MOST_SEGMENTS).enumerate() {
        (counts[place], letters[place]) = (element.count, element.letter);
    }
    (counts, letters)
}

fn number_of<T>(result: &Result<T, Refusal>) -> u32 {
    result.as_ref().err().map_or(0, |refusal| refusal.number())
}

impl Trial {
    fn new(seed: u64) -> Trial {
        let lent = Lent::filled(0xa5);
        let [source, earlier] = [0, 1].map(|length| Source::Length(length, None));
        let rng = XorShiftRng::seed_from_u64(seed);
        Trial { rng, before: lent.clone(), lent, source, earlier, calls: 0, tally: BTreeMap::new() }
    }

    fn count(&mut self, entry: &'static str, number: u32) {
        self.calls += 1;
        *self.tally.entry((entry, number)).or_default() += 1;
    }

    /// After a building: the number, and memory that holds the transcript or is as it was.
    fn judge_built(&mut self, entry: &'static str, number: u32, expected: Result<Source, Refusal>) {
        assert_eq!(number, number_of(&expected), "{entry}, call {}", self.calls);
        self.count(entry, number);
        if let Ok(source) = expected {
            self.before = self.before.clone().holding(&source);
            self.earlier = mem::replace(&mut self.source, source);
        }
        assert!(self.lent == self.before, "{entry} left other memory, call {}", self.calls);
    }

    /// Building's input as the boundary takes it, now and then with numbers that no safe function gives it.
    fn laid<'a>(&mut self, case: &Case, records: &'a [u8]) -> Laid<'a> {
        let mut from = case.laid(records);
        let rng = &mut self.rng;
        match rng.gen_range(0..60) {
            0..=2 => from.records = &records[..rng.gen_range(0..=records.len())],
            3..=5 => from.count = *[0, 1, 2, 513, usize::MAX].choose(rng).expect("not empty"),
            6..=8 => from.cds.bits = *[0, 1, 2, 3, 4, 7, u32::MAX].choose(rng).expect("not empty"),
            // A bound that is not given is not looked at.
            9..=11 if from.cds.bits == 0 => {
                from.cds = Cds { start: draw::number(rng), end: draw::number(rng), ..from.cds }
            }
            _ => (),
        }
        from
    }

    fn build(&mut self) {
        let case = draw::case(&mut self.rng);
        let bytes = case.lay();
        let from = self.laid(&case, &bytes);
        let number = self.lent.build(from);
        self.judge_built("txc_build", number, paper::build(from).map(Source::Records));
    }

    /// Many records, or many elements, or long texts, around the limits.
    fn much(&mut self) -> Case {
        let rng = &mut self.rng;
        let count = *[1, 2, 16, 511, 512, 513].choose(rng).expect("not empty");
        let long = *[0, 1, 4, 2048 / count, 2049, 4096, 4097].choose(rng).expect("not empty");
        let mut cigar = vec![*b"M0=N".choose(rng).expect("not empty"); long];
        if let Some(last) = cigar.last_mut() {
            *last = b'D';
        }
        let strand = if rng.gen() { 1 } else { -1 };
        let mut case = match rng.gen_range(0..3) {
            // As many records as can be, with an N inside each that damage can make a gap.
            0 => draw::alike(strand, MOST_RECORDS, b"NM"),
            _ => draw::alike(strand, count, &cigar),
        };
        if let Some(last) = case.records.last_mut().filter(|_| rng.gen_ratio(1, 4)) {
            last.numbers[1] = last.numbers[1].saturating_add(1);
        }
        case
    }

    fn build_much(&mut self) {
        let case = self.much();
        let bytes = case.lay();
        let from = case.laid(&bytes);
        let number = self.lent.build(from);
        self.judge_built("txc_build", number, paper::build(from).map(Source::Records));
        self.ask_damaged();
    }

    fn build_card(&mut self) {
        let card = draw::card(&mut self.rng);
        let number = self.lent.build_card(&card);
        let expected = paper::read_card(&card).and_then(paper::build).map(Source::Records);
        self.judge_built("txc_build_card", number, expected);
    }

    fn build_length(&mut self) {
        let rng = &mut self.rng;
        let (length, start, end) = (draw::number(rng), draw::number(rng), draw::number(rng));
        let bits = *[0, 1, 2, 3, 3, 3, 4, u32::MAX].choose(rng).expect("not empty");
        let cds = Cds { bits, start, end };
        let number = boundary::build_length(length, cds, &mut self.lent.head);
        self.judge_built("txc_build_length", number, paper::build_length(length, cds));
    }

    fn judge_question(&mut self, question: &Question, source: Option<&Source>) {
        let answer = question.ask(&self.lent);
        assert_eq!(answer, question.expect(source), "{question:?} of {:?}, call {}", self.lent.head, self.calls);
        assert!(self.lent == self.before, "{question:?} changed lent memory, call {}", self.calls);
        self.count(question.kind.entry(), answer.number);
        if let Some(numbers) = question.numbers() {
            self.judge_one(numbers, source);
        }
    }

    /// A question as one value.
    fn judge_one(&mut self, question: Numbers, source: Option<&Source>) {
        let answer = boundary::ask(self.lent.reading(), question);
        let of = &self.lent.head;
        assert_eq!(answer, logs::ask(source, &question), "txc_ask {question:?} of {of:?}, call {}", self.calls);
        assert!(self.lent == self.before, "txc_ask {question:?} changed lent memory, call {}", self.calls);
        self.count("txc_ask", answer.number);
    }

    fn ask_one(&mut self) {
        let source = self.lent.source();
        for _ in 0..6 {
            let question = draw::numbers(&mut self.rng, source.as_ref().unwrap_or(&self.source));
            self.judge_one(question, source.as_ref());
        }
    }

    /// Records a question. The lent bytes stand between two others: what is written stands behind those in use, and all else stays.
    fn judge_record(&mut self, source: Option<&Source>) {
        let drawn_from = source.unwrap_or(&self.source);
        let question = draw::numbers(&mut self.rng, drawn_from);
        let (log, used) = draw::recording(&mut self.rng, drawn_from);
        let expected = logs::record(source, &question, &log, used);
        let number = number_of(&expected);
        let mut lent = [b"<", &log[..], b">"].concat();
        let mut after = lent.clone();
        let expected = expected.map_or(Recorded { number, ..Recorded::default() }, |(written, answer)| {
            after[1 + used..][..written.len()].copy_from_slice(&written);
            Recorded { number, length: used + written.len(), answer }
        });
        let recorded = boundary::record(self.lent.reading(), question, &mut lent[1..=log.len()], used);
        let asked = || format!("txc_record {question:?}, {used} of {}, call {}", log.len(), self.calls);
        assert_eq!(recorded, expected, "{} of {:?}", asked(), self.lent.head);
        assert!(lent == after, "{} left other bytes", asked());
        assert!(self.lent == self.before, "{} changed lent memory", asked());
        self.count("txc_record", number);
    }

    /// Replays a log that this transcript, the one before it or none answered.
    fn judge_replay(&mut self, source: Option<&Source>) {
        let of = [source, source, source, Some(&self.source), Some(&self.earlier), None];
        let of = if self.rng.gen() { &of[..1] } else { &of[..] };
        let log = draw::log(&mut self.rng, source.unwrap_or(&self.source), of);
        let whole = logs::replay(source, &log, usize::MAX).map_or(0, |text| text.len());
        let room = draw::room(&mut self.rng, whole);
        let mut buffer = vec![b'.'; room];
        let written = boundary::replay(self.lent.reading(), &log, &mut buffer);
        let expected = logs::replay(source, &log, room).map(String::into_bytes);
        self.judge_front("txc_replay", written, expected, &buffer, b'.');
        assert!(self.lent == self.before, "txc_replay changed lent memory, call {}", self.calls);
        self.count("txc_replay", written.number);
    }

    fn log(&mut self) {
        let source = self.lent.source();
        for _ in 0..3 {
            self.judge_record(source.as_ref());
            self.judge_replay(source.as_ref());
        }
    }

    fn ask(&mut self) {
        let source = self.lent.source();
        for _ in 0..12 {
            let mut question = draw::question(&mut self.rng, source.as_ref().unwrap_or(&self.source));
            if self.rng.gen_ratio(1, 50) {
                // Only the two lowest bits say what is missing.
                question.missing |= 4 << self.rng.gen_range(0..30);
            }
            self.judge_question(&question, source.as_ref());
        }
    }

    /// A list of slots between two others, each painted. Where it is refused, none changes.
    fn judge_worklist(&mut self, positions: &[i32], source: Option<&Source>) {
        let painted = Position { base: -7, offset: 7, star: 7, exon: 7 };
        let answer = Answer { number: 77, mark: 7, start: painted, end: painted };
        let slot = |position| Slot { position, answer };
        let mut slots: Vec<_> = [&[7], positions, &[-7]].concat().into_iter().map(slot).collect();
        let mut after = slots.clone();
        let expected = source.ok_or(Refusal::NotTogether).and_then(|source| source.worklist(positions));
        let number = number_of(&expected);
        let (answers, steps) = expected.unwrap_or_default();
        for (slot, answer) in after[1..].iter_mut().zip(answers) {
            slot.answer = answer;
        }
        let walked = boundary::worklist(self.lent.reading(), &mut slots[1..=positions.len()]);
        let of = &self.lent.head;
        assert_eq!(walked, Steps { number, steps }, "txc_worklist {positions:?} of {of:?}, call {}", self.calls);
        assert_eq!(slots, after, "txc_worklist {positions:?} of {of:?}, call {}", self.calls);
        assert!(self.lent == self.before, "txc_worklist {positions:?} changed lent memory, call {}", self.calls);
        self.count("txc_worklist", number);
    }

    fn worklist(&mut self) {
        let source = self.lent.source();
        for _ in 0..3 {
            let positions = draw::worklist(&mut self.rng, source.as_ref().unwrap_or(&self.source));
            self.judge_worklist(&positions, source.as_ref());
        }
    }

    fn ask_damaged(&mut self) {
        let whole = self.lent.clone();
        for _ in 0..self.rng.gen_range(1..3) {
            draw::damage(&mut self.rng, &mut self.lent);
        }
        self.before = self.lent.clone();
        let source = self.lent.source();
        for _ in 0..3 {
            let question = draw::question(&mut self.rng, &self.source);
            self.judge_question(&question, source.as_ref());
        }
        let positions = draw::worklist(&mut self.rng, &self.source);
        self.judge_worklist(&positions, source.as_ref());
        let question = draw::question_of(&mut self.rng, Kind::GToC, &self.source);
        self.judge_join(&question, source.as_ref());
        self.judge_record(source.as_ref());
        self.judge_replay(source.as_ref());
        self.before = whole.clone();
        self.lent = whole;
    }

    fn read_cigar(&mut self) {
        let rng = &mut self.rng;
        let mut text: Vec<u8> = draw::case(rng).records.into_iter().flat_map(|record| record.cigar).collect();
        match rng.gen_range(0..20) {
            0 => text.resize(rng.gen_range(4090..4100), b'0'),
            1 => text = vec![b'D'; rng.gen_range(2040..2060)],
            2 => text.extend(b"99999999999999999999S"),
            _ => (),
        }
        let mut counts = Box::new([-7; MOST_SEGMENTS]);
        let mut letters = Box::new([7; MOST_SEGMENTS]);
        let read = boundary::read_cigar(&text, &mut counts, &mut letters);
        let expected = paper::read_cigar(&text, MOST_SEGMENTS);
        let length = expected.as_ref().map_or(0, Vec::len);
        assert_eq!(read, Length { number: number_of(&expected), length }, "txc_read_cigar, call {}", self.calls);
        match expected {
            Ok(elements) => {
                let got = counts.iter().zip(letters.iter()).map(|(&count, &letter)| (i64::from(count), letter));
                assert!(got.take(length).eq(elements), "txc_read_cigar read other elements, call {}", self.calls);
            }
            Err(_) => assert!(counts.iter().all(|&c| c == -7) && letters.iter().all(|&l| l == 7)),
        }
        self.count("txc_read_cigar", read.number);
    }

    fn write_cigar(&mut self) {
        let (elements, room) = draw::elements(&mut self.rng);
        let number = elements.len();
        let (counts, letters) = apart(&elements);
        let expected = paper::write_cigar(number, &counts[..], &letters[..], room);
        let mut buffer = vec![b'.'; room];
        let written = boundary::write_cigar(number, &counts, &letters, &mut buffer);
        self.judge_front("txc_write_cigar", written, expected, &buffer, b'.');
        self.count("txc_write_cigar", written.number);
    }

    fn read_bam(&mut self) {
        let (words, [counts_room, letters_room]) = draw::words(&mut self.rng);
        let (mut counts, mut letters) = (vec![-7; counts_room], vec![7; letters_room]);
        let read = boundary::read_bam(&words, &mut counts, &mut letters);
        let expected = paper::read_bam(&words, counts_room.min(letters_room));
        let (of_counts, of_letters) = match expected {
            Ok(elements) => {
                let (of_counts, of_letters) =
                    elements.into_iter().map(|(count, letter)| (count as i32, letter)).unzip();
                (Ok(of_counts), Ok(of_letters))
            }
            Err(refusal) => (Err(refusal), Err(refusal)),
        };
        self.judge_front("txc_read_bam", read, of_counts, &counts, -7);
        self.judge_front("txc_read_bam", read, of_letters, &letters, 7);
        self.count("txc_read_bam", read.number);
    }

    fn write_bam(&mut self) {
        let (elements, room) = draw::worded(&mut self.rng);
        let number = elements.len();
        let (counts, letters) = apart(&elements);
        let expected = paper::write_bam(number, &counts[..], &letters[..], room);
        let mut words = vec![0xa5a5_a5a5; room];
        let written = boundary::write_bam(number, &counts, &letters, &mut words);
        self.judge_front("txc_write_bam", written, expected, &words, 0xa5a5_a5a5);
        self.count("txc_write_bam", written.number);
    }

    fn write_card(&mut self) {
        let case = if self.rng.gen_ratio(1, 20) { self.much() } else { draw::case(&mut self.rng) };
        let bytes = case.lay();
        let from = self.laid(&case, &bytes);
        let room = if self.rng.gen_ratio(1, 3) { self.rng.gen_range(0..200) } else { bytes.len() + CARD_HEAD };
        let expected = paper::write_card(from, room);
        let mut buffer = vec![b'.'; room];
        let written = boundary::write_card(from, &mut buffer);
        self.judge_front("txc_write_card", written, expected, &buffer, b'.');
        self.count("txc_write_card", written.number);
    }

    /// What fits fills the front of the buffer and the rest stays as it was.
    fn judge_front<T: PartialEq>(
        &self,
        entry: &str,
        written: Length,
        expected: Result<Vec<T>, Refusal>,
        buffer: &[T],
        was: T,
    ) {
        let number = number_of(&expected);
        let text = expected.unwrap_or_default();
        assert_eq!(written, Length { number, length: text.len() }, "{entry}, call {}", self.calls);
        let (front, rest) = buffer.split_at(text.len());
        assert!(
            front == text && rest.iter().all(|place| *place == was),
            "{entry} wrote otherwise, call {}",
            self.calls
        );
    }

    fn trim(&mut self) {
        let rng = &mut self.rng;
        let mut allele = || (0..rng.gen_range(0..9)).map(|_| *b"AC\xc3\xff".choose(rng).expect("not empty")).collect();
        let (reference, alternative): (Vec<u8>, Vec<u8>) = (allele(), allele());
        let got = (
            boundary::trim_prefix(&reference, &alternative),
            boundary::trim_suffix(&reference, &alternative),
            boundary::changed(&reference, &alternative),
        );
        let expected = (
            paper::prefix(&reference, &alternative),
            paper::suffix(&reference, &alternative),
            paper::changed(&reference, &alternative),
        );
        assert_eq!(got, expected, "{reference:?} and {alternative:?}, call {}", self.calls);
        for entry in ["txc_trim_prefix", "txc_trim_suffix", "txc_changed"] {
            self.count(entry, 0);
        }
    }

    fn turn(&mut self) {
        let (allele, room) = draw::allele(&mut self.rng);
        let expected = paper::turn(&allele, room);
        let mut buffer = vec![b'.'; room];
        let written = boundary::turn(&allele, &mut buffer);
        self.judge_front("txc_turn", written, expected, &buffer, b'.');
        self.count("txc_turn", written.number);
    }

    /// A g. interval with two alleles. Each buffer stands between two bytes and is painted: what is left of its allele fills its front,
    /// and all else stays.
    fn judge_join(&mut self, question: &Question, source: Option<&Source>) {
        let ([reference, alternative], rooms) = draw::alleles(&mut self.rng);
        let (g, strict) = (question.g(), question.strict);
        let joined = source
            .ok_or(Refusal::NotTogether)
            .and_then(|of| of.g_to_c_alleles(g, strict, [&reference, &alternative], rooms));
        let number = number_of(&joined);
        let Both { answer, removed: [prefix, suffix], left } = joined.unwrap_or_default();
        let expected = Joined {
            answer: Answer { number, ..answer },
            prefix,
            suffix,
            reference: left[0].len(),
            alternative: left[1].len(),
        };
        let mut buffers = rooms.map(|room| vec![b'.'; room + 2]);
        let mut after = buffers.clone();
        for (buffer, left) in after.iter_mut().zip(&left) {
            buffer[1..][..left.len()].copy_from_slice(left);
        }
        let [reference_out, alternative_out] = &mut buffers;
        let got = boundary::g_to_c_alleles(
            self.lent.reading(),
            g,
            strict,
            &reference,
            &alternative,
            &mut reference_out[1..=rooms[0]],
            &mut alternative_out[1..=rooms[1]],
        );
        let asked = || format!("txc_g_to_c_alleles {question:?} {reference:?} {alternative:?}, call {}", self.calls);
        assert_eq!(got, expected, "{} of {:?}", asked(), self.lent.head);
        assert_eq!(buffers, after, "{} of {:?}", asked(), self.lent.head);
        assert!(self.lent == self.before, "{} changed lent memory", asked());
        self.count("txc_g_to_c_alleles", number);
    }

    fn join(&mut self) {
        let source = self.lent.source();
        for _ in 0..6 {
            let question = draw::question_of(&mut self.rng, Kind::GToC, source.as_ref().unwrap_or(&self.source));
            self.judge_join(&question, source.as_ref());
        }
    }

    fn step(&mut self) {
        match self.rng.gen_range(0..110) {
            0..=9 => self.build(),
            10 => self.build_much(),
            11..=24 => self.build_card(),
            25..=27 => self.build_length(),
            28..=47 => self.ask(),
            48..=51 => self.join(),
            52..=56 => self.worklist(),
            57..=79 => self.ask_damaged(),
            80..=84 => self.read_cigar(),
            85..=87 => self.write_cigar(),
            88..=90 => self.read_bam(),
            91..=93 => self.write_bam(),
            94..=95 => self.write_card(),
            96..=97 => self.turn(),
            98..=101 => self.ask_one(),
            102..=107 => self.log(),
            _ => self.trim(),
        }
    }
}

fn main() {
    let options = Options::parse();
    let mut trial = Trial::new(options.seed);
    while trial.calls < options.count {
        trial.step();
    }
    let mut entries: BTreeMap<&str, Vec<String>> = BTreeMap::new();
    for ((entry, number), calls) in &trial.tally {
        entries.entry(entry).or_default().push(format!("{number}: {calls}"));
    }
    for (entry, numbers) in entries {
        println!("{entry:<18} {}", numbers.join(", "));
    }
    println!("{} calls from seed {}, each as the documents say", trial.calls, options.seed);
}
