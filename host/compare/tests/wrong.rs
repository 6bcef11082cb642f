//! The comparison reports what is wrong: the proved entries with one answer changed differ just where they were changed. Among
//! them are the wrong programs that document 01 names: a mapper that refuses everything or always says n.1, a trimmer that
//! removes nothing, a builder that fills the first segment and leaves the rest zero. Others keep the crate's rules where document 02
//! departs from them.

use compare::{departures::departs, original, random, Entries, Judge, Port};
use pulindraxi::{
    boundary::{Answer, Asked, Cds, Position},
    limits::MOST_SEGMENTS,
    Element, Refusal,
};
use trials::{
    draw::Case,
    paper::{Aligned, Of, Source},
    Kind, Question,
};

type Said<T> = Result<T, Refusal>;
/// The text that is written for elements, made from the right one.
type Writing = fn(&[Element], Said<Vec<u8>>) -> Said<Vec<u8>>;

/// The proved entries, and what becomes of each answer; by default nothing.
struct Wrong {
    entries: Entries,
    /// The transcript that was built last.
    source: Option<Source>,
    build: fn(Source) -> Said<Source>,
    /// What becomes of a refused building.
    unbuilt: fn(Refusal) -> Said<Option<Source>>,
    /// Which questions are answered by the crate's rules: leniently, or with yes.
    kept: fn(&Source, &Question) -> bool,
    ask: fn(Kind, Answer) -> Said<Answer>,
    /// The question that is asked as one value, made from the right one.
    one: fn(Question) -> Question,
    /// What a g. to c. question with two alleles answers, made from the right answer or refusal.
    join: fn(Said<Answer>) -> Said<Answer>,
    /// The answers of a worklist, made from the right ones.
    list: fn(Vec<Said<Answer>>) -> Vec<Said<Answer>>,
    read: fn(Vec<Element>) -> Said<Vec<Element>>,
    write: Writing,
    trim: fn(usize) -> usize,
}

impl Default for Wrong {
    fn default() -> Wrong {
        Wrong {
            entries: Entries::default(),
            source: None,
            build: Ok,
            unbuilt: Err,
            kept: |_, _| false,
            ask: |_, answer| Ok(answer),
            one: |question| question,
            join: |said| said,
            list: |answers| answers,
            read: Ok,
            write: |_, text| text,
            trim: |length| length,
        }
    }
}

impl Port for Wrong {
    fn build(&mut self, case: &Case) -> Said<Option<Source>> {
        match self.entries.build(case) {
            Ok(source) => {
                self.source.clone_from(&source);
                source.map(self.build).transpose()
            }
            Err(refusal) => (self.unbuilt)(refusal),
        }
    }

    fn build_length(&mut self, length: i32, cds: Cds) -> Said<Option<Source>> {
        self.source = self.entries.build_length(length, cds)?;
        self.source.clone().map(self.build).transpose()
    }

    fn ask(&self, question: &Question) -> Said<Answer> {
        let is_kept = self.source.as_ref().is_some_and(|source| (self.kept)(source, question));
        let answer = self.entries.ask(&Question { strict: question.strict && !is_kept, ..*question })?;
        let yes = is_kept && question.kind == Kind::InBounds;
        (self.ask)(question.kind, if yes { Answer { mark: 1, ..answer } } else { answer })
    }

    fn ask_one(&self, question: &Question) -> Option<Said<Answer>> {
        self.entries.ask_one(&(self.one)(*question))
    }

    fn join(&self, question: &Question) -> Said<Answer> {
        (self.join)(self.entries.join(question))
    }

    fn worklist(&self, positions: &[i32]) -> Vec<Said<Answer>> {
        (self.list)(self.entries.worklist(positions))
    }

    fn read_cigar(&self, text: &[u8]) -> Said<Vec<Element>> {
        (self.read)(self.entries.read_cigar(text)?)
    }

    fn write_cigar(&self, elements: &[Element], room: usize) -> Said<Vec<u8>> {
        (self.write)(elements, self.entries.write_cigar(elements, room))
    }

    fn trim_prefix(&self, reference: &[u8], alternative: &[u8]) -> usize {
        (self.trim)(self.entries.trim_prefix(reference, alternative))
    }

    fn trim_suffix(&self, reference: &[u8], alternative: &[u8]) -> usize {
        (self.trim)(self.entries.trim_suffix(reference, alternative))
    }
}

/// An answer with other exon numbers, made from its own.
fn numbered(answer: Answer, number: fn([u32; 2]) -> [u32; 2]) -> Answer {
    let [start, end] = number([answer.start.exon, answer.end.exon]);
    let start = Position { exon: start, ..answer.start };
    let end = Position { exon: end, ..answer.end };
    Answer { start, end, ..answer }
}

/// The entries of a port that differ.
fn differing(port: Wrong) -> Vec<&'static str> {
    original::silence_panics();
    let mut judge = Judge::new(port);
    random::run(&mut judge, 1, 8_000);
    judge.differing()
}

/// The entries that differ where writing is changed.
fn writing(write: Writing) -> Vec<&'static str> {
    differing(Wrong { write, ..Wrong::default() })
}

#[test]
fn the_entries_as_they_are() {
    assert_eq!(differing(Wrong::default()), [""; 0]);
}

#[test]
fn a_writer_that_refuses_everything() {
    assert_eq!(writing(|_, _| Err(Refusal::TooMuch)), ["txc_write_cigar"]);
}

#[test]
fn a_writer_that_refuses_nothing() {
    assert_eq!(writing(|_, text| Ok(text.unwrap_or_default())), ["txc_write_cigar"]);
}

#[test]
fn a_writer_that_leaves_out_a_0() {
    let bare = |elements: &[Element], text: Said<Vec<u8>>| match elements {
        [Element { count: 0, letter }] => text.map(|_| vec![*letter]),
        _ => text,
    };
    assert_eq!(writing(bare), ["txc_write_cigar"]);
}

#[test]
fn a_writer_with_another_order_of_refusals() {
    // The count before the letter, and the room before the text's limit.
    let count_first = |elements: &[Element], text: Said<Vec<u8>>| {
        let negative = elements.iter().any(|element| element.count < 0);
        text.map_err(|refusal| if refusal == Refusal::NoElement && negative { Refusal::BadCount } else { refusal })
    };
    assert_eq!(writing(count_first), ["txc_write_cigar"]);
    let room_first = |elements: &[Element], text: Said<Vec<u8>>| {
        let fits = elements.len() <= MOST_SEGMENTS;
        text.map_err(|refusal| if refusal == Refusal::TooMuch && fits { Refusal::NoRoom } else { refusal })
    };
    assert_eq!(writing(room_first), ["txc_write_cigar"]);
}

#[test]
fn a_writer_that_gives_a_number_without_a_name() {
    assert_eq!(
        writing(|_, text| text.map_err(|refusal| Refusal::check(refusal.number() + 100).unwrap_err())),
        ["txc_write_cigar"]
    );
}

#[test]
fn a_reader_that_refuses_everything() {
    let port = Wrong { read: |_| Err(Refusal::NoElement), ..Wrong::default() };
    assert_eq!(differing(port), ["txc_read_cigar"]);
}

#[test]
fn a_mapper_that_refuses_everything() {
    let port = Wrong { ask: |_, _| Err(Refusal::NotTogether), ..Wrong::default() };
    let mut all = Kind::ALL.map(Kind::entry);
    all.sort_unstable();
    assert_eq!(differing(port), all);
}

#[test]
fn a_mapper_that_always_says_n_1() {
    let port = Wrong {
        ask: |kind, answer| match kind {
            Kind::GToN | Kind::CToN => {
                let n_1 = Position { base: 1, ..Position::default() };
                Ok(Answer { start: n_1, end: n_1, ..answer })
            }
            _ => Ok(answer),
        },
        ..Wrong::default()
    };
    assert_eq!(differing(port), ["txc_c_to_n", "txc_g_to_n"]);
}

#[test]
fn a_mapper_that_numbers_exons_otherwise() {
    let numbering = |ask| differing(Wrong { ask, ..Wrong::default() });
    let about_g = ["txc_c_to_g", "txc_g_to_c", "txc_g_to_n", "txc_n_to_g"];
    // None, the numbers of the other end, the start's for both, and from 0 on.
    assert_eq!(numbering(|_, answer| Ok(numbered(answer, |_| [0, 0]))), about_g);
    assert_eq!(numbering(|_, answer| Ok(numbered(answer, |[start, end]| [end, start]))), about_g);
    assert_eq!(numbering(|_, answer| Ok(numbered(answer, |[start, _]| [start; 2]))), about_g);
    assert_eq!(numbering(|_, answer| Ok(numbered(answer, |exons| exons.map(|exon| exon.saturating_sub(1))))), about_g);
    // One where there is none, and none in c. answers.
    assert_eq!(
        numbering(|_, answer| Ok(numbered(answer, |exons| exons.map(|exon| exon.max(1))))),
        ["txc_c_to_n", "txc_in_bounds", "txc_is_coding", "txc_n_to_c"]
    );
    let not_in_c = |kind, answer| Ok(if kind == Kind::GToC { numbered(answer, |_| [0, 0]) } else { answer });
    assert_eq!(numbering(not_in_c), ["txc_g_to_c"]);
}

#[test]
fn a_builder_that_numbers_exons_otherwise() {
    let building = |build| differing(Wrong { build, ..Wrong::default() });
    let miscounts = |source| match source {
        Source::Records(aligned) => Ok(Source::Records(Aligned { records: aligned.records + 1, ..aligned })),
        source => Ok(source),
    };
    assert_eq!(building(miscounts), ["txc_build"]);
    // A gap that belongs to the record before it.
    let fills_gaps = |source| match source {
        Source::Records(mut aligned) => {
            for of in &mut aligned.of {
                if let Of::Gap(record) = *of {
                    *of = Of::Record(record);
                }
            }
            Ok(Source::Records(aligned))
        }
        source => Ok(source),
    };
    assert_eq!(building(fills_gaps), ["txc_build"]);
}

#[test]
fn a_walk_that_skips_a_slot_or_refuses_the_list() {
    let listing = |list| differing(Wrong { list, ..Wrong::default() });
    let skips = |mut answers: Vec<Said<Answer>>| {
        if let [.., before, last] = &mut answers[..] {
            last.clone_from(before);
        }
        answers
    };
    assert_eq!(listing(skips), ["txc_worklist"]);
    assert_eq!(listing(|answers| vec![Err(Refusal::Falling); answers.len()]), ["txc_worklist"]);
    // Without exon numbers.
    let unnumbered = |answers: Vec<Said<Answer>>| {
        answers.into_iter().map(|said| said.map(|answer| numbered(answer, |_| [0, 0]))).collect()
    };
    assert_eq!(listing(unnumbered), ["txc_worklist"]);
}

#[test]
fn a_question_as_one_value_that_is_another() {
    let asking = |one| differing(Wrong { one, ..Wrong::default() });
    // Lenient, with the start's star for both ends, with its ends exchanged, of another kind, without what is missing.
    assert_eq!(asking(|asked| Question { strict: false, ..asked }), ["txc_ask"]);
    let stars = |asked: Question| Question { end: Asked { star: asked.start.star, ..asked.end }, ..asked };
    assert_eq!(asking(stars), ["txc_ask"]);
    assert_eq!(asking(|asked| Question { start: asked.end, end: asked.start, ..asked }), ["txc_ask"]);
    let other = |asked: Question| match asked.kind {
        Kind::NToC => Question { kind: Kind::NToG, ..asked },
        _ => asked,
    };
    assert_eq!(asking(other), ["txc_ask"]);
    assert_eq!(asking(|asked| Question { missing: 0, ..asked }), ["txc_ask"]);
}

#[test]
fn a_join_that_narrows_its_interval_or_refuses_otherwise() {
    let joining = |join| differing(Wrong { join, ..Wrong::default() });
    let narrows = |said: Said<Answer>| said.map(|answer| Answer { end: answer.start, ..answer });
    assert_eq!(joining(narrows), ["txc_g_to_c_alleles"]);
    let letters_first = |said: Said<Answer>| said.map_err(|_| Refusal::NoBase);
    assert_eq!(joining(letters_first), ["txc_g_to_c_alleles"]);
    let unnumbered = |said: Said<Answer>| said.map(|answer| numbered(answer, |_| [0, 0]));
    assert_eq!(joining(unnumbered), ["txc_g_to_c_alleles"]);
}

#[test]
fn a_builder_that_fills_the_first_segment_alone() {
    let port = Wrong {
        build: |source| match source {
            Source::Records(mut aligned) => {
                for starts in [&mut aligned.genome, &mut aligned.transcript] {
                    starts[2..].fill(0);
                }
                Ok(Source::Records(aligned))
            }
            source => Ok(source),
        },
        ..Wrong::default()
    };
    assert_eq!(differing(port), ["txc_build"]);
}

#[test]
fn a_mapper_that_keeps_the_crates_bounds() {
    let keeping = |kept| differing(Wrong { kept, ..Wrong::default() });
    assert_eq!(keeping(departs), ["txc_g_to_c", "txc_g_to_n", "txc_in_bounds", "txc_n_to_c", "txc_n_to_g"]);
    // One side of one end alone.
    assert_eq!(keeping(|of, asked| departs(of, asked) && asked.kind == Kind::GToN), ["txc_g_to_n"]);
    assert_eq!(
        keeping(|of, asked| departs(of, asked) && asked.kind == Kind::NToG && of.head().strand == -1),
        ["txc_n_to_g"]
    );
    assert_eq!(
        keeping(|of, asked| departs(of, asked) && asked.kind == Kind::NToC && asked.end.base <= 0),
        ["txc_n_to_c"]
    );
    assert_eq!(
        keeping(|of, asked| departs(of, asked)
            && asked.kind == Kind::NToC
            && asked.start.base > 0
            && asked.end.base > 0),
        ["txc_n_to_c"]
    );
    assert_eq!(
        keeping(|of, asked| departs(of, asked) && asked.kind == Kind::InBounds && asked.start == asked.end),
        ["txc_in_bounds"]
    );
}

#[test]
fn a_builder_that_holds_no_cigar_to_its_bounds() {
    let unbuilt = |refusal| if refusal == Refusal::NotSpanning { Ok(None) } else { Err(refusal) };
    assert_eq!(differing(Wrong { unbuilt, ..Wrong::default() }), ["txc_build"]);
    // By another number.
    let unbuilt = |refusal| Err(if refusal == Refusal::NotSpanning { Refusal::BadBound } else { refusal });
    assert_eq!(differing(Wrong { unbuilt, ..Wrong::default() }), ["txc_build"]);
}

#[test]
fn a_trimmer_that_removes_nothing() {
    let port = Wrong { trim: |_| 0, ..Wrong::default() };
    assert_eq!(differing(port), ["txc_trim_prefix", "txc_trim_suffix"]);
}
