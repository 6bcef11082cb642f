//! What is compared: the proved entries, or in a test something that answers otherwise.

use pulindraxi::{
    boundary::{self, Answer, Cds, Slot},
    cigar, Element, Refusal,
};
use trials::{draw::Case, paper::Source, Lent, Question};

/// The calls that are compared.
pub trait Port {
    /// Builds from records. What memory stands for then, none where it doesn't hold together.
    fn build(&mut self, case: &Case) -> Result<Option<Source>, Refusal>;
    /// Builds from a length. What memory stands for then, none where it doesn't hold together.
    fn build_length(&mut self, length: i32, cds: Cds) -> Result<Option<Source>, Refusal>;
    /// Answers a question to what was built last.
    fn ask(&self, question: &Question) -> Result<Answer, Refusal>;
    /// Answers a question of the six mappings as one value to what was built last; none for another question.
    fn ask_one(&self, question: &Question) -> Option<Result<Answer, Refusal>>;
    /// Answers a g. to c. question with two alleles to what was built last: the interval alone.
    fn join(&self, question: &Question) -> Result<Answer, Refusal>;
    /// Answers each position of a sorted worklist to what was built last. A list that is refused has its refusal everywhere.
    fn worklist(&self, positions: &[i32]) -> Vec<Result<Answer, Refusal>>;
    /// Reads CIGAR text.
    fn read_cigar(&self, text: &[u8]) -> Result<Vec<Element>, Refusal>;
    /// Writes CIGAR text into so many bytes.
    fn write_cigar(&self, elements: &[Element], room: usize) -> Result<Vec<u8>, Refusal>;
    /// The length of the common prefix.
    fn trim_prefix(&self, reference: &[u8], alternative: &[u8]) -> usize;
    /// The length of the common suffix.
    fn trim_suffix(&self, reference: &[u8], alternative: &[u8]) -> usize;
}

/// The proved entries.
pub struct Entries {
    lent: Lent,
}

impl Default for Entries {
    fn default() -> Entries {
        Entries { lent: Lent::filled(0) }
    }
}

impl Port for Entries {
    fn build(&mut self, case: &Case) -> Result<Option<Source>, Refusal> {
        let bytes = case.lay();
        Refusal::check(self.lent.build(case.laid(&bytes))).map(|()| self.lent.source())
    }

    fn build_length(&mut self, length: i32, cds: Cds) -> Result<Option<Source>, Refusal> {
        Refusal::check(boundary::build_length(length, cds, &mut self.lent.head)).map(|()| self.lent.source())
    }

    fn ask(&self, question: &Question) -> Result<Answer, Refusal> {
        let answer = question.ask(&self.lent);
        Refusal::check(answer.number).map(|()| answer)
    }

    fn ask_one(&self, question: &Question) -> Option<Result<Answer, Refusal>> {
        let answer = boundary::ask(self.lent.reading(), question.numbers()?);
        Some(Refusal::check(answer.number).map(|()| answer))
    }

    fn join(&self, question: &Question) -> Result<Answer, Refusal> {
        let (of, g, strict) = (self.lent.reading(), question.g(), question.strict);
        let answer = boundary::g_to_c_alleles(of, g, strict, b"AC", b"G", &mut [0; 2], &mut [0; 1]).answer;
        Refusal::check(answer.number).map(|()| answer)
    }

    fn worklist(&self, positions: &[i32]) -> Vec<Result<Answer, Refusal>> {
        let mut slots: Vec<_> = positions.iter().copied().map(Slot::new).collect();
        let whole = Refusal::check(boundary::worklist(self.lent.reading(), &mut slots).number);
        let answer = |slot: Slot| whole.and(Refusal::check(slot.answer.number)).map(|()| slot.answer);
        slots.into_iter().map(answer).collect()
    }

    fn read_cigar(&self, text: &[u8]) -> Result<Vec<Element>, Refusal> {
        cigar::read(text)
    }

    fn write_cigar(&self, elements: &[Element], room: usize) -> Result<Vec<u8>, Refusal> {
        let mut buffer = vec![0; room];
        let length = cigar::write_into(elements, &mut buffer)?;
        buffer.truncate(length);
        Ok(buffer)
    }

    fn trim_prefix(&self, reference: &[u8], alternative: &[u8]) -> usize {
        boundary::trim_prefix(reference, alternative)
    }

    fn trim_suffix(&self, reference: &[u8], alternative: &[u8]) -> usize {
        boundary::trim_suffix(reference, alternative)
    }
}
