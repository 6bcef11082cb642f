//! Holds the port to what is expected of it, and counts.

use std::{collections::BTreeMap, fmt::Debug};

use pulindraxi::{
    boundary::{Asked, Cds},
    limits::MOST_TEXT,
    Element, Refusal,
};
use trials::{draw::Case, paper::Source, Kind, Question};

use crate::{
    settle::{self, Built, Expected, Origin},
    Port,
};

/// What was compared of one entry.
#[derive(Default)]
struct Tally {
    origins: BTreeMap<Origin, u64>,
    differences: u64,
}

/// Asks the port, holds its answers to the crate's and document 01's, and keeps what differs.
pub struct Judge<P> {
    port: P,
    tallies: BTreeMap<&'static str, Tally>,
    faults: Vec<String>,
}

/// How many differences are kept word for word.
const KEPT: usize = 20;

impl<P: Port> Judge<P> {
    /// A judge of a port.
    pub fn new(port: P) -> Judge<P> {
        Judge { port, tallies: BTreeMap::new(), faults: Vec::new() }
    }

    fn count(&mut self, entry: &'static str, origin: Origin) {
        *self.tallies.entry(entry).or_default().origins.entry(origin).or_default() += 1;
    }

    fn fault(&mut self, entry: &'static str, input: &dyn Debug, fault: &str) {
        self.tallies.entry(entry).or_default().differences += 1;
        if self.faults.len() < KEPT {
            self.faults.push(format!("{entry} {input:?}: {fault}"));
        }
    }

    /// Counts what was settled, and compares the port's answer with it.
    fn compare<T: PartialEq + Debug>(
        &mut self,
        entry: &'static str,
        settled: Result<Expected<T>, String>,
        port: Result<T, Refusal>,
        input: &dyn Debug,
    ) {
        match settled {
            Err(fault) => self.fault(entry, input, &fault),
            Ok((expected, origin)) => {
                self.count(entry, origin);
                if port != expected {
                    self.fault(entry, input, &format!("the port says {port:?}, expected {expected:?} ({origin:?})"));
                }
            }
        }
    }

    /// Compares what the port built, and gives the transcript where all sides built one.
    fn compare_built(
        &mut self,
        entry: &'static str,
        settled: settle::Building,
        port: Result<Option<Source>, Refusal>,
        input: &dyn Debug,
    ) -> Option<Built> {
        let (settled, built) = match settled {
            Ok(((expected, origin), built)) => (Ok((expected.map(Some), origin)), built),
            Err(fault) => (Err(fault), None),
        };
        self.compare(entry, settled, port, input);
        built
    }

    /// Builds a transcript from records on all sides; none where it is refused.
    pub fn build(&mut self, case: &Case) -> Option<Built> {
        let port = self.port.build(case);
        self.compare_built("txc_build", settle::build(case), port, case)
    }

    /// Builds a transcript from a length on all sides; none where it is refused.
    pub fn build_length(&mut self, length: i32, cds_start: Option<i32>, cds_end: Option<i32>) -> Option<Built> {
        let port = self.port.build_length(length, Cds::new(cds_start, cds_end));
        let settled = settle::build_length(length, cds_start, cds_end);
        self.compare_built("txc_build_length", settled, port, &(length, cds_start, cds_end))
    }

    /// Asks a question of the transcript that was built last. One of the six mappings is asked as one value too, and the answer is the
    /// same; one from g. to c. is asked with two alleles too, and the interval is the same.
    pub fn ask(&mut self, built: &mut Built, question: &Question) {
        let port = self.port.ask(question);
        let settled = settle::ask(built, question);
        self.compare(question.kind.entry(), settled.clone(), port, &(question, &built.source));
        if let Some(port) = self.port.ask_one(question) {
            self.compare("txc_ask", settled.clone(), port, &(question, &built.source));
        }
        if question.kind == Kind::GToC {
            let port = self.port.join(question);
            self.compare("txc_g_to_c_alleles", settled, port, &(question, &built.source));
        }
    }

    /// Asks the transcript that was built last a sorted worklist, and holds each slot to the crate's answer to its position alone.
    pub fn worklist(&mut self, built: &mut Built, positions: &[i32]) {
        let answers = self.port.worklist(positions);
        for (&base, port) in positions.iter().zip(answers) {
            let at = Asked { base, ..Asked::default() };
            let question = Question { kind: Kind::GToN, start: at, end: at, missing: 0, strict: true };
            let settled = settle::ask(built, &question);
            self.compare("txc_worklist", settled, port, &(base, positions, &built.source));
        }
    }

    /// Reads CIGAR text, and writes what it stands for.
    pub fn cigar(&mut self, text: &[u8]) {
        let port = self.port.read_cigar(text);
        let settled = settle::read_cigar(text);
        let elements = settled.as_ref().map_or(Vec::new(), |(expected, _)| expected.clone().unwrap_or_default());
        self.compare("txc_read_cigar", settled, port, &String::from_utf8_lossy(text));
        self.write_cigar(&elements, MOST_TEXT);
    }

    /// Writes elements into so many bytes.
    pub fn write_cigar(&mut self, elements: &[Element], room: usize) {
        let port = self.port.write_cigar(elements, room);
        let settled = settle::write_cigar(elements.len(), elements, room);
        self.compare("txc_write_cigar", settled, port, &(elements, room));
    }

    /// Trims the front and the back of an allele pair.
    pub fn trim(&mut self, reference: &[u8], alternative: &[u8]) {
        let ports = [self.port.trim_prefix(reference, alternative), self.port.trim_suffix(reference, alternative)];
        let settled = settle::trim(reference, alternative);
        let input = (String::from_utf8_lossy(reference), String::from_utf8_lossy(alternative));
        for ((entry, settled), port) in ["txc_trim_prefix", "txc_trim_suffix"].into_iter().zip(settled).zip(ports) {
            self.compare(entry, settled, Ok(port), &input);
        }
    }

    /// The entries that differ somewhere.
    pub fn differing(&self) -> Vec<&'static str> {
        self.tallies.iter().filter(|(_, tally)| tally.differences > 0).map(|(entry, _)| *entry).collect()
    }

    /// Writes the counts and the differences, and says whether there are none.
    pub fn report(&self) -> bool {
        let all = [
            (Origin::Answered, "answered"),
            (Origin::Refused, "error"),
            (Origin::Requested, "requested"),
            (Origin::Panicked, "panic"),
            (Origin::Narrowed, "narrowed"),
            (Origin::Added, "added"),
        ];
        println!("{:<18}{}", "", all.map(|(_, word)| format!(" {word:>10}")).concat());
        let mut sums = [0; 6];
        for (entry, tally) in &self.tallies {
            let counts = all.map(|(origin, _)| tally.origins.get(&origin).copied().unwrap_or(0));
            for (sum, count) in sums.iter_mut().zip(counts) {
                *sum += count;
            }
            println!("{entry:<18}{}", counts.map(|count| format!(" {count:>10}")).concat());
        }
        for fault in &self.faults {
            println!("{fault}");
        }
        let differences: u64 = self.tallies.values().map(|tally| tally.differences).sum();
        println!(
            "{} calls as the crate, {} as document 02 departs from it, {} more as the documents alone; {differences} differences",
            sums[0] + sums[1],
            sums[2],
            sums[3] + sums[4] + sums[5],
        );
        differences == 0
    }
}
