//! `pulindraxi`: maps positions between g., n. and c. by a transcript's card, and variants from g. to c., keeps what was answered and says
//! what another card answers otherwise, lists cards and writes them, from records or alignments.

mod bam;
mod card;
mod exon;
mod hts;
mod list;
mod logs;
mod map;
mod replay;
mod store;
mod variant;

use std::{
    error::Error,
    ffi::OsString,
    fs,
    io::{self, Read},
    path::{Path, PathBuf},
    process::ExitCode,
};

use card::Bound;
use clap::{Args, Parser, Subcommand};
use pulindraxi::{Bounds, Transcript};

/// Maps positions between genome (g.), transcript (n.) and coding (c.) numbers.
#[derive(Parser)]
#[command(version)]
struct Options {
    #[command(subcommand)]
    command: Command,
}

#[derive(Subcommand)]
enum Command {
    /// Map positions from standard input, one a line: `g 23`, `g 11_33`, `c 7+3`, `c *3`, `n 8+3`; and variants, `g.23A>G`
    ///
    /// Beside each stand the exon that it lies in (`exon 2`; `exons 2_3` from one to another; `intron 2` behind exon 2) and its
    /// names of the other two kinds, an uncertain one in parentheses, or the refusal's number and words. Exons are counted
    /// from 1 in transcript order; an intron is told by the exon and the sign of the offset. Empty lines and lines that begin with # are skipped. A line that is no position is reported with its
    /// number, and the run goes on; the exit status is then 1. Single g. positions that come in order are put to the
    /// transcript as sorted worklists; each line says the same either way.
    ///
    /// A line may also be a variant of the genome: `g.23A>G`, `g.22_23del`, `g.22_23delinsTT`, `g.23_24insC`, with or without
    /// the letters behind `del`. Its c. name has the alleles as the transcript reads them, on strand -1 turned (`c.8-2T>C`), and
    /// behind it stands what both alleles have in common, if anything, and what is left of them. Nothing is normalized: the
    /// interval is neither moved nor narrowed, and the form is kept. The genome itself is not looked at. A letter
    /// outside the nucleotide list (IUPAC's without U) is named with its place in the line.
    Map {
        /// The transcript's card
        card: PathBuf,
        /// Number positions outside the transcript too
        #[arg(long)]
        lenient: bool,
        /// Record what is answered in a log, behind what is there; `replay` reads it
        ///
        /// For each line two entries: the position's names of the other two kinds, with the exons, or their refusals; of a variant
        /// those of its interval. A file holds 1,489 entries: FILE.2, FILE.3 and so on are begun as they are needed. A file that is
        /// there is gone on with where it is a log, and so is the last of those that follow it; anything else is said, and
        /// nothing is touched. What cannot be recorded is not answered.
        #[arg(long, value_name = "FILE")]
        log: Option<PathBuf>,
    },
    /// Ask the questions of a log again, and show what a card answers otherwise
    ///
    /// For each entry whose answer differs, exon numbers too: its index, counted from 0, the question, the answer in the log and
    /// the one of this card; then how many differ. A log that goes on in LOG.2, LOG.3 and so on is replayed in this order, and
    /// the indices run on from one file to the next. The card and all files are read before anything is asked; where one of
    /// them is refused the exit status is 1, and otherwise 0, whether answers differ or not.
    Replay {
        /// The transcript's card
        card: PathBuf,
        /// The log
        log: PathBuf,
        /// Write the indices alone, a line each, then their number
        #[arg(long)]
        indices: bool,
    },
    /// List a card's segments: letter, genome start, transcript start and count
    List {
        /// The transcript's card
        card: PathBuf,
    },
    /// Write a card from a text of records, or from an alignment
    ///
    /// The text has lines `strand 1`, `cds START END` (`-` for a bound that is not given; no such line: no CDS) and, in
    /// genomic order, `exon ALT_START ALT_END TX_START TX_END ORD CIGAR` (`.` for an empty CIGAR). Starts are zero-based,
    /// the CIGAR is in transcript direction. Empty lines and lines that begin with # are skipped.
    ///
    /// Of a file of alignments, the primary one that is named is taken, or the only one: its stretches between N are the
    /// exons. An alignment that is unmapped, clipped or secondary, a name that is not there or stands twice, and a file that
    /// is cut off are said, and there is no card.
    Card(Card),
}

#[derive(Args)]
struct Card {
    /// The text; standard input if left out
    #[arg(conflicts_with = "bam")]
    records: Option<PathBuf>,
    /// A file of alignments in place of the text: BAM, SAM or CRAM
    #[arg(long, value_name = "FILE")]
    bam: Option<PathBuf>,
    /// The read whose alignment is taken; the only one if left out
    #[arg(long, requires = "bam", allow_hyphen_values = true)]
    name: Option<OsString>,
    /// Where the CDS begins and ends on the transcript, as in a text of records
    #[arg(long, requires = "bam", num_args = 2, value_names = ["START", "END"], allow_hyphen_values = true)]
    cds: Option<Vec<Bound>>,
    /// Write a card for each primary alignment into a folder, under the read's name
    ///
    /// A read that has no card is reported, the run goes on, and the exit status is then 1.
    #[arg(long, value_name = "FOLDER", requires = "bam", conflicts_with_all = ["name", "cds", "output"])]
    all: Option<PathBuf>,
    /// Where the card goes; standard output if left out
    #[arg(short, long)]
    output: Option<PathBuf>,
}

/// Whether all of the input was read.
type Outcome = Result<bool, Box<dyn Error>>;

/// An error with the file that it is about.
fn about(path: &Path) -> impl Fn(io::Error) -> String + '_ {
    move |error| format!("{}: {error}", path.display())
}

fn transcript(card: &Path) -> Result<Transcript, Box<dyn Error>> {
    let bytes = fs::read(card).map_err(about(card))?;
    Ok(Transcript::from_card(&bytes).map_err(|refusal| format!("{}: {refusal}", card.display()))?)
}

/// The bytes of a file, or of standard input.
fn input(path: Option<&Path>) -> Result<Vec<u8>, Box<dyn Error>> {
    let Some(path) = path else {
        let mut bytes = Vec::new();
        io::stdin().read_to_end(&mut bytes)?;
        return Ok(bytes);
    };
    Ok(fs::read(path).map_err(about(path))?)
}

fn write_card(options: Card) -> Outcome {
    let Card { records, bam, name, cds, all, output } = options;
    let (out, complaints) = (io::stdout().lock(), io::stderr().lock());
    let cds = match cds.as_deref() {
        Some(&[Bound(start), Bound(end)]) => [start, end],
        _ => [None; 2],
    };
    match (bam, all) {
        (Some(bam), Some(folder)) => bam::run_all(&bam, &folder, out, complaints),
        (Some(bam), None) => bam::run(&bam, name.as_deref(), cds, output.as_deref(), out),
        (None, _) => card::run(&input(records.as_deref())?, output.as_deref(), out, complaints),
    }
}

fn run(command: Command) -> Outcome {
    match command {
        Command::Map { card, lenient, log } => {
            let bounds = if lenient { Bounds::Lenient } else { Bounds::Strict };
            let transcript = transcript(&card)?;
            let mut log = log.as_deref().map(logs::Recording::open).transpose()?;
            let (input, output) = (io::stdin().lock(), io::stdout().lock());
            map::run(&transcript, bounds, log.as_mut(), input, output, io::stderr().lock())
        }
        Command::Replay { card, log, indices } => {
            replay::run(&transcript(&card)?, &log, indices, io::stdout().lock(), io::stderr().lock())
        }
        Command::List { card } => list::run(&transcript(&card)?, io::stdout().lock()),
        Command::Card(options) => write_card(options),
    }
}

fn is_broken_pipe(error: &(dyn Error + 'static)) -> bool {
    error.downcast_ref::<io::Error>().is_some_and(|error| error.kind() == io::ErrorKind::BrokenPipe)
}

fn main() -> ExitCode {
    match run(Options::parse().command) {
        Ok(true) => ExitCode::SUCCESS,
        Ok(false) => ExitCode::FAILURE,
        // Whoever read the output has had enough of it.
        Err(error) if is_broken_pipe(error.as_ref()) => ExitCode::SUCCESS,
        Err(error) => {
            eprintln!("pulindraxi: {error}");
            ExitCode::FAILURE
        }
    }
}
