//! Compares the port with the mapper of crate hgvs 4.0.1, and records the crate's answers.

use std::{error::Error, fs, path::PathBuf, process::ExitCode};

use clap::{Parser, Subcommand};
use compare::{differences, original, random, record, small, Entries, Judge};

/// Compares the port with crate hgvs 4.0.1.
#[derive(Parser)]
struct Options {
    #[command(subcommand)]
    command: Command,
}

#[derive(Subcommand)]
enum Command {
    /// Random transcripts, questions, CIGAR texts and alleles
    Random {
        /// Where the random numbers start
        #[arg(long, default_value_t = 1)]
        seed: u64,
        /// How many calls to compare at least
        #[arg(long, default_value_t = 1_000_000)]
        count: u64,
    },
    /// Every transcript of few elements with counts 0 to 2
    Small {
        /// The most elements
        #[arg(long, default_value_t = 2)]
        elements: usize,
    },
    /// Write a sample of expected answers, in the layout of README.md
    Record {
        /// The file
        file: PathBuf,
    },
    /// Run the listed differences on both sides and print them as rows of a table
    Differences {
        /// Say instead which rows this file lacks, and which of its rows are not run
        #[arg(long)]
        check: Option<PathBuf>,
    },
    /// Call the port as a recorded file says
    Replay {
        /// The file
        file: PathBuf,
    },
}

/// Compares, and says whether nothing differs.
fn compare(work: impl FnOnce(&mut Judge<Entries>)) -> Result<bool, Box<dyn Error>> {
    let mut judge = Judge::new(Entries::default());
    work(&mut judge);
    Ok(judge.report())
}

fn run(command: Command) -> Result<bool, Box<dyn Error>> {
    match command {
        Command::Random { seed, count } => compare(|judge| random::run(judge, seed, count)),
        Command::Small { elements } => compare(|judge| small::run(judge, elements)),
        Command::Record { file } => {
            fs::write(file, record::run()?)?;
            Ok(true)
        }
        Command::Differences { check: None } => {
            println!("{}", differences::run()?.join("\n"));
            Ok(true)
        }
        Command::Differences { check: Some(file) } => {
            let text = fs::read_to_string(file)?;
            let rows = differences::run()?;
            let lacking: Vec<_> = rows.iter().filter(|row| !text.lines().any(|line| line == *row)).collect();
            // The head of a table names the crate.
            let is_row = |line: &&str| line.starts_with("| ") && !line.contains("| crate hgvs");
            let stale: Vec<_> =
                text.lines().filter(is_row).filter(|line| !rows.iter().any(|row| row == line)).collect();
            for row in &lacking {
                println!("not listed: {row}");
            }
            for row in &stale {
                println!("listed, not run: {row}");
            }
            println!("{} differences, {} not listed, {} listed and not run", rows.len(), lacking.len(), stale.len());
            Ok(lacking.is_empty() && stale.is_empty())
        }
        Command::Replay { file } => {
            let rows = trials::recorded::replay(&fs::read(file)?)?;
            println!("{rows} rows, each as recorded");
            Ok(true)
        }
    }
}

fn main() -> ExitCode {
    original::silence_panics();
    match run(Options::parse().command) {
        Ok(true) => ExitCode::SUCCESS,
        Ok(false) => ExitCode::FAILURE,
        Err(error) => {
            eprintln!("compare: {error}");
            ExitCode::FAILURE
        }
    }
}
