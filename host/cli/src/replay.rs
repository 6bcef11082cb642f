//! `replay`: what a transcript answers otherwise than a log has it.

use std::{io::Write, path::Path};

use pulindraxi::{log::Entry, Answer, Refusal, Transcript};

use crate::{logs, Outcome};

/// An answer with its exons, or the refusal's number and words.
fn said(answer: Result<Answer, Refusal>) -> String {
    let answer = match answer {
        Ok(answer) => answer,
        Err(refusal) => return refusal.to_string(),
    };
    match answer.exons() {
        None => answer.to_string(),
        Some([start, end]) if start == end => format!("{answer}, exon {start}"),
        Some([start, end]) => format!("{answer}, exons {start}_{end}"),
    }
}

/// An entry that differs: the question, the answer in the log and the one of today.
fn beside(transcript: &Transcript, entry: Entry) -> String {
    let question = entry.question.to_string();
    let (old, new) = (said(entry.answer), said(transcript.ask(entry.question)));
    format!("{question:<23} {old:<23} now {new}")
}

/// Replays a log, which may go on in further files, and writes each entry whose answer differs, or its index alone, then their number.
pub fn run(
    transcript: &Transcript,
    log: &Path,
    indices: bool,
    mut output: impl Write,
    mut complaints: impl Write,
) -> Outcome {
    let logs = logs::read_all(log)?;
    if let [(first, _), .., (last, _)] = &logs[..] {
        let (first, last, count) = (first.display(), last.display(), logs.len());
        writeln!(
            complaints,
            "{first} to {last}: {count} files, replayed in this order; indices run on from one to the next"
        )?;
    }
    let (mut before, mut total) = (0, 0);
    for (_, log) in &logs {
        let differing = log.replay(transcript)?;
        let mut entries = log.entries().enumerate();
        for &index in &differing {
            match entries.find(|(own, _)| *own == index) {
                Some((_, entry)) if !indices => {
                    writeln!(output, "{:<7} {}", before + index, beside(transcript, entry))?;
                }
                _ => writeln!(output, "{}", before + index)?,
            }
        }
        before += log.len();
        total += differing.len();
    }
    match indices {
        true => writeln!(output, "{total}")?,
        false => writeln!(output, "answers that differ: {total} of {before}")?,
    }
    output.flush()?;
    Ok(true)
}
