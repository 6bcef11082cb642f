//! Logs as files: what `map` answers is recorded in a file and, where that is full, in further ones beside it, `day.log`, `day.log.2`,
//! `day.log.3`; `replay` reads them in this order.

use std::{
    error::Error,
    ffi::OsString,
    fs::{self, File, OpenOptions},
    io::{Read, Write},
    path::{Path, PathBuf},
};

use pulindraxi::{
    limits::{ENTRY, LOG_HEAD, MOST_ENTRIES, MOST_LOG},
    Log, Question, Refusal, Transcript,
};

use crate::about;

/// The file of a number among those of a log, counted from 1: the first has the name itself.
fn numbered(first: &Path, number: usize) -> PathBuf {
    if number == 1 {
        return first.to_path_buf();
    }
    let mut name = OsString::from(first);
    name.push(format!(".{number}"));
    name.into()
}

/// What is wrong with bytes that are no log, as far as it can be said beyond the refusal.
fn fault(bytes: &[u8]) -> String {
    let mark = b"QLG";
    if bytes.is_empty() {
        return "the file is empty".into();
    }
    if bytes.len() < LOG_HEAD || !bytes.starts_with(mark) {
        return "it does not begin as a log does".into();
    }
    let (head, entries) = bytes.split_at(LOG_HEAD);
    let version = u16::from_le_bytes([head[mark.len()], head[mark.len() + 1]]);
    if version != 1 {
        return format!("its version is {version}, and version 1 is read");
    }
    let behind = entries.len() % ENTRY;
    if behind != 0 {
        return format!("bytes behind its last whole entry: {behind}");
    }
    let is_wrong = |entry: &[u8]| Log::read(&[head, entry].concat()).is_err();
    match entries.chunks(ENTRY).position(is_wrong) {
        Some(index) => format!("entry {index} has a wrong field"),
        None => "no entry has a wrong field".into(),
    }
}

/// The log that stands in a file.
fn read(path: &Path) -> Result<Log, Box<dyn Error>> {
    let is_file = fs::metadata(path).map_err(about(path))?.is_file();
    if !is_file {
        return Err(format!("{}: a log is a regular file", path.display()).into());
    }
    let mut bytes = Vec::new();
    // A byte more than a log has is enough to see that there are too many.
    let front = File::open(path).map_err(about(path))?.take(MOST_LOG as u64 + 1).read_to_end(&mut bytes);
    front.map_err(about(path))?;
    Log::read(&bytes).map_err(|refusal| match refusal {
        Refusal::NoLog => format!("{}: {refusal}; {}", path.display(), fault(&bytes)).into(),
        _ => format!("{}: {refusal}", path.display()).into(),
    })
}

/// Whether something stands at a path, a link that leads nowhere too.
fn is_there(path: &Path) -> bool {
    path.symlink_metadata().is_ok()
}

/// The files of a log that are there, in their order.
fn files(first: &Path) -> impl Iterator<Item = PathBuf> + '_ {
    (1..).map(|number| numbered(first, number)).take_while(|path| is_there(path))
}

/// Every log of a file and those beside it, each with its path. All are judged before any is used.
pub fn read_all(first: &Path) -> Result<Vec<(PathBuf, Log)>, Box<dyn Error>> {
    let mut logs = vec![(first.to_path_buf(), read(first)?)];
    for path in files(first).skip(1) {
        let log = read(&path)?;
        logs.push((path, log));
    }
    Ok(logs)
}

/// A log that is recorded into a file, and into further ones as each becomes full.
pub struct Recording {
    first: PathBuf,
    /// The number of the file that is written, counted from 1.
    number: usize,
    file: File,
    log: Log,
    /// How many bytes of the log stand in the file.
    written: usize,
    /// How many entries this run has recorded.
    entries: u64,
}

impl Recording {
    /// Goes on behind the last entry that is there, or begins a log where there is no file, or an empty one. Nothing that is there
    /// is touched unless all of it is a log.
    pub fn open(first: &Path) -> Result<Recording, Box<dyn Error>> {
        let is_empty = fs::metadata(first).is_ok_and(|file| file.is_file() && file.len() == 0);
        let second = numbered(first, 2);
        if (is_empty || !is_there(first)) && is_there(&second) {
            let (first, second) = (first.display(), second.display());
            return Err(format!("{second} is there, but no log {first} that it goes on from").into());
        }
        if !is_there(first) {
            return Recording::begun(first, 1);
        }
        let (number, log) = match is_empty {
            true => (1, Log::new()),
            false => {
                let logs = read_all(first)?;
                (logs.len(), logs.into_iter().next_back().map_or_else(Log::new, |(_, log)| log))
            }
        };
        let path = numbered(first, number);
        let file = OpenOptions::new().append(true).open(&path).map_err(about(&path))?;
        let written = if is_empty { 0 } else { log.bytes().len() };
        let mut recording = Recording { first: first.to_path_buf(), number, file, log, written, entries: 0 };
        recording.write()?;
        Ok(recording)
    }

    /// A log without entries in a file of a number, which was not there.
    fn begun(first: &Path, number: usize) -> Result<Recording, Box<dyn Error>> {
        let path = numbered(first, number);
        let file = OpenOptions::new().append(true).create_new(true).open(&path).map_err(about(&path))?;
        let (first, log) = (first.to_path_buf(), Log::new());
        let mut recording = Recording { first, number, file, log, written: 0, entries: 0 };
        if let Err(error) = recording.write() {
            // What went wrong is said already.
            let _ = fs::remove_file(path);
            return Err(error);
        }
        Ok(recording)
    }

    /// Asks a question and keeps it with its answer, in a further file where this one is full. [`Recording::write`] writes what is kept.
    pub fn record(&mut self, transcript: &Transcript, question: Question) -> Result<(), Box<dyn Error>> {
        if self.log.len() == MOST_ENTRIES {
            self.write()?;
            let entries = self.entries;
            *self = Recording { entries, ..Recording::begun(&self.first, self.number + 1)? };
        }
        self.log.record(transcript, question)?;
        self.entries += 1;
        Ok(())
    }

    /// Writes what is not in the file yet. Where that fails, the file ends as it did before, with a whole entry.
    pub fn write(&mut self) -> Result<(), Box<dyn Error>> {
        let path = numbered(&self.first, self.number);
        let length = self.file.metadata().map_err(about(&path))?.len();
        if length != self.written as u64 {
            return Err(format!("{}: something else has written to the log", path.display()).into());
        }
        if let Err(error) = self.file.write_all(&self.log.bytes()[self.written..]) {
            // A shorter file takes no room; what went wrong is said in any case.
            let _ = self.file.set_len(length);
            return Err(about(&path)(error).into());
        }
        self.written = self.log.bytes().len();
        Ok(())
    }

    /// How many entries were recorded, where more than one file has the log.
    pub fn summary(&self) -> Option<String> {
        let (first, last) = (self.first.display(), numbered(&self.first, self.number));
        (self.number > 1).then(|| {
            format!(
                "entries recorded: {}; a file holds {MOST_ENTRIES}, so the log goes on from {first} to {}",
                self.entries,
                last.display()
            )
        })
    }
}

#[cfg(test)]
mod tests {
    use super::*;
    use pulindraxi::{
        asked::{NInterval, NPosition},
        Bounds,
    };
    use std::{env, process};

    #[test]
    fn a_log_that_something_else_writes_to_is_left_alone() {
        let log = env::temp_dir().join(format!("pulindraxi-{}-shared.log", process::id()));
        let transcript = Transcript::of_length(18, Some(3), Some(15)).unwrap();
        let question = Question::NToC(NInterval::at(NPosition::new(4, 0)), Bounds::Strict);
        let [mut one, mut other] = [(); 2].map(|()| Recording::open(&log).unwrap());
        for recording in [&mut one, &mut other] {
            recording.record(&transcript, question).unwrap();
        }
        one.write().unwrap();
        let whole = fs::read(&log).unwrap();
        let error = other.write().unwrap_err().to_string();
        assert!(error.ends_with("something else has written to the log"), "{error}");
        assert_eq!(fs::read(&log).unwrap(), whole);
        one.record(&transcript, question).unwrap();
        one.write().unwrap();
        assert_eq!(read_all(&log).unwrap()[0].1.len(), 2);
        fs::remove_file(log).unwrap();
    }
}
