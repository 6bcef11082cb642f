//! A day's log: recorded by `map`, played back by `replay`, through the program itself.

mod program;

use std::{
    fs,
    path::{Path, PathBuf},
    process::Output,
};

/// The records of A.
const A: &str = "strand 1\ncds 3 15\nexon 10 20 0 10 0 10M\nexon 25 33 10 18 1 8M\n";

/// An empty folder, with what the tests put there.
struct Folder(PathBuf);

impl Folder {
    fn new(name: &str) -> Folder {
        let folder = Path::new(env!("CARGO_TARGET_TMPDIR")).join("logs").join(name);
        // An earlier run may have left it.
        let _ = fs::remove_dir_all(&folder);
        fs::create_dir_all(&folder).unwrap();
        Folder(folder)
    }

    fn path(&self, name: &str) -> String {
        self.0.join(name).to_str().unwrap().to_string()
    }

    fn read(&self, name: &str) -> Vec<u8> {
        fs::read(self.0.join(name)).unwrap()
    }

    /// The names and bytes of all files.
    fn all(&self) -> Vec<(String, Vec<u8>)> {
        let files = fs::read_dir(&self.0).unwrap().map(|file| file.unwrap());
        let mut all: Vec<_> = files
            .filter(|file| file.file_type().unwrap().is_file())
            .map(|file| (file.file_name().into_string().unwrap(), fs::read(file.path()).unwrap()))
            .collect();
        all.sort();
        all
    }

    /// Writes the card of a text of records.
    fn card(&self, text: &str, name: &str) -> String {
        let card = self.path(name);
        let written = program::run(program::PULINDRAXI, &["card", "-o", &card], text.as_bytes());
        assert!(written.status.success(), "{}", String::from_utf8_lossy(&written.stderr));
        card
    }

    /// Maps lines by a card, and records them in a log.
    fn map(&self, card: &str, log: &str, lines: &str) -> Said {
        said(program::run(program::PULINDRAXI, &["map", card, "--log", &self.path(log)], lines.as_bytes()))
    }

    fn replay(&self, card: &str, log: &str) -> Said {
        said(program::run(program::PULINDRAXI, &["replay", card, &self.path(log)], b""))
    }

    fn indices(&self, card: &str, log: &str) -> Said {
        said(program::run(program::PULINDRAXI, &["replay", "--indices", card, &self.path(log)], b""))
    }
}

/// What a run wrote, and its exit status.
#[derive(Debug)]
struct Said {
    status: Option<i32>,
    output: String,
    complaints: String,
}

fn said(run: Output) -> Said {
    let [output, complaints] = [run.stdout, run.stderr].map(|text| String::from_utf8(text).unwrap());
    Said { status: run.status.code(), output, complaints }
}

impl Said {
    /// What it wrote, all going well and nothing to complain about.
    fn well(self) -> String {
        assert_eq!((self.status, &self.complaints[..]), (Some(0), ""));
        self.output
    }

    /// What it complained about, nothing else being written.
    fn refused(self) -> String {
        assert_eq!((self.status, &self.output[..]), (Some(1), ""));
        self.complaints
    }
}

const LINES: &str = "g 24\nn 4\nc 7+4\ng 34\n# a remark\ng.11_33\n";

#[test]
fn what_is_printed_stays_the_same() {
    let folder = Folder::new("same");
    let card = folder.card(A, "a.card");
    let lines = format!("{LINES}nonsense\ng.23A>G\ng.23A>U\ng ?_12\n");
    let plain = said(program::run(program::PULINDRAXI, &["map", &card], lines.as_bytes()));
    let recorded = folder.map(&card, "day.log", &lines);
    assert_eq!((recorded.status, recorded.output), (Some(1), plain.output.clone()));
    assert_eq!(recorded.complaints, plain.complaints);
    // Two entries for each line that is answered.
    assert_eq!(folder.read("day.log").len(), 5 + 44 * 2 * plain.output.lines().count());
    assert_eq!(folder.replay(&card, "day.log").well(), "answers that differ: 0 of 16\n");
    assert_eq!(folder.indices(&card, "day.log").well(), "0\n");
}

#[test]
fn a_day_is_played_back_on_other_cards() {
    let folder = Folder::new("cards");
    let card = folder.card(A, "a.card");
    folder.map(&card, "day.log", LINES).well();
    let moved = folder.card(&A.replace("cds 3 15", "cds 4 15"), "moved.card");
    let expected = [
        "1       g.24 to c.              c.8-2, exon 2           now c.7-2, exon 2",
        "3       n.4 to c.               c.1                     now c.-1",
        "4       c.7+4 to g.             g.24, exon 1            now g.30, exon 2",
        "5       c.7+4 to n.             n.10+4                  now n.11+4",
        "9       g.11_33 to c.           c.-3_*3, exons 1_2      now c.-4_*3, exons 1_2",
        "answers that differ: 5 of 10",
    ];
    assert_eq!(folder.replay(&moved, "day.log").well().lines().collect::<Vec<_>>(), expected);
    assert_eq!(folder.indices(&moved, "day.log").well(), "1\n3\n4\n5\n9\n5\n");
    // An exon more at the end: the refusal becomes an answer.
    let longer = folder.card(&format!("{A}exon 33 34 18 19 2 M\n"), "longer.card");
    let expected = [
        "6       g.34 to n.              refused 14: strict: place outside the from-table now n.19, exon 3",
        "7       g.34 to c.              refused 14: strict: place outside the from-table now c.*4, exon 3",
        "answers that differ: 2 of 10",
    ];
    assert_eq!(folder.replay(&longer, "day.log").well().lines().collect::<Vec<_>>(), expected);
    // A record without bases before the first: only exon numbers change.
    let hollow = A.replace("exon 10 20", "exon 5 5 0 0 -1 .\nexon 10 20");
    let hollow = folder.card(&hollow, "hollow.card");
    let expected = [
        "0       g.24 to n.              n.11-2, exon 2          now n.11-2, exon 3",
        "1       g.24 to c.              c.8-2, exon 2           now c.8-2, exon 3",
        "2       n.4 to g.               g.14, exon 1            now g.14, exon 2",
        "4       c.7+4 to g.             g.24, exon 1            now g.24, exon 2",
        "8       g.11_33 to n.           n.1_18, exons 1_2       now n.1_18, exons 2_3",
        "9       g.11_33 to c.           c.-3_*3, exons 1_2      now c.-3_*3, exons 2_3",
        "answers that differ: 6 of 10",
    ];
    assert_eq!(folder.replay(&hollow, "day.log").well().lines().collect::<Vec<_>>(), expected);
    // The log is read alone.
    assert_eq!(folder.read("day.log").len(), 5 + 44 * 10);
}

#[test]
fn lenient_questions_are_played_back_leniently() {
    let folder = Folder::new("lenient");
    let card = folder.card(A, "a.card");
    let log = folder.path("day.log");
    let mapped = said(program::run(program::PULINDRAXI, &["map", &card, "--lenient", "--log", &log], b"g 10\n"));
    assert!(mapped.well().ends_with("n.-1            c.-4\n"));
    assert_eq!(folder.replay(&card, "day.log").well(), "answers that differ: 0 of 2\n");
    let moved = folder.card(&A.replace("cds 3 15", "cds 2 15"), "moved.card");
    let expected =
        "1       g.10 to c., lenient     c.-4, exon 1            now c.-3, exon 1\nanswers that differ: 1 of 2\n";
    assert_eq!(folder.replay(&moved, "day.log").well(), expected);
}

#[test]
fn a_log_is_gone_on_with() {
    let folder = Folder::new("on");
    let card = folder.card(A, "a.card");
    folder.map(&card, "day.log", "g 24\n").well();
    let before = folder.read("day.log");
    folder.map(&card, "day.log", "c 1\n").well();
    let after = folder.read("day.log");
    assert!(after.starts_with(&before) && after.len() == before.len() + 88);
    // Nothing to record is a log too, and an empty file becomes one.
    folder.map(&card, "none.log", "").well();
    assert_eq!(folder.read("none.log"), b"QLG\x01\x00");
    assert_eq!(folder.replay(&card, "none.log").well(), "answers that differ: 0 of 0\n");
    fs::write(folder.path("empty.log"), b"").unwrap();
    folder.map(&card, "empty.log", "g 24\n").well();
    assert_eq!(folder.read("empty.log"), before);
}

#[test]
fn what_is_no_log_is_said_and_not_touched() {
    let folder = Folder::new("none");
    let card = folder.card(A, "a.card");
    folder.map(&card, "good.log", LINES).well();
    let good = folder.read("good.log");
    let with = |at: usize, byte: u8| {
        let mut bytes = good.clone();
        bytes[at] = byte;
        bytes
    };
    let refused = "refused 35: a log with a wrong mark, version, length or field, or a question that no entry can hold";
    for (name, bytes, why) in [
        ("text", b"g 24\ng 25\n".to_vec(), format!("{refused}; it does not begin as a log does")),
        ("short", b"QL".to_vec(), format!("{refused}; it does not begin as a log does")),
        ("version", with(3, 2), format!("{refused}; its version is 2, and version 1 is read")),
        ("high", with(4, 1), format!("{refused}; its version is 257, and version 1 is read")),
        ("cut", good[..60].to_vec(), format!("{refused}; bytes behind its last whole entry: 11")),
        ("more", [&good[..], b"\n"].concat(), format!("{refused}; bytes behind its last whole entry: 1")),
        ("field", with(5 + 44 * 3, 9), format!("{refused}; entry 3 has a wrong field")),
        ("large", vec![0; 65_537], "refused 3: ".to_string()),
    ] {
        let file = format!("{name}.log");
        fs::write(folder.path(&file), &bytes).unwrap();
        let before = folder.all();
        for said in [folder.map(&card, &file, LINES), folder.replay(&card, &file), folder.indices(&card, &file)] {
            let complaints = said.refused();
            assert!(complaints.starts_with(&format!("pulindraxi: {}: {why}", folder.path(&file))), "{complaints}");
        }
        assert_eq!(folder.all(), before);
    }
    // An empty file is begun, but there is nothing to play back.
    fs::write(folder.path("empty.log"), b"").unwrap();
    assert!(folder.replay(&card, "empty.log").refused().ends_with("the file is empty\n"));
    fs::create_dir(folder.path("folder.log")).unwrap();
    for said in [folder.map(&card, "folder.log", LINES), folder.replay(&card, "folder.log")] {
        assert!(said.refused().ends_with("folder.log: a log is a regular file\n"));
    }
    assert!(folder.replay(&card, "absent.log").refused().contains("absent.log: "));
    assert!(folder.map(&card, "no folder/day.log", LINES).refused().contains("no folder/day.log: "));
}

#[test]
fn the_card_comes_before_the_log() {
    let folder = Folder::new("order");
    folder.card(A, "a.card");
    fs::write(folder.path("no.card"), b"no card").unwrap();
    fs::write(folder.path("no.log"), b"no log").unwrap();
    let no_card = folder.path("no.card");
    for said in [
        folder.map(&no_card, "no.log", LINES),
        folder.map(&no_card, "new.log", LINES),
        folder.replay(&no_card, "no.log"),
    ] {
        assert!(said.refused().ends_with("refused 21: bytes that are no card\n"));
    }
    assert!(!Path::new(&folder.path("new.log")).exists());
}

/// The lines of so many positions around A.
fn positions(count: usize) -> String {
    (0..count).map(|index| format!("g {}\n", 11 + index % 23)).collect()
}

#[test]
fn a_day_of_30000_positions() {
    let folder = Folder::new("long");
    let card = folder.card(A, "a.card");
    let log = folder.path("day.log");
    let mapped = folder.map(&card, "day.log", &positions(30_000));
    assert_eq!((mapped.status, mapped.output.lines().count()), (Some(0), 30_000));
    let summary = format!("entries recorded: 60000; a file holds 1489, so the log goes on from {log} to {log}.41\n");
    assert_eq!(mapped.complaints, summary);
    for number in 2..=40 {
        assert_eq!(folder.read(&format!("day.log.{number}")).len(), 65_521);
    }
    assert_eq!(folder.read("day.log.41").len(), 5 + 44 * (60_000 - 40 * 1_489));
    let order = format!("{log} to {log}.41: 41 files, replayed in this order; indices run on from one to the next\n");
    let replayed = folder.replay(&card, "day.log");
    assert_eq!((replayed.status, &replayed.output[..]), (Some(0), "answers that differ: 0 of 60000\n"));
    assert_eq!(replayed.complaints, order);
    // With the CDS end moved, of each 23 positions those from g.31 on have another c. name, 3 of them.
    let moved = folder.card(&A.replace("cds 3 15", "cds 3 16"), "moved.card");
    let expected: String =
        (0..30_000).filter(|index| 11 + index % 23 >= 31).map(|index| format!("{}\n", 2 * index + 1)).collect();
    let replayed = folder.indices(&moved, "day.log");
    assert_eq!(replayed.output, format!("{expected}{}\n", expected.lines().count()));
    assert_eq!(replayed.complaints, order);
    // A further run goes on in the last file.
    assert_eq!(folder.map(&card, "day.log", "g 11\n").complaints, summary.replace("60000", "2"));
    assert_eq!(folder.read("day.log.41").len(), 5 + 44 * (60_002 - 40 * 1_489));
    assert_eq!(folder.replay(&card, "day.log").output, "answers that differ: 0 of 60002\n");
}

#[test]
fn files_that_do_not_follow_each_other() {
    let folder = Folder::new("follow");
    let card = folder.card(A, "a.card");
    assert_eq!(folder.map(&card, "day.log", &positions(800)).status, Some(0));
    let (first, second) = (folder.read("day.log"), folder.read("day.log.2"));
    // The second is no log: nothing is recorded or played back.
    fs::write(folder.path("day.log.2"), &second[..second.len() - 1]).unwrap();
    for said in [folder.map(&card, "day.log", LINES), folder.replay(&card, "day.log")] {
        assert!(said.refused().ends_with("; bytes behind its last whole entry: 43\n"));
    }
    assert_eq!(folder.read("day.log"), first);
    // The first is not there, or empty: what the second goes on from is not known.
    fs::write(folder.path("day.log.2"), &second).unwrap();
    fs::remove_file(folder.path("day.log")).unwrap();
    for _ in 0..2 {
        let complaints = folder.map(&card, "day.log", LINES).refused();
        assert!(complaints.contains("day.log.2 is there, but no log "), "{complaints}");
        fs::write(folder.path("day.log"), b"").unwrap();
    }
    // The third is there and the second is not: it is met when the second is full, and stays.
    fs::write(folder.path("day.log"), &first).unwrap();
    fs::rename(folder.path("day.log.2"), folder.path("day.log.3")).unwrap();
    let stopped = folder.map(&card, "day.log", &positions(1_600));
    assert_eq!(stopped.status, Some(1));
    assert!(stopped.complaints.contains("day.log.3: "), "{}", stopped.complaints);
    assert_eq!(folder.read("day.log.3"), second);
    assert_eq!(folder.read("day.log.2").len(), 65_521);
}

/// Where a file can grow no further, the log ends with a whole entry, and what was not recorded is not answered.
#[test]
fn a_full_disk() {
    let folder = Folder::new("full");
    let card = folder.card(A, "a.card");
    folder.map(&card, "day.log", "g 24\n").well();
    let before = folder.read("day.log");
    let limited = |log: &str, lines: &str| {
        let runner = std::env::var("CARGO_TARGET_X86_64_UNKNOWN_LINUX_GNU_RUNNER").unwrap_or_default();
        let script = "trap '' XFSZ; ulimit -f 1; exec \"$@\"";
        let log = folder.path(log);
        let mut arguments = vec!["-c", script, "sh", &runner, program::PULINDRAXI, "map", &card, "--log", &log];
        arguments.retain(|argument| !argument.is_empty());
        said(program::run("sh", &arguments, lines.as_bytes()))
    };
    // 512 bytes, or 1,024: more lines than have room for their entries.
    let complaints = limited("day.log", &positions(40)).refused();
    assert!(complaints.contains("day.log: "), "{complaints}");
    assert_eq!(folder.read("day.log"), before);
    assert_eq!(folder.replay(&card, "day.log").well(), "answers that differ: 0 of 2\n");
    limited("day.log", "g 11\n").well();
    assert_eq!(folder.replay(&card, "day.log").well(), "answers that differ: 0 of 4\n");
}

#[test]
fn the_help_says_how() {
    let help =
        |command| String::from_utf8(program::run(program::PULINDRAXI, &[command, "--help"], b"").stdout).unwrap();
    assert!(help("map").contains("--log <FILE>") && help("map").contains("FILE.2, FILE.3"));
    assert!(help("replay").contains("--indices") && help("replay").contains("LOG.2, LOG.3"));
}
