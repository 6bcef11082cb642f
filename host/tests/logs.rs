//! Logs of transcripts A and B of document 01, worked by hand from documents 01 and 02.

use pulindraxi::{
    boundary::{self, Reading},
    limits::{ENTRY, LOG_HEAD, MOST_ENTRIES, MOST_LOG, MOST_REPLAYED},
    log, Bounds, Exon, Input, Log, Question, Refusal, Room, Transcript,
};

const A: [([i32; 2], &[u8]); 2] = [([10, 20], b"10M"), ([25, 33], b"8M")];

/// A transcript of records by their genome bounds and CIGARs, whose transcript bounds are those of M alone.
fn transcript(strand: i32, cds: [i32; 2], records: &[([i32; 2], &[u8])]) -> Transcript {
    let long = |[start, end]: [i32; 2]| end - start;
    let mut tx = if strand == 1 { 0 } else { records.iter().map(|record| long(record.0)).sum() };
    let exon = |(index, &(alt, cigar)): (usize, &([i32; 2], _))| {
        let tx_start_i = if strand == 1 { tx } else { tx - long(alt) };
        tx += strand * long(alt);
        let tx_end_i = tx_start_i + long(alt);
        Exon { alt_start_i: alt[0], alt_end_i: alt[1], tx_start_i, tx_end_i, ord: strand * index as i32, cigar }
    };
    let exons: Vec<_> = records.iter().enumerate().map(exon).collect();
    Transcript::build(&Input { strand, cds_start: Some(cds[0]), cds_end: Some(cds[1]), exons: &exons }).unwrap()
}

fn a() -> Transcript {
    transcript(1, [3, 15], &A)
}

/// A question by its words, as it is written.
fn question(words: &str) -> Question {
    let (words, bounds) = match words.strip_suffix(", lenient") {
        Some(words) => (words, Bounds::Lenient),
        None => (words, Bounds::Strict),
    };
    let (name, to) = words.split_once(" to ").unwrap();
    match (&name[..2], to) {
        ("g.", "n.") => Question::GToN(name.parse().unwrap(), bounds),
        ("g.", "c.") => Question::GToC(name.parse().unwrap(), bounds),
        ("n.", "g.") => Question::NToG(name.parse().unwrap(), bounds),
        ("n.", "c.") => Question::NToC(name.parse().unwrap(), bounds),
        ("c.", "n.") => Question::CToN(name.parse().unwrap(), bounds),
        ("c.", "g.") => Question::CToG(name.parse().unwrap(), bounds),
        _ => panic!("{words}"),
    }
}

/// An answer's name with its exons, or the refusal's number.
fn said(room: &Room, words: &str) -> String {
    match room.ask(question(words)) {
        Ok(answer) => match answer.exons() {
            Some([start, end]) => format!("{answer} {start} {end}"),
            None => answer.to_string(),
        },
        Err(refusal) => refusal.number().to_string(),
    }
}

/// What A answers, what it answers with the CDS from 4 to 15, what B answers, and what A answers with an empty record before its first.
const ROWS: [(&str, [&str; 4]); 13] = [
    ("g.11 to n.", ["n.1 1 1", "n.1 1 1", "n.18 2 2", "n.1 2 2"]),
    ("g.24 to c.", ["c.8-2 2 2", "c.7-2 2 2", "c.5+2 1 1", "c.8-2 3 3"]),
    ("g.11_33 to c.", ["c.-3_*3 1 2", "c.-4_*3 1 2", "c.-3_*3 1 2", "c.-3_*3 2 3"]),
    ("n.10+3 to g.", ["g.23 1 1", "g.23 1 1", "g.16 2 2", "g.23 2 2"]),
    ("n.4 to c.", ["c.1", "c.-1", "c.1", "c.1"]),
    ("c.*3 to n.", ["n.18"; 4]),
    ("c.7+4 to g.", ["g.24 1 1", "g.30 2 2", "g.15 2 2", "g.24 2 2"]),
    ("g.34 to n.", ["14"; 4]),
    ("g.10 to n., lenient", ["n.-1 1 1", "n.-1 1 1", "n.19 2 2", "n.1-1 2 2"]),
    ("c.13 to n.", ["n.16", "n.17", "n.16", "n.16"]),
    ("n.19 to c.", ["15"; 4]),
    ("g.?_12 to c.", ["19"; 4]),
    ("c.16 to g.", ["16"; 4]),
];

/// The log of the rows, as A answers them.
fn recorded() -> Log {
    let (a, mut log) = (a(), Log::new());
    for (index, (words, _)) in ROWS.into_iter().enumerate() {
        let entry = log.record(&a, question(words)).unwrap();
        assert_eq!((entry.question, entry.answer), (question(words), a.ask(question(words))));
        assert_eq!(log.len(), index + 1);
    }
    log
}

#[test]
fn a_log_lists_what_differs() {
    let hollow = [([5, 5], &b""[..]), A[0], A[1]];
    let transcripts = [a(), transcript(1, [4, 15], &A), transcript(-1, [3, 15], &A), transcript(1, [3, 15], &hollow)];
    let differing = [&[][..], &[1, 2, 4, 6, 9], &[0, 1, 3, 6, 8], &[0, 1, 2, 3, 6, 8]];
    let log = recorded();
    for (index, (transcript, differing)) in transcripts.iter().zip(differing).enumerate() {
        for (words, answers) in ROWS {
            assert_eq!(said(transcript, words), answers[index], "{words}");
        }
        assert_eq!(log.replay(transcript).unwrap(), differing, "transcript {index}");
    }
}

#[test]
fn an_exon_number_alone_is_a_difference() {
    // A record of four bases upstream, and the CDS as much further on: c. names stay, and exons move up by one.
    let longer = transcript(1, [7, 19], &[([2, 6], b"4M"), A[0], A[1]]);
    let (a, mut log) = (a(), Log::new());
    let words = ["g.24 to c.", "g.11_33 to c.", "c.7+4 to g.", "n.4 to c.", "g.34 to c.", "c.*3_*1 to g."];
    for words in words {
        log.record(&a, question(words)).unwrap();
    }
    assert_eq!(log.replay(&longer).unwrap(), [0, 1, 2, 3, 5]);
    for (index, entry) in log.entries().enumerate().filter(|(index, _)| [0, 1, 2, 5].contains(index)) {
        let (old, new) = (entry.answer.unwrap(), longer.ask(entry.question).unwrap());
        assert_eq!(old.to_string(), new.to_string(), "{index}");
        assert_eq!(old.exons().map(|exons| exons.map(|exon| exon + 1)), new.exons(), "{index}");
    }
}

#[test]
fn strictness_is_part_of_the_question() {
    let (a, mut log) = (a(), Log::new());
    for words in ["g.10 to n.", "g.10 to n., lenient"] {
        log.record(&a, question(words)).unwrap();
    }
    let answers: Vec<_> = log.entries().map(|entry| entry.answer.map(|answer| answer.to_string())).collect();
    assert_eq!(answers, [Err(Refusal::Outside), Ok("n.-1".to_string())]);
    assert_eq!(log.replay(&a).unwrap(), []);
    // The bytes differ in the strictness and in what was answered.
    assert_eq!((log.bytes()[LOG_HEAD + 1], log.bytes()[LOG_HEAD + ENTRY + 1]), (1, 0));
}

/// g.24 to c., strict, as A answers it: c.8-2 in exon 2.
#[test]
fn the_bytes_of_a_log() {
    let mut log = Log::new();
    log.record(&a(), question("g.24 to c.")).unwrap();
    #[rustfmt::skip]
    let expected = [
        b'Q', b'L', b'G', 1, 0,
        4, 1, 0, 0,
        24, 0, 0, 0, 0, 0, 0, 0, 24, 0, 0, 0, 0, 0, 0, 0,
        1, 0, 0, 0,
        8, 0, 0, 0, 254, 255, 255, 255, 8, 0, 0, 0, 254, 255, 255, 255,
        2, 0, 2, 0,
    ];
    assert_eq!(log.bytes(), expected);
    log.record(&a(), question("g.?_12 to n., lenient")).unwrap();
    #[rustfmt::skip]
    let refused = [
        0, 0, 2, 0,
        0, 0, 0, 0, 0, 0, 0, 0, 12, 0, 0, 0, 0, 0, 0, 0,
        0, 19, 0, 0,
        0, 0, 0, 0, 0, 0, 0, 0, 0, 0, 0, 0, 0, 0, 0, 0,
        0, 0, 0, 0,
    ];
    assert_eq!(log.bytes()[LOG_HEAD + ENTRY..], refused);
}

#[test]
fn a_log_reads_back() {
    let log = recorded();
    assert_eq!(Log::read(log.bytes()), Ok(log.clone()));
    let questions: Vec<_> = log.entries().map(|entry| entry.question.to_string()).collect();
    assert_eq!(questions, ROWS.map(|(words, _)| words));
    assert!(log::entries(log.bytes()).unwrap().eq(log.entries()));
    assert_eq!(Log::read(Log::new().bytes()), Ok(Log::new()));
    assert!(Log::new().is_empty() && Log::new().replay(&a()) == Ok(Vec::new()));
}

#[test]
fn what_is_no_log_is_refused() {
    let log = recorded();
    let refused = |bytes: &[u8]| Log::read(bytes).err().map(Refusal::number);
    let with = |at: usize, byte: u8| {
        let mut bytes = log.bytes().to_vec();
        bytes[at] = byte;
        refused(&bytes)
    };
    assert_eq!(refused(b""), Some(35));
    assert_eq!(refused(b"QLG"), Some(35));
    assert_eq!(refused(&[log.bytes(), &[0]].concat()), Some(35));
    assert_eq!(refused(&log.bytes()[..log.bytes().len() - 1]), Some(35));
    for (at, byte) in [(0, b'q'), (3, 0), (3, 2), (4, 1), (LOG_HEAD, 6), (LOG_HEAD + 1, 2), (LOG_HEAD + 20, 3)] {
        assert_eq!(with(at, byte), Some(35), "{at}");
    }
    // An answer that no mapping gives is taken: n.2 in exon 7.
    assert_eq!([with(LOG_HEAD + 24, 2), with(LOG_HEAD + 40, 7)], [None, None]);
    assert_eq!(refused(&vec![0; MOST_LOG]), Some(35));
    assert_eq!(refused(&vec![0; MOST_LOG + 1]), Some(3));
}

#[test]
fn a_full_log_takes_no_more() {
    let (a, mut log) = (a(), Log::new());
    for _ in 0..MOST_ENTRIES {
        log.record(&a, question("n.4 to c.")).unwrap();
    }
    let full = log.clone();
    assert_eq!(log.record(&a, question("n.4 to c.")), Err(Refusal::TooMuch));
    assert_eq!((log.bytes().len(), log == full), (65_521, true));
    // All of them differ, and the text is the longest.
    let moved = transcript(1, [4, 15], &A);
    assert_eq!(log.replay(&moved).unwrap(), (0..1_489).collect::<Vec<_>>());
    let mut text = vec![b'.'; MOST_REPLAYED + 1];
    assert_eq!(moved.replay_into(log.bytes(), &mut text), Ok(6_340));
    assert!(text.starts_with(b"0\n1\n") && text.ends_with(b"\n1488\n1489\n."));
    let mut short = vec![b'.'; MOST_REPLAYED - 1];
    assert_eq!(moved.replay_into(log.bytes(), &mut short), Err(Refusal::NoRoom));
    assert!(short.iter().all(|&byte| byte == b'.'));
}

#[test]
fn recording_refuses_in_its_order_and_leaves_all_else() {
    let (a, asked) = (a(), question("n.4 to c."));
    let log = recorded();
    let number = |lent: &mut [u8], used| {
        let before = lent.to_vec();
        let number = a.record_into(asked, lent, used).err().map_or(0, Refusal::number);
        assert!(number == 0 || lent == before);
        number
    };
    let used = log.bytes().len();
    let mut lent = [log.bytes(), &[b'.'; ENTRY + 1]].concat();
    assert_eq!(number(&mut lent, used), 0);
    assert_eq!((&lent[..used], lent[used + ENTRY]), (log.bytes(), b'.'));
    assert_eq!(number(&mut lent[..used + ENTRY - 1], used), 20);
    assert_eq!(number(&mut lent[..used - 1], used), 35);
    assert_eq!(number(&mut lent, used + 1), 35);
    assert_eq!(number(&mut [b'.'; LOG_HEAD + ENTRY], 0), 0);
    assert_eq!(number(&mut [b'.'; LOG_HEAD + ENTRY - 1], 0), 20);
    assert_eq!(number(&mut [0; 200], LOG_HEAD), 35);
    assert_eq!(number(&mut [&b"QLG\x02\x00"[..], &[0; 200]].concat(), LOG_HEAD), 35);
    // What stands in entries is not looked at; 3 comes before 20.
    assert_eq!(number(&mut [&b"QLG\x01\x00"[..], &[255; 200]].concat(), LOG_HEAD + ENTRY), 0);
    let mut full = [&b"QLG\x01\x00"[..], &[255; ENTRY * MOST_ENTRIES]].concat();
    assert_eq!(number(&mut full, LOG_HEAD + ENTRY * MOST_ENTRIES), 3);
}

#[test]
fn a_transcript_that_does_not_hold_together() {
    let (broken, mut log) = (Room::new(), Log::new());
    // 23 is recorded as any refusal is.
    let entry = log.record(&broken, question("g.24 to c.")).unwrap();
    assert_eq!(entry.answer, Err(Refusal::NotTogether));
    assert_eq!(log.replay(&broken), Err(Refusal::NotTogether));
    assert_eq!(log.replay(&a()).unwrap(), [0]);
    // 23 comes before what is wrong with a log.
    assert_eq!(broken.replay_into(b"no log", &mut []), Err(Refusal::NotTogether));
}

/// The numbers of questions that no entry can hold are refused before anything else; the others are questions.
#[test]
fn questions_that_no_entry_can_hold() {
    let Room { head, genome, transcript, letters, exons } = Room::new();
    let (head, genome, transcript, letters, exons) = (&head, &genome, &transcript, &letters, &exons);
    let of = Reading { head, genome, transcript, letters, exons };
    let plain = boundary::Question { kind: 0, strict: 1, start: 24, end: 24, ..Default::default() };
    type Change = fn(&mut boundary::Question);
    let changes: [(Change, bool); 12] = [
        (|_| (), true),
        (|q| q.kind = 5, true),
        (|q| (q.kind, q.start_marks) = (5, 1), true),
        (|q| (q.end_marks, q.end) = (2, 0), true),
        (|q| q.kind = 6, false),
        (|q| q.kind = 256, false),
        (|q| q.strict = 2, false),
        (|q| q.start_marks = 1, false),
        (|q| q.end_marks = 2, false),
        (|q| q.start_offset = 1, false),
        (|q| (q.kind, q.start_marks, q.start) = (5, 2, 0), false),
        (|q| (q.kind, q.end_marks) = (3, 3), false),
    ];
    for (change, is_held) in changes {
        let mut numbers = plain;
        change(&mut numbers);
        assert_eq!(boundary::ask(of, numbers).number, if is_held { 23 } else { 35 }, "{numbers:?}");
        assert_eq!(Question::try_from(numbers).is_ok(), is_held, "{numbers:?}");
    }
}
