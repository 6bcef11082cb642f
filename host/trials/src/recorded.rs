//! Recorded answers: a file of 72-byte blocks that holds calls of the boundary and what to expect of them.
//!
//! `host/compare/README.md` describes the layout, for readers in other languages too.

use pulindraxi::{
    boundary::{self, Answer, Asked, Cds, Counts, Head, Joined, Laid, Length, Letters, Part, Position, Slot, Steps},
    limits::{ENTRY, LOG_HEAD, MOST_REPLAYED, MOST_SEGMENTS},
    Refusal::{self, NotTogether},
};

use crate::{
    logs::{self, Entry},
    paper, Kind, Lent, Place, Question,
};

/// The layout's version.
pub const VERSION: i32 = 2;
/// The size of a block: eight bytes, six numbers, and what to expect.
pub const BLOCK: usize = 8 + 4 * (6 + ANSWER);
/// How many numbers an answer has.
const ANSWER: usize = 10;

/// What a row expects: the refusal's number first.
pub type Words = [i32; ANSWER];

/// The first numbers of an answer, with 0 behind them.
pub fn front<const N: usize>(numbers: [i32; N]) -> Words {
    std::array::from_fn(|index| numbers.get(index).copied().unwrap_or(0))
}

/// What a row calls. The number is the row's first byte.
#[derive(Clone, Copy, Debug, PartialEq, Eq, PartialOrd, Ord)]
#[repr(u8)]
pub enum Call {
    /// The first row: the layout's version, and how many rows follow.
    Head = 0,
    /// `txc_build_card`.
    BuildCard = 1,
    /// `txc_build`.
    Build = 2,
    /// `txc_build_length`.
    BuildLength = 3,
    /// No call: the host changes lent memory.
    Damage = 4,
    /// `txc_g_to_n`.
    GToN = 5,
    /// `txc_g_to_c`.
    GToC = 6,
    /// `txc_n_to_g`.
    NToG = 7,
    /// `txc_n_to_c`.
    NToC = 8,
    /// `txc_c_to_n`.
    CToN = 9,
    /// `txc_c_to_g`.
    CToG = 10,
    /// `txc_in_bounds`.
    InBounds = 11,
    /// `txc_is_coding`.
    IsCoding = 12,
    /// `txc_read_cigar`.
    ReadCigar = 13,
    /// `txc_write_cigar`.
    WriteCigar = 14,
    /// `txc_write_card`.
    WriteCard = 15,
    /// `txc_trim_prefix`.
    TrimPrefix = 16,
    /// `txc_trim_suffix`.
    TrimSuffix = 17,
    /// `txc_changed`.
    Changed = 18,
    /// `txc_read_bam`.
    ReadBam = 19,
    /// `txc_write_bam`.
    WriteBam = 20,
}

impl Call {
    /// Every call, in the order of the numbers.
    pub const ALL: [Call; 21] = [
        Call::Head,
        Call::BuildCard,
        Call::Build,
        Call::BuildLength,
        Call::Damage,
        Call::GToN,
        Call::GToC,
        Call::NToG,
        Call::NToC,
        Call::CToN,
        Call::CToG,
        Call::InBounds,
        Call::IsCoding,
        Call::ReadCigar,
        Call::WriteCigar,
        Call::WriteCard,
        Call::TrimPrefix,
        Call::TrimSuffix,
        Call::Changed,
        Call::ReadBam,
        Call::WriteBam,
    ];

    /// The question of a call, if it is one.
    fn kind(self) -> Option<Kind> {
        let index = (self as usize).checked_sub(Call::GToN as usize)?;
        Kind::ALL.get(index).copied()
    }
}

impl From<Kind> for Call {
    fn from(kind: Kind) -> Call {
        Call::ALL[Call::GToN as usize + kind as usize]
    }
}

/// One call and what to expect of it.
#[derive(Clone, Debug, PartialEq, Eq)]
pub struct Row {
    /// What is called.
    pub call: Call,
    /// Of a question: bit 0 strict, bits 1 and 2 a star at start and end, bits 3 and 4 start and end missing. Of a building: the
    /// CDS bits.
    pub flags: u8,
    /// Where the expectation comes from, 0 where there is none.
    pub origin: u8,
    /// The call's numbers.
    pub numbers: [i32; 6],
    /// What to expect.
    pub answer: Words,
    /// The call's bytes.
    pub payload: Vec<u8>,
}

fn word(bytes: &[u8], at: usize) -> i32 {
    i32::from_le_bytes(bytes[at..at + 4].try_into().expect("four bytes"))
}

/// An answer in positions as a row has it.
pub fn words(answer: Answer) -> Words {
    let Answer { number, mark, start: a, end: b } = answer;
    let [a, b] = [a, b].map(|end| [end.base, end.offset, end.star as i32, end.exon as i32]);
    [number as i32, mark as i32, a[0], a[1], a[2], a[3], b[0], b[1], b[2], b[3]]
}

impl Row {
    /// A row without numbers, bytes and expectation.
    pub fn new(call: Call) -> Row {
        Row { call, flags: 0, origin: 0, numbers: [0; 6], answer: front([]), payload: Vec::new() }
    }

    /// The row of a question, without its expectation.
    pub fn asking(question: &Question) -> Row {
        let Question { kind, start: a, end: b, missing, strict } = *question;
        let flags = u8::from(strict) | u8::from(a.star) << 1 | u8::from(b.star) << 2 | (missing as u8) << 3;
        Row { flags, numbers: [a.base, a.offset, b.base, b.offset, 0, 0], ..Row::new(kind.into()) }
    }

    /// The question of a row.
    fn question(&self, kind: Kind) -> Question {
        let [a, a_offset, b, b_offset, ..] = self.numbers;
        let bit = |bit: u8| self.flags >> bit & 1 == 1;
        Question {
            kind,
            start: Asked { base: a, offset: a_offset, star: bit(1) },
            end: Asked { base: b, offset: b_offset, star: bit(2) },
            missing: u32::from(self.flags >> 3 & 3),
            strict: bit(0),
        }
    }

    /// Appends the row's blocks.
    pub fn write(&self, file: &mut Vec<u8>) {
        file.extend([self.call as u8, self.flags, self.origin, 0]);
        file.extend((self.payload.len() as u32).to_le_bytes());
        for number in self.numbers.iter().chain(&self.answer) {
            file.extend(number.to_le_bytes());
        }
        file.extend(&self.payload);
        file.resize(file.len().next_multiple_of(BLOCK), 0);
    }

    /// The row at the front of a file, and what follows it.
    pub fn read(file: &[u8]) -> Option<(Row, &[u8])> {
        let (block, rest) = file.split_at_checked(BLOCK)?;
        let length = usize::try_from(word(block, 4)).ok()?;
        let (payload, rest) = rest.split_at_checked(length.next_multiple_of(BLOCK))?;
        let row = Row {
            call: *Call::ALL.get(usize::from(block[0]))?,
            flags: block[1],
            origin: block[2],
            numbers: std::array::from_fn(|i| word(block, 8 + 4 * i)),
            answer: std::array::from_fn(|i| word(block, 32 + 4 * i)),
            payload: payload[..length].to_vec(),
        };
        Some((row, rest))
    }

    /// Building's input of a row.
    fn laid(&self) -> Laid<'_> {
        let [strand, start, end, count, ..] = self.numbers;
        let cds = Cds { bits: u32::from(self.flags), start, end };
        Laid { strand, cds, count: count as usize, records: &self.payload }
    }
}

/// Elements of five bytes each: a count and a letter.
fn elements(bytes: &[u8]) -> impl Iterator<Item = (i32, u8)> + '_ {
    bytes.chunks_exact(5).map(|five| (word(five, 0), five[4]))
}

/// BAM words of four bytes each.
fn bam_words(bytes: &[u8]) -> Vec<u32> {
    bytes.chunks_exact(4).map(|four| word(four, 0) as u32).collect()
}

/// What building's row expects of the memory: strand, first start, segment count, both lengths.
pub fn built(number: u32, lent: &Lent) -> Words {
    let Head { kind, strand, first_start, segment_count, length, .. } = *lent.head;
    if number != 0 {
        return front([number as i32]);
    }
    if kind != Head::RECORDS {
        return front([0, 0, 0, 0, 0, length]);
    }
    let [genome, transcript] = [&lent.genome, &lent.transcript].map(|starts| starts[segment_count as usize] as i32);
    front([0, strand, first_start, segment_count, genome, transcript])
}

fn counted(length: Length) -> Words {
    front([length.number as i32, length.length as i32])
}

/// The place of lent memory that a row of damage names: table and index.
pub fn place([table, index, ..]: [i32; 6]) -> Place {
    let index = index as usize;
    match table {
        0 => Place::Head(index),
        1 => Place::Genome(index),
        2 => Place::Transcript(index),
        3 => Place::Letter(index),
        _ => Place::Exon(index),
    }
}

/// Changes one number of lent memory.
pub fn damage(lent: &mut Lent, numbers: [i32; 6]) {
    lent.put(place(numbers), numbers[2]);
}

fn read_cigar(row: &Row) -> Result<Words, String> {
    let (text, expected) = row.payload.split_at(row.numbers[0] as usize);
    let mut counts = Box::new([0; MOST_SEGMENTS]);
    let mut letters = Box::new([0; MOST_SEGMENTS]);
    let read = boundary::read_cigar(text, &mut counts, &mut letters);
    let got = counts.iter().copied().zip(letters.iter().copied());
    if got.take(read.length).eq(elements(expected)) {
        Ok(counted(read))
    } else {
        Err("other elements".into())
    }
}

/// Whether memory that was 0 throughout has these at its front and nothing else.
fn is_front<T: Default + PartialEq>(lent: &[T], front: &[T]) -> bool {
    lent.starts_with(front) && lent[front.len()..].iter().all(|one| *one == T::default())
}

/// Elements at the fronts of two tables.
fn tables(given: &[u8]) -> (Box<Counts>, Box<Letters>) {
    let (mut counts, mut letters) = (Box::new([0; MOST_SEGMENTS]), Box::new([0; MOST_SEGMENTS]));
    for (place, (count, letter)) in elements(given).enumerate() {
        (counts[place], letters[place]) = (count, letter);
    }
    (counts, letters)
}

fn write_cigar(row: &Row) -> Result<Words, String> {
    let [number, lent, room, ..] = row.numbers.map(|number| number as usize);
    let (given, expected) = row.payload.split_at(5 * lent);
    let (counts, letters) = tables(given);
    let mut buffer = vec![0; room];
    let written = boundary::write_cigar(number, &counts, &letters, &mut buffer);
    if is_front(&buffer, expected) {
        Ok(counted(written))
    } else {
        Err("another text".into())
    }
}

fn read_bam(row: &Row) -> Result<Words, String> {
    let [number, counts_room, letters_room, ..] = row.numbers.map(|number| number as usize);
    let (given, expected) = row.payload.split_at(4 * number);
    let (mut counts, mut letters) = (vec![0; counts_room], vec![0; letters_room]);
    let read = boundary::read_bam(&bam_words(given), &mut counts, &mut letters);
    let (expected_counts, expected_letters): (Vec<i32>, Vec<u8>) = elements(expected).unzip();
    if is_front(&counts, &expected_counts) && is_front(&letters, &expected_letters) {
        Ok(counted(read))
    } else {
        Err("other elements".into())
    }
}

fn write_bam(row: &Row) -> Result<Words, String> {
    let [number, lent, room, ..] = row.numbers.map(|number| number as usize);
    let (given, expected) = row.payload.split_at(5 * lent);
    let (counts, letters) = tables(given);
    let mut words = vec![0; room];
    let written = boundary::write_bam(number, &counts, &letters, &mut words);
    if is_front(&words, &bam_words(expected)) {
        Ok(counted(written))
    } else {
        Err("other words".into())
    }
}

fn write_card(row: &Row) -> Result<Words, String> {
    let mut buffer = vec![0; row.numbers[4] as usize];
    let written = boundary::write_card(row.laid(), &mut buffer);
    let expected = if row.answer[0] == 0 { paper::card(row.laid()) } else { Vec::new() };
    if is_front(&buffer, &expected) {
        Ok(counted(written))
    } else {
        Err("another card".into())
    }
}

/// Calls the boundary as a row says, and gives what it answered.
fn call(row: &Row, lent: &mut Lent) -> Result<Words, String> {
    if let Some(kind) = row.call.kind() {
        return Ok(words(row.question(kind).ask(lent)));
    }
    let (reference, alternative) = row.payload.split_at(match row.call {
        Call::TrimPrefix | Call::TrimSuffix | Call::Changed => row.numbers[0] as usize,
        _ => 0,
    });
    let trimmed = |length: usize| Ok(front([0, length as i32]));
    match row.call {
        Call::BuildCard => Ok(built(lent.build_card(&row.payload), lent)),
        Call::Build => Ok(built(lent.build(row.laid()), lent)),
        Call::BuildLength => {
            let [length, start, end, ..] = row.numbers;
            let cds = Cds { bits: u32::from(row.flags), start, end };
            let number = boundary::build_length(length, cds, &mut lent.head);
            Ok(built(number, lent))
        }
        Call::Damage => {
            damage(lent, row.numbers);
            Ok(front([]))
        }
        Call::ReadCigar => read_cigar(row),
        Call::WriteCigar => write_cigar(row),
        Call::WriteCard => write_card(row),
        Call::ReadBam => read_bam(row),
        Call::WriteBam => write_bam(row),
        Call::TrimPrefix => trimmed(boundary::trim_prefix(reference, alternative)),
        Call::TrimSuffix => trimmed(boundary::trim_suffix(reference, alternative)),
        Call::Changed => {
            let Part { alternative, from, to } = boundary::changed(reference, alternative);
            Ok(front([0, alternative as i32, from as i32, to as i32]))
        }
        _ => Err("a row in the wrong place".into()),
    }
}

/// The rows of a file.
fn rows(file: &[u8]) -> Result<Vec<Row>, String> {
    let (head, mut rest) = Row::read(file).ok_or("no rows")?;
    if head.call != Call::Head || head.numbers[0] != VERSION {
        return Err(format!("no layout of version {VERSION}"));
    }
    let mut rows = Vec::new();
    while !rest.is_empty() {
        let (row, after) = Row::read(rest).ok_or_else(|| format!("row {} is cut off", rows.len()))?;
        rows.push(row);
        rest = after;
    }
    if rows.len() == head.numbers[1] as usize {
        Ok(rows)
    } else {
        Err(format!("{} rows, but the first says {}", rows.len(), head.numbers[1]))
    }
}

/// Calls the boundary as every row of a file says, and compares. Gives the number of rows, or what is wrong first.
pub fn replay(file: &[u8]) -> Result<usize, String> {
    let rows = rows(file)?;
    let mut lent = Lent::filled(0);
    for (index, row) in rows.iter().enumerate() {
        let answer = call(row, &mut lent).map_err(|why| format!("row {index}, {:?}: {why}", row.call))?;
        if answer != row.answer {
            return Err(format!(
                "row {index}, {:?} {:?}: {answer:?}, recorded {:?}",
                row.call, row.numbers, row.answer
            ));
        }
    }
    Ok(rows.len())
}

/// Puts positions with their recorded answers to one worklist. A list that is refused as a whole has that number in each answer.
fn list(recorded: &mut [(i32, Words)], lent: &Lent) -> Result<(), String> {
    recorded.sort();
    let mut slots: Vec<_> = recorded.iter().map(|&(position, _)| Slot::new(position)).collect();
    let Steps { number, .. } = boundary::worklist(lent.reading(), &mut slots);
    for (slot, &(position, answer)) in slots.iter().zip(&*recorded) {
        let got = if number == 0 { words(slot.answer) } else { front([number as i32]) };
        if (slot.position, got) != (position, answer) {
            return Err(format!("g.{position} in a worklist: {got:?}, recorded {answer:?}"));
        }
    }
    Ok(())
}

/// Joins two alleles to a recorded question, and compares with its recorded answer and with the alleles as the transcript reads them;
/// then what comes between 23 and the mapping's own refusals.
fn join(row: &Row, lent: &Lent) -> Result<(), String> {
    let question = row.question(Kind::GToC);
    let ask = |alternative: &[u8], [mut front, mut back]: [Vec<u8>; 2]| {
        let (of, g, strict) = (lent.reading(), question.g(), question.strict);
        let joined = boundary::g_to_c_alleles(of, g, strict, b"CACG", alternative, &mut front, &mut back);
        let Joined { answer, prefix, suffix, reference, alternative } = joined;
        (words(answer), [prefix, suffix, reference, alternative], [front, back])
    };
    let painted = |length: usize| vec![b'.'; length];
    let number = row.answer[0];
    // The reference is CACG, or CGTG.
    let (lengths, front) = match lent.head.strand {
        _ if number != 0 => ([0; 4], &b"..."[..]),
        1 => ([1, 1, 2, 0], &b"AC."[..]),
        _ => ([2, 0, 2, 0], &b"TG."[..]),
    };
    let answered = (row.answer, lengths, [front.to_vec(), Vec::new()]);
    let refused = |with: i32| if number == NotTogether.number() as i32 { number } else { with };
    let before = |with, rooms| (self::front([refused(with)]), [0; 4], rooms);
    for (alternative, rooms, expected) in [
        (&b"CG"[..], [painted(3), painted(0)], answered),
        (b"CU", [painted(3), painted(0)], before(34, [painted(3), painted(0)])),
        (b"CG", [painted(1), painted(2)], before(20, [painted(1), painted(2)])),
    ] {
        let got = ask(alternative, rooms);
        if got != expected {
            return Err(format!("{question:?} with CACG and {alternative:?}: {got:?}, expected {expected:?}"));
        }
    }
    Ok(())
}

/// The answer of a row.
fn answered(words: Words) -> Answer {
    let [number, mark, a, a_offset, a_star, a_exon, b, b_offset, b_star, b_exon] = words;
    let end = |base, offset, star, exon| Position { base, offset, star: star as u32, exon: exon as u32 };
    let (start, end) = (end(a, a_offset, a_star, a_exon), end(b, b_offset, b_star, b_exon));
    Answer { number: number as u32, mark: mark as u32, start, end }
}

/// An entry of the same question with another answer: the next exon, another number where there is none, or another refusal.
fn otherwise(entry: Entry) -> Entry {
    let mut answer = entry.answer;
    match answer {
        Answer { number: 0, mark: Answer::UNMARKED, .. } => answer.end.base ^= 1,
        Answer { number: 0, .. } => answer.end.exon += 1,
        _ if answer.number == NotTogether.number() => answer = paper::refused(Refusal::TooWide),
        _ => answer = paper::refused(NotTogether),
    }
    Entry { answer, ..entry }
}

/// Puts recorded questions to the entry that takes them as one value, records them into one log, whose bytes are those of the recorded
/// answers, and replays that: none differs, and with every second answer another just those do.
fn log(recorded: &[Entry], lent: &Lent) -> Result<(), String> {
    let of = lent.reading();
    let mut log = vec![b'.'; LOG_HEAD + ENTRY * recorded.len() + 1];
    let mut used = 0;
    for Entry { question, answer } in recorded {
        let (asked, written) = (boundary::ask(of, *question), boundary::record(of, *question, &mut log, used));
        if [asked, written.answer] != [*answer; 2] || written.number != 0 {
            return Err(format!("{question:?}: {asked:?} and {written:?}, recorded {answer:?}"));
        }
        used = written.length;
    }
    let expected = logs::write(recorded);
    if !recorded.is_empty() && (log[..used] != expected || log[used..] != *b".") {
        return Err("another log".into());
    }
    let mut changed = recorded.to_vec();
    changed.iter_mut().skip(1).step_by(2).for_each(|entry| *entry = otherwise(*entry));
    let odd: String = (1..recorded.len()).step_by(2).map(|index| format!("{index}\n")).collect();
    let broken = if lent.source().is_some() { 0 } else { NotTogether.number() };
    let texts = match broken {
        0 => ["0\n".to_string(), format!("{odd}{}\n", recorded.len() / 2)],
        _ => [String::new(), String::new()],
    };
    for (log, expected) in [expected, logs::write(&changed)].into_iter().zip(texts) {
        let mut buffer = vec![b'.'; MOST_REPLAYED];
        let Length { number, length } = boundary::replay(of, &log, &mut buffer);
        let said = String::from_utf8_lossy(&buffer[..length]);
        if number != broken || said != expected || buffer[length..].iter().any(|&byte| byte != b'.') {
            return Err(format!("replayed: {number} {said:?}, expected {broken} {expected:?}"));
        }
    }
    Ok(())
}

/// Puts the answers of the six mappings that a file records to questions as one value and to logs, one for each state of the lent
/// memory. Gives the number of entries, or what is wrong first.
pub fn replay_logs(file: &[u8]) -> Result<usize, String> {
    let mut lent = Lent::filled(0);
    let (mut recorded, mut entries) = (Vec::new(), 0);
    for row in rows(file)? {
        if let Some(question) = row.call.kind().and_then(|kind| row.question(kind).numbers()) {
            recorded.push(Entry { question, answer: answered(row.answer) });
            entries += 1;
        } else if matches!(row.call, Call::BuildCard | Call::Build | Call::BuildLength | Call::Damage) {
            log(&recorded, &lent)?;
            recorded.clear();
            call(&row, &mut lent)?;
        }
    }
    log(&recorded, &lent)?;
    Ok(entries)
}

/// Puts the g. to c. answers that a file records to the join with two alleles. Gives the number of rows, or what is wrong first.
pub fn replay_joins(file: &[u8]) -> Result<usize, String> {
    let mut lent = Lent::filled(0);
    let mut joined = 0;
    for row in rows(file)? {
        match row.call {
            Call::GToC => {
                join(&row, &lent)?;
                joined += 1;
            }
            Call::BuildCard | Call::Build | Call::BuildLength | Call::Damage => drop(call(&row, &mut lent)?),
            _ => (),
        }
    }
    Ok(joined)
}

/// Puts the strict g. to n. answers of one base that a file records to worklists, one for each state of the lent memory. Gives the
/// number of slots, or what is wrong first.
pub fn replay_lists(file: &[u8]) -> Result<usize, String> {
    let mut lent = Lent::filled(0);
    let (mut recorded, mut slots) = (Vec::new(), 0);
    for row in rows(file)? {
        let Row { call: called, flags, numbers: [start, _, end, ..], answer, .. } = row;
        if called == Call::GToN && flags == 1 && start == end {
            recorded.push((start, answer));
            slots += 1;
        } else if matches!(called, Call::BuildCard | Call::Build | Call::BuildLength | Call::Damage) {
            list(&mut recorded, &lent)?;
            recorded.clear();
            call(&row, &mut lent)?;
        }
    }
    list(&mut recorded, &lent)?;
    Ok(slots)
}
