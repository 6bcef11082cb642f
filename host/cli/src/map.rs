//! `map`: positions from lines, with their exons and their names of the other kinds beside them; and variants of the genome, as the
//! transcript reads them.

use std::{
    fmt::Display,
    io::{self, BufRead, Write},
};

use pulindraxi::{
    answered,
    asked::{CInterval, GInterval, NInterval},
    Bounds, Mapped, NoName, Question, Refusal, Slot, Transcript,
};

use crate::{
    exon::{self, End},
    logs::Recording,
    variant::{self, Variant},
    Outcome,
};

/// A position of one of the three kinds, or a variant of the genome.
enum Asked {
    G(GInterval),
    N(NInterval),
    C(CInterval),
    Variant(Variant),
}

/// Reads `g 23`, `g.23` or `g.23A>G`, with or without space around it.
fn read(line: &str) -> Result<Asked, String> {
    let line = line.trim_end();
    let (kind, position) =
        line.trim_start().split_once([' ', '\t', '.']).ok_or("a line is g, n or c, a space and a position")?;
    let position = position.trim_start();
    if kind == "g" {
        let place = line[..line.len() - position.len()].chars().count() + 1;
        if let Some(variant) = variant::read(position, place) {
            return variant.map(Asked::Variant);
        }
    }
    let name = format!("{kind}.{position}");
    let no_name = |error: NoName| error.to_string();
    match kind {
        "g" => name.parse().map(Asked::G).map_err(no_name),
        "n" => name.parse().map(Asked::N).map_err(no_name),
        "c" => name.parse().map(Asked::C).map_err(no_name),
        _ => Err(format!("`{kind}` is not g, n or c")),
    }
}

/// A name, or the refusal's number and words.
fn said<T: Display>(answer: Result<T, Refusal>) -> String {
    answer.map_or_else(|refusal| refusal.to_string(), |name| name.to_string())
}

/// What g. to n. answers.
type Numbered = Result<Mapped<answered::NInterval>, Refusal>;

/// A position, where it lies, and its names of the two other kinds.
struct Row {
    asked: String,
    /// None where the position is not mapped to or from g.
    exon: Option<String>,
    names: [String; 2],
    /// Of a variant, what its alleles have in common.
    note: Option<String>,
}

/// The exons of an n. answer, with its offsets.
fn ends_of_n(n: answered::NInterval) -> Option<[End; 2]> {
    Some([(n.start.exon?, n.start.offset), (n.end.exon?, n.end.offset)])
}

/// The exons of a g. answer in transcript direction, with the offsets that were asked.
fn ends_of_g(g: answered::GInterval, strand: i32, [start, end]: [i32; 2]) -> [End; 2] {
    let [first, last] = if strand == 1 { [g.start, g.end] } else { [g.end, g.start] };
    [(first.exon, start), (last.exon, end)]
}

/// The row of a position. A g. position's n. answer may be at hand already.
fn row(transcript: &Transcript, asked: &Asked, bounds: Bounds, at_hand: Option<Numbered>) -> Row {
    let from_g = |g: Result<Mapped<answered::GInterval>, Refusal>, offsets| {
        g.ok().map(|g| ends_of_g(g.interval(), transcript.strand(), offsets))
    };
    let mut note = None;
    let (asked, ends, names) = match *asked {
        Asked::Variant(ref variant) => {
            let n = transcript.g_to_n(variant.g, bounds);
            let ends = n.ok().and_then(|n| ends_of_n(n.interval()));
            let (c, removed) = variant.on(transcript, bounds).unwrap_or_else(|refusal| (refusal, None));
            note = removed;
            // Where the n. interval is refused, the refusal of the c. interval is that one or comes before it.
            (variant.to_string(), ends, [n.map_or_else(|_| c.clone(), |n| n.to_string()), c])
        }
        Asked::G(g) => {
            let n = at_hand.unwrap_or_else(|| transcript.g_to_n(g, bounds));
            let ends = n.ok().and_then(|n| ends_of_n(n.interval()));
            (g.to_string(), ends, [said(n), said(transcript.g_to_c(g, bounds))])
        }
        Asked::N(n) => {
            let g = transcript.n_to_g(n, bounds);
            let ends = from_g(g, [n.start.offset, n.end.offset]);
            (n.to_string(), ends, [said(g), said(transcript.n_to_c(n, bounds))])
        }
        Asked::C(c) => {
            let g = transcript.c_to_g(c, bounds);
            let ends = from_g(g, [c.start.offset, c.end.offset]);
            (c.to_string(), ends, [said(g), said(transcript.c_to_n(c, bounds))])
        }
    };
    let exons = u32::try_from(transcript.record_count()).unwrap_or(u32::MAX);
    Row { asked, exon: ends.map(|ends| exon::said(ends, exons)), names, note }
}

/// The two questions that the row of a position answers. Of a variant they are those of its interval.
fn questions(asked: &Asked, bounds: Bounds) -> [Question; 2] {
    match *asked {
        Asked::G(g) | Asked::Variant(Variant { g, .. }) => [Question::GToN(g, bounds), Question::GToC(g, bounds)],
        Asked::N(n) => [Question::NToG(n, bounds), Question::NToC(n, bounds)],
        Asked::C(c) => [Question::CToG(c, bounds), Question::CToN(c, bounds)],
    }
}

/// The position as a worklist takes it: one base of the genome, asked with strict bounds.
fn listed(asked: &Asked, bounds: Bounds) -> Option<i32> {
    match *asked {
        Asked::G(GInterval { start: Some(start), end: Some(end) }) if start == end && bounds == Bounds::Strict => {
            Some(start)
        }
        _ => None,
    }
}

/// What g. to n. answers for each position with strict bounds: a worklist for each run of them that does not fall.
fn walk(transcript: &Transcript, positions: impl Iterator<Item = i32>) -> Vec<Numbered> {
    let mut slots: Vec<_> = positions.map(Slot::new).collect();
    let mut answers = Vec::new();
    for run in slots.chunk_by_mut(|before, after| before.position <= after.position) {
        let walked = transcript.worklist(run).is_ok();
        let answer = |slot: &Slot| match walked {
            true => slot.n(),
            false => transcript.g_to_n(GInterval::at(slot.position), Bounds::Strict),
        };
        answers.extend(run.iter().map(answer));
    }
    answers
}

/// The next lines, as many as have come together, and none at the end: what is there is answered before more is waited for.
fn lines_at_hand(input: &mut impl BufRead) -> io::Result<Vec<u8>> {
    let mut lines = Vec::new();
    loop {
        let come = match input.fill_buf() {
            Err(error) if error.kind() == io::ErrorKind::Interrupted => continue,
            come => come?,
        };
        let newline = come.iter().rposition(|&byte| byte == b'\n');
        let taken = newline.map_or(come.len(), |at| at + 1);
        lines.extend_from_slice(&come[..taken]);
        input.consume(taken);
        if newline.is_some() || taken == 0 {
            return Ok(lines);
        }
    }
}

/// Maps the positions of `input`, a line each. Lines that are no positions go to `complaints` with their numbers. What is answered is
/// recorded first where there is a log, so that no answer is given that it lacks.
pub fn run(
    transcript: &Transcript,
    bounds: Bounds,
    mut log: Option<&mut Recording>,
    mut input: impl BufRead,
    mut output: impl Write,
    mut complaints: impl Write,
) -> Outcome {
    let (mut before, mut bad) = (0, 0u64);
    loop {
        let lines = lines_at_hand(&mut input)?;
        if lines.is_empty() {
            break;
        }
        let lines: Vec<_> = lines.split_inclusive(|&byte| byte == b'\n').map(String::from_utf8_lossy).collect();
        let is_asked = |line: &str| !line.is_empty() && !line.starts_with('#');
        let asked: Vec<_> = lines.iter().map(|line| is_asked(line.trim()).then(|| read(line))).collect();
        if let Some(log) = &mut log {
            for question in asked.iter().flatten().flatten().flat_map(|asked| questions(asked, bounds)) {
                log.record(transcript, question)?;
            }
            log.write()?;
        }
        let positions = asked.iter().flatten().flatten().filter_map(|asked| listed(asked, bounds));
        let mut walked = walk(transcript, positions).into_iter();
        for (number, (line, asked)) in (before + 1..).zip(lines.iter().zip(&asked)) {
            match asked {
                None => (),
                Some(Ok(asked)) => {
                    let at_hand = listed(asked, bounds).and_then(|_| walked.next());
                    write_row(&mut output, row(transcript, asked, bounds, at_hand))?;
                }
                Some(Err(why)) => {
                    bad += 1;
                    writeln!(complaints, "line {number}: `{}`: {why}", line.trim())?;
                }
            }
        }
        before += lines.len();
    }
    output.flush()?;
    if let Some(summary) = log.and_then(|log| log.summary()) {
        writeln!(complaints, "{summary}")?;
    }
    Ok(bad == 0)
}

/// Writes a position, its exon if it has one, and its two other names, or the refusal once where both are the same. A refusal's
/// words, or what two alleles have in common, stand last.
fn write_row(output: &mut impl Write, row: Row) -> io::Result<()> {
    let Row { asked, exon, names: [first, second], note } = row;
    write!(output, "{asked:<15} ")?;
    if let Some(exon) = exon {
        write!(output, "{exon:<15} ")?;
    }
    match note {
        Some(note) => writeln!(output, "{first:<15} {second:<15} {note}"),
        None if first == second => writeln!(output, "{first}"),
        None => writeln!(output, "{first:<15} {second}"),
    }
}

#[cfg(test)]
mod tests {
    use super::*;
    use pulindraxi::{Exon, Input};
    use rand::{seq::SliceRandom, Rng, SeedableRng};
    use rand_xorshift::XorShiftRng;
    use std::{
        cell::RefCell,
        io::{BufReader, Read},
    };

    fn transcript(strand: i32) -> Transcript {
        let ords = if strand == 1 { [0, 1] } else { [1, 0] };
        let tx = if strand == 1 { [[0, 10], [10, 18]] } else { [[8, 18], [0, 8]] };
        let exon = |index: usize, alt_start_i, alt_end_i, cigar| Exon {
            alt_start_i,
            alt_end_i,
            tx_start_i: tx[index][0],
            tx_end_i: tx[index][1],
            ord: ords[index],
            cigar,
        };
        let exons = [exon(0, 10, 20, &b"10M"[..]), exon(1, 25, 33, b"4M2I2M")];
        Transcript::build(&Input { strand, cds_start: Some(3), cds_end: Some(15), exons: &exons }).unwrap()
    }

    fn map_of(transcript: &Transcript, bounds: Bounds, input: impl BufRead) -> (bool, String, String) {
        let (mut output, mut complaints) = (Vec::new(), Vec::new());
        let done = run(transcript, bounds, None, input, &mut output, &mut complaints).unwrap();
        (done, String::from_utf8(output).unwrap(), String::from_utf8(complaints).unwrap())
    }

    fn map(bounds: Bounds, lines: &str) -> (bool, String, String) {
        map_of(&transcript(1), bounds, lines.as_bytes())
    }

    /// What each line gives where it is asked by itself, with no worklist.
    fn one_by_one(transcript: &Transcript, bounds: Bounds, lines: &str) -> (bool, String, String) {
        let (mut output, mut complaints) = (Vec::new(), String::new());
        for (index, line) in lines.split('\n').enumerate() {
            if line.trim().is_empty() || line.trim().starts_with('#') {
                continue;
            }
            match read(line) {
                Ok(asked) => write_row(&mut output, row(transcript, &asked, bounds, None)).unwrap(),
                Err(why) => complaints += &format!("line {}: `{}`: {why}\n", index + 1, line.trim()),
            }
        }
        (complaints.is_empty(), String::from_utf8(output).unwrap(), complaints)
    }

    /// Single g. positions, with what else may stand on a line here and there.
    fn lines(rng: &mut XorShiftRng) -> String {
        let (count, is_sorted) = (rng.gen_range(0..60), rng.gen_ratio(2, 3));
        let mut positions: Vec<i32> = (0..count).map(|_| rng.gen_range(8..37)).collect();
        if is_sorted {
            positions.sort_unstable();
        }
        let mut text = String::new();
        for at in positions {
            text += &match rng.gen_range(0..20) {
                0 => "\n".to_string(),
                1 => "# a remark\n".to_string(),
                2 => ["x 3\n", "g\n", "g 12z\n", "g 2147483648\n"].choose(rng).unwrap().to_string(),
                3 => format!("n {at}\n"),
                4 => format!("c.{at}-1\n"),
                5 => format!("g {at}_{}\n", rng.gen_range(8..37)),
                6 => format!("g {at}_{at}\n"),
                7 => ["g ?\n", "g -2147483648\n", "g 2147483647\n"].choose(rng).unwrap().to_string(),
                8..=10 => format!("  g.{at} \r\n"),
                11 => format!(" g.{at}{}\n", ["A>G", "A>A", "U>G", "del", "delins", "insC"].choose(rng).unwrap()),
                12 => format!("g {at}_{}{}\n", at + 1, ["delAC", "delACinsC", "insCC", "insX"].choose(rng).unwrap()),
                _ => format!("g {at}\n"),
            };
        }
        if rng.gen() {
            text.pop();
        }
        text
    }

    #[test]
    fn a_worklist_gives_what_each_line_gives_by_itself() {
        let mut rng = XorShiftRng::seed_from_u64(4);
        for transcript in [transcript(1), transcript(-1), Transcript::of_length(18, Some(3), Some(15)).unwrap()] {
            for _ in 0..400 {
                let lines = lines(&mut rng);
                for bounds in [Bounds::Strict, Bounds::Lenient] {
                    let expected = one_by_one(&transcript, bounds, &lines);
                    assert_eq!(map_of(&transcript, bounds, lines.as_bytes()), expected, "{lines}");
                    let in_pieces = BufReader::with_capacity(rng.gen_range(1..80), lines.as_bytes());
                    assert_eq!(map_of(&transcript, bounds, in_pieces), expected, "{lines}");
                }
            }
        }
    }

    #[test]
    fn what_is_there_is_answered_before_more_is_waited_for() {
        /// Gives a piece at a time, and sees by then the answers to the lines that it gave.
        struct Typed<'a> {
            pieces: &'a [(&'a str, usize)],
            output: &'a RefCell<Vec<u8>>,
            answered: usize,
        }
        impl Read for Typed<'_> {
            fn read(&mut self, buffer: &mut [u8]) -> io::Result<usize> {
                assert_eq!(self.output.borrow().split_inclusive(|&byte| byte == b'\n').count(), self.answered);
                let Some(((piece, lines), rest)) = self.pieces.split_first() else { return Ok(0) };
                self.pieces = rest;
                self.answered += lines;
                piece.as_bytes().read(buffer)
            }
        }
        struct Shared<'a>(&'a RefCell<Vec<u8>>);
        impl Write for Shared<'_> {
            fn write(&mut self, bytes: &[u8]) -> io::Result<usize> {
                self.0.borrow_mut().write(bytes)
            }

            fn flush(&mut self) -> io::Result<()> {
                Ok(())
            }
        }
        let output = RefCell::new(Vec::new());
        let pieces = [("g 11\n", 1), ("g 12\ng 13\ng 1", 2), ("4", 0), ("\n\n", 1), ("g 15", 0), ("", 1)];
        let input = BufReader::new(Typed { pieces: &pieces, output: &output, answered: 0 });
        assert!(run(&transcript(1), Bounds::Strict, None, input, Shared(&output), Vec::new()).unwrap());
        assert_eq!(output.borrow().split_inclusive(|&byte| byte == b'\n').count(), 5);
    }

    #[test]
    fn each_kind_has_the_other_two_beside_it() {
        let (done, output, complaints) = map(Bounds::Strict, "g 23\n\n# a remark\n n\t10+3 \r\nc 7+3\ng.11_12\ng 30");
        assert!(done && complaints.is_empty());
        let rows: Vec<_> = output.lines().collect();
        assert_eq!(rows[0], "g.23            intron 1        n.10+3          c.7+3");
        assert_eq!(rows[1], "n.10+3          intron 1        g.23            c.7+3");
        assert_eq!(rows[2], "c.7+3           intron 1        g.23            n.10+3");
        assert_eq!(rows[3], "g.11_12         exon 1          n.1_2           c.-3_-2");
        assert_eq!(rows[4], "g.30            exon 2          n.(14_15)       c.(11_12)");
    }

    /// The column of a line.
    fn column(transcript: &Transcript, bounds: Bounds, line: &str) -> String {
        let (_, output, _) = map_of(transcript, bounds, line.as_bytes());
        output[16..31].trim_end().to_string()
    }

    #[test]
    fn the_exon_stands_beside_each_kind() {
        for (line, plus, minus) in [
            ("g 20", "exon 1", "exon 2"),
            ("g 21", "intron 1", "intron 1"),
            ("g 25", "intron 1", "intron 1"),
            ("g 26", "exon 2", "exon 1"),
            ("g 11_33", "exons 1_2", "exons 1_2"),
            ("g 33_11", "exons 2_1", "exons 2_1"),
            ("g 20_24", "exon 1_intron 1", "intron 1_exon 2"),
            ("n 1_16", "exons 1_2", "exons 1_2"),
            ("n 16_1", "exons 2_1", "exons 2_1"),
            ("c -3_*1", "exons 1_2", "exons 1_2"),
            // An offset that leads past an end is said by its exon.
            ("n 1-3", "exon 1", "exon 1"),
            ("n 16+3", "exon 2", "exon 2"),
        ] {
            assert_eq!(column(&transcript(1), Bounds::Strict, line), plus, "{line}");
            assert_eq!(column(&transcript(-1), Bounds::Strict, line), minus, "{line}, strand -1");
        }
        // Each end has its own offset, also where the g. answer has them in the other order.
        let b = transcript(-1);
        assert_eq!(column(&b, Bounds::Strict, "n 6+1_7"), "intron 1_exon 2");
        assert_eq!(column(&b, Bounds::Strict, "n 6_7-1"), "exon 1_intron 1");
        assert_eq!(column(&b, Bounds::Strict, "c 3+1_4-1"), "intron 1");
        assert_eq!(column(&b, Bounds::Lenient, "g 34"), "exon 1");
        assert_eq!(column(&b, Bounds::Lenient, "g 10"), "exon 2");
    }

    #[test]
    fn a_transcript_without_a_cds_has_exons_too() {
        let exons = [Exon { alt_start_i: 10, alt_end_i: 20, tx_start_i: 0, tx_end_i: 10, ord: 0, cigar: b"10M" }];
        let input = Input { strand: 1, cds_start: None, cds_end: None, exons: &exons };
        let (_, output, _) = map_of(&Transcript::build(&input).unwrap(), Bounds::Strict, "g 11\n".as_bytes());
        assert_eq!(output, "g.11            exon 1          n.1             refused 13: c. asked, no CDS\n");
    }

    /// Each line, and what stands behind the n. interval on either strand. The mapping is that of the plain interval.
    #[test]
    fn variants_are_read_as_the_transcript_reads_them() {
        for (line, plus, minus) in [
            ("g.23A>G", "c.7+3A>G", "c.3+3T>C"),
            ("g 23A>G", "c.7+3A>G", "c.3+3T>C"),
            (" g.24a>R ", "c.8-2a>R", "c.3+2t>Y"),
            ("g.22_23del", "c.7+2_7+3del", "c.3+3_4-2del"),
            ("g.22_23delAC", "c.7+2_7+3delAC", "c.3+3_4-2delGT"),
            ("g.22_23delinsTT", "c.7+2_7+3delinsTT", "c.3+3_4-2delinsAA"),
            ("g.22_23delACinsTTG", "c.7+2_7+3delACinsTTG", "c.3+3_4-2delGTinsCAA"),
            ("g.23_24insC", "c.7+3_8-2insC", "c.3+2_3+3insG"),
            ("g.12_14ACG>T", "c.-2_1ACG>T", "c.10_12CGT>A"),
            // Behind it stands what was removed; the interval and the alleles beside it are whole.
            (
                "g.12_14CAC>C",
                "c.-2_1CAC>C     removed: C in front; left: AC, nothing",
                "c.10_12GTG>G    removed: G in front; left: TG, nothing",
            ),
            (
                "g.12_14delAACinsAC",
                "c.-2_1delAACinsAC removed: A in front, C behind; left: A, nothing",
                "c.10_12delGTTinsGT removed: GT in front; left: T, nothing",
            ),
            (
                "g.12_13CA>GA",
                "c.-2_-1CA>GA    removed: A behind; left: C, G",
                "c.11_12TG>TC    removed: T in front; left: G, C",
            ),
            (
                "g.14T>T",
                "c.1T>T          removed: T in front; left: nothing, nothing",
                "c.10A>A         removed: A in front; left: nothing, nothing",
            ),
            // An end in a gap of the alignment.
            ("g.30A>G", "c.(11_12)A>G", "c.1T>C"),
            ("g.28A>G", "c.10A>G", "c.(1_2)T>C"),
        ] {
            for (strand, expected) in [(1, plus), (-1, minus)] {
                let (done, output, complaints) = map_of(&transcript(strand), Bounds::Strict, line.as_bytes());
                assert!(done && complaints.is_empty(), "{line}: {complaints}");
                assert_eq!(behind_n(&output), expected, "{line}, strand {strand}");
            }
        }
        let (_, output, _) = map(Bounds::Strict, "g.23A>G\n");
        assert_eq!(output, "g.23A>G         intron 1        n.10+3          c.7+3A>G\n");
    }

    /// What stands behind a line's n. interval.
    fn behind_n(output: &str) -> &str {
        let (_, names) = output.trim_end().split_once(" n.").expect("an n. interval");
        names.split_once(' ').expect("more").1.trim_start()
    }

    #[test]
    fn a_wrong_letter_is_named_with_its_place_in_the_line() {
        let refused = "refused 34: an allele with a letter outside the nucleotide list";
        for (line, place, letter) in [
            ("g.23A>U", 7, 'U'),
            ("g.23u>U", 5, 'u'),
            ("  g 23A>-", 9, '-'),
            ("g.22_23delinsTX", 15, 'X'),
            ("g.22_23delAEinsTX", 12, 'E'),
            ("g.23_24insCC4C", 13, '4'),
            ("g.23_24insé", 11, 'é'),
            ("g.23A > G", 6, ' '),
            ("g.22_23delA\u{e9}CinsT", 12, 'é'),
        ] {
            let (done, output, complaints) = map(Bounds::Strict, line);
            assert!(done && complaints.is_empty(), "{line}: {complaints}");
            assert_eq!(behind_n(&output), format!("{refused}; place {place} of the line has `{letter}`"), "{line}");
        }
        // Also where the interval is refused, as 34 comes first; other refusals stand once.
        let (_, output, _) = map(Bounds::Strict, "g.34A>U\ng.34A>G\ng.?del\n");
        let outside = "refused 14: strict: place outside the from-table";
        let lines: Vec<_> = output.lines().collect();
        assert_eq!(lines[0], format!("g.34A>U         {refused}; place 7 of the line has `U`"));
        assert_eq!(lines[1], format!("g.34A>G         {outside}"));
        assert_eq!(lines[2], "g.?del          refused 19: g. start or end missing");
    }

    /// Every line that is asked gives one row or one complaint, whatever stands on it.
    #[test]
    fn any_line_is_answered_or_named() {
        let pieces =
            ["g", "g.", "g ", "c.", "1", "23", "_", "-", "?", "+", "A", "c", "N", "U", "é", ">", "del", "ins", " "];
        let mut rng = XorShiftRng::seed_from_u64(6);
        for transcript in [transcript(1), transcript(-1), Transcript::of_length(18, Some(3), Some(15)).unwrap()] {
            for _ in 0..20_000 {
                let start = if rng.gen_ratio(3, 4) { "g.23" } else { "" };
                let rest: String = (0..rng.gen_range(1..8)).map(|_| *pieces.choose(&mut rng).unwrap()).collect();
                let line = format!("{start}{rest}");
                let (done, output, complaints) = map_of(&transcript, Bounds::Strict, line.as_bytes());
                let is_asked = usize::from(!line.trim().is_empty());
                assert_eq!(output.lines().count() + complaints.lines().count(), is_asked, "{line}");
                assert_eq!(done, complaints.is_empty(), "{line}");
            }
        }
    }

    #[test]
    fn what_is_no_variant_is_named() {
        let neighbours = "an insertion stands between two neighbouring bases, as in g.23_24insC";
        for (line, why) in [
            ("g.23A>", "letters are missing"),
            ("g.23>G", "letters are missing"),
            ("g.23_24ins", "letters are missing"),
            ("g.23_24delins", "letters are missing"),
            ("g.23_24delACins", "letters are missing"),
            ("g.23insC", neighbours),
            ("g.23_25insC", neighbours),
            ("g.24_23insC", neighbours),
            ("g.23AC>G", "letters of the reference: 2, bases of the interval: 1"),
            ("g.22_24delAC", "letters of the reference: 2, bases of the interval: 3"),
            ("g.-2147483648_2147483647delAC", "letters of the reference: 2, bases of the interval: 4294967296"),
            ("g.A>G", "a number is missing"),
            ("g.2147483648del", "a number does not fit 32 signed bits"),
            ("g.23+1A>G", "a g. position is a number alone"),
            ("g.23dup", "a g. position is a number alone"),
            ("c.7+3A>G", "something follows the offset"),
        ] {
            let (done, output, complaints) = map(Bounds::Strict, line);
            assert!(!done && output.is_empty(), "{line}: {output}");
            assert_eq!(complaints, format!("line 1: `{line}`: {why}\n"));
        }
    }

    #[test]
    fn refusals_have_number_and_words() {
        let (done, output, _) = map(Bounds::Strict, "g 10\ng ?_12\n");
        assert!(done);
        let lines: Vec<_> = output.lines().collect();
        assert_eq!(lines[0], "g.10            refused 14: strict: place outside the from-table");
        assert_eq!(lines[1], "g.?_12          refused 19: g. start or end missing");
        let (_, output, _) = map(Bounds::Lenient, "g 10\n");
        assert_eq!(output, "g.10            exon 1          n.-1            c.-4\n");
    }

    #[test]
    fn a_bad_line_is_named_and_the_run_goes_on() {
        let (done, output, complaints) = map(Bounds::Strict, "g 11\nx 3\ng 12z\n23\nc 2147483648\ng 13\n");
        assert!(!done);
        assert_eq!(output.lines().count(), 2);
        let complaints: Vec<_> = complaints.lines().collect();
        assert_eq!(complaints.len(), 4);
        assert_eq!(complaints[0], "line 2: `x 3`: `x` is not g, n or c");
        assert_eq!(complaints[1], "line 3: `g 12z`: a g. position is a number alone");
        assert_eq!(complaints[2], "line 4: `23`: a line is g, n or c, a space and a position");
        assert_eq!(complaints[3], "line 5: `c 2147483648`: a number does not fit 32 signed bits");
    }
}
