//! `card --bam` on files that `samtools` and `minimap2` make. What is expected comes from document 02 and from the SAM specification:
//! the text of an alignment says where each of its bases lies.

mod program;

use std::{
    fs,
    path::{Path, PathBuf},
    process::Output,
    sync::atomic::{AtomicUsize, Ordering},
};

use program::{run, PULINDRAXI};
use pulindraxi::{
    asked::{GInterval, NInterval, NPosition},
    Bounds, Mapped, Transcript,
};

// ---- Programs and files

/// The output of a program that must succeed.
fn made(program: &str, arguments: &[&str], input: &[u8]) -> Vec<u8> {
    let output = run(program, arguments, input);
    assert!(output.status.success(), "{program} {arguments:?}: {}", String::from_utf8_lossy(&output.stderr));
    output.stdout
}

fn pulindraxi(arguments: &[&str]) -> Output {
    run(PULINDRAXI, arguments, b"")
}

/// An empty folder of a test.
fn folder(name: &str) -> PathBuf {
    let folder = PathBuf::from(env!("CARGO_TARGET_TMPDIR")).join(format!("bam-{name}"));
    let _ = fs::remove_dir_all(&folder);
    fs::create_dir_all(&folder).unwrap();
    folder
}

fn text(path: &Path) -> &str {
    path.to_str().unwrap()
}

fn names(folder: &Path) -> Vec<String> {
    let mut names: Vec<_> =
        fs::read_dir(folder).unwrap().map(|entry| entry.unwrap().file_name().into_string().unwrap()).collect();
    names.sort();
    names
}

/// One line of SAM without a sequence; the position is counted from 1.
fn line(name: &str, flag: u16, position: u32, cigar: &str) -> String {
    format!("{name}\t{flag}\tchr1\t{position}\t60\t{cigar}\t*\t0\t0\t*\t*\n")
}

fn sam(lines: &[String]) -> String {
    format!("@HD\tVN:1.6\tSO:unsorted\n@SQ\tSN:chr1\tLN:2147483000\n{}", lines.concat())
}

/// A BAM file that `samtools` makes of lines.
fn bam(folder: &Path, name: &str, lines: &[String]) -> PathBuf {
    let path = folder.join(name);
    made("samtools", &["view", "-b", "--no-PG", "-o", text(&path), "-"], sam(lines).as_bytes());
    path
}

/// The card of a text of records.
fn card_of(records: &str) -> Vec<u8> {
    made(PULINDRAXI, &["card"], records.as_bytes())
}

/// The card that is written of an alignment.
fn card_from(bam: &Path, more: &[&str]) -> Vec<u8> {
    made(PULINDRAXI, &[&["card", "--bam", text(bam)], more].concat(), b"")
}

// ---- What becomes a card

/// Document 01's transcripts.
const A: &str = "strand 1\ncds 3 15\nexon 10 20 0 10 0 10M\nexon 25 33 10 18 1 8M\n";
const B: &str = "strand -1\ncds 3 15\nexon 10 20 8 18 1 10M\nexon 25 33 0 8 0 8M\n";

#[test]
fn transcripts_a_and_b_are_alignments() {
    let folder = folder("a-and-b");
    let file = bam(&folder, "ab.bam", &[line("A", 0, 11, "10M5N8M"), line("B", 16, 11, "10M5N8M")]);
    for (name, records) in [("A", A), ("B", B)] {
        let card = folder.join(format!("{name}.card"));
        let arguments = ["--name", name, "--cds", "3", "15", "--output", text(&card)];
        assert_eq!(card_from(&file, &arguments), b"");
        assert_eq!(fs::read(&card).unwrap(), card_of(records));
        assert_eq!(card_from(&file, &arguments[..5]), card_of(records));
        let without = records.replace("cds 3 15\n", "");
        assert_eq!(card_from(&file, &["--name", name]), card_of(&without));
        assert_eq!(card_from(&file, &["--name", name, "--cds", "-", "-"]), card_of(&without));
    }
    assert_eq!(names(&folder), ["A.card", "B.card", "ab.bam"]);
}

#[test]
fn letters_are_exchanged_and_turned_round() {
    let folder = folder("letters");
    let cigar = "3M1D5=2X2I4M100N1M3I2M";
    let file = bam(&folder, "x.bam", &[line("plus", 0, 1001, cigar), line("minus", 16, 1001, cigar)]);
    // SAM: M, =, X go along both, D and N along the genome, I along the read.
    let plus = "strand 1\nexon 1000 1015 0 16 0 3MI5=2X2D4M\nexon 1115 1118 16 22 1 M3D2M\n";
    let minus = "strand -1\nexon 1000 1015 6 22 1 4M2D2X5=I3M\nexon 1115 1118 0 6 0 2M3DM\n";
    assert_eq!(card_from(&file, &["--name", "plus"]), card_of(plus));
    assert_eq!(card_from(&file, &["--name", "minus"]), card_of(minus));

    // P12 and P13 of document 01, as SAM has their letters.
    let deleted = bam(&folder, "p12.bam", &[line("p12", 0, 101, "4M2D4M")]);
    let p12 = Transcript::from_card(&card_from(&deleted, &[])).unwrap();
    assert_eq!(p12.g_to_n(GInterval::at(105), Bounds::Strict).unwrap().to_string(), "n.(4_5)");
    let inserted = bam(&folder, "p13.bam", &[line("p13", 0, 101, "4M2I4M")]);
    let p13 = Transcript::from_card(&card_from(&inserted, &[])).unwrap();
    assert_eq!(p13.n_to_g("n.5".parse().unwrap(), Bounds::Strict).unwrap().to_string(), "g.(104_105)");
    assert_eq!(p13.g_to_n(GInterval::at(105), Bounds::Strict).unwrap().to_string(), "n.7");
}

#[test]
fn the_primary_alignment_is_taken() {
    let folder = folder("primary");
    let lines = [
        line("A", 256, 501, "18M"),
        line("A", 0, 11, "10M5N8M"),
        line("A", 2048, 901, "8M"),
        line("A", 272, 701, "18M"),
    ];
    let file = bam(&folder, "one.bam", &lines);
    let expected = card_of(&A.replace("cds 3 15\n", ""));
    assert_eq!(card_from(&file, &[]), expected);
    assert_eq!(card_from(&file, &["--name", "A"]), expected);
    // A duplicate, or one that failed a vendor's check, is where it is.
    let file = bam(&folder, "marked.bam", &[line("A", 0x600, 11, "10M5N8M")]);
    assert_eq!(card_from(&file, &[]), expected);
}

#[test]
fn sam_and_cram_are_read_too() {
    let folder = folder("kinds");
    let genome = folder.join("genome.fa");
    fs::write(&genome, format!(">chr1\n{}\n", "ACGTTGCA".repeat(100))).unwrap();
    let lines = "A\t0\tchr1\t11\t60\t10M5N8M\t*\t0\t0\tGTTGCAACGTGTTGCAAC\t*\nB\t16\tchr1\t11\t60\t10M5N8M\t*\t0\t0\tGTTGCAACGTGTTGCAAC\t*\n";
    let text_of_sam = format!("@HD\tVN:1.6\n@SQ\tSN:chr1\tLN:800\n{lines}");
    for (name, kind) in [("ab.sam", "sam"), ("ab.sam.gz", "sam.gz"), ("ab.bam", "bam"), ("ab.cram", "cram")] {
        let file = folder.join(name);
        let arguments = ["view", "-h", "-T", text(&genome), "-O", kind, "-o", text(&file), "-"];
        made("samtools", &arguments, text_of_sam.as_bytes());
    }
    // A card needs no bases, so a CRAM file's reference sequence is not needed.
    fs::remove_file(&genome).unwrap();
    fs::remove_file(folder.join("genome.fa.fai")).unwrap();
    for name in ["ab.sam", "ab.sam.gz", "ab.bam", "ab.cram"] {
        for (read, records) in [("A", A), ("B", B)] {
            let card = card_from(&folder.join(name), &["--name", read, "--cds", "3", "15"]);
            assert_eq!(card, card_of(records), "{name} {read}");
        }
    }
}

// ---- Where each base lies, by the SAM specification

/// What a base of the read, or a base of the genome, stands in.
#[derive(Clone, Copy, PartialEq)]
enum Column {
    /// Base of the read, base of the genome.
    Both(i32, i32),
    Read(i32),
    Genome(i32),
    Intron,
}

/// The columns of an alignment, by its text, each with the number of introns before it: read and genome are counted from 1, the read
/// as it stands in the file.
fn columns(position: i32, cigar: &str) -> Vec<(Column, u32)> {
    let (mut read, mut genome, mut introns, mut columns) = (1, position, 0, Vec::new());
    for (count, operation) in parts(cigar) {
        for _ in 0..count {
            let column = match operation {
                "M" | "=" | "X" => Column::Both(read, genome),
                "I" => Column::Read(read),
                "D" => Column::Genome(genome),
                "N" => Column::Intron,
                _ => panic!("{operation} in {cigar}"),
            };
            columns.push((column, introns));
            read += i32::from(matches!(operation, "M" | "=" | "X" | "I"));
            genome += i32::from(matches!(operation, "M" | "=" | "X" | "D" | "N"));
        }
        introns += u32::from(operation == "N");
    }
    columns
}

fn n(base: i32) -> NInterval {
    NInterval::at(NPosition::new(base, 0))
}

/// Holds a transcript to an alignment's text.
fn judge(transcript: &Transcript, strand: i32, position: i32, cigar: &str) {
    let columns = columns(position, cigar);
    let introns = parts(cigar).filter(|&(_, operation)| operation == "N").count() as u32;
    assert_eq!(transcript.record_count() as u32, introns + 1);
    let of_read = |column: &Column| matches!(column, Column::Both(..) | Column::Read(_));
    let bases = columns.iter().filter(|(column, _)| of_read(column)).count() as i32;
    assert_eq!((transcript.strand(), transcript.transcript_length() as i32), (strand, bases));
    // A read on strand -1 stands in the file from its end.
    let turned = |read: i32| if strand == 1 { read } else { bases + 1 - read };
    for (column, before) in columns {
        match column {
            Column::Both(read, genome) => {
                let exon = if strand == 1 { before + 1 } else { introns + 1 - before };
                let to_g = transcript.n_to_g(n(turned(read)), Bounds::Strict).unwrap();
                let Mapped::Certain(g) = to_g else { panic!("{to_g} of {cigar}") };
                assert_eq!((g.start.exon, g.end.exon), (exon, exon), "{cigar} at {position}, strand {strand}");
                assert_eq!((g.start.base, g.end.base), (genome, genome), "{cigar} at {position}, strand {strand}");
                let to_n = transcript.g_to_n(GInterval::at(genome), Bounds::Strict).unwrap();
                assert_eq!(to_n.to_string(), format!("n.{}", turned(read)), "{cigar} at {position}, strand {strand}");
                assert_eq!(to_n.interval().start.exon, Some(exon), "{cigar} at {position}, strand {strand}");
            }
            Column::Read(read) => assert!(!transcript.n_to_g(n(turned(read)), Bounds::Strict).unwrap().is_certain()),
            Column::Genome(genome) => {
                assert!(!transcript.g_to_n(GInterval::at(genome), Bounds::Strict).unwrap().is_certain());
            }
            Column::Intron => (),
        }
    }
}

/// Random numbers (xorshift).
struct Draw(u64);

impl Draw {
    fn below(&mut self, end: usize) -> usize {
        self.0 ^= self.0 << 13;
        self.0 ^= self.0 >> 7;
        self.0 ^= self.0 << 17;
        (self.0 >> 11) as usize % end
    }

    fn of<T: Copy>(&mut self, items: &[T]) -> T {
        items[self.below(items.len())]
    }

    /// A CIGAR whose N have elements on both sides, each with a matched column before and behind it.
    fn cigar(&mut self) -> String {
        let exon = |draw: &mut Draw| {
            let mut text = format!("{}{}", 1 + draw.below(9), draw.of(&['M', '=', 'X']));
            for _ in 0..draw.below(4) {
                text.push_str(&format!("{}{}", 1 + draw.below(9), draw.of(&['M', '=', 'X', 'I', 'D'])));
            }
            text + &format!("{}M", 1 + draw.below(9))
        };
        let mut cigar = exon(self);
        for _ in 0..self.below(5) {
            cigar.push_str(&format!("{}N", 1 + self.below(60)));
            cigar.push_str(&exon(self));
        }
        cigar
    }
}

/// The counts and operations of a text.
fn parts(cigar: &str) -> impl DoubleEndedIterator<Item = (i32, &str)> {
    let parts: Vec<_> = cigar.split_inclusive(|c: char| !c.is_ascii_digit()).collect();
    parts.into_iter().map(|part| (part[..part.len() - 1].parse().unwrap(), &part[part.len() - 1..]))
}

/// The text of records of an alignment's text: an exon for each stretch between N.
fn records_of(strand: i32, position: i32, cigar: &str) -> String {
    let along = |text: &str, operations: &str| {
        parts(text).filter(|(_, operation)| operations.contains(operation)).map(|(count, _)| count).sum::<i32>()
    };
    let ours = |(count, operation): (i32, &str)| {
        let letter = if operation == "I" {
            "D"
        } else if operation == "D" {
            "I"
        } else {
            operation
        };
        // A count of 1 is left out.
        if count == 1 {
            letter.to_string()
        } else {
            format!("{count}{letter}")
        }
    };
    let (mut alt, mut tx, total) = (position - 1, 0, along(cigar, "MI=X"));
    let stretches: Vec<_> = cigar.split_inclusive('N').collect();
    let mut lines = format!("strand {strand}\n");
    for (index, stretch) in stretches.iter().enumerate() {
        let exon = match stretch.strip_suffix('N') {
            Some(exon) => exon.trim_end_matches(|c: char| c.is_ascii_digit()),
            None => stretch,
        };
        let (alt_end, tx_end) = (alt + along(exon, "MD=X"), tx + along(exon, "MI=X"));
        lines += &match strand {
            1 => format!("exon {alt} {alt_end} {tx} {tx_end} {index} {}\n", parts(exon).map(ours).collect::<String>()),
            _ => {
                let (from, to, ord) = (total - tx_end, total - tx, stretches.len() - 1 - index);
                format!("exon {alt} {alt_end} {from} {to} {ord} {}\n", parts(exon).rev().map(ours).collect::<String>())
            }
        };
        (alt, tx) = (alt_end + along(stretch, "N"), tx_end);
    }
    lines
}

#[test]
fn random_alignments_lie_where_samtools_prints_them() {
    let folder = folder("random");
    let mut draw = Draw(20_261_115);
    let flags = [0, 16];
    let lines: Vec<_> = (0..300)
        .map(|index| line(&format!("r{index}"), draw.of(&flags), 1 + draw.below(5_000) as u32, &draw.cigar()))
        .collect();
    let file = bam(&folder, "random.bam", &lines);
    let cards = folder.join("cards");
    let output = pulindraxi(&["card", "--bam", text(&file), "--all", text(&cards)]);
    assert_eq!(String::from_utf8_lossy(&output.stdout), "cards written: 300; refused: 0\n");
    assert!(output.status.success());
    let printed = String::from_utf8(made("samtools", &["view", text(&file)], b"")).unwrap();
    for line in printed.lines() {
        let fields: Vec<_> = line.split('\t').collect();
        let card = fs::read(cards.join(format!("{}.card", fields[0]))).unwrap();
        let strand = if fields[1].parse::<u16>().unwrap() & 16 == 0 { 1 } else { -1 };
        let (position, cigar) = (fields[3].parse().unwrap(), fields[5]);
        assert_eq!(card, card_of(&records_of(strand, position, cigar)), "{line}");
        judge(&Transcript::from_card(&card).unwrap(), strand, position, cigar);
    }
}

// ---- What has no card

/// Runs `card --bam` where it must fail: exit status 1, what is said, and neither a new card nor a touched old one.
fn refused(file: &Path, more: &[&str], said: &[&str]) {
    static CALLS: AtomicUsize = AtomicUsize::new(0);
    let folder = folder(&format!("refused-{}", CALLS.fetch_add(1, Ordering::Relaxed)));
    let (new, old) = (folder.join("new.card"), folder.join("old.card"));
    fs::write(&old, "as it was").unwrap();
    for card in [&new, &old] {
        let output = pulindraxi(&[&["card", "--bam", text(file), "--output", text(card)], more].concat());
        let words = String::from_utf8_lossy(&output.stderr);
        assert_eq!(output.status.code(), Some(1), "{words}");
        let last = words.lines().last().unwrap();
        assert!(last.starts_with(&format!("pulindraxi: {}: ", file.display())), "{words}");
        for said in said {
            assert!(last.contains(said), "`{said}` is not in: {words}");
        }
        assert_eq!(output.stdout, b"");
    }
    assert_eq!(fs::read(&old).unwrap(), b"as it was");
    assert_eq!(names(&folder), ["old.card"]);
    fs::remove_dir_all(folder).unwrap();
}

#[test]
fn an_alignment_that_is_none_is_refused() {
    let folder = folder("none");
    let unmapped = "NM_1\t4\t*\t0\t0\t*\t*\t0\t0\t*\t*\n".to_string();
    let placed = "NM_1\t4\tchr1\t11\t0\t10M\t*\t0\t0\t*\t*\n".to_string();
    for (name, line, said) in [
        ("unmapped", unmapped, "NM_1: unmapped"),
        ("placed", placed, "NM_1: unmapped"),
        // `samtools` itself marks an alignment without a CIGAR, or without a position, as unmapped.
        ("star", line("NM_1", 0, 11, "*"), "NM_1: unmapped"),
        ("nowhere", line("NM_1", 0, 0, "10M"), "NM_1: unmapped"),
    ] {
        refused(&bam(&folder, name, &[line]), &["--name", "NM_1"], &[said]);
    }
    for flag in [256, 272, 2048, 2304] {
        let file = bam(&folder, &format!("other-{flag}"), &[line("NM_1", flag, 11, "10M"), line("NM_2", 0, 11, "10M")]);
        refused(&file, &["--name", "NM_1"], &["NM_1: secondary or supplementary"]);
        let file = bam(&folder, &format!("alone-{flag}"), &[line("NM_1", flag, 11, "10M")]);
        refused(&file, &[], &["secondary or supplementary"]);
    }
}

#[test]
fn a_clipped_alignment_is_refused_with_its_code() {
    let folder = folder("clipped");
    for (cigar, said) in [
        ("3S10M", ["word 1 has code 4 (S), length 3", "clipped"]),
        ("10M3S", ["word 2 has code 4 (S), length 3", "clipped"]),
        ("3H10M", ["word 1 has code 5 (H), length 3", "clipped"]),
        ("2H3S10M5N8M1S", ["word 1 has code 5 (H), length 2", "clipped"]),
        ("10M5N8M120S", ["word 4 has code 4 (S), length 120", "clipped"]),
        ("4M2P4M", ["word 2 has code 6 (P), length 2", "refused 30: "]),
    ] {
        for flag in [0, 16] {
            let file = bam(&folder, &format!("{cigar}-{flag}"), &[line("NM_1", flag, 11, cigar)]);
            refused(&file, &[], &["NM_1: refused 30: ", said[0], said[1]]);
        }
    }
}

#[test]
fn an_n_bounds_two_exons() {
    let folder = folder("introns");
    for cigar in ["5N10M", "10M5N", "5N", "5M3N2N5M", "5N10M5N"] {
        let file = bam(&folder, cigar, &[line("NM_1", 0, 11, cigar)]);
        refused(&file, &[], &["NM_1: an N of its CIGAR has no exon on one of its sides"]);
    }
}

#[test]
fn a_name_is_one_primary_alignment() {
    let folder = folder("names");
    let both = [line("NM_1", 0, 11, "10M"), line("NM_2", 0, 11, "10M")];
    let file = bam(&folder, "both", &both);
    refused(&file, &["--name", "NM_3"], &["no alignment has the name NM_3"]);
    refused(&file, &["--name", "NM_"], &["no alignment has the name NM_"]);
    refused(&file, &["--name", ""], &["no alignment has the name"]);
    refused(&file, &["--name", "-x\u{1b}"], &["no alignment has the name -x\\x1b"]);
    refused(&file, &[], &["2 reads stand in it, the first NM_1 and NM_2: say which by --name"]);
    let twice = bam(&folder, "twice", &[both[0].clone(), both[1].clone(), line("NM_1", 16, 500, "10M")]);
    refused(&twice, &["--name", "NM_1"], &["NM_1: the name stands 2 times"]);
    // Two reads of a pair have one name.
    let pair = bam(&folder, "pair", &[line("NM_1", 0x41, 11, "10M"), line("NM_1", 0x81, 500, "10M")]);
    refused(&pair, &[], &["2 reads stand in it"]);
    // An unmapped read beside a mapped one is a read too: which is meant is not ours to say.
    let beside = bam(&folder, "beside", &[both[0].clone(), "NM_2\t4\t*\t0\t0\t*\t*\t0\t0\t*\t*\n".into()]);
    refused(&beside, &[], &["2 reads stand in it"]);
    assert_eq!(card_from(&beside, &["--name", "NM_1"]), card_of("strand 1\nexon 10 20 0 10 0 10M"));
    refused(&bam(&folder, "no-alignment", &[]), &[], &["no alignment stands in it"]);
}

#[test]
fn what_does_not_build_is_refused() {
    let folder = folder("unbuilt");
    let file = bam(&folder, "cds", &[line("NM_1", 0, 11, "10M5N8M")]);
    refused(&file, &["--cds", "3", "19"], &["NM_1: refused 12: "]);
    refused(&file, &["--cds", "-1", "15"], &["NM_1: refused 12: "]);
    refused(&file, &["--cds", "-", "15"], &["NM_1: refused 11: "]);
    refused(&file, &["--cds", "3", "-"], &["NM_1: refused 11: "]);
    for (name, cigar, said) in [
        ("words", "1M".repeat(2_049), "NM_1: refused 3: "),
        ("exons", "1M1N".repeat(512) + "1M", "NM_1: refused 3: "),
        ("letters", "10000M1=".repeat(700), "NM_1: refused 3: "),
        // So many words stand in a tag of their own.
        ("tagged", "1M1I".repeat(35_000), "NM_1: refused 3: "),
    ] {
        refused(&bam(&folder, name, &[line("NM_1", 0, 11, &cigar)]), &[], &[said]);
    }
    let most = bam(&folder, "most", &[line("NM_1", 0, 11, &("1M1N".repeat(511) + "1M"))]);
    assert_eq!(Transcript::from_card(&card_from(&most, &[])).unwrap().segment_count(), 1_023);
    let far = bam(&folder, "far", &[line("NM_1", 0, 2_000_000_000, "10M")]);
    refused(&far, &[], &["NM_1: refused 9: "]);
    let wide = bam(&folder, "wide", &[line("NM_1", 0, 11, &("200000000M".repeat(16)))]);
    refused(&wide, &[], &["NM_1: refused 9: "]);
}

#[test]
fn what_is_no_bound_or_no_choice_is_a_misuse() {
    for arguments in [
        &["card", "--bam", "x.bam", "--cds", "3"][..],
        &["card", "--bam", "x.bam", "--cds", "3", "x"],
        &["card", "--bam", "x.bam", "--cds", "3", "2147483648"],
        &["card", "--bam", "x.bam", "--all", "y", "--name", "z"],
        &["card", "--bam", "x.bam", "--all", "y", "--output", "z"],
        &["card", "--bam", "x.bam", "--all", "y", "--cds", "3", "4"],
        &["card", "--bam", "x.bam", "records.txt"],
        &["card", "--name", "z"],
        &["card", "--all", "y"],
        &["card", "--cds", "3", "4"],
    ] {
        assert_eq!(pulindraxi(arguments).status.code(), Some(2), "{arguments:?}");
    }
}

// ---- Files that are not whole

#[test]
fn a_file_that_is_cut_off_is_refused() {
    let folder = folder("cut");
    let lines: Vec<_> = (0..40).map(|index| line(&format!("NM_{index}"), 0, 11 + index, "10M5N8M")).collect();
    let whole = fs::read(bam(&folder, "whole.bam", &lines)).unwrap();
    let cut = folder.join("cut.bam");
    assert!(whole.ends_with(END));
    fs::write(&cut, &whole[..whole.len() - END.len()]).unwrap();
    refused(&cut, &["--name", "NM_3"], &["the file is cut off: its end marker is missing"]);
    for length in (1..whole.len()).step_by(7).chain([whole.len() - 1, whole.len() - 27, whole.len() - 29]) {
        fs::write(&cut, &whole[..length]).unwrap();
        refused(&cut, &["--name", "NM_3"], &[]);
        let all = folder.join("all");
        let output = pulindraxi(&["card", "--bam", text(&cut), "--all", text(&all)]);
        assert_eq!(output.status.code(), Some(1));
        assert!(!all.exists());
    }
    // Whole blocks are missing, and the marker is there.
    fs::write(&cut, END).unwrap();
    refused(&cut, &["--name", "NM_3"], &[]);
    for at in (0..whole.len() - END.len()).step_by(5) {
        let mut bytes = whole.clone();
        bytes[at] ^= 0x55;
        fs::write(&cut, &bytes).unwrap();
        // Times and the like in a block's head mean nothing: then the card is the right one.
        let output = pulindraxi(&["card", "--bam", text(&cut), "--name", "NM_3"]);
        let right = card_of("strand 1\nexon 13 23 0 10 0 10M\nexon 28 36 10 18 1 8M\n");
        match output.status.code() {
            Some(0) => assert_eq!(output.stdout, right, "byte {at}"),
            code => assert_eq!((code, &output.stdout[..]), (Some(1), &b""[..]), "byte {at}"),
        }
    }
}

#[test]
fn a_text_or_cram_that_is_cut_off_is_refused() {
    let folder = folder("cut-others");
    let text_of_sam = sam(&[line("NM_1", 0, 11, "10M5N8M"), line("NM_2", 0, 11, "10M5N8M")]);
    let cut = folder.join("cut.sam");
    let last = text_of_sam.len() - "10M5N8M\t*\t0\t0\t*\t*\n".len();
    for length in last..text_of_sam.len() - 2 {
        fs::write(&cut, &text_of_sam[..length]).unwrap();
        refused(&cut, &["--name", "NM_1"], &["the file is damaged or cut off at alignment 2"]);
    }
    let cram = folder.join("cut.cram");
    let arguments = ["view", "-O", "cram,no_ref", "-o", text(&cram), "-"];
    made("samtools", &arguments, text_of_sam.as_bytes());
    let whole = fs::read(&cram).unwrap();
    assert_eq!(card_from(&cram, &["--name", "NM_1"]), card_of(&A.replace("cds 3 15\n", "")));
    for length in [1, 4, 26, 100, whole.len() / 2, whole.len() - 38, whole.len() - 1] {
        fs::write(&cram, &whole[..length]).unwrap();
        refused(&cram, &["--name", "NM_1"], &[]);
    }
}

#[test]
fn what_is_no_file_of_alignments_is_refused() {
    let folder = folder("no-alignments");
    let empty = folder.join("empty.bam");
    fs::write(&empty, b"").unwrap();
    refused(&empty, &[], &["the file is empty"]);
    let zipped = folder.join("empty.gz");
    fs::write(&zipped, END).unwrap();
    refused(&zipped, &[], &["the file is empty"]);
    for (name, bytes) in [
        ("words.txt", &b"not an alignment at all\n"[..]),
        ("reads.fa", b">NM_1\nACGT\n"),
        ("reads.fq", b"@NM_1\nACGT\n+\nIIII\n"),
        ("a.card", &card_of(A)),
        ("zeros", &[0; 4096]),
    ] {
        let file = folder.join(name);
        fs::write(&file, bytes).unwrap();
        refused(&file, &[], &["not a BAM, SAM or CRAM file"]);
    }
    refused(&folder.join("not there.bam"), &[], &["No such file"]);
    refused(&folder, &[], &["not a file"]);
    refused(Path::new("/dev/null"), &[], &["not a file"]);
}

// ---- Every alignment of a file

#[test]
fn all_writes_a_card_for_each_and_counts_the_rest() {
    let folder = folder("all");
    let lines = [
        line("A", 0, 11, "10M5N8M"),
        line("B", 16, 11, "10M5N8M"),
        line("m1/2/ccs", 0, 11, "10M"),
        line("..", 0, 11, "10M"),
        line("../../out", 0, 11, "10M"),
        line("/out", 0, 11, "10M"),
        line("A", 256, 500, "10M"),
        line("A", 2048, 900, "3H10M"),
        line("twice", 0, 11, "10M"),
        line("twice", 16, 500, "10M"),
        line("clipped", 0, 11, "5S10M"),
        line("cut", 0, 11, "15S10M"),
        line("hard", 0, 11, "10M1H"),
        line("*", 0, 11, "10M"),
        line(&"x".repeat(254), 0, 11, "10M"),
        line(&"/".repeat(90), 0, 11, "10M"),
        "lost\t4\t*\t0\t0\t*\t*\t0\t0\t*\t*\n".into(),
    ];
    let file = bam(&folder, "all.bam", &lines);
    let cards = folder.join("some").join("cards");
    fs::create_dir_all(&cards).unwrap();
    fs::write(cards.join("A.card"), "last week's").unwrap();
    fs::write(cards.join("lost.card"), "last week's").unwrap();
    let output = pulindraxi(&["card", "--bam", text(&file), "--all", text(&cards)]);
    assert_eq!(output.status.code(), Some(1));
    let summary = "cards written: 6; refused: 9, of these a name that stands twice: 2, a name too long for a file: 2, no name: 1, \
                   refusal 30 for code 4 (S): 2, refusal 30 for code 5 (H): 1, unmapped: 1; secondary or supplementary, passed over: 2\n";
    assert_eq!(String::from_utf8_lossy(&output.stdout), summary);
    let complaints = String::from_utf8(output.stderr).unwrap();
    for said in [
        "twice: the name stands 2 times",
        "clipped: refused 30: ",
        "hard: refused 30: ",
        "lost: unmapped",
        "*: a read without a name",
        "xxx: its name is too long for a file",
    ] {
        assert!(complaints.contains(said), "{said}: {complaints}");
    }
    assert_eq!(complaints.lines().count(), 9);
    let expected =
        ["%2E.%2F..%2Fout.card", "%2E..card", "%2Fout.card", "A.card", "B.card", "lost.card", "m1%2F2%2Fccs.card"];
    assert_eq!(names(&cards), expected);
    assert_eq!(names(&folder), ["all.bam", "some"]);
    assert_eq!(names(&folder.join("some")), ["cards"]);
    for (name, records) in [("A.card", A), ("B.card", B), ("%2E..card", "strand 1\nexon 10 20 0 10 0 10M")] {
        assert_eq!(fs::read(cards.join(name)).unwrap(), card_of(&records.replace("cds 3 15\n", "")), "{name}");
    }
    assert_eq!(fs::read(cards.join("lost.card")).unwrap(), b"last week's");
}

#[test]
fn all_makes_its_folder_and_follows_no_link_out_of_it() {
    let folder = folder("all-links");
    let file = bam(&folder, "all.bam", &[line("A", 0, 11, "10M5N8M")]);
    let (cards, outside) = (folder.join("new").join("cards"), folder.join("outside"));
    let all = || pulindraxi(&["card", "--bam", text(&file), "--all", text(&cards)]);
    let output = all();
    assert_eq!((output.status.code(), &output.stdout[..]), (Some(0), &b"cards written: 1; refused: 0\n"[..]));
    fs::write(&outside, "as it was").unwrap();
    fs::remove_file(cards.join("A.card")).unwrap();
    std::os::unix::fs::symlink(&outside, cards.join("A.card")).unwrap();
    assert_eq!(all().status.code(), Some(0));
    assert_eq!(fs::read(&outside).unwrap(), b"as it was");
    assert_eq!(fs::read(cards.join("A.card")).unwrap(), card_of(&A.replace("cds 3 15\n", "")));

    let none = bam(&folder, "none.bam", &[]);
    let output = pulindraxi(&["card", "--bam", text(&none), "--all", text(&folder.join("empty"))]);
    assert_eq!(output.status.code(), Some(1));
    assert!(String::from_utf8_lossy(&output.stderr).contains("no alignment stands in it"));
    assert!(!folder.join("empty").exists());
    let output = pulindraxi(&["card", "--bam", text(&file), "--all", text(&outside)]);
    assert_eq!(output.status.code(), Some(1));
    assert!(String::from_utf8_lossy(&output.stderr).contains("outside: "));
}

// ---- Bytes that no tool writes

/// A block of BGZF that holds bytes as they are, by the SAM specification.
fn block(bytes: &[u8]) -> Vec<u8> {
    let size = 18 + 5 + bytes.len() + 8;
    let mut block = b"\x1f\x8b\x08\x04\0\0\0\0\0\xff\x06\0BC\x02\0".to_vec();
    block.extend((size as u16 - 1).to_le_bytes());
    block.push(1);
    block.extend((bytes.len() as u16).to_le_bytes());
    block.extend((!(bytes.len() as u16)).to_le_bytes());
    block.extend(bytes);
    let crc = bytes.iter().fold(!0u32, |crc, &byte| {
        (0..8).fold(crc ^ u32::from(byte), |crc, _| crc >> 1 ^ if crc & 1 == 1 { 0xedb8_8320 } else { 0 })
    });
    block.extend((!crc).to_le_bytes());
    block.extend((bytes.len() as u32).to_le_bytes());
    block
}

/// The block that ends a file of BGZF, byte for byte as the SAM specification has it.
const END: &[u8] = b"\x1f\x8b\x08\x04\0\0\0\0\0\xff\x06\0BC\x02\0\x1b\0\x03\0\0\0\0\0\0\0\0\0";

/// One alignment as BAM lays it out. The name has its last 0 with it.
struct Raw<'a> {
    reference: i32,
    position: i32,
    name: &'a [u8],
    flag: u16,
    words: &'a [u32],
    bases: usize,
}

const RAW: Raw<'static> = Raw { reference: 0, position: 10, name: b"NM_1\0", flag: 0, words: &[10 << 4], bases: 0 };

/// A BAM file of one alignment, and the same without BGZF around it.
fn raw(alignment: &Raw<'_>) -> (Vec<u8>, Vec<u8>) {
    let Raw { reference, position, name, flag, words, bases } = *alignment;
    let mut record = Vec::new();
    record.extend(reference.to_le_bytes());
    record.extend(position.to_le_bytes());
    record.extend([name.len() as u8, 60, 0, 0]);
    record.extend((words.len() as u16).to_le_bytes());
    record.extend(flag.to_le_bytes());
    record.extend((bases as i32).to_le_bytes());
    record.extend([-1i32, -1, 0].map(i32::to_le_bytes).concat());
    record.extend(name);
    record.extend(words.iter().flat_map(|word| word.to_le_bytes()));
    record.extend(vec![0x11; bases.div_ceil(2)]);
    record.extend(vec![0xff; bases]);
    let mut file = b"BAM\x01\0\0\0\0\x01\0\0\0\x05\0\0\0chr1\0\0\0\x01\0".to_vec();
    file.extend((record.len() as u32).to_le_bytes());
    file.extend(record);
    ([&block(&file)[..], END].concat(), file)
}

#[test]
fn words_and_names_that_no_tool_writes() {
    let folder = folder("raw");
    let write = |name: &str, alignment: &Raw<'_>| {
        let path = folder.join(name);
        fs::write(&path, raw(alignment).0).unwrap();
        path
    };
    let ten = card_of("strand 1\nexon 10 20 0 10 0 10M");
    assert_eq!(card_from(&write("whole", &RAW), &["--name", "NM_1"]), ten);
    assert_eq!(card_from(&write("sequence", &Raw { bases: 10, ..RAW }), &[]), ten);
    for code in 9..16 {
        let file = write(&format!("code-{code}"), &Raw { words: &[10 << 4, 3 << 4 | code], ..RAW });
        refused(&file, &[], &["NM_1: refused 30: ", &format!("word 2 has code {code}, length 3")]);
    }
    refused(&write("no-cigar", &Raw { words: &[], ..RAW }), &[], &["NM_1: it has no CIGAR"]);
    refused(&write("no-reference", &Raw { reference: -1, ..RAW }), &[], &["NM_1: unmapped"]);
    refused(&write("no-position", &Raw { position: -1, ..RAW }), &[], &["NM_1: unmapped"]);
    // htslib holds the CIGAR to the sequence.
    for bases in [9, 11] {
        refused(&write(&format!("bases-{bases}"), &Raw { bases, ..RAW }), &[], &["damaged or cut off at alignment 1"]);
    }
    let longest = (1 << 28) - 1;
    let wide = write("wide", &Raw { words: &[longest << 4, longest << 4 | 3, 1 << 4], ..RAW });
    let expected =
        "strand 1\nexon 10 268435465 0 268435455 0 268435455M\nexon 536870920 536870921 268435455 268435456 1 M\n";
    assert_eq!(card_from(&wide, &[]), card_of(expected));
    // What a name has behind its first 0 is no part of it, and one without any name is a read still.
    let odd = write("odd", &Raw { name: b"NM_1\0/../x\0", ..RAW });
    let output = pulindraxi(&["card", "--bam", text(&odd), "--name", "NM_1"]);
    assert!(output.stdout == ten || output.status.code() == Some(1));
    let nameless = write("nameless", &Raw { name: b"\0", ..RAW });
    let cards = folder.join("cards");
    let output = pulindraxi(&["card", "--bam", text(&nameless), "--all", text(&cards)]);
    assert_eq!(output.status.code(), Some(1), "{}", String::from_utf8_lossy(&output.stdout));
    assert!(!cards.exists() || names(&cards).is_empty());
}

#[test]
fn a_bam_file_without_blocks_cannot_show_its_end() {
    let folder = folder("naked");
    let naked = folder.join("naked.bam");
    fs::write(&naked, raw(&RAW).1).unwrap();
    refused(&naked, &[], &["its end marker is missing"]);
}

// ---- From an aligner

const BASES: [u8; 4] = *b"ACGT";

fn complement(base: u8) -> u8 {
    match base {
        b'A' => b'T',
        b'C' => b'G',
        b'G' => b'C',
        _ => b'A',
    }
}

/// A transcript that was cut from a genome: its bases, and which base of the genome each is, from 0; none for one that was put in.
struct Cut {
    strand: i32,
    bases: Vec<(u8, Option<usize>)>,
}

impl Draw {
    /// Another base than some.
    fn other(&mut self, than: &[u8]) -> u8 {
        let left: Vec<_> = BASES.into_iter().filter(|base| !than.contains(base)).collect();
        self.of(&left)
    }

    /// Cuts a transcript from a stretch of the genome. Introns are given their signals, and bases beside them by which no intron can be
    /// moved: what is cut there is told from what is left.
    fn cut(&mut self, genome: &mut [u8], mut at: usize, strand: i32) -> Cut {
        let mut bases = Vec::new();
        let exons = 2 + self.below(4);
        for exon in 0..exons {
            let end = at + 150 + self.below(250);
            let intron_end = end + 200 + self.below(900);
            if exon + 1 < exons {
                let (first, last) = if strand == 1 { (b"GT", b"AG") } else { (b"CT", b"AC") };
                genome[end..end + 2].copy_from_slice(first);
                genome[intron_end - 2..intron_end].copy_from_slice(last);
                genome[end - 1] = b'A';
                genome[intron_end] = b'T';
            }
            bases.extend((at..end).map(Some));
            at = intron_end;
        }
        let bases = bases.into_iter().map(|place: Option<usize>| (genome[place.unwrap()], place)).collect();
        Cut { strand, bases }
    }

    /// A place in the transcript that is far from its ends and from its introns.
    fn inside(&mut self, bases: &[(u8, Option<usize>)]) -> usize {
        loop {
            let at = 50 + self.below(bases.len() - 100);
            let around: Vec<_> = bases[at - 40..at + 40].iter().map(|&(_, place)| place).collect();
            let steady = |pair: &[Option<usize>]| matches!(pair, [Some(a), Some(b)] if a + 1 == *b);
            if around.windows(2).all(steady) {
                return at;
            }
        }
    }

    /// Exchanges a base, takes some out or puts some in, where it can be told which.
    fn change(&mut self, genome: &[u8], cut: &mut Cut) {
        let at = self.inside(&cut.bases);
        let place = cut.bases[at].1.unwrap();
        let long = 1 + self.below(4);
        match self.below(3) {
            0 => cut.bases[at].0 = self.other(&[genome[place]]),
            1 if genome[place] != genome[place + long] && genome[place - 1] != genome[place + long - 1] => {
                cut.bases.drain(at..at + long);
            }
            1 => (),
            _ => {
                let put: Vec<_> = (0..long).map(|_| (self.other(&[genome[place], genome[place - 1]]), None)).collect();
                cut.bases.splice(at..at, put);
            }
        }
    }

    /// A genome and transcripts of both strands, each in its own stretch; every other one differs a little from its genome.
    fn world(&mut self, count: usize) -> (Vec<u8>, Vec<Cut>) {
        const STRETCH: usize = 12_000;
        let mut genome: Vec<u8> = (0..(count + 1) * STRETCH).map(|_| self.of(&BASES)).collect();
        let mut cuts = Vec::new();
        for index in 0..count {
            let strand = if index % 2 == 0 { 1 } else { -1 };
            let mut cut = self.cut(&mut genome, index * STRETCH + 2_000, strand);
            for _ in 0..if index % 4 < 2 { 0 } else { 3 } {
                self.change(&genome, &mut cut);
            }
            if strand == -1 {
                cut.bases.reverse();
                cut.bases.iter_mut().for_each(|(base, _)| *base = complement(*base));
            }
            cuts.push(cut);
        }
        (genome, cuts)
    }
}

#[test]
fn an_aligners_file_maps_every_base_to_where_it_was_cut() {
    let folder = folder("aligner");
    let (genome, cuts) = Draw(4_711).world(24);
    // On both strands there are transcripts into which bases were put, and some from which they were taken.
    for strand in [1, -1] {
        let own = || cuts.iter().filter(|cut| cut.strand == strand).flat_map(|cut| cut.bases.windows(2));
        let taken = |a: usize, b: usize| (2..9).contains(&a.abs_diff(b));
        assert!(own().any(|pair| pair[0].1.is_none()));
        assert!(own().any(|pair| matches!((pair[0].1, pair[1].1), (Some(a), Some(b)) if taken(a, b))));
    }
    let (genome_file, reads_file) = (folder.join("genome.fa"), folder.join("reads.fa"));
    fs::write(&genome_file, [b">chr1\n", &genome[..], b"\n"].concat()).unwrap();
    let read = |(index, cut): (usize, &Cut)| {
        let bases: Vec<_> = cut.bases.iter().map(|&(base, _)| base).collect();
        format!(">NM_{index}.1\n{}\n", String::from_utf8(bases).unwrap())
    };
    fs::write(&reads_file, cuts.iter().enumerate().map(read).collect::<String>()).unwrap();
    for (kind, options) in [("both", &[][..]), ("forward", &["-uf"]), ("eqx", &["-uf", "--eqx"])] {
        let aligned = [&["-ax", "splice"], options, &[text(&genome_file), text(&reads_file)]].concat();
        let file = folder.join(format!("{kind}.bam"));
        made("samtools", &["sort", "-o", text(&file), "-"], &made("minimap2", &aligned, b""));
        for (index, cut) in cuts.iter().enumerate() {
            let card = folder.join(format!("{kind}-{index}.card"));
            card_from(&file, &["--name", &format!("NM_{index}.1"), "--output", text(&card)]);
            let transcript = Transcript::from_card(&fs::read(&card).unwrap()).unwrap();
            assert_eq!(transcript.strand(), cut.strand);
            assert_eq!(transcript.transcript_length() as usize, cut.bases.len());
            for (&(_, place), base) in cut.bases.iter().zip(1..) {
                let g = transcript.n_to_g(n(base), Bounds::Strict).unwrap();
                let Some(place) = place else {
                    assert!(!g.is_certain(), "{kind} NM_{index}.1 n.{base} is {g}, and was put in");
                    continue;
                };
                assert_eq!(g.to_string(), format!("g.{}", place + 1), "{kind} NM_{index}.1 n.{base}");
                let back = transcript.g_to_n(GInterval::at(place as i32 + 1), Bounds::Strict).unwrap();
                assert_eq!(back.to_string(), format!("n.{base}"), "{kind} NM_{index}.1");
            }
        }
    }
}
