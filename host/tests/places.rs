//! The table of places of document 01, asked through the safe functions.

use pulindraxi::{alleles, cigar, Bounds, Element, Exon, Input, Refusal, Room, Transcript};

/// Transcript A, or B on strand -1.
fn transcript(strand: i32) -> Transcript {
    let tx = if strand == 1 { [[0, 10], [10, 18]] } else { [[8, 18], [0, 8]] };
    let exon = |alt: [i32; 2], tx: [i32; 2], cigar| Exon {
        alt_start_i: alt[0],
        alt_end_i: alt[1],
        tx_start_i: tx[0],
        tx_end_i: tx[1],
        ord: tx[0],
        cigar,
    };
    let exons = [exon([10, 20], tx[0], b"10M"), exon([25, 33], tx[1], b"8M")];
    Transcript::build(&Input { strand, cds_start: Some(3), cds_end: Some(15), exons: &exons }).unwrap()
}

/// One exon without a CDS.
fn alone(start: i32, end: i32, length: i32, cigar: &[u8]) -> Transcript {
    let exons = [Exon { alt_start_i: start, alt_end_i: end, tx_start_i: 0, tx_end_i: length, ord: 0, cigar }];
    Transcript::build(&Input { strand: 1, cds_start: None, cds_end: None, exons: &exons }).unwrap()
}

/// An answer's name, or the refusal's number.
fn said<T: ToString>(answer: Result<T, Refusal>) -> String {
    answer.map_or_else(|refusal| refusal.number().to_string(), |name| name.to_string())
}

fn g_to_n(room: &Room, g: &str, bounds: Bounds) -> String {
    said(room.g_to_n(g.parse().unwrap(), bounds))
}

fn g_to_c(room: &Room, g: &str, bounds: Bounds) -> String {
    said(room.g_to_c(g.parse().unwrap(), bounds))
}

#[test]
fn p1_to_p9_on_a() {
    let a = transcript(1);
    for (g, n, c) in [
        ("g.11", "n.1", "c.-3"),
        ("g.13", "n.3", "c.-1"),
        ("g.14", "n.4", "c.1"),
        ("g.21", "n.10+1", "c.7+1"),
        ("g.23", "n.10+3", "c.7+3"),
        ("g.24", "n.11-2", "c.8-2"),
        ("g.33", "n.18", "c.*3"),
        ("g.34", "14", "14"),
        ("g.35", "14", "14"),
        ("g.10", "14", "14"),
    ] {
        assert_eq!(g_to_n(&a, g, Bounds::Strict), n, "{g}");
        assert_eq!(g_to_c(&a, g, Bounds::Strict), c, "{g}");
    }
    assert_eq!(g_to_n(&a, "g.10", Bounds::Lenient), "n.-1");
    assert_eq!(g_to_c(&a, "g.10", Bounds::Lenient), "c.-4");
}

#[test]
fn c_leads_back_on_a() {
    let a = transcript(1);
    for (c, n, g) in [("c.-3", "n.1", "g.11"), ("c.7+3", "n.10+3", "g.23"), ("c.*3", "n.18", "g.33")] {
        assert_eq!(said(a.c_to_n(c.parse().unwrap(), Bounds::Strict)), n);
        assert_eq!(said(a.n_to_c(n.parse().unwrap(), Bounds::Strict)), c);
        assert_eq!(said(a.c_to_g(c.parse().unwrap(), Bounds::Strict)), g);
        assert_eq!(said(a.n_to_g(n.parse().unwrap(), Bounds::Strict)), g);
    }
}

#[test]
fn p10_and_p11_on_b_with_the_exchange() {
    let b = transcript(-1);
    assert_eq!(g_to_n(&b, "g.33", Bounds::Strict), "n.1");
    assert_eq!(g_to_n(&b, "g.23", Bounds::Strict), "n.8+3");
    assert_eq!(g_to_c(&b, "g.23", Bounds::Strict), "c.5+3");
    assert_eq!(g_to_n(&b, "g.11_33", Bounds::Strict), "n.1_18");
    assert_eq!(g_to_n(&b, "g.22_33", Bounds::Strict), "n.1_9-2");
    assert_eq!(said(b.n_to_g("n.1_18".parse().unwrap(), Bounds::Strict)), "g.11_33");
}

#[test]
fn p12_and_p13_are_uncertain() {
    let inserted = alone(100, 110, 8, b"4M2I4M");
    assert_eq!(g_to_n(&inserted, "g.105_105", Bounds::Strict), "n.(4_5)");
    let deleted = alone(100, 108, 10, b"4M2D4M");
    assert_eq!(said(deleted.n_to_g("n.5_5".parse().unwrap(), Bounds::Strict)), "g.(104_105)");
    assert_eq!(g_to_n(&deleted, "g.105", Bounds::Strict), "n.7");
}

#[test]
fn at_and_behind_both_ends_of_either_strand() {
    for strand in [1, -1] {
        let room = transcript(strand);
        let n_to_g = |n: &str, bounds| said(room.n_to_g(n.parse().unwrap(), bounds));
        let n_to_c = |n: &str, bounds| said(room.n_to_c(n.parse().unwrap(), bounds));
        for g in ["g.34", "g.10", "g.11_34", "g.34_11", "g.10_33", "g.33_10"] {
            assert_eq!(g_to_n(&room, g, Bounds::Strict), "14", "{g}");
            assert_eq!(g_to_c(&room, g, Bounds::Strict), "14", "{g}");
        }
        for n in ["n.19", "n.-1", "n.1_19", "n.19_1", "n.-1_18", "n.18_-1"] {
            assert_eq!(n_to_g(n, Bounds::Strict), "14", "{n}");
            assert_eq!(n_to_c(n, Bounds::Strict), "15", "{n}");
        }
        assert_eq!(n_to_c("n.1_0", Bounds::Strict), "15");
        assert_eq!(n_to_g("n.1_18", Bounds::Strict), "g.11_33");
        assert_eq!(n_to_c("n.18_1", Bounds::Strict), "c.*3_-3");
        // Lenient mappings number what lies outside.
        let [before, after] = if strand == 1 { ["g.10", "g.34"] } else { ["g.34", "g.10"] };
        assert_eq!([n_to_g("n.-1", Bounds::Lenient), n_to_g("n.19", Bounds::Lenient)], [before, after]);
        assert_eq!([g_to_n(&room, before, Bounds::Lenient), g_to_n(&room, after, Bounds::Lenient)], ["n.-1", "n.19"]);
        assert_eq!(n_to_c("n.19_-1", Bounds::Lenient), "c.*4_-4");
    }
}

#[test]
fn a_number_beside_the_last_base_has_no_c() {
    let exons = [Exon { alt_start_i: 0, alt_end_i: 6, tx_start_i: 0, tx_end_i: 4, ord: 0, cigar: b"4M2I" }];
    let room = Transcript::build(&Input { strand: 1, cds_start: Some(0), cds_end: Some(4), exons: &exons }).unwrap();
    assert_eq!(g_to_n(&room, "g.5", Bounds::Strict), "n.(4_5)");
    assert_eq!(g_to_c(&room, "g.5", Bounds::Strict), "15");
}

#[test]
fn a_cigar_spans_its_bounds() {
    let exon = |alt: [i32; 2], ord, cigar| Exon {
        alt_start_i: alt[0],
        alt_end_i: alt[1],
        tx_start_i: 0,
        tx_end_i: 0,
        ord,
        cigar,
    };
    let build = |exons: &[Exon<'_>]| {
        Transcript::build(&Input { strand: 1, cds_start: None, cds_end: None, exons }).err().map_or(0, Refusal::number)
    };
    assert_eq!(build(&[exon([10, 14], 0, b"4M")]), 0);
    for (end, cigar) in [(17, &b"4M"[..]), (13, b"4M"), (14, b"4M2I"), (16, b"4M2D"), (11, b"")] {
        assert_eq!(build(&[exon([10, end], 0, cigar)]), 32);
    }
    // After the record's own elements, before the next record.
    assert_eq!(build(&[exon([10, 17], 0, b"4MS")]), 7);
    assert_eq!(build(&[exon([10, 17], 0, b"4M"), exon([20, 21], 1, b"S")]), 32);
    assert_eq!(build(&[exon([10, 10], 0, b"2147483647M2147483647M2M")]), 32);
}

#[test]
fn p14_and_p15() {
    let elements = cigar::read(b"M0X3=").unwrap();
    assert_eq!(elements, [Element::new(1, b'M'), Element::new(0, b'X'), Element::new(3, b'=')]);
    assert_eq!(cigar::write(&elements).unwrap(), b"M0X3=");
    assert_eq!(alleles::trim_prefix(b"ACGT", b"ACT"), (2, &b"GT"[..], &b"T"[..]));
    assert_eq!(alleles::changed(b"ACGT", b"ACT"), alleles::Changed::Reference(b"G"));
}

#[test]
fn questions_of_yes_and_no() {
    let a = transcript(1);
    assert_eq!(a.is_coding(), Ok(true));
    for (g, is_in) in [
        ("g.11_33", true),
        ("g.33_11", true),
        ("g.11_34", false),
        ("g.34_11", false),
        ("g.10_33", false),
        ("g.33_10", false),
    ] {
        assert_eq!(a.is_in_bounds(g.parse().unwrap()), Ok(is_in), "{g}");
    }
    assert_eq!(a.is_in_bounds("g.?_33".parse().unwrap()), Err(Refusal::MissingEnd));
    assert_eq!(alone(0, 1, 1, b"M").is_coding(), Ok(false));
}

#[test]
fn segments_and_lengths() {
    let a = transcript(1);
    let lines: Vec<_> = a.segments().map(|s| (s.letter, s.genome, s.transcript, s.count)).collect();
    assert_eq!(lines, [(b'M', 0, 0, 10), (b'N', 10, 10, 5), (b'M', 15, 10, 8)]);
    assert_eq!((a.strand(), a.segment_count(), a.genome_length(), a.transcript_length()), (1, 3, 23, 18));
    let exons = |room: &Room| room.segments().map(|segment| segment.exon).collect::<Vec<_>>();
    assert_eq!((exons(&a), a.record_count()), (vec![1, 1, 2], 2));
    assert_eq!(exons(&transcript(-1)), [2, 2, 1]);
    assert_eq!(Transcript::of_length(18, None, None).unwrap().record_count(), 0);
}

#[test]
fn exons_of_both_ends() {
    for (strand, g, exons) in [
        (1, "g.11", [1, 1]),
        (1, "g.23", [1, 1]),
        (1, "g.24", [2, 2]),
        (1, "g.11_33", [1, 2]),
        (-1, "g.33", [1, 1]),
        (-1, "g.23", [1, 1]),
        (-1, "g.22", [2, 2]),
        (-1, "g.11_33", [1, 2]),
    ] {
        let room = transcript(strand);
        let n = room.g_to_n(g.parse().unwrap(), Bounds::Strict).unwrap().interval();
        let c = room.g_to_c(g.parse().unwrap(), Bounds::Strict).unwrap().interval();
        assert_eq!([n.start.exon, n.end.exon], exons.map(Some), "{g}, strand {strand}");
        assert_eq!([c.start.exon, c.end.exon], exons.map(Some), "{g}, strand {strand}");
        // Back on the genome they stand with their ends.
        let on_genome = if strand == 1 { exons } else { [exons[1], exons[0]] };
        let from_n = room.n_to_g(n.into(), Bounds::Strict).unwrap().interval();
        let from_c = room.c_to_g(c.into(), Bounds::Strict).unwrap().interval();
        assert_eq!([from_n.start.exon, from_n.end.exon], on_genome, "{g}, strand {strand}");
        assert_eq!(from_c, from_n);
        // Without the genome there is none.
        let c = room.n_to_c(n.into(), Bounds::Strict).unwrap();
        let n = room.c_to_n(c.into(), Bounds::Strict).unwrap();
        assert_eq!([c.start.exon, c.end.exon, n.start.exon, n.end.exon], [None; 4]);
    }
}

#[test]
fn exon_numbers_that_do_not_run_are_refused() {
    let number = |change: &dyn Fn(&mut Room)| {
        let mut room = Room::new();
        room.clone_from(&transcript(1));
        change(&mut room);
        room.is_coding().err().map_or(0, Refusal::number)
    };
    assert_eq!(number(&|_| ()), 0);
    assert_eq!(number(&|room| room.exons[3] = 7), 0);
    for index in 0..3 {
        assert_eq!(number(&|room| room.exons[index] += 1), 23);
        assert_eq!(number(&|room| room.exons[index] -= 1), 23);
    }
    for count in [i32::MIN, -1, 0, 1, 3, 512, 513, i32::MAX] {
        assert_eq!(number(&|room| room.head.record_count = count), 23, "{count}");
    }
    // The gap becomes an N inside the one record.
    assert_eq!(number(&|room| (room.exons[2], room.head.record_count) = (1, 1)), 0);
}

#[test]
fn a_cigar_beyond_a_cards_size_is_too_much() {
    let text = vec![b'M'; 70_000];
    let exon = |cigar, ord| Exon { alt_start_i: 0, alt_end_i: 0, tx_start_i: 0, tx_end_i: 0, ord, cigar };
    let build = |exons: &[Exon<'_>]| {
        Transcript::build(&Input { strand: 1, cds_start: None, cds_end: None, exons }).unwrap_err()
    };
    assert_eq!(build(&[exon(&text, 0)]), Refusal::TooMuch);
    assert_eq!(build(&[exon(&text, 0), exon(b"M", 0)]), Refusal::BadOrd);
}

/// Ask 6, worked by hand: a g. interval with two alleles, and what stands of it on A and on B.
#[test]
fn alleles_are_read_as_the_transcript_reads_them() {
    for (g, reference, alternative, on_a, on_b) in [
        ("g.23", "A", "G", "c.7+3 0 0 A>G", "c.5+3 0 0 T>C"),
        ("g.24", "A", "G", "c.8-2 0 0 A>G", "c.5+2 0 0 T>C"),
        ("g.22_23", "", "TT", "c.7+2_7+3 0 0 >TT", "c.5+3_6-2 0 0 >AA"),
        ("g.12_13", "", "C", "c.-2_-1 0 0 >C", "c.*1_*2 0 0 >G"),
        // CAC is GTG from the other side, and loses the front there as here.
        ("g.12_14", "CAC", "C", "c.-2_1 1 0 AC>", "c.12_*2 1 0 TG>"),
        // GTT against GT: what is the back of AAC is the front there.
        ("g.12_14", "AAC", "AC", "c.-2_1 1 1 A>", "c.12_*2 2 0 T>"),
        ("g.12_14", "ACG", "TCG", "c.-2_1 0 2 A>T", "c.12_*2 2 0 T>A"),
        ("g.12_14", "acg", "ACG", "c.-2_1 0 0 acg>ACG", "c.12_*2 0 0 cgt>CGT"),
        ("g.14", "T", "T", "c.1 1 0 >", "c.12 1 0 >"),
        ("g.11_25", "ACGTRYKMBDHVSWN", "", "c.-3_8-1 0 0 ACGTRYKMBDHVSWN>", "c.5+1_*3 0 0 NWSBDHVKMRYACGT>"),
        // The order: 34, 20 (here there is room), then the mapping's.
        ("g.34", "A", "u", "34", "34"),
        ("g.?_12", "", "-", "34", "34"),
        ("g.34", "A", "G", "14", "14"),
        ("g.?_12", "A", "G", "19", "19"),
    ] {
        let (g, r, a) = (g.parse().unwrap(), reference.as_bytes(), alternative.as_bytes());
        for (strand, expected) in [(1, on_a), (-1, on_b)] {
            let joined = transcript(strand).g_to_c_alleles(g, Bounds::Strict, r, a).map(|joined| {
                let [r, a] = [joined.reference, joined.alternative].map(|left| String::from_utf8(left).unwrap());
                format!("{} {} {} {r}>{a}", joined.c, joined.prefix, joined.suffix)
            });
            assert_eq!(said(joined), expected, "{g} {reference} {alternative}, strand {strand}");
        }
    }
}

#[test]
fn what_is_lent_for_alleles_stays_where_they_are_refused() {
    let length = Transcript::of_length(18, Some(3), Some(15)).unwrap();
    let (a, not_built) = (transcript(1), Room::new());
    for (room, r, a, rooms, number) in [
        (&not_built, "U", "G", [0, 0], 23),
        (&*length, "U", "G", [0, 0], 34),
        (&*length, "AG", "A", [0, 0], 20),
        (&*length, "AG", "A", [1, 0], 18),
        (&*a, "A", "AGG", [0, 1], 20),
        (&*alone(0, 9, 9, b"9M"), "A", "AGG", [0, 2], 13),
        (&*a, "A", "AGG", [0, 2], 14),
    ] {
        let [mut front, mut back] = rooms.map(|length| vec![b'.'; length]);
        let g = "g.9".parse().unwrap();
        let joined =
            room.g_to_c_alleles_into(g, Bounds::Strict, r.as_bytes(), a.as_bytes(), &mut front, &mut back).err();
        assert_eq!(joined.map(Refusal::number), Some(number), "{r} {a} {rooms:?}");
        assert!(front.iter().chain(&back).all(|&letter| letter == b'.'));
    }
}
