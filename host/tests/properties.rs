//! What holds of any input, tried on random ones: what was written reads back, names lead back to their bases, and no bytes
//! and no damage bring more than a refusal that leaves lent memory as it was.

use proptest::{collection::vec, prelude::*, sample::select};
use pulindraxi::{
    alleles,
    asked::{CInterval, CPosition, GInterval, NInterval, NPosition},
    boundary::{self, Head},
    cigar, log, Answer, Bounds, Element, Exon, Input, Log, Question, Refusal, Room, Slot, Transcript,
};

/// Elements with counts from 0 on.
fn elements(most: usize) -> impl Strategy<Value = Vec<Element>> {
    let element = (0..30i32, select(&b"=DIMNX"[..])).prop_map(|(count, letter)| Element::new(count, letter));
    vec(element, 0..most)
}

/// A record's elements and the gap before it.
type Part = (Vec<Element>, i32);

fn reach(elements: &[Element], still: &[u8]) -> i32 {
    elements.iter().filter(|e| !still.contains(&e.letter)).map(|e| e.count).sum()
}

/// Calls a function with building's input of records that match their CIGARs.
fn with_input<T>(strand: i32, first: i32, parts: &[Part], coding: bool, f: impl FnOnce(&Input<'_>) -> T) -> T {
    let texts: Vec<_> = parts.iter().map(|(elements, _)| cigar::write(elements).unwrap()).collect();
    let total: i32 = parts.iter().map(|(elements, _)| reach(elements, b"IN")).sum();
    let (mut alt, mut tx) = (first, if strand == 1 { 0 } else { total });
    let mut exons = Vec::new();
    for (index, ((elements, gap), cigar)) in parts.iter().zip(&texts).enumerate() {
        let (start, long) = (alt + gap, reach(elements, b"IN"));
        alt = start + reach(elements, b"D");
        let tx_start = if strand == 1 { tx } else { tx - long };
        tx += strand * long;
        exons.push(Exon {
            alt_start_i: start,
            alt_end_i: alt,
            tx_start_i: tx_start,
            tx_end_i: tx_start + long,
            ord: strand * index as i32,
            cigar,
        });
    }
    let cds = coding.then_some((total / 3, total - total / 4));
    f(&Input { strand, cds_start: cds.map(|c| c.0), cds_end: cds.map(|c| c.1), exons: &exons })
}

/// Strand, first start, records and whether it codes.
fn transcripts() -> impl Strategy<Value = (i32, i32, Vec<Part>, bool)> {
    (select(&[1, -1][..]), 0..1000i32, vec((elements(5), 0..9i32), 1..6), any::<bool>())
}

/// The letters that can be turned.
const LETTERS: &[u8] = b"ACGTRYKMBDHVSWNacgtrykmbdhvswn";

/// So many letters at most: any, or of two alone.
fn allele(most: usize) -> impl Strategy<Value = Vec<u8>> {
    prop_oneof![vec(select(LETTERS), 0..most), vec(select(&b"CG"[..]), 0..most)]
}

/// A reference and an alternative with something in common at both ends.
fn two_alleles() -> impl Strategy<Value = (Vec<u8>, Vec<u8>)> {
    (allele(4), allele(4), allele(4), allele(4)).prop_map(|(front, r, a, back)| {
        let whole = |middle: &[u8]| [&front[..], middle, &back].concat();
        (whole(&r), whole(&a))
    })
}

fn bounds() -> impl Strategy<Value = Bounds> {
    select(&[Bounds::Strict, Bounds::Lenient][..])
}

/// A number at a limit, small, or any.
fn number() -> impl Strategy<Value = i32> {
    prop_oneof![
        select(&[i32::MIN, -2_000_000_001, -1, 0, 1, 2_047, 2_048, 2_049, 2_000_000_000, 2_000_000_001, i32::MAX][..]),
        -20..60i32,
        any::<i32>(),
    ]
}

/// A question of the six mappings, most of them near a transcript that begins where [`transcripts`] do.
fn questions() -> impl Strategy<Value = Question> {
    let near = || prop_oneof![4 => -5..300i32, 1 => number()];
    let offset = || prop_oneof![4 => Just(0), 4 => -5..5i32, 1 => number()];
    let end = || (near(), offset(), any::<bool>());
    (0..6u8, end(), end(), proptest::option::weighted(0.05, any::<bool>()), bounds()).prop_map(
        |(kind, (a, a_offset, a_star), (b, b_offset, b_star), missing, bounds)| {
            let g = match missing {
                None => GInterval::new(a, b),
                Some(is_start) if is_start => GInterval { start: None, end: Some(b) },
                Some(_) => GInterval { start: Some(a), end: None },
            };
            let n = NInterval::new(NPosition::new(a, a_offset), NPosition::new(b, b_offset));
            let c = |base, offset, star| CPosition { base, offset, star };
            let c = CInterval::new(c(a, a_offset, a_star), c(b, b_offset, b_star));
            match kind {
                0 => Question::GToN(g, bounds),
                1 => Question::NToG(n, bounds),
                2 => Question::NToC(n, bounds),
                3 => Question::CToN(c, bounds),
                4 => Question::GToC(g, bounds),
                _ => Question::CToG(c, bounds),
            }
        },
    )
}

/// What the mapping says that a question names.
fn named(room: &Room, question: Question) -> Result<Answer, Refusal> {
    match question {
        Question::GToN(g, bounds) => room.g_to_n(g, bounds).map(Answer::N),
        Question::NToG(n, bounds) => room.n_to_g(n, bounds).map(Answer::G),
        Question::NToC(n, bounds) => room.n_to_c(n, bounds).map(Answer::UnmarkedC),
        Question::CToN(c, bounds) => room.c_to_n(c, bounds).map(Answer::UnmarkedN),
        Question::GToC(g, bounds) => room.g_to_c(g, bounds).map(Answer::C),
        Question::CToG(c, bounds) => room.c_to_g(c, bounds).map(Answer::G),
    }
}

proptest! {
    #![proptest_config(ProptestConfig { cases: 4096, failure_persistence: None, ..ProptestConfig::default() })]

    #[test]
    fn written_elements_read_back(elements in elements(60)) {
        let text = cigar::write(&elements).unwrap();
        prop_assert_eq!(cigar::read(&text).unwrap(), elements);
    }

    #[test]
    fn elements_come_back_from_words(elements in vec((0..1 << 28, select(&b"=DIMNX"[..])), 0..60)) {
        let elements: Vec<_> = elements.into_iter().map(|(count, letter)| Element::new(count, letter)).collect();
        prop_assert_eq!(cigar::from_bam_words(&cigar::to_bam_words(&elements).unwrap()).unwrap(), elements);
    }

    #[test]
    fn words_come_back_from_elements(words in vec((0..1u32 << 28, select(&[0, 1, 2, 3, 7, 8][..])), 0..60)) {
        let words: Vec<u32> = words.into_iter().map(|(length, operation)| length << 4 | operation).collect();
        prop_assert_eq!(cigar::to_bam_words(&cigar::from_bam_words(&words).unwrap()).unwrap(), words);
    }

    /// The text of what is read from words is the aligner's own with I and D exchanged.
    #[test]
    fn words_and_text_meet(words in vec((0..9_999u32, select(&[0, 1, 2, 3, 7, 8][..])), 0..60)) {
        let aligners: String = words.iter().map(|&(length, code)| format!("{length}{}", &"MIDNSHP=X"[code..=code])).collect();
        let exchanged: String = aligners.chars().map(|c| match c { 'I' => 'D', 'D' => 'I', other => other }).collect();
        let words: Vec<u32> = words.into_iter().map(|(length, code)| length << 4 | code as u32).collect();
        prop_assert_eq!(cigar::from_bam_words(&words), cigar::read(exchanged.as_bytes()));
    }

    #[test]
    fn any_words_are_read_or_refused(words in vec(any::<u32>(), 0..6), faulty in any::<bool>()) {
        let words: Vec<u32> = words.into_iter().map(|word| if faulty { word } else { word & !15 | 7 }).collect();
        let known = words.iter().all(|word| [0, 1, 2, 3, 7, 8].contains(&(word & 15)));
        prop_assert_eq!(cigar::from_bam_words(&words).err(), (!known).then_some(Refusal::NoOperation));
    }

    #[test]
    fn a_short_slice_of_words_stays(elements in elements(20), room in 0..20usize) {
        let mut words = vec![7; room];
        match cigar::to_bam_words_into(&elements, &mut words) {
            Ok(length) => {
                prop_assert_eq!(length, elements.len());
                prop_assert_eq!(&words[..length], &cigar::to_bam_words(&elements).unwrap()[..]);
                prop_assert!(words[length..].iter().all(|&word| word == 7));
            }
            Err(refusal) => {
                prop_assert_eq!(refusal, Refusal::NoRoom);
                prop_assert!(room < elements.len() && words.iter().all(|&word| word == 7));
            }
        }
    }

    #[test]
    fn a_card_builds_what_it_was_written_from((strand, first, parts, coding) in transcripts()) {
        with_input(strand, first, &parts, coding, |input| {
            match (input.card(), Transcript::build(input)) {
                (Ok(card), Ok(built)) => prop_assert_eq!(Transcript::from_card(&card).unwrap(), built),
                (card, built) => prop_assert_eq!(card.unwrap_err(), built.unwrap_err()),
            }
            Ok(())
        })?;
    }

    #[test]
    fn matched_bases_lead_back((strand, first, parts, coding) in transcripts(), at in any::<u32>()) {
        let built = with_input(strand, first, &parts, coding, Transcript::build);
        prop_assume!(built.is_ok());
        let room = built.unwrap();
        let matched: Vec<_> = room.segments().filter(|s| b"=MX".contains(&s.letter) && s.count > 0).collect();
        prop_assume!(!matched.is_empty());
        let segment = matched[at as usize % matched.len()];
        let g = GInterval::at(room.head.first_start + 1 + (segment.genome + at % segment.count) as i32);
        let n = room.g_to_n(g, Bounds::Strict).unwrap();
        let back = room.n_to_g(n.interval().into(), Bounds::Strict).unwrap();
        prop_assert!(n.is_certain() && back.is_certain());
        prop_assert_eq!(GInterval::from(back.interval()), g);
        if coding {
            let c = room.g_to_c(g, Bounds::Strict).unwrap();
            let back = room.c_to_g(c.interval().into(), Bounds::Strict).unwrap();
            prop_assert!(c.is_certain() && back.is_certain());
            prop_assert_eq!(GInterval::from(back.interval()), g);
        }
    }

    /// Of the first base of each element of each record.
    #[test]
    fn an_exon_is_its_record((strand, first, parts, coding) in transcripts()) {
        if let Ok(room) = with_input(strand, first, &parts, coding, Transcript::build) {
            let mut at = first + 1;
            for (index, (elements, gap)) in parts.iter().enumerate() {
                let exon = if strand == 1 { index + 1 } else { parts.len() - index } as u32;
                at += gap;
                // A record's CIGAR is in transcript direction.
                let ordered: Vec<_> = if strand == 1 { elements.clone() } else { elements.iter().rev().copied().collect() };
                for element in ordered.iter().filter(|element| element.letter != b'D') {
                    if element.count > 0 {
                        let n = room.g_to_n(GInterval::at(at), Bounds::Strict).unwrap().interval();
                        prop_assert_eq!([n.start.exon, n.end.exon], [Some(exon); 2]);
                    }
                    at += element.count;
                }
            }
        }
    }

    /// The second half of document 02's sentence on demand 3: exons move up by the number of records that are added upstream.
    #[test]
    fn records_upstream_move_exons_up((strand, first, parts, coding) in transcripts(), added in vec((elements(5), 0..9i32), 1..4)) {
        let before: i32 = added.iter().map(|(elements, gap)| gap + reach(elements, b"D")).sum();
        let (longer, from) = match strand {
            1 => ([&added[..], &parts[..]].concat(), first - before),
            _ => ([&parts[..], &added[..]].concat(), first),
        };
        prop_assume!(from >= 0);
        let shorter = with_input(strand, first, &parts, coding, Transcript::build);
        let longer = with_input(strand, from, &longer, coding, Transcript::build);
        if let (Ok(shorter), Ok(longer)) = (shorter, longer) {
            let by = added.len() as u32;
            for place in 0..shorter.genome_length() {
                let g = GInterval::at(shorter.head.first_start + 1 + place as i32);
                let exons = |room: &Room| {
                    let n = room.g_to_n(g, Bounds::Strict).unwrap().interval();
                    [n.start, n.end].map(|end| end.exon.unwrap())
                };
                prop_assert_eq!(exons(&longer), exons(&shorter).map(|exon| exon + by));
            }
        }
    }

    #[test]
    fn strict_answers_are_lenient_ones((strand, first, parts, coding) in transcripts(), g in number(), h in -5..300i32) {
        if let Ok(room) = with_input(strand, first, &parts, coding, Transcript::build) {
            for g in [GInterval::at(g), GInterval::at(first + h), GInterval::new(first + h, first + h + 3)] {
                if let Ok(n) = room.g_to_n(g, Bounds::Strict) {
                    prop_assert_eq!(room.g_to_n(g, Bounds::Lenient), Ok(n));
                }
            }
        }
    }

    #[test]
    fn a_worklist_answers_as_each_position_alone((strand, first, parts, coding) in transcripts(), mut steps in vec(-5..300i32, 0..30), sorted in any::<bool>()) {
        if let Ok(room) = with_input(strand, first, &parts, coding, Transcript::build) {
            if sorted {
                steps.sort_unstable();
            }
            let mut slots: Vec<_> = steps.iter().map(|step| Slot::new(first + step)).collect();
            let before = slots.clone();
            match room.worklist(&mut slots) {
                Ok(stepped) => {
                    prop_assert!(steps.is_sorted() && (stepped as usize) < room.segment_count());
                    for (slot, asked) in slots.iter().zip(&before) {
                        prop_assert_eq!(slot.position, asked.position);
                        prop_assert_eq!(slot.n(), room.g_to_n(GInterval::at(slot.position), Bounds::Strict));
                    }
                }
                Err(refusal) => {
                    prop_assert_eq!(refusal, Refusal::Falling);
                    prop_assert!(!steps.is_sorted() && slots == before);
                }
            }
        }
    }

    #[test]
    fn any_bytes_as_a_card(bytes in vec(any::<u8>(), 0..200), known in 0..6usize) {
        let mut card = bytes;
        for (byte, mark) in card.iter_mut().zip(b"TXC\x01\x00").take(known) {
            *byte = *mark;
        }
        let mut room = Box::new(Room::new());
        room.head = Head::filled(7);
        let before = room.clone();
        if room.build_card(&card).is_err() {
            prop_assert!(room == before);
        }
    }

    #[test]
    fn a_damaged_card((strand, first, parts, coding) in transcripts(), at in any::<usize>(), byte in any::<u8>(), cut in any::<bool>()) {
        if let Ok(mut card) = with_input(strand, first, &parts, coding, |input| input.card()) {
            let at = at % card.len();
            if cut { card.truncate(at) } else { card[at] = byte }
            let mut room = Box::new(Room::new());
            let before = room.clone();
            match room.build_card(&card) {
                Ok(()) => prop_assert!(room.is_coding().is_ok()),
                Err(_) => prop_assert!(room == before),
            }
        }
    }

    #[test]
    fn damaged_memory_is_asked((strand, first, parts, coding) in transcripts(), wounds in vec((0..5u8, 0..12usize, number()), 0..3),
                               a in number(), ao in number(), b in number(), bo in number(), bounds in bounds()) {
        let mut room = Box::new(Room::new());
        let built = with_input(strand, first, &parts, coding, |input| room.build(input));
        let whole = built.is_ok() && wounds.is_empty();
        for (table, index, number) in wounds {
            match table {
                0 => {
                    let mut numbers = room.head.numbers();
                    numbers[index % Head::COUNT] = number;
                    room.head = numbers.into();
                }
                1 => room.genome[index] = number as u32,
                2 => room.transcript[index] = number as u32,
                3 => room.letters[index] = number as u8,
                _ => room.exons[index] = number as u16,
            }
        }
        let before = room.clone();
        let together = room.is_coding() != Err(Refusal::NotTogether);
        prop_assert!(together || !whole);
        let n = NInterval::new(NPosition::new(a, ao), NPosition::new(b, bo));
        let c = CInterval::new(CPosition::new(a, ao), CPosition::star(b, bo));
        let g = GInterval::new(a, b);
        let refused = [
            room.g_to_n(g, bounds).err(),
            room.g_to_c(g, bounds).err(),
            room.n_to_g(n, bounds).err(),
            room.n_to_c(n, bounds).err(),
            room.c_to_n(c, bounds).err(),
            room.c_to_g(c, bounds).err(),
            room.is_in_bounds(g).err(),
        ];
        for refusal in refused {
            prop_assert_eq!(refusal == Some(Refusal::NotTogether), !together);
        }
        prop_assert!(room == before);
    }

    #[test]
    fn a_length_alone(length in number(), start in number(), end in number(), n in number()) {
        let mut room = Box::new(Room::new());
        let before = room.clone();
        match room.build_length(length, Some(start), Some(end)) {
            Ok(()) => {
                let n = NInterval::at(NPosition::new(n, 0));
                if let Ok(c) = room.n_to_c(n, Bounds::Strict) {
                    let back = room.c_to_n(c.into(), Bounds::Strict).unwrap();
                    prop_assert_eq!(NInterval::from(back), n);
                }
                prop_assert_eq!(room.n_to_g(n, Bounds::Lenient), Err(Refusal::NoGenome));
            }
            Err(_) => prop_assert!(room == before),
        }
    }

    #[test]
    fn a_short_buffer_stays(elements in elements(20), room in 0..80usize) {
        let text = cigar::write(&elements).unwrap();
        let mut buffer = vec![b'.'; room];
        match cigar::write_into(&elements, &mut buffer) {
            Ok(length) => {
                prop_assert_eq!(&buffer[..length], &text[..]);
                prop_assert!(buffer[length..].iter().all(|&b| b == b'.'));
            }
            Err(refusal) => {
                prop_assert_eq!(refusal, Refusal::NoRoom);
                prop_assert!(room < text.len() && buffer.iter().all(|&b| b == b'.'));
            }
        }
    }

    #[test]
    fn trimming_leaves_no_common_end(reference in "[ACGT]{0,12}", alternative in "[ACGT]{0,12}") {
        let (reference, alternative) = (reference.as_bytes(), alternative.as_bytes());
        let (common, r, a) = alleles::trim_prefix(reference, alternative);
        prop_assert_eq!(&reference[..common], &alternative[..common]);
        prop_assert!(r.is_empty() || a.is_empty() || r[0] != a[0]);
        let (common, r, a) = alleles::trim_suffix(reference, alternative);
        prop_assert_eq!(&reference[reference.len() - common..], &alternative[alternative.len() - common..]);
        prop_assert!(r.is_empty() || a.is_empty() || r[r.len() - 1] != a[a.len() - 1]);
    }

    #[test]
    fn turning_twice_gives_the_allele_back(allele in allele(60)) {
        let turned = alleles::turn(&allele).unwrap();
        prop_assert_eq!(turned.len(), allele.len());
        let is_upper = |letters: &[u8]| letters.iter().map(u8::is_ascii_uppercase).collect::<Vec<_>>();
        prop_assert!(is_upper(&turned).iter().rev().eq(&is_upper(&allele)));
        prop_assert_eq!(alleles::turn(&turned).unwrap(), allele);
    }

    /// Of two, what is turned together is turned one by one in the other order.
    #[test]
    fn the_front_turns_to_the_back(front in allele(20), back in allele(20)) {
        let [turned_front, turned_back] = [&front, &back].map(|allele| alleles::turn(allele).unwrap());
        prop_assert_eq!(alleles::turn(&[front, back].concat()).unwrap(), [turned_back, turned_front].concat());
    }

    #[test]
    fn common_prefix_before_turning_is_common_suffix_after((reference, alternative) in two_alleles()) {
        let [turned_reference, turned_alternative] = [&reference, &alternative].map(|allele| alleles::turn(allele).unwrap());
        let [prefix, suffix] = [alleles::trim_prefix, alleles::trim_suffix].map(|trim| trim(&reference, &alternative).0);
        prop_assert_eq!(alleles::trim_suffix(&turned_reference, &turned_alternative).0, prefix);
        prop_assert_eq!(alleles::trim_prefix(&turned_reference, &turned_alternative).0, suffix);
    }

    #[test]
    fn any_letter_is_turned_or_refused(allele in vec(any::<u8>(), 0..4)) {
        let known = allele.iter().all(|letter| LETTERS.contains(letter));
        prop_assert_eq!(alleles::turn(&allele).err(), (!known).then_some(Refusal::NoBase));
    }

    #[test]
    fn a_short_buffer_for_a_turned_allele_stays(allele in allele(20), room in 0..24usize) {
        let mut buffer = vec![b'.'; room];
        match alleles::turn_into(&allele, &mut buffer) {
            Ok(length) => {
                prop_assert_eq!(&buffer[..length], &alleles::turn(&allele).unwrap()[..]);
                prop_assert!(buffer[length..].iter().all(|&letter| letter == b'.'));
            }
            Err(refusal) => {
                prop_assert_eq!(refusal, Refusal::NoRoom);
                prop_assert!(room < allele.len() && buffer.iter().all(|&letter| letter == b'.'));
            }
        }
    }

    /// On strand 1 nothing is turned; on strand -1 both are, and what is left is trimmed as the transcript reads it.
    #[test]
    fn the_join_maps_trims_and_turns((strand, first, parts, coding) in transcripts(), (reference, alternative) in two_alleles(),
                                     at in -5..300i32, long in 0..4i32, bounds in bounds()) {
        let built = with_input(strand, first, &parts, coding, Transcript::build);
        prop_assume!(built.is_ok());
        let (room, g) = (built.unwrap(), GInterval::new(first + at, first + at + long));
        let joined = match (room.g_to_c_alleles(g, bounds, &reference, &alternative), room.g_to_c(g, bounds)) {
            (Ok(joined), Ok(c)) => {
                prop_assert_eq!(joined.c, c);
                joined
            }
            (joined, c) => {
                prop_assert_eq!(joined.err(), c.err());
                return Ok(());
            }
        };
        let read = |allele: &[u8]| if strand == 1 { allele.to_vec() } else { alleles::turn(allele).unwrap() };
        let (whole_reference, whole_alternative) = (read(&reference), read(&alternative));
        let (prefix, r, a) = alleles::trim_prefix(&whole_reference, &whole_alternative);
        let (suffix, r, a) = alleles::trim_suffix(r, a);
        prop_assert_eq!((joined.prefix, joined.suffix), (prefix, suffix));
        prop_assert_eq!((&joined.reference[..], &joined.alternative[..]), (r, a));
    }

    #[test]
    fn a_refused_join_leaves_both_buffers((strand, first, parts, coding) in transcripts(), (mut reference, alternative) in two_alleles(),
                                          spoiled in any::<bool>(), rooms in (0..6usize, 0..6usize), at in -5..60i32) {
        let built = with_input(strand, first, &parts, coding, Transcript::build);
        prop_assume!(built.is_ok());
        if spoiled {
            reference.push(b'U');
        }
        let (room, g) = (built.unwrap(), GInterval::at(first + at));
        let (mut front, mut back) = (vec![b'.'; rooms.0], vec![b'.'; rooms.1]);
        let joined = room.g_to_c_alleles_into(g, Bounds::Strict, &reference, &alternative, &mut front, &mut back);
        let lengths = joined.map(|joined| (joined.reference.len(), joined.alternative.len()));
        prop_assert_eq!(lengths.err() == Some(Refusal::NoBase), spoiled);
        let (r, a) = lengths.unwrap_or((0, 0));
        prop_assert!(front[r..].iter().chain(&back[a..]).all(|&letter| letter == b'.'));
        if lengths.is_ok() || lengths == Err(Refusal::NoRoom) {
            let whole = room.g_to_c_alleles(g, Bounds::Lenient, &reference, &alternative);
            let fits = whole.map(|whole| whole.reference.len() <= rooms.0 && whole.alternative.len() <= rooms.1);
            prop_assert!(fits.is_err() || fits == Ok(lengths.is_ok()));
        }
    }

    #[test]
    fn a_question_is_its_numbers(question in questions()) {
        prop_assert_eq!(Question::try_from(boundary::Question::from(question)), Ok(question));
    }

    #[test]
    fn a_question_is_the_mapping_that_it_names((strand, first, parts, coding) in transcripts(), questions in vec(questions(), 1..8)) {
        if let Ok(room) = with_input(strand, first, &parts, coding, Transcript::build) {
            for question in questions {
                prop_assert_eq!(room.ask(question), named(&room, question));
            }
        }
    }

    /// On what made it a log reports nothing, and it reads back as it was recorded.
    #[test]
    fn a_log_replayed_on_what_made_it((strand, first, parts, coding) in transcripts(), questions in vec(questions(), 0..12)) {
        if let Ok(room) = with_input(strand, first, &parts, coding, Transcript::build) {
            let mut log = Log::new();
            let recorded: Vec<_> = questions.iter().map(|&question| log.record(&room, question).unwrap()).collect();
            for (entry, question) in recorded.iter().zip(questions) {
                prop_assert_eq!((entry.question, entry.answer), (question, named(&room, question)));
            }
            prop_assert_eq!(log.replay(&room), Ok(Vec::new()));
            let read = Log::read(log.bytes()).unwrap();
            prop_assert_eq!(read.entries().collect::<Vec<_>>(), recorded);
            prop_assert_eq!(read, log);
        }
    }

    /// On another transcript just the entries whose answers differ are listed, in their order.
    #[test]
    fn a_log_replayed_on_another((strand, first, parts, coding) in transcripts(), (other_strand, shift, other_parts, _) in transcripts(),
                                 alike in any::<bool>(), questions in vec(questions(), 0..12)) {
        let old = with_input(strand, first, &parts, coding, Transcript::build);
        let new = match alike {
            true => with_input(strand, first + shift % 3, &parts, true, Transcript::build),
            false => with_input(other_strand, first, &other_parts, coding, Transcript::build),
        };
        if let (Ok(old), Ok(new)) = (old, new) {
            let mut log = Log::new();
            for &question in &questions {
                log.record(&old, question).unwrap();
            }
            let differs = |&index: &usize| named(&old, questions[index]) != named(&new, questions[index]);
            prop_assert_eq!(log.replay(&new), Ok((0..questions.len()).filter(differs).collect()));
        }
    }

    #[test]
    fn any_bytes_as_a_log(bytes in vec(any::<u8>(), 0..100), known in 0..6usize, entry in any::<bool>()) {
        let mut bytes = bytes;
        for (byte, mark) in bytes.iter_mut().zip(b"QLG\x01\x00").take(known) {
            *byte = *mark;
        }
        if entry {
            bytes.resize(49, 0);
        }
        let room = Transcript::of_length(18, Some(3), Some(15)).unwrap();
        let mut text = [b'.'; 8];
        match (Log::read(&bytes), room.replay_into(&bytes, &mut text)) {
            (Ok(log), Ok(_)) => {
                prop_assert_eq!(log.bytes(), &bytes[..]);
                prop_assert_eq!(log::entries(&bytes).unwrap().len(), log.len());
            }
            (log, length) => {
                prop_assert_eq!((log.err(), length), (Some(Refusal::NoLog), Err(Refusal::NoLog)));
                prop_assert_eq!(text, [b'.'; 8]);
            }
        }
    }

    /// A byte of a log that is taken reads back as it is, and one that is not taken is refused.
    #[test]
    fn a_damaged_log((strand, first, parts, coding) in transcripts(), questions in vec(questions(), 1..5), at in any::<usize>(), byte in any::<u8>(), cut in any::<bool>()) {
        if let Ok(room) = with_input(strand, first, &parts, coding, Transcript::build) {
            let mut log = Log::new();
            for question in questions {
                log.record(&room, question).unwrap();
            }
            let (whole, mut bytes) = (log.entries().collect::<Vec<_>>(), log.bytes().to_vec());
            let at = at % bytes.len();
            if cut { bytes.truncate(at) } else { bytes[at] = byte }
            match Log::read(&bytes) {
                Ok(read) => {
                    let entries: Vec<_> = read.entries().collect();
                    prop_assert_eq!(entries == whole, bytes == log.bytes());
                    prop_assert!(cut || entries.len() == whole.len());
                }
                Err(refusal) => prop_assert_eq!(refusal, Refusal::NoLog),
            }
        }
    }

    #[test]
    fn a_log_stays_where_nothing_is_recorded((strand, first, parts, coding) in transcripts(), question in questions(), used in 0..120usize, room in 0..120usize) {
        if let Ok(transcript) = with_input(strand, first, &parts, coding, Transcript::build) {
            let mut lent = [&b"QLG\x01\x00"[..], &[b'.'; 115]].concat();
            let before = lent.clone();
            match transcript.record_into(question, &mut lent[..room], used) {
                Ok((length, entry)) => {
                    prop_assert!(length <= room && (length - 5) % 44 == 0);
                    prop_assert_eq!(&lent[..used], &before[..used]);
                    prop_assert_eq!(&lent[length..], &before[length..]);
                    let written = [&b"QLG\x01\x00"[..], &lent[length - 44..length]].concat();
                    prop_assert_eq!(log::entries(&written).unwrap().collect::<Vec<_>>(), [entry]);
                }
                Err(refusal) => {
                    let is_log = used <= room && (used == 0 || used >= 5 && (used - 5) % 44 == 0);
                    prop_assert_eq!(refusal, if is_log { Refusal::NoRoom } else { Refusal::NoLog });
                    prop_assert!(lent == before);
                }
            }
        }
    }
}
