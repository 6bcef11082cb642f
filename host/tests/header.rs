//! The boundary is declared here as in `include/txc.h`: the same entries, and structs of the same size.

use std::{
    collections::BTreeSet,
    fs,
    mem::{offset_of, size_of},
};

use pulindraxi::{
    boundary::{Answer, Head, Joined, Length, Part, Position, Question, Recorded, Said, Slot, Steps},
    limits::{MOST_SEGMENTS, MOST_STARTS},
};

fn header() -> String {
    fs::read_to_string(concat!(env!("CARGO_MANIFEST_DIR"), "/../include/txc.h")).unwrap()
}

/// The names that begin with `txc_` and are followed by a parenthesis.
fn entries(text: &str) -> BTreeSet<&str> {
    let is_name = |c: char| c.is_ascii_lowercase() || c == '_';
    text.match_indices("txc_")
        .filter_map(|(at, _)| {
            let name = &text[at..][..text[at..].find(|c| !is_name(c))?];
            text[at + name.len()..].starts_with('(').then_some(name)
        })
        .collect()
}

#[test]
fn the_entries_are_the_headers() {
    let header = header();
    let declared = entries(&header);
    assert_eq!(declared.len(), 25);
    assert_eq!(entries(include_str!("../src/boundary.rs")), declared);
}

#[test]
fn the_structs_are_the_headers() {
    let sizes = [size_of::<Position>(), size_of::<Answer>(), size_of::<Said>(), size_of::<Length>(), size_of::<Part>()];
    assert_eq!(sizes, [16, 40, 8, 16, 24]);
    assert_eq!([size_of::<Slot>(), size_of::<Steps>(), size_of::<Joined>()], [44, 8, 72]);
    assert_eq!([size_of::<Question>(), size_of::<Recorded>()], [32, 56]);
}

#[test]
fn a_questions_numbers_keep_their_order() {
    let declared = "typedef struct { uint32_t kind, strict, start_marks, end_marks; int32_t start, start_offset, end, end_offset; } txc_question;";
    assert!(header().lines().any(|line| line == declared));
    let places = [
        offset_of!(Question, kind),
        offset_of!(Question, strict),
        offset_of!(Question, start_marks),
        offset_of!(Question, end_marks),
        offset_of!(Question, start),
        offset_of!(Question, start_offset),
        offset_of!(Question, end),
        offset_of!(Question, end_offset),
    ];
    assert_eq!(places, [0, 4, 8, 12, 16, 20, 24, 28]);
}

#[test]
fn the_lent_memory_is_the_headers() {
    let head = Head::COUNT;
    let lent = format!(
        "int32_t head[{head}], uint32_t genome[{MOST_STARTS}], uint32_t transcript[{MOST_STARTS}], uint8_t letters[{MOST_SEGMENTS}], uint16_t exons[{MOST_SEGMENTS}]"
    );
    let read = lent.split(", ").map(|table| format!("const {table}")).collect::<Vec<_>>().join(", ");
    for line in [format!("#define TXC_LENT {lent}"), format!("#define TXC_READ {read}")] {
        assert!(header().lines().any(|declared| declared == line), "{line}");
    }
}

#[test]
fn the_heads_numbers_keep_their_order() {
    let numbers = std::array::from_fn(|index| index as i32);
    let head = Head::from(numbers);
    assert_eq!(head.numbers(), numbers);
    let Head { kind, strand, first_start, segment_count, cds_bits, cds_start, cds_end, length, record_count } = head;
    let named = [kind, strand, first_start, segment_count, cds_bits, cds_start, cds_end, length, record_count];
    assert_eq!(named, numbers);
}
