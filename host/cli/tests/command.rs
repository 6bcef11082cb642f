//! The program itself, from a text of records to names.

mod program;

use std::{fs, path::PathBuf, process::Output};

fn run(arguments: &[&str], input: &str) -> Output {
    program::run(program::PULINDRAXI, arguments, input.as_bytes())
}

fn demo(name: &str) -> PathBuf {
    PathBuf::from(env!("CARGO_MANIFEST_DIR")).join("../demo").join(name)
}

/// Writes the card of a text of records to a file of its own.
fn card_of(text: &str, name: &str) -> PathBuf {
    let card = PathBuf::from(env!("CARGO_TARGET_TMPDIR")).join(name);
    let written = run(&["card", demo(text).to_str().unwrap(), "-o", card.to_str().unwrap()], "");
    assert!(written.status.success(), "{}", String::from_utf8_lossy(&written.stderr));
    card
}

fn card_of_a(name: &str) -> PathBuf {
    card_of("a.txt", name)
}

#[test]
fn from_records_to_a_listing() {
    let card = card_of_a("listed.card");
    let listed = run(&["list", card.to_str().unwrap()], "");
    assert_eq!(String::from_utf8_lossy(&listed.stdout), "TXC + 3 23 18\nM 0 0 10\nN 10 10 5\nM 15 10 8\n");
    let text = fs::read_to_string(demo("a.txt")).unwrap();
    assert_eq!(run(&["card"], &text).stdout, fs::read(card).unwrap());
}

#[test]
fn from_records_to_the_table_of_places() {
    let card = card_of_a("mapped.card");
    let mapped = run(&["map", card.to_str().unwrap()], &fs::read_to_string(demo("places.txt")).unwrap());
    assert!(mapped.status.success());
    let output = String::from_utf8(mapped.stdout).unwrap();
    let lines: Vec<_> = output.lines().collect();
    assert_eq!(
        lines,
        [
            "g.11            exon 1          n.1             c.-3",
            "g.13            exon 1          n.3             c.-1",
            "g.14            exon 1          n.4             c.1",
            "g.21            intron 1        n.10+1          c.7+1",
            "g.23            intron 1        n.10+3          c.7+3",
            "g.24            intron 1        n.11-2          c.8-2",
            "g.33            exon 2          n.18            c.*3",
            "g.34            refused 14: strict: place outside the from-table",
            "g.35            refused 14: strict: place outside the from-table",
            "g.10            refused 14: strict: place outside the from-table",
        ]
    );
}

#[test]
fn from_records_to_variants() {
    let card = card_of("b.txt", "variants.card");
    let mapped = run(&["map", card.to_str().unwrap()], &fs::read_to_string(demo("variants.txt")).unwrap());
    assert!(mapped.status.success());
    let output = String::from_utf8(mapped.stdout).unwrap();
    let refused = "refused 34: an allele with a letter outside the nucleotide list; place 7 of the line has `U`";
    assert_eq!(
        output.lines().collect::<Vec<_>>(),
        [
            "g.23A>G         intron 1        n.8+3           c.5+3T>C",
            "g.22_23del      intron 1        n.8+3_9-2       c.5+3_6-2del",
            "g.22_23delinsTT intron 1        n.8+3_9-2       c.5+3_6-2delinsAA",
            "g.23_24insC     intron 1        n.8+2_8+3       c.5+2_5+3insG",
            "g.12_14CAC>C    exon 2          n.15_17         c.12_*2GTG>G    removed: G in front; left: TG, nothing",
            &format!("g.23A>U         intron 1        n.8+3           {refused}"),
        ]
    );
    let help = String::from_utf8(run(&["map", "--help"], "").stdout).unwrap();
    assert!(help.contains("Nothing is normalized"));
}

#[test]
fn what_goes_wrong_is_said() {
    let card = card_of_a("wrong.card");
    let mapped = run(&["map", card.to_str().unwrap()], "g 11\nnonsense\ng 12\n");
    assert_eq!(mapped.status.code(), Some(1));
    assert_eq!(String::from_utf8_lossy(&mapped.stdout).lines().count(), 2);
    assert!(String::from_utf8_lossy(&mapped.stderr).starts_with("line 2: `nonsense`: "));

    let listed = run(&["list", demo("a.txt").to_str().unwrap()], "");
    assert_eq!(listed.status.code(), Some(1));
    assert!(String::from_utf8_lossy(&listed.stderr).ends_with("refused 21: bytes that are no card\n"));

    let absent = run(&["map", "no such card"], "");
    assert_eq!(absent.status.code(), Some(1));
    assert!(String::from_utf8_lossy(&absent.stderr).contains("no such card: "));
}
