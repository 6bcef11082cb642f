//! The listed differences: for each a smallest input, run on the crate and on the port.

use hgvs::mapper::alignment::Mapper;
use pulindraxi::{
    alleles, answered, asked,
    boundary::{self, Answer, Asked, AskedG, Cds},
    cigar, Element, Refusal,
};
use trials::{
    draw::{Case, Record},
    Kind, Lent, Question,
};

use crate::original::{self, Outcome};

/// One difference: the refusal's number or a word, the input, and what both sides say.
struct Row {
    about: &'static str,
    input: String,
    original: String,
    port: String,
}

fn outcome<T>(outcome: Outcome<T>, say: impl FnOnce(T) -> String) -> String {
    match outcome {
        Outcome::Answered(answer) => say(answer),
        Outcome::Refused(refusal) => format!("an error ({})", refusal.number()),
        Outcome::Panicked => "panics".into(),
    }
}

fn said<T>(result: Result<T, Refusal>, say: impl FnOnce(T) -> String) -> String {
    result.map_or_else(|refused| format!("refuses {}", refused.number()), say)
}

fn builds<T>(_: T) -> String {
    "builds".into()
}

/// One record: genome bounds, tx bounds, `ord`, CIGAR.
fn record(numbers: [i32; 5], cigar: &str) -> Record {
    Record { numbers, cigar: cigar.into() }
}

/// A record of one matched base at 0.
fn one_base() -> Vec<Record> {
    vec![record([0, 1, 0, 1, 0], "M")]
}

fn case(strand: i32, cds: Option<[i32; 2]>, records: Vec<Record>) -> Case {
    Case { strand, cds_start: cds.map(|c| c[0]), cds_end: cds.map(|c| c[1]), records }
}

/// A text of letters, shortened where it is long.
fn shown(text: &[u8]) -> String {
    let run = |byte: u8| text.iter().take_while(|&&b| b == byte).count();
    match text {
        [] => "an empty CIGAR".into(),
        [first, ..] if text.len() > 40 => {
            let same = run(*first);
            let rest = String::from_utf8_lossy(&text[same..]);
            format!(
                "`{}` {same} times{}",
                char::from(*first),
                if rest.is_empty() { String::new() } else { format!(", `{rest}`") }
            )
        }
        _ => format!("`{}`", String::from_utf8_lossy(text)),
    }
}

fn described(case: &Case) -> String {
    let record = |record: &Record| {
        let [alt_start, alt_end, tx_start, tx_end, ord] = record.numbers;
        format!("{alt_start}..{alt_end} tx {tx_start}..{tx_end} ord {ord} {}", shown(&record.cigar))
    };
    let records = match &case.records[..] {
        [first, .., _] if case.records.len() > 4 => {
            format!("{} records, the first {}", case.records.len(), record(first))
        }
        records => records.iter().map(record).collect::<Vec<_>>().join("; "),
    };
    let cds = match (case.cds_start, case.cds_end) {
        (Some(start), Some(end)) => format!(", CDS {start}..{end}"),
        _ => String::new(),
    };
    format!("strand {}{cds}: {records}", case.strand)
}

fn port_build(case: &Case) -> (Lent, String) {
    let mut lent = Lent::filled(0);
    let bytes = case.lay();
    let built = Refusal::check(lent.build(case.laid(&bytes)));
    (lent, said(built, builds))
}

/// A transcript that the two build differently.
fn building(about: &'static str, case: Case) -> Row {
    let original = original::build(&case).map_or("cannot be asked".into(), |built| outcome(built, builds));
    Row { about, input: described(&case), original, port: port_build(&case).1 }
}

fn building_length(about: &'static str, length: i32, cds: Option<[i32; 2]>) -> Row {
    let (start, end) = cds.map(|[start, end]| (start, end)).unzip();
    let built = boundary::build_length(length, Cds::new(start, end), &mut Lent::filled(0).head);
    let cds = cds.map_or(String::new(), |[start, end]| format!(", CDS {start}..{end}"));
    Row {
        about,
        input: format!("length-only, length {length}{cds}"),
        original: outcome(original::build_length(length, start, end), builds),
        port: said(Refusal::check(built), builds),
    }
}

/// The name of an interval, with its mark.
fn marked<T: ToString>(certain: bool, interval: T) -> String {
    format!("{}{}", interval.to_string(), if certain { "" } else { ", uncertain" })
}

/// The name of an answer to a question, or its refusal.
fn name(kind: Kind, answer: Answer) -> Result<String, Refusal> {
    let certain = answer.mark != Answer::UNCERTAIN;
    match kind {
        Kind::NToG | Kind::CToG => answered::GInterval::try_from(answer).map(|g| marked(certain, g)),
        Kind::GToN | Kind::CToN => answered::NInterval::try_from(answer).map(|n| marked(certain, n)),
        Kind::GToC | Kind::NToC => answered::CInterval::try_from(answer).map(|c| marked(certain, c)),
        Kind::InBounds | Kind::IsCoding => {
            Refusal::check(answer.number).map(|()| if answer.mark == 1 { "yes" } else { "no" }.into())
        }
    }
}

/// What is said in answer to a question.
pub(crate) fn named(kind: Kind, answer: Answer) -> String {
    said(name(kind, answer), String::from)
}

fn asked_name(question: &Question) -> String {
    let Question { kind, start, end, strict, .. } = *question;
    let g = asked::GInterval::from(question.g());
    let n = asked::NInterval::new(start.into(), end.into());
    let c = asked::CInterval::new(start.into(), end.into());
    let mode = if strict { "strict" } else { "lenient" };
    match kind {
        Kind::GToN => format!("{mode} {g} to n."),
        Kind::GToC => format!("{mode} {g} to c."),
        Kind::NToG => format!("{mode} {n} to g."),
        Kind::NToC => format!("{mode} {n} to c."),
        Kind::CToN => format!("{mode} {c} to n."),
        Kind::CToG => format!("{mode} {c} to g."),
        Kind::InBounds => format!("{g} in bounds"),
        Kind::IsCoding => "coding".into(),
    }
}

/// A question on which a transcript of both sides differs.
fn asking(about: &'static str, what: String, mapper: &mut Mapper, lent: &Lent, question: &Question) -> Row {
    Row {
        about,
        input: format!("{what}: {}", asked_name(question)),
        original: outcome(original::ask(mapper, question), |answer| named(question.kind, answer)),
        port: named(question.kind, question.ask(lent)),
    }
}

fn asking_case(about: &'static str, case: &Case, question: &Question) -> Row {
    let Some(Outcome::Answered(mut mapper)) = original::build(case) else { panic!("{case:?} builds in the crate") };
    let (lent, _) = port_build(case);
    asking(about, described(case), &mut mapper, &lent, question)
}

fn asking_length(about: &'static str, length: i32, question: &Question) -> Row {
    let Outcome::Answered(mut mapper) = original::build_length(length, None, None) else { panic!("it builds") };
    let mut lent = Lent::filled(0);
    boundary::build_length(length, Cds::new(None, None), &mut lent.head);
    asking(about, format!("length-only, length {length}"), &mut mapper, &lent, question)
}

/// A question with a number at both ends.
fn at(kind: Kind, base: i32, offset: i32, strict: bool) -> Question {
    let at = Asked { base, offset, star: false };
    Question { kind, start: at, end: at, missing: 0, strict }
}

fn narrowings() -> Vec<Row> {
    let many = (0..513).map(|ord| record([0, 0, 0, 0, ord], "M")).collect();
    let zeros = "0".repeat(4096) + "M";
    vec![
        building("2", case(0, None, one_base())),
        building("3", case(1, None, many)),
        building("3", case(1, None, vec![record([0, 0, 0, 0, 0], &zeros)])),
        building("3", case(1, None, vec![record([0, 0, 0, 0, 0], &"M".repeat(2049))])),
        building("4", case(1, None, vec![record([-1, 0, 0, 1, 0], "M")])),
        building("4", case(1, None, vec![record([1, 0, 0, 1, 0], "M")])),
        building("4", case(1, None, vec![record([0, 1, 1, 0, 0], "M")])),
        building("4", case(1, None, vec![record([0, 1, 0, 1, 0], "M"), record([0, 1, 1, 2, 1], "M")])),
        building_length("4", -1, None),
        building("5", case(1, None, vec![record([0, 0, 0, 0, 0], "M"), record([0, 0, 0, 0, 0], "M")])),
        building(
            "5",
            case(
                1,
                None,
                vec![record([0, 0, 0, 1, 0], "M"), record([0, 0, 2, 3, 2], "M"), record([0, 0, 1, 2, 1], "M")],
            ),
        ),
        building("9", case(1, None, vec![record([0, 0, 0, 0, 0], "2000000001D")])),
        building("9", case(1, None, vec![record([2_000_000_000, 2_000_000_001, 0, 0, 0], "M")])),
        building_length("9", 2_000_000_001, None),
        building("10", case(1, None, vec![record([0, 0, 0, 0, 0], "")])),
        building("12", case(1, Some([1, 0]), one_base())),
        building("12", case(1, Some([-1, 0]), one_base())),
        building("12", case(1, Some([0, 2]), one_base())),
        building_length("12", 1, Some([0, 2])),
        asking_length("18", 0, &at(Kind::InBounds, 1, 0, false)),
        asking_length("18", 0, &Question { missing: AskedG::START, ..at(Kind::GToN, 1, 0, true) }),
        damaged(),
    ]
}

/// A transcript whose genome table was changed.
fn damaged() -> Row {
    let case = case(1, None, one_base());
    let Some(Outcome::Answered(mut mapper)) = original::build(&case) else { panic!("it builds") };
    let (mut lent, _) = port_build(&case);
    mapper.cigar_mapper.ref_pos[1] = 2;
    lent.genome[1] = 2;
    let what = format!("{}, then the genome table 0, 2 in place of 0, 1", described(&case));
    asking("23", what, &mut mapper, &lent, &at(Kind::GToN, 2, 0, true))
}

/// Strictly from one number to another.
fn between(kind: Kind, start: i32, end: i32) -> Question {
    let plain = |base| Asked { base, ..Asked::default() };
    Question { kind, start: plain(start), end: plain(end), missing: 0, strict: kind != Kind::InBounds }
}

/// Where document 02 departs from the crate.
fn departures() -> Vec<Row> {
    let (plain, backwards) = (case(1, None, one_base()), case(-1, None, one_base()));
    let coding = case(1, Some([0, 1]), one_base());
    let coding_backwards = case(-1, Some([0, 1]), one_base());
    let ended = case(1, Some([0, 1]), vec![record([0, 3, 0, 1, 0], "M2N")]);
    vec![
        building("32", case(1, None, vec![record([0, 0, 0, 0, 0], "M")])),
        building("32", case(1, None, vec![record([0, 1, 0, 0, 0], "")])),
        building("32", case(1, None, vec![record([0, 0, 0, 0, 0], "M"), record([0, 1, 0, 1, 1], "S")])),
        building("32", case(1, None, vec![record([0, 0, 0, 0, 0], "2147483647M2147483647M2M")])),
        asking_case("14", &plain, &between(Kind::GToN, 2, 2)),
        asking_case("14", &backwards, &between(Kind::GToN, 2, 2)),
        asking_case("14", &plain, &between(Kind::GToC, 2, 2)),
        asking_case("14", &coding, &between(Kind::GToC, 2, 2)),
        asking_case("14", &coding_backwards, &between(Kind::GToC, 2, 2)),
        asking_case("14", &plain, &between(Kind::NToG, 2, 2)),
        asking_case("14", &backwards, &between(Kind::NToG, -1, -1)),
        asking_case("15", &coding, &between(Kind::NToC, 2, 1)),
        asking_case("15", &coding, &between(Kind::NToC, 1, -1)),
        asking_case("15", &coding, &between(Kind::NToC, 1, 0)),
        asking_case("15", &ended, &between(Kind::GToC, 3, 1)),
        asking_case("in bounds", &plain, &between(Kind::InBounds, 1, 2)),
        asking_case("in bounds", &plain, &between(Kind::InBounds, 2, 1)),
        asking_case("in bounds", &plain, &between(Kind::InBounds, 1, 0)),
    ]
}

fn panics() -> Vec<Row> {
    let coding = case(1, Some([1, 1]), one_base());
    let plain = case(1, None, one_base());
    let backwards = case(-1, None, vec![record([0, 5, 0, 5, 0], "5M")]);
    let star = |base| Asked { base, offset: 0, star: true };
    vec![
        building("8", case(1, None, vec![record([0, 0, 0, 0, 0], "2147483648M")])),
        building("9", case(1, None, vec![record([0, 0, 0, 0, 0], "2147483647D2147483647D")])),
        asking_case("14", &plain, &at(Kind::GToN, i32::MIN, 0, true)),
        asking_case("16", &coding, &Question { start: star(-1), end: star(i32::MAX), ..at(Kind::CToN, 0, 0, true) }),
        asking_case("17", &plain, &at(Kind::GToN, i32::MIN, 0, false)),
        asking_case("17", &plain, &at(Kind::GToC, i32::MIN, 0, false)),
        asking_case("17", &plain, &at(Kind::NToG, 1, i32::MAX, false)),
        asking_case("17", &coding, &at(Kind::NToC, i32::MIN, 0, false)),
        asking_case("17", &coding, &at(Kind::CToN, i32::MAX, 0, false)),
        asking_length("18", 0, &at(Kind::GToN, 1, 0, true)),
        asking_case("19", &plain, &Question { missing: AskedG::START, ..at(Kind::InBounds, 1, 0, false) }),
        asking_case("an answer", &plain, &at(Kind::InBounds, i32::MIN, 0, false)),
        asking_case("an answer", &backwards, &at(Kind::NToG, i32::MAX, i32::MIN, false)),
    ]
}

fn texts() -> Vec<Row> {
    let text = |bytes: Vec<u8>| format!("`{}`", String::from_utf8_lossy(&bytes));
    let writing = |count: i32| Row {
        about: "printing",
        input: format!("count {count}, letter M"),
        original: outcome(original::write_cigar(&[Element::new(count, b'M')]), text),
        port: said(cigar::write(&[Element::new(count, b'M')]), text),
    };
    let ([a, b], [c, d]) = (["é", "è"], ["é", "ĩ"]);
    let front = |r: &str, a: &str| {
        original::trim(r.as_bytes(), a.as_bytes()).map_or(String::new(), |[front, _]| outcome(front, |n| n.to_string()))
    };
    let back = |r: &str, a: &str| {
        original::trim(r.as_bytes(), a.as_bytes()).map_or(String::new(), |[_, back]| outcome(back, |n| n.to_string()))
    };
    vec![
        writing(0),
        writing(-1),
        Row {
            about: "trimming",
            input: format!("`{a}` and `{b}` (bytes C3 A9 and C3 A8): prefix"),
            original: front(a, b),
            port: alleles::trim_prefix(a.as_bytes(), b.as_bytes()).0.to_string(),
        },
        Row {
            about: "trimming",
            input: format!("`{c}` and `{d}` (bytes C3 A9 and C4 A9): suffix"),
            original: back(c, d),
            port: alleles::trim_suffix(c.as_bytes(), d.as_bytes()).0.to_string(),
        },
    ]
}

/// The tables of docs/DIFFERENCES.md, in markdown. Two sides that agree are no difference.
pub fn run() -> Result<Vec<String>, String> {
    let mut lines = Vec::new();
    for rows in [narrowings(), departures(), panics(), texts()] {
        for Row { about, input, original, port } in rows {
            if original == port {
                return Err(format!("{input}: both say {port}"));
            }
            lines.push(format!("| {about} | {input} | {original} | {port} |"));
        }
    }
    Ok(lines)
}
