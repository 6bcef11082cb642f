//! Random transcripts, questions, texts and alleles.

use rand::{seq::SliceRandom, Rng, SeedableRng};
use rand_xorshift::XorShiftRng;
use trials::draw;

use crate::{Judge, Port};

/// How many questions each transcript is asked.
const QUESTIONS: u64 = 40;

/// A text of elements that may have a fault.
fn text<R: Rng>(rng: &mut R) -> Vec<u8> {
    let mut text = draw::case(rng).records.into_iter().next().map_or(Vec::new(), |record| record.cigar);
    if rng.gen_ratio(1, 4) {
        let at = rng.gen_range(0..=text.len());
        let more = [&b"S"[..], b"0", b"7", b"2147483647", b"2147483648", b"=", b"H", "é".as_bytes(), b" ", b"*"];
        text.splice(at..at, more.choose(rng).expect("not empty").iter().copied());
    }
    text
}

fn allele<R: Rng>(rng: &mut R) -> Vec<u8> {
    let letters = if rng.gen_ratio(1, 10) { &["A", "é", "è"][..] } else { &["A", "C"][..] };
    (0..rng.gen_range(0..9)).flat_map(|_| letters.choose(rng).expect("not empty").bytes()).collect()
}

/// Compares at least `count` calls.
pub fn run<P: Port>(judge: &mut Judge<P>, seed: u64, count: u64) {
    let mut rng = XorShiftRng::seed_from_u64(seed);
    let mut calls = 0;
    while calls < count {
        let built = match rng.gen_range(0..20) {
            0 => {
                let bounds =
                    [draw::number(&mut rng), draw::number(&mut rng)].map(|b| rng.gen_ratio(9, 10).then_some(b));
                judge.build_length(draw::number(&mut rng), bounds[0], bounds[1])
            }
            1 => judge.build_length(rng.gen_range(0..20), Some(rng.gen_range(0..4)), Some(rng.gen_range(3..20))),
            2 if rng.gen_ratio(1, 5) => judge.build(&draw::long(&mut rng)),
            _ => judge.build(&draw::case(&mut rng)),
        };
        calls += 1;
        if let Some(mut built) = built {
            for _ in 0..QUESTIONS {
                let question = draw::question(&mut rng, &built.source);
                judge.ask(&mut built, &question);
            }
            let mut positions = draw::worklist(&mut rng, &built.source);
            positions.sort_unstable();
            judge.worklist(&mut built, &positions);
            calls += QUESTIONS + positions.len() as u64;
        }
        judge.cigar(&text(&mut rng));
        let (elements, room) = draw::elements(&mut rng);
        judge.write_cigar(&elements, room);
        judge.trim(&allele(&mut rng), &allele(&mut rng));
        calls += 5;
    }
}
