//! Times the port beside the crate, or beside plain Rust, in one run. The sides take turns, the best round of each counts, and the ratio of the two is
//! what matters: what else the machine does meets both.

use std::{
    cell::RefCell,
    hint::black_box,
    process::ExitCode,
    time::{Duration, Instant},
};

use benches::{Bench, Letters, POSITIONS, SIZES};
use clap::Parser;
use compare::original::{self, Outcome};
use pulindraxi::{
    boundary::{self, Asked, AskedG, Slot},
    limits::{ENTRY, LOG_HEAD, MOST_ENTRIES, MOST_LOG, MOST_REPLAYED, MOST_SEGMENTS},
    Room,
};
use trials::{Lent, Question};

/// Times the port beside the crate.
#[derive(Parser)]
struct Options {
    /// How many rounds each side has
    #[arg(long, default_value_t = 40)]
    rounds: usize,
    /// Time the questions alone, asked in an order that no processor can learn
    #[arg(long)]
    shuffled: bool,
}

/// Shuffles, in the same way at each call.
fn shuffle<T>(items: &mut [T]) {
    let mut bits = 0x9e37_79b9_7f4a_7c15_u64;
    for last in (1..items.len()).rev() {
        bits ^= bits << 13;
        bits ^= bits >> 7;
        bits ^= bits << 17;
        items.swap(last, (bits % (last as u64 + 1)) as usize);
    }
}

/// The best time of some rounds in which the contestants take turns, in nanoseconds for one of `times` calls.
fn best<const N: usize>(rounds: usize, times: usize, contestants: [&dyn Fn(); N]) -> [f64; N] {
    let mut best = [Duration::MAX; N];
    for _ in 0..rounds {
        for (best, contestant) in best.iter_mut().zip(contestants) {
            let start = Instant::now();
            contestant();
            *best = start.elapsed().min(*best);
        }
    }
    best.map(|time| time.as_nanos() as f64 / times as f64)
}

fn questions(rounds: usize, letters: Letters, shuffled: bool) {
    println!("| segments | strand | question | crate, ns | port, ns | port / crate | of it check 23, ns | finding and the rest, ns |");
    println!("|---|---|---|---|---|---|---|---|");
    for segments in SIZES {
        for strand in [1, -1] {
            let Bench { mut asking, mapper, mut c_to_g, mut crate_g, mut crate_c, .. } =
                Bench::new(letters, segments, strand);
            if shuffled {
                shuffle(&mut asking.g);
                shuffle(&mut c_to_g);
                shuffle(&mut crate_g);
                shuffle(&mut crate_c);
            }
            let of = black_box(&asking.lent).reading();
            let check = || {
                for _ in 0..POSITIONS {
                    black_box(boundary::is_coding(of));
                }
            };
            let g = |at: i32| AskedG { start: at, end: at, missing: 0 };
            let to_n = || {
                for &at in &asking.g {
                    black_box(boundary::g_to_n(of, g(at), true));
                }
            };
            let to_c = || {
                for &at in &asking.g {
                    black_box(boundary::g_to_c(of, g(at), true));
                }
            };
            let to_g = || {
                for question in &c_to_g {
                    black_box(boundary::c_to_g(of, question.start, question.end, true));
                }
            };
            let crate_to_n = || crate_g.iter().for_each(|g| drop(black_box(mapper.g_to_n(g))));
            let crate_to_c = || crate_g.iter().for_each(|g| drop(black_box(mapper.g_to_c(g))));
            let crate_to_g = || crate_c.iter().for_each(|c| drop(black_box(mapper.c_to_g(c))));
            let sides: [&dyn Fn(); 7] = [&check, &to_n, &crate_to_n, &to_c, &crate_to_c, &to_g, &crate_to_g];
            let [check, n, n_crate, c, c_crate, g, g_crate] = best(rounds, POSITIONS, sides);
            for (name, port, original) in [("g_to_n", n, n_crate), ("g_to_c", c, c_crate), ("c_to_g", g, g_crate)] {
                let (ratio, rest) = (port / original, port - check);
                println!(
                    "| {segments} | {strand} | {name} | {original:.1} | {port:.1} | {ratio:.2} | {check:.1} | {rest:.1} |"
                );
            }
        }
    }
}

/// Sorted positions: one by one in the crate and by the port, and as a worklist.
fn worklists(rounds: usize, letters: Letters) {
    println!("| segments | strand | crate one by one, ns a position | port one by one, ns | worklist, ns | crate / worklist | one by one / worklist |");
    println!("|---|---|---|---|---|---|---|");
    for segments in SIZES {
        for strand in [1, -1] {
            let Bench { asking, mapper, mut g_to_n, .. } = Bench::new(letters, segments, strand);
            g_to_n.sort_unstable_by_key(|question| question.start.base);
            let crate_g: Vec<_> = g_to_n.iter().map(original::g_interval).collect();
            let of = black_box(&asking.lent).reading();
            let slots = RefCell::new(g_to_n.iter().map(|question| Slot::new(question.start.base)).collect::<Vec<_>>());
            let by_crate = || crate_g.iter().for_each(|g| drop(black_box(mapper.g_to_n(g))));
            let by_port = || {
                for question in &g_to_n {
                    black_box(boundary::g_to_n(of, question.g(), true));
                }
            };
            let walk = || {
                black_box(boundary::worklist(of, black_box(&mut slots.borrow_mut())));
            };
            walk();
            assert!(slots.borrow().iter().zip(&g_to_n).all(|(slot, asked)| slot.answer == asked.ask(&asking.lent)));
            let [original, single, walked] = best(rounds, POSITIONS, [&by_crate, &by_port, &walk]);
            println!(
                "| {segments} | {strand} | {original:.1} | {single:.1} | {walked:.2} | {:.1} | {:.1} |",
                original / walked,
                single / walked
            );
        }
    }
}

fn buildings(rounds: usize) {
    println!("\n| segments | building in the crate, µs | by the port, µs | port / crate | tables of the crate, bytes | of the port, bytes |");
    println!("|---|---|---|---|---|---|");
    for segments in SIZES {
        let bench = Bench::new(Letters::Matches, segments, 1);
        let bytes = bench.asking.case.lay();
        let from = bench.asking.case.laid(&bytes);
        let lent = RefCell::new(Lent::filled(0));
        let by_port = || {
            black_box(lent.borrow_mut().build(black_box(from)));
        };
        let by_crate = || drop(black_box(original::build(black_box(&bench.asking.case))));
        let [port, original] = best(rounds, 1, [&by_port, &by_crate]).map(|ns| ns / 1_000.0);
        let cigar = &bench.mapper.cigar_mapper;
        let of_crate = size_of_val(&cigar.ref_pos[..])
            + size_of_val(&cigar.tgt_pos[..])
            + size_of_val(&cigar.cigar_op[..])
            + size_of_val(&cigar.cigar_string.elems[..]);
        println!(
            "| {segments} | {original:.1} | {port:.1} | {:.2} | {of_crate} | {} |",
            port / original,
            size_of::<Room>()
        );
    }
}

/// BAM's words to elements and back. The crate has no such thing: plain Rust stands beside the port.
fn words(rounds: usize) {
    const TIMES: usize = 1_000;
    println!("\n| words | reading in plain Rust, ns | by the port, ns | port / plain | writing in plain Rust, ns | by the port, ns | port / plain |");
    println!("|---|---|---|---|---|---|---|");
    for count in SIZES {
        let given = benches::words(count);
        let tables = RefCell::new((Box::new([0; MOST_SEGMENTS]), Box::new([0; MOST_SEGMENTS])));
        let room = RefCell::new(vec![0; MOST_SEGMENTS]);
        let often = |call: &dyn Fn() -> u32| (0..TIMES).for_each(|_| assert_eq!(black_box(call()), 0));
        let read = || {
            let (counts, letters) = &mut *tables.borrow_mut();
            boundary::read_bam(black_box(&given), &mut counts[..], &mut letters[..]).number
        };
        let read_plain = || {
            let (counts, letters) = &mut *tables.borrow_mut();
            benches::read_plainly(black_box(&given), &mut counts[..], &mut letters[..])
        };
        let write = || {
            let (counts, letters) = &*tables.borrow();
            boundary::write_bam(count, black_box(counts), letters, &mut room.borrow_mut()).number
        };
        let write_plain = || {
            let (counts, letters) = &*tables.borrow();
            benches::write_plainly(black_box(&counts[..count]), &letters[..count], &mut room.borrow_mut())
        };
        read();
        write();
        assert_eq!(room.borrow()[..count], given);
        let sides: [&dyn Fn(); 4] =
            [&|| often(&read), &|| often(&read_plain), &|| often(&write), &|| often(&write_plain)];
        let [read, read_plain, write, write_plain] = best(rounds, TIMES, sides);
        println!(
            "| {count} | {read_plain:.1} | {read:.1} | {:.2} | {write_plain:.1} | {write:.1} | {:.2} |",
            read / read_plain,
            write / write_plain
        );
    }
}

/// Questions g. to c. as one value: asked alone, recorded into one log, and replayed from it on the transcript that made it.
fn logs(rounds: usize) {
    println!("\n| segments | txc_g_to_c, ns | txc_ask, ns | recording, ns an entry | beyond asking | replaying, ns an entry | beyond asking |");
    println!("|---|---|---|---|---|---|---|");
    for segments in SIZES {
        let Bench { asking, g_to_c, .. } = Bench::new(Letters::Matches, segments, 1);
        let of = black_box(&asking.lent).reading();
        let questions = &g_to_c[..MOST_ENTRIES];
        let numbers: Vec<_> = questions.iter().map(|question| question.numbers().expect("a mapping")).collect();
        let (log, text) = (RefCell::new(vec![0; MOST_LOG]), RefCell::new(vec![0; MOST_REPLAYED]));
        let plain = || {
            for question in questions {
                black_box(boundary::g_to_c(of, question.g(), true));
            }
        };
        let ask = || {
            for &question in &numbers {
                black_box(boundary::ask(of, question));
            }
        };
        let record = || {
            let mut used = 0;
            for &question in &numbers {
                used = boundary::record(of, question, &mut log.borrow_mut(), used).length;
            }
            assert_eq!(used, LOG_HEAD + ENTRY * MOST_ENTRIES);
        };
        record();
        let replay = || {
            let log = &log.borrow()[..LOG_HEAD + ENTRY * MOST_ENTRIES];
            let replayed = boundary::replay(of, black_box(log), &mut text.borrow_mut());
            assert_eq!((replayed.number, &text.borrow()[..replayed.length]), (0, &b"0\n"[..]));
        };
        let [plain, ask, record, replay] = best(rounds, MOST_ENTRIES, [&plain, &ask, &record, &replay]);
        println!(
            "| {segments} | {plain:.1} | {ask:.1} | {record:.1} | {:.1} | {replay:.1} | {:.1} |",
            record - ask,
            replay - ask
        );
    }
}

/// Whether the crate is built as for use, where an overflow wraps.
fn crate_wraps() -> bool {
    let mut bench = Bench::new(Letters::Matches, SIZES[0], 1);
    let start = Asked { base: i32::MIN, ..Asked::default() };
    let question = Question { start, strict: false, ..bench.g_to_n[0] };
    original::ask(&mut bench.mapper, &question) != Outcome::Panicked
}

fn main() -> ExitCode {
    let options = Options::parse();
    original::silence_panics();
    if !crate_wraps() {
        eprintln!("ratios: the crate has overflow checks; build with --profile bench");
        return ExitCode::FAILURE;
    }
    questions(options.rounds, Letters::Matches, options.shuffled);
    println!("\nWith an insertion or a deletion in each exon:\n");
    questions(options.rounds, Letters::Mixed, options.shuffled);
    if options.shuffled {
        return ExitCode::SUCCESS;
    }
    println!("\n30,000 sorted positions:\n");
    worklists(options.rounds, Letters::Matches);
    println!("\nWith an insertion or a deletion in each exon:\n");
    worklists(options.rounds, Letters::Mixed);
    println!("\nA slot has {} bytes.", size_of::<Slot>());
    buildings(options.rounds);
    words(options.rounds);
    logs(options.rounds);
    ExitCode::SUCCESS
}
