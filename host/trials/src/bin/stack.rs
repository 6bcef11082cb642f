//! Measures how deep each entry goes on the stack: it is called on a stack of its own that was painted before, and the deepest
//! byte that changed is looked for. The largest of many random calls counts.
#![allow(unsafe_code)]

use std::{arch::asm, collections::BTreeMap};

use clap::Parser;
use pulindraxi::{
    boundary::{self, Asked, AskedG, Cds, Laid, Slot},
    limits::{MOST_RECORDS, MOST_SEGMENTS},
};
use rand::{Rng, SeedableRng};
use rand_xorshift::XorShiftRng;
use trials::{
    draw::{self, Case},
    paper::Source,
    Lent,
};

/// Measures the stack of each entry.
#[derive(Parser)]
struct Options {
    /// How many times each entry is called
    #[arg(long, default_value_t = 5_000)]
    count: usize,
}

/// The size of the painted stack, which no entry may leave.
const SIZE: usize = 32 * 1024;
/// What an entry must stay below.
const LIMIT: usize = 4 * 1024;

/// A stack, painted.
struct Painted(Vec<u128>);

impl Painted {
    fn new() -> Painted {
        Painted(vec![0; SIZE / size_of::<u128>()])
    }

    /// How far below its caller's frame a call goes. The call gets where to write the caller's stack pointer.
    fn depth(&mut self, call: &mut dyn FnMut(&mut usize)) -> usize {
        // Two paints, in case an entry writes what is there.
        [0xa5, 0x5a].into_iter().map(|paint| self.depth_over(paint, call)).max().unwrap_or(0)
    }

    fn depth_over(&mut self, paint: u8, call: &mut dyn FnMut(&mut usize)) -> usize {
        let paint = u128::from_ne_bytes([paint; 16]);
        self.0.fill(paint);
        let bounds = self.0.as_ptr_range();
        let mut job = Job { call, frame: 0 };
        // SAFETY: the top is aligned to 16 bytes and the memory below it is ours; `run` is called as C calls it and returns.
        unsafe {
            asm!(
                "mov r12, rsp",
                "mov rsp, {top}",
                "call {run}",
                "mov rsp, r12",
                top = in(reg) bounds.end,
                run = sym run,
                in("rdi") &mut job,
                out("r12") _,
                clobber_abi("C"),
            );
        }
        let deepest = self.0.iter().position(|&word| word != paint).unwrap_or(self.0.len());
        assert!(deepest > 0, "the stack was too small");
        let word = self.0[deepest].to_ne_bytes();
        let within = word.iter().position(|&byte| byte != paint as u8).unwrap_or(0);
        job.frame - (bounds.start as usize + deepest * size_of::<u128>() + within)
    }
}

struct Job<'a> {
    call: &'a mut dyn FnMut(&mut usize),
    frame: usize,
}

extern "C" fn run(job: &mut Job<'_>) {
    (job.call)(&mut job.frame);
}

/// The stack pointer.
#[inline(always)]
fn stack_pointer() -> usize {
    let pointer;
    // SAFETY: it only reads the register.
    unsafe { asm!("mov {}, rsp", out(reg) pointer, options(nomem, nostack, preserves_flags)) };
    pointer
}

/// Calls an expression on the painted stack, and keeps the larger depth.
macro_rules! measure {
    ($deepest:ident, $stack:ident, $name:literal, $call:expr) => {{
        let depth = $stack.depth(&mut |frame| {
            *frame = stack_pointer();
            std::hint::black_box($call);
        });
        let deepest = $deepest.entry($name).or_insert(0);
        *deepest = depth.max(*deepest);
    }};
}

/// What questions are drawn for where memory doesn't hold together.
const NO_BASES: Source = Source::Length(0, None);

/// A transcript at the limits, or a random one.
fn input(rng: &mut XorShiftRng) -> Case {
    if !rng.gen_ratio(1, 50) {
        return draw::case(rng);
    }
    draw::alike(if rng.gen() { 1 } else { -1 }, MOST_RECORDS, b"2147483X0000I7=")
}

fn measure(count: usize) -> BTreeMap<&'static str, usize> {
    let mut rng = XorShiftRng::seed_from_u64(1);
    let mut stack = Painted::new();
    let mut deepest = BTreeMap::new();
    let mut lent = Lent::filled(0);
    let mut counts = Box::new([0; MOST_SEGMENTS]);
    let mut letters = Box::new([0; MOST_SEGMENTS]);
    let mut buffer = vec![0; 70_000];
    let mut worded = vec![0; MOST_SEGMENTS];
    for _ in 0..count {
        let case = input(&mut rng);
        let bytes = case.lay();
        let from: Laid<'_> = case.laid(&bytes);
        let card = case.card();
        let text = case.records.first().map_or(&b""[..], |record| &record.cigar);
        measure!(deepest, stack, "txc_build", lent.build(from));
        measure!(deepest, stack, "txc_build_card", lent.build_card(&card));
        measure!(deepest, stack, "txc_write_card", boundary::write_card(from, &mut buffer));
        measure!(deepest, stack, "txc_read_cigar", boundary::read_cigar(text, &mut counts, &mut letters));
        let number = rng.gen_range(0..20);
        measure!(deepest, stack, "txc_write_cigar", boundary::write_cigar(number, &counts, &letters, &mut buffer));
        let words = draw::words(&mut rng).0;
        measure!(deepest, stack, "txc_read_bam", boundary::read_bam(&words, &mut counts[..], &mut letters[..]));
        measure!(deepest, stack, "txc_write_bam", boundary::write_bam(number, &counts, &letters, &mut worded));
        if rng.gen_ratio(1, 8) {
            let length = rng.gen_range(0..30);
            let cds = Cds::new(Some(2), Some(5));
            measure!(deepest, stack, "txc_build_length", boundary::build_length(length, cds, &mut lent.head));
        }
        if rng.gen_ratio(1, 8) {
            draw::damage(&mut rng, &mut lent);
        }
        let star = rng.gen();
        let a = Asked { base: rng.gen_range(-5..60), offset: rng.gen_range(-3..3), star };
        let b = Asked { base: rng.gen_range(-5..60), offset: draw::number(&mut rng), star };
        let g = AskedG { start: a.base, end: b.base, missing: u32::from(rng.gen_ratio(1, 9)) };
        let (of, strict) = (lent.reading(), rng.gen());
        measure!(deepest, stack, "txc_g_to_n", boundary::g_to_n(of, g, strict));
        measure!(deepest, stack, "txc_g_to_c", boundary::g_to_c(of, g, strict));
        measure!(deepest, stack, "txc_n_to_g", boundary::n_to_g(of, a, b, strict));
        measure!(deepest, stack, "txc_n_to_c", boundary::n_to_c(of, a, b, strict));
        measure!(deepest, stack, "txc_c_to_n", boundary::c_to_n(of, a, b, strict));
        measure!(deepest, stack, "txc_c_to_g", boundary::c_to_g(of, a, b, strict));
        let mut slots: Vec<_> = (0..rng.gen_range(0..40)).map(|step| Slot::new(a.base + 2 * step)).collect();
        measure!(deepest, stack, "txc_worklist", boundary::worklist(of, &mut slots));
        let ([reference, alternative], _) = draw::alleles(&mut rng);
        let (front, back) = buffer.split_at_mut(1_000);
        measure!(
            deepest,
            stack,
            "txc_g_to_c_alleles",
            boundary::g_to_c_alleles(of, g, strict, &reference, &alternative, front, back)
        );
        let allele = draw::allele(&mut rng).0;
        measure!(deepest, stack, "txc_turn", boundary::turn(&allele, &mut buffer));
        measure!(deepest, stack, "txc_in_bounds", boundary::in_bounds(of, g));
        measure!(deepest, stack, "txc_is_coding", boundary::is_coding(of));
        let source = lent.source();
        let drawn_from = source.as_ref().unwrap_or(&NO_BASES);
        let question = draw::numbers(&mut rng, drawn_from);
        measure!(deepest, stack, "txc_ask", boundary::ask(of, question));
        let (mut log, used) = draw::recording(&mut rng, drawn_from);
        measure!(deepest, stack, "txc_record", boundary::record(of, question, &mut log, used));
        let log = draw::log(&mut rng, drawn_from, &[source.as_ref(), None]);
        measure!(deepest, stack, "txc_replay", boundary::replay(of, &log, &mut buffer));
        measure!(deepest, stack, "txc_trim_prefix", boundary::trim_prefix(&bytes, &card));
        measure!(deepest, stack, "txc_trim_suffix", boundary::trim_suffix(&bytes, &card));
        measure!(deepest, stack, "txc_changed", boundary::changed(&bytes, &card));
    }
    deepest
}

fn main() {
    let deepest = measure(Options::parse().count);
    println!("| entry | deepest stack, bytes |");
    println!("|---|---|");
    for (entry, depth) in &deepest {
        println!("| `{entry}` | {depth} |");
    }
    let most = deepest.values().max().copied().unwrap_or(0);
    assert!(most < LIMIT, "{most} bytes are not below {LIMIT}");
    println!("\nAll below {LIMIT} bytes.");
}
