//! Both sides under criterion: a position of each, by size and strand.
// The function that `criterion_group!` makes is public and has no words.
#![allow(missing_docs)]

use benches::{Bench, Letters, SIZES};
use criterion::{criterion_group, criterion_main, BenchmarkId, Criterion};

/// Times two sides that are asked one position after the other, over and over.
fn sides<T, U>(
    criterion: &mut Criterion,
    name: &str,
    size: &str,
    positions: usize,
    port: impl Fn(usize) -> T,
    original: impl Fn(usize) -> U,
) {
    let mut turn = (0..positions).cycle();
    let mut next = || turn.next().expect("it cycles");
    let mut group = criterion.benchmark_group(name);
    group.bench_function(BenchmarkId::new("port", size), |b| b.iter(|| port(next())));
    group.bench_function(BenchmarkId::new("crate", size), |b| b.iter(|| original(next())));
    group.finish();
}

fn mapping(criterion: &mut Criterion) {
    for strand in [1, -1] {
        for segments in SIZES {
            let Bench { asking, mapper, g_to_c, c_to_g, crate_g, crate_c, .. } =
                Bench::new(Letters::Matches, segments, strand);
            let size = format!("{segments} segments, strand {strand}");
            let (to_c, to_g) = (|i: usize| g_to_c[i].ask(&asking.lent), |i: usize| c_to_g[i].ask(&asking.lent));
            sides(criterion, "g_to_c", &size, g_to_c.len(), to_c, |i| mapper.g_to_c(&crate_g[i]));
            sides(criterion, "c_to_g", &size, c_to_g.len(), to_g, |i| mapper.c_to_g(&crate_c[i]));
        }
    }
}

criterion_group! {
    name = all;
    config = Criterion::default().sample_size(20);
    targets = mapping
}
criterion_main!(all);
