#!/bin/sh
# The host's part of the gate: builds it over the archive, runs its tests, tries bad input, measures the stack and, where the source of
# crate hgvs is at hand (HGVS_SRC, or `shared/docs/src/src` beside the repository), compares with it.
set -eu
# A relative folder is the caller's.
[ -z "${HGVS_SRC:-}" ] || HGVS_SRC=$(cd "$HGVS_SRC" && pwd)
cd "$(dirname "$0")"
command -v cargo >/dev/null || PATH="$HOME/.cargo/bin:$PATH"
log=$(mktemp)
cards=$(mktemp -d)
trap 'rm -rf "$log" "$cards"' EXIT

say() { echo "host: $*"; }

# Runs a command and prints the last line that it writes, or all of them where it fails.
last_line() {
    "$@" >"$log" 2>&1 || {
        cat "$log"
        exit 1
    }
    tail -n 1 "$log"
}

# Runs the tests of the default packages, or of those that are named, and prints how many passed.
tests() {
    cargo test --release --quiet "$@" >"$log" 2>&1 || {
        cat "$log"
        exit 1
    }
    awk '/^test result: ok/ { passed += $4 } END { print passed " passed" }' "$log"
}

./install.sh
programs=target/release
emulator=
memcheck="valgrind --quiet --error-exitcode=1"
leaks=--leak-check=full
if [ "$(uname -m)" != x86_64 ]; then
    # valgrind runs programs of its own processor alone, and a clippy that matches Debian's Rust may be missing.
    say "x86-64 is emulated on this $(uname -m): nothing is run under valgrind, and clippy is not asked"
    . ./elsewhere.sh
    memcheck=$emulator
    leaks=
fi
[ -n "${TXC_ARCHIVE:-}" ] || ./archive.sh
# The archive exports just the header's entries.
grep -o 'txc_[a-z_]*(' ../include/txc.h | tr -d '(' | sort -u >"$log"
${NM:-nm} -g --defined-only "${TXC_ARCHIVE:-../target/staticlib}/libentry.a" | awk '$2 == "T" { print $3 }' | sort | diff "$log" -
# Debian's packages fix the versions.
rm -f Cargo.lock

cargo build --release --quiet
if cargo fmt --version >/dev/null 2>&1; then cargo fmt --check; fi
if [ -z "$emulator" ] && cargo clippy --version >/dev/null 2>&1; then cargo clippy --release --quiet -- --deny warnings; fi
say "tests"
tests

say "bad input"
last_line $emulator $programs/fuzz --seed 1 --count 1000000
last_line $memcheck $programs/fuzz --seed 2 --count 20000
say "the deepest stack of each entry"
last_line $emulator $programs/stack --count 500

say "transcript A, as an alignment"
samtools view -b -o "$cards/a.bam" demo/a.sam
$emulator $programs/pulindraxi card demo/a.txt --output "$cards/a.card"
$memcheck $leaks $programs/pulindraxi card --bam "$cards/a.bam" --cds 3 15 --output "$cards/b.card"
cmp "$cards/a.card" "$cards/b.card"

source=${HGVS_SRC:-../../shared/docs/src/src}
if [ ! -f "$source/mapper/alignment.rs" ]; then
    say "SKIPPED: the comparison with crate hgvs, as its source is not at hand (set HGVS_SRC)"
    exit 0
fi
HGVS_SRC=$(cd "$source" && pwd)
export HGVS_SRC
say "comparison with crate hgvs"
cargo build --release --quiet --package compare
tests --package compare
last_line $emulator $programs/compare random --seed 1 --count 1200000
last_line $emulator $programs/compare small --elements 1
last_line $emulator $programs/compare differences --check ../docs/DIFFERENCES.md
$emulator $programs/compare record "$log" 2>/dev/null
cmp "$log" ../crates/vectors/stdin
say "the recorded answers are the crate's, or the documents' where the row says so"
