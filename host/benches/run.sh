#!/bin/sh
# Prints the tables of docs/BENCH.md: times beside the crate's, the stack, instructions. Needs HGVS_SRC (see hgvs/README.md), valgrind and
# a machine that does nothing else.
set -eu
cd "$(dirname "$0")/.."
command -v cargo >/dev/null || PATH="$HOME/.cargo/bin:$PATH"
cargo build --profile bench --quiet --package benches --package trials
sed -n 's/^model name[[:space:]]*: //p' /proc/cpuinfo | head -n 1
echo
target/release/ratios --rounds "${1:-60}"
printf '\nIn a shuffled order:\n\n'
target/release/ratios --rounds "${1:-60}" --shuffled
echo
target/release/stack
echo
benches/instructions.sh
