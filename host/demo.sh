#!/bin/sh
# Proves the entries, builds the command line over them, maps the places P1 to P9 of document 01 on transcript A, plays them back on a card whose
# CDS begins a base later, and maps variants on B, which is A on strand -1.
set -eu
cd "$(dirname "$0")/.."
[ -n "${TXC_ARCHIVE:-}" ] || host/archive.sh
host/install.sh
cd host
command -v cargo >/dev/null || PATH="$HOME/.cargo/bin:$PATH"
programs=target/release
emulator=
[ "$(uname -m)" = x86_64 ] || . ./elsewhere.sh
cargo build --release --quiet --package pulindraxi-cli

folder=$(mktemp -d)
trap 'rm -rf "$folder"' EXIT
card=$folder/card
$emulator $programs/pulindraxi card demo/a.txt --output "$card"
echo "transcript A:"
$emulator $programs/pulindraxi list "$card"
echo "its places:"
$emulator $programs/pulindraxi map --log "$folder/day.log" "$card" <demo/places.txt
echo "and with lenient bounds:"
echo g 10 | $emulator $programs/pulindraxi map --lenient "$card"
sed 's/^cds 3 /cds 4 /' demo/a.txt | $emulator $programs/pulindraxi card --output "$card"
echo "what differs on a card whose CDS begins a base later:"
$emulator $programs/pulindraxi replay "$card" "$folder/day.log"
$emulator $programs/pulindraxi card demo/b.txt --output "$card"
echo "variants on transcript B:"
$emulator $programs/pulindraxi map "$card" <demo/variants.txt
