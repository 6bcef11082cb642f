#!/bin/sh
# Proves the entries, and writes their archive, target/staticlib/libentry.a of the repository. Prints the last line of the proof, or all where it fails.
set -eu
cd "$(dirname "$0")/.."
log=$(mktemp)
trap 'rm -f "$log"' EXIT
(cd crates/entry_c && rt lib) >"$log" 2>&1 || {
    cat "$log"
    exit 1
}
tail -n 1 "$log"
mkdir -p target/staticlib
cp crates/entry_c/out/libentry_c.a target/staticlib/libentry.a
