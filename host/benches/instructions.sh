#!/bin/sh
# Counts the instructions of an entry, which repeat from run to run, and what a run of 30,000 positions then takes on a board of 100 MHz
# that does one instruction a cycle. callgrind counts them; where the machine is not x86-64, qemu takes one instruction at a time and
# those within the archive are counted. Builds first; needs HGVS_SRC (see hgvs/README.md), and valgrind or qemu.
set -eu
cd "$(dirname "$0")/.."
log=$(mktemp)
trap 'rm -f "$log"' EXIT
programs=target/release
if [ "$(uname -m)" = x86_64 ]; then
    # Instructions of one call: ENTRY KIND SEGMENTS STRAND COUNT
    count() {
        valgrind --tool=callgrind --collect-atstart=no --toggle-collect="$1" --callgrind-out-file=/dev/null \
            $programs/ask "$2" "$3" "$4" "$5" 2>&1 |
            awk -v count="$5" '/Collected/ { printf "%d", $NF / count; found = 1 } END { exit !found }'
    }
else
    . ./elsewhere.sh
    # Where qemu loads a program.
    base=$((0x4000000000))

    # Instructions within the archive, of all calls: KIND SEGMENTS STRAND COUNT
    all() {
        $emulator -singlestep -d exec,nochain -dfilter "$range" -D "$log" $programs/ask "$@"
        grep -c Trace "$log"
    }

    # A transcript is built once before any question. Of a build the C library's part is not counted.
    count() {
        shift
        if [ "$1" = build ]; then
            echo $(($(all "$@") / $4))
        else
            echo $((($(all "$@") - $(all "$1" "$2" "$3" 0)) / $4))
        fi
    }
fi
cargo build --profile bench -q -p benches
if [ -n "${base:-}" ]; then
    $NM "${TXC_ARCHIVE:-../target/staticlib}/libentry.a" | awk '$2 == "t" || $2 == "T" { print $3 }' >"$log"
    # Addresses have one length, so that they sort as texts: the first, and the last with its size.
    set -- $($NM -S $programs/ask | awk 'NR == FNR { own[$1]; next } $4 in own { print $1, $2 }' "$log" - | sort | sed -n '1s/ .*//p; $p')
    range=$(printf '0x%x..0x%x' $((base + 0x$1)) $((base + 0x$2 + 0x$3)))
fi

echo '| segments | strand | check 23 | g_to_n | g_to_c | c_to_g | 30,000 g_to_c at 100 MHz | building | a slot of a worklist |'
echo '|---|---|---|---|---|---|---|---|---|'
for segments in 10 200 2000; do
    for strand in 1 -1; do
        check=$(count txc_is_coding is-coding $segments $strand 10)
        n=$(count txc_g_to_n g-to-n $segments $strand 300)
        c=$(count txc_g_to_c g-to-c $segments $strand 300)
        g=$(count txc_c_to_g c-to-g $segments $strand 300)
        build=$(count txc_build build $segments $strand 3)
        # Of 3,000, with their share of check 23.
        slot=$(count txc_worklist worklist $segments $strand 3000)
        seconds=$(awk -v c="$c" 'BEGIN { printf "%.2f s", c * 30000 / 100e6 }')
        echo "| $segments | $strand | $check | $n | $c | $g | $seconds | $build | $slot |"
    done
done
