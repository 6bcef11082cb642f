#!/bin/sh
# Installs what the host is built and tried with, where it is missing: Debian's sources of crates, htslib, a linker, valgrind, an aligner; on a
# machine that is not x86-64 also what compiles for x86-64 and runs it (see elsewhere.sh).
set -eu

packages="libhts-dev librust-bit-set-dev librust-chrono-dev librust-clap-derive-dev librust-clap-dev librust-criterion-dev librust-indexmap-dev
    librust-nom-dev librust-proptest-dev librust-quick-error-dev librust-rand-dev librust-rand-xorshift-dev librust-rusty-fork-dev
    librust-serde-derive-dev librust-serde-dev librust-thiserror-dev librust-tracing-dev minimap2 samtools valgrind"
command -v cc >/dev/null || packages="$packages gcc libc6-dev"
[ "$(uname -m)" = x86_64 ] || packages="$packages rustc-web cargo-web libstd-rust-web-dev:amd64 gcc-x86-64-linux-gnu libc6-dev:amd64
    libhts-dev:amd64 qemu-user-static"

missing=
for package in $packages; do
    dpkg-query -W -f '${Status}' "$package" 2>/dev/null | grep -q 'ok installed' || missing="$missing $package"
done
[ -n "$missing" ] || exit 0

as_root=
[ "$(id -u)" = 0 ] || as_root=sudo
install() {
    # shellcheck disable=SC2086
    $as_root env DEBIAN_FRONTEND=noninteractive apt-get install -y -q --no-install-recommends $missing
}
echo "installing$missing"
case $missing in *:amd64*) $as_root dpkg --add-architecture amd64 ;; esac
{ install || { $as_root apt-get update -q && install; }; } >/dev/null
