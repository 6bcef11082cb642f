# Read where the machine is not x86-64: the archive links into x86-64 programs alone, so these are compiled across and qemu runs them.
# Debian's own Rust has a library for another processor; a Rust of another origin may lack it.
PATH=/usr/bin:$PATH
NM=x86_64-linux-gnu-nm
CARGO_BUILD_TARGET=x86_64-unknown-linux-gnu
CARGO_TARGET_X86_64_UNKNOWN_LINUX_GNU_LINKER=x86_64-linux-gnu-gcc
# The tests of the command line read it too.
CARGO_TARGET_X86_64_UNKNOWN_LINUX_GNU_RUNNER=qemu-x86_64-static
export PATH CARGO_BUILD_TARGET CARGO_TARGET_X86_64_UNKNOWN_LINUX_GNU_LINKER CARGO_TARGET_X86_64_UNKNOWN_LINUX_GNU_RUNNER
emulator=$CARGO_TARGET_X86_64_UNKNOWN_LINUX_GNU_RUNNER
programs=target/$CARGO_BUILD_TARGET/release
