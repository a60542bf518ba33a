#!/bin/sh
# Measures the decoder beside the Rust that it ports, in one process, both built for release, and the writer, and prints the figures.
# With --write the run also goes into docs/FIGURES.md and docs/figures.svg.
# Needs rt and rustc. The archive is built anew where a source is newer than it. A run takes about a minute; let the machine rest meanwhile.
set -eu
cd "$(dirname "$0")/.."
archive=crates/capi/out/libcapi.a
if [ ! -f "$archive" ] || [ -n "$(find crates -name '*.rt' -newer "$archive")" ]; then
    (cd crates/capi && rt lib > /dev/null 2>&1) || { echo 'figures: rt lib failed in crates/capi'; exit 1; }
fi
[ -f oracle/build/liboracle.rlib ] || oracle/build.sh
out=target/beside
mkdir -p "$out"
flags='-C opt-level=3'
rustc --edition 2024 $flags -D warnings -L crates/capi/out --extern oracle=oracle/build/liboracle.rlib -o "$out/figures" beside/figures.rs
FIGURES_RUSTC=$(rustc --version)
FIGURES_KIT=$(rt version)
FIGURES_FLAGS='rustc -O (oracle/build.sh)'
FIGURES_LIBC=$(getconf GNU_LIBC_VERSION 2> /dev/null || echo 'C library not told')
export FIGURES_RUSTC FIGURES_KIT FIGURES_FLAGS FIGURES_LIBC
exec "$out/figures" "$@"
