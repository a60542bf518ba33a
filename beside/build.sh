#!/bin/sh
# Builds target/beside/differential, which links Gatehazel's archive and the Rust that it ports (oracle/). Needs rustc alone.
# The archive has to be there: `rt lib` in crates/capi makes it.
set -eu
cd "$(dirname "$0")/.."
archive=crates/capi/out/libcapi.a
if [ ! -f "$archive" ]; then
    echo "beside: $archive is missing; run \`rt lib\` in crates/capi first" >&2
    exit 1
fi
if [ -n "$(find crates -name '*.rt' -newer "$archive" | head -n 1)" ]; then
    echo "beside: a source is newer than $archive; what is compared is the archive as it stands" >&2
fi
[ -f oracle/build/liboracle.rlib ] || oracle/build.sh
mkdir -p target/beside
out=target/beside/differential
made_from="beside samples oracle/demos.txt oracle/build/liboracle.rlib $archive"
if [ -f "$out" ] && [ -z "$(find $made_from -newer "$out" | head -n 1)" ]; then
    echo "$out is up to date"
    exit
fi
rustc --edition 2024 -O -D warnings -L crates/capi/out --extern oracle=oracle/build/liboracle.rlib -o "$out" beside/differential.rs
echo "built $out"
