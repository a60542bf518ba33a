#!/bin/sh
# Builds the archive, the C examples and the Rust example, runs them, and holds what they print to examples/expected; and that the archive
# needs nothing from outside but `memset`.
# Needs rt, a C compiler with nm, and rustc. Run it at the repository's root.
set -eu
cd "$(dirname "$0")/.."
(cd crates/capi && rt lib > /dev/null 2>&1) || { echo 'examples: rt lib failed in crates/capi'; exit 1; }
archive=crates/capi/out/libcapi.a
needs=$(nm -u "$archive" | awk '$1 == "U" { print $2 }' | sort -u | tr '\n' ' ')
[ "$needs" = 'memset ' ] || { echo "examples: the archive needs more than memset from outside: $needs"; exit 1; }
out=target/examples
mkdir -p "$out"
cc -std=c99 -Wall -Wextra -Iinclude -o "$out/walk" examples/c/walk.c "$archive"
cc -std=c99 -Wall -Wextra -Iinclude -o "$out/patch" examples/c/patch.c "$archive"
rustc --edition 2024 -O -L crates/capi/out -o "$out/matching" examples/rust/matching.rs
head -c 1927 samples/xpathlexer.atn > "$out/ragged" # a byte short
head -c 100 samples/xpathlexer.atn > "$out/cut" # inside state 10
{
    "$out/walk" samples/xpathlexer.atn 42
    "$out/walk" "$out/cut" 42 || echo "status $?"
    "$out/patch" samples/xpathlexer.atn 2 7
    "$out/patch" samples/xpathlexer.atn 2 7x || echo "status $?"
    "$out/patch" samples/xpathlexer.atn 2 3000000000 || echo "status $?"
    "$out/patch" /dev/zero 2 7 || echo "status $?"
    "$out/patch" "$out/ragged" 2 7 || echo "status $?"
    "$out/matching"
} > "$out/printed"
diff examples/expected "$out/printed"
echo "examples: as expected"
