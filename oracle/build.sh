#!/bin/sh
# Builds the oracle: the Rust decoder, unchanged, beside the stubs and the command line.
# Needs rustc alone. Writes oracle/build/liboracle.rlib, for a Rust program to link, and oracle/build/oracle.
# The carried-over files are checked by their sums before they are copied and, as copied, after they are compiled.
set -eu
cd "$(dirname "$0")"

(cd rust && sha256sum --check --quiet --strict SHA256SUMS)

rm -rf build
mkdir -p build/src/atn
cp rust/atn/serialized.rs rust/atn/mod.rs build/src/atn/
cp stubs/atn/*.rs build/src/atn/
cp stubs/errors.rs src/lib.rs src/main.rs build/src/
# token.rs needs the rest of its crate; its one line that says what TOKEN_EOF is stands for it.
grep -E '^pub const TOKEN_EOF: i32 = ' rust/token.rs > build/src/token.rs
test "$(wc -l < build/src/token.rs)" -eq 1

rustc --edition 2024 -O -A warnings --crate-type rlib --crate-name oracle -o build/liboracle.rlib build/src/lib.rs
rustc --edition 2024 -O -D warnings --extern oracle=build/liboracle.rlib -o build/oracle build/src/main.rs

grep -E ' atn/(serialized|mod)\.rs$' rust/SHA256SUMS > build/SHA256SUMS
test "$(wc -l < build/SHA256SUMS)" -eq 2
(cd build/src && sha256sum --check --quiet --strict ../SHA256SUMS)
(cd rust && sha256sum --check --quiet --strict SHA256SUMS)
echo "built oracle/build/oracle"
