#!/bin/sh
# Builds the comparison and runs it with the given words: --bounded, or --seed S --count N, or --self-test.
set -eu
cd "$(dirname "$0")/.."
beside/build.sh >&2
exec target/beside/differential "$@"
