#!/bin/sh
# Runs that `rt ci` can't hold: it runs a program once, and looks at standard output alone. Here out/rewrite is run again and again, on
# the files of crates/show/data and on the samples; what it puts out, as decimal words, and what it says on standard error are held to the
# file `runs` beside this script. `rt ci`, or `rt run` in this folder, builds the program. `runs.sh --print` prints the runs instead.
cd "$(dirname "$0")/../.." || exit 1
top=$PWD
room=$(mktemp -d) || exit 1
trap 'rm -rf "$room"' EXIT

run() {
    printf '$ rewrite'
    for word; do printf ' %s' "${word:-''}"; done
    echo
    "$top/crates/rewrite/out/rewrite" "$@" > "$room/out" 2> "$room/err"
    od -An -v -td4 -w40 "$room/out" | tr -s ' ' | sed 's/^ //'
    cat "$room/err"
}

# A dialect that ANTLR wrote is in the fixed form.
sample() {
    echo "\$ rewrite $1 | cmp - $1"
    "$top/crates/rewrite/out/rewrite" "$1" | cmp - "$1" && echo same
}

runs() {
    cd "$top/crates/show/data" || exit 1
    run whole.atn
    run --token 0 7 whole.atn
    run whole.atn --token 0 7 --token 0 -2147483648
    run --token 1 7 whole.atn
    run --token 99999999999999999999 7 whole.atn
    run --token -1 7 whole.atn
    run --token 0 2147483648 whole.atn
    run --token 0 whole.atn
    run --token 0
    run --token
    run --tokne 0 7 whole.atn
    run whole.atn every.atn
    run
    run ''
    echo '$ rewrite --help'
    "$top/crates/rewrite/out/rewrite" --help
    run missing.atn
    run .
    run long.atn
    run ragged.atn
    run cut.atn
    run refused.atn
    run state.atn
    run mark.atn
    run empty.atn
    echo '$ rewrite whole.atn > /dev/full'
    "$top/crates/rewrite/out/rewrite" whole.atn 2>&1 > /dev/full
    cd "$top/samples" || exit 1
    for f in *.atn; do sample "$f"; done
}

if [ "$1" = --print ]; then
    runs
    exit
fi
runs > "$room/runs" 2>&1
diff "$top/crates/rewrite/runs" "$room/runs" && echo "rewrite: $(grep -c '^\$' "$room/runs") runs, each as stored"
