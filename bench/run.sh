#!/bin/sh
# bench/run.sh WHAT: measures library calls by the proved program dk_bench, and prints the times. WHAT is
#   checkpoints  reading the actions of classic checkpoints of up to 1,000,000 rows, and writing those of their states, beside a plain
#            Rust program: the time of one reading and of one writing by each, and the memory
#   conflicts  finding that none of up to 1,000 commits is in the way of one with 10,000 paths: the time of each action and path
#   footers  reading footers of up to 1,000 columns and 100 row groups, and of 10,000 columns: the time for each byte
#   pages    finding and splitting pages of many sizes: the time of one page
#   rows     reading files that look like checkpoints, of up to 100,000 rows, and writing their rows, beside a plain Rust program: the time
#            of one reading and of one writing by each, and the bytes that each writes
#   runs     decoding runs of ten million levels, beside a plain Rust loop: the time of one decoding by each
# WHAT.py makes the files and runs the programs; where WHAT.rs is there, it is the program beside, and rows.rs is that of checkpoints. Building
# dk_bench proves what it
# stands on first.
set -eu
here=$(dirname -- "$(readlink -f -- "$0")")
crate=$here/../crates/dk_bench
if [ $# -ne 1 ] || [ ! -f "$here/$1.py" ] || [ "$1" = measure ]; then
    sed -n '2,10s/^# //p' "$0" >&2
    exit 2
fi
work=$(mktemp -d)
trap 'rm -rf "$work"' EXIT

mkdir -p "$crate/out"
(cd "$crate" && rt run -- runs 3 10 1 data/runs.bin) >"$crate/out/build.log" 2>&1 || {
    echo "run.sh: the build failed; see crates/dk_bench/out/build.log" >&2
    exit 1
}
set -- "$1" "$crate/out/dk_bench" "$work"
peer=$here/$1.rs
[ "$1" != checkpoints ] || peer=$here/rows.rs
if [ -f "$peer" ]; then
    rustc --edition 2021 -O -o "$work/peer" "$peer"
    set -- "$@" "$work/peer"
fi
what=$1
shift
PYTHONDONTWRITEBYTECODE=1 python3 "$here/$what.py" "$@"
