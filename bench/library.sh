#!/bin/sh
# Counts the instructions of the library for C, its file layer and all: of a value that is appended in batches of 1,000, each flushed, of one that
# is flushed alone, of a refresh that finds nothing, and of a value that is read. Each is the difference between runs of many and of fewer. The
# values have 8 bytes, in chunks of 1,024 rows. `bench/library.sh TYPE` counts them for another type of `h5swmr new`.
# Wants gcc, valgrind and python3, and `make -C bindings`.
top=$(cd "$(dirname "$0")/.." && pwd -P) || exit 1
work=$(mktemp -d) || exit 1
trap 'rm -rf "$work"' EXIT
type=${1:-i64le}
program="$top/crates/h5w_cli/out/h5w_cli"
[ -f "$top/bindings/out/libh5swmr.a" ] || make -s -C "$top/bindings" || exit 1
gcc -O2 -o "$work/library" "$top/bench/library.c" "-I$top/bindings" "$top/bindings/out/libh5swmr.a" || exit 1

new() {
    rm -f "$work/f.h5"
    "$program" new "$work/f.h5" --type "$type" --chunk 1024 >"$work/log" || exit 1
}

# the instructions of a run
count() {
    valgrind --tool=callgrind --callgrind-out-file="$work/out" "$work/library" "$@" 2>"$work/log" || exit 1
    sed -n 's/^summary: //p; s/^totals: //p' "$work/out" | head -n 1
}

# those of an append of so many rows in such batches to a new file
append() {
    new
    count append "$work/f.h5" "$1" "$2"
}

batches=$(append 100000 1000) && more=$(append 200000 1000) && single=$(append 1000 1) && singles=$(append 2000 1) || exit 1
new
"$work/library" append "$work/f.h5" 100000 1000 || exit 1
few=$(count refresh "$work/f.h5" 1000) && many=$(count refresh "$work/f.h5" 11000) && read=$(count read "$work/f.h5") || exit 1
"$work/library" append "$work/f.h5" 100000 1000 || exit 1
reads=$(count read "$work/f.h5") || exit 1
python3 -c '
import sys
batches, more, single, singles, few, many, read, reads = map(int, sys.argv[1:])
append, refresh = (more - batches) / 100000, (many - few) / 10000
print(f"append in batches of 1,000: {append:.1f} instructions a value (at most 90)")
print(f"append and flush of one value: {(singles - single) / 1000:.0f}")
print(f"refresh, nothing new: {refresh:.0f} (at most 800)")
print(f"read: {(reads - read) / 100000:.1f} a value")
sys.exit(append > 90 or refresh > 800)' "$batches" "$more" "$single" "$singles" "$few" "$many" "$read" "$reads"
