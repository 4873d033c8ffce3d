#!/bin/sh
# Counts what an idle refresh of `poll` takes on a file of the system, of 10 and of 100,000 chunks: instructions, with those of its line
# of text, and calls that read the file. It is the difference between polls of 11,001 and of 1,001 times.
# Wants valgrind, strace and python3.
top=$(cd "$(dirname "$0")/.." && pwd -P) || exit 1
work=$(mktemp -d) || exit 1
trap 'rm -rf "$work"' EXIT
"$top/h5swmr" play --type i32le --chunk 1 </dev/null || exit 1
program="$top/crates/h5w_cli/out/h5w_cli"

# makes a file of so many chunks of a row
file() {
    "$program" new "$work/$1" --type i32le --chunk 1 >/dev/null || exit 1
    seq "$1" | "$program" append "$work/$1" >/dev/null || exit 1
}

# the instructions of a poll of a file so many times
instructions() {
    valgrind --tool=callgrind --callgrind-out-file="$work/out" \
        "$program" poll "$work/$1" --times "$2" >"$work/lines" 2>"$work/log" || { tail -n 5 "$work/log" >&2; exit 1; }
    grep -c "^rows $1\$" "$work/lines" | grep -qx "$2" || { tail -n 3 "$work/lines" >&2; exit 1; }
    sed -n 's/^summary: //p; s/^totals: //p' "$work/out" | head -n 1
}

# its calls that read the file
reads() {
    strace -e trace=pread64 -o "$work/calls" "$program" poll "$work/$1" --times "$2" >"$work/lines" || exit 1
    grep -c '^pread64' "$work/calls"
}

for chunks in 10 100000; do
    file "$chunks"
    one=$(instructions "$chunks" 1001) && many=$(instructions "$chunks" 11001) || exit 1
    few=$(reads "$chunks" 1001) && more=$(reads "$chunks" 11001) || exit 1
    echo "$chunks" "$one" "$many" "$few" "$more"
done | python3 -c '
import sys
rows = [list(map(int, line.split())) for line in sys.stdin]
failed = len(rows) != 2
for chunks, one, many, few, more in rows:
    cost, reads = (many - one) / 10000, (more - few) / 10000
    print(f"an idle refresh of poll at {chunks:,} chunks, instructions: {cost:.0f} (at most 1500); reads of the file: {reads:.2f} (at most 1)")
    failed = failed or cost > 1500 or reads > 1
sys.exit(failed)'
