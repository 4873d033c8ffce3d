#!/bin/sh
# Counts the instructions of scripts that append to a dataset of two dimensions, in chunks of one value by rising keys, with every piece
# made visible, and how they grow: 100,000 chunks in 100 flushes, and 20,000 in as many. The reading of the script is among them.
# Wants valgrind and python3.
top=$(cd "$(dirname "$0")/.." && pwd -P) || exit 1
work=$(mktemp -d) || exit 1
trap 'rm -rf "$work"' EXIT
"$top/h5swmr" play --type u8 --chunk 1 --columns 1 --width 1 </dev/null || exit 1

# the instructions of so many flushes of so many rows each
instructions() {
    python3 -c '
import sys
flushes, rows = map(int, sys.argv[1:])
for _ in range(flushes):
    print("append" + " 7" * rows + "\nflush\nwrite 1000000")' "$1" "$2" > "$work/script"
    valgrind --tool=callgrind --callgrind-out-file="$work/out" \
        "$top/crates/h5w_cli/out/h5w_cli" play --type u8 --chunk 1 --columns 1 --width 1 <"$work/script" >"$work/replies" 2>"$work/log" || { tail -n 5 "$work/log" >&2; exit 1; }
    grep -c "pending 0" "$work/replies" | grep -qx "$1" || { tail -n 3 "$work/replies" >&2; exit 1; }
    sed -n 's/^summary: //p; s/^totals: //p' "$work/out" | head -n 1
}

half=$(instructions 50 1000) || exit 1
whole=$(instructions 100 1000) || exit 1
few=$(instructions 10000 1) || exit 1
many=$(instructions 20000 1) || exit 1
python3 -c '
import sys
half, whole, few, many = map(int, sys.argv[1:])
print("100,000 chunks in 100 flushes, instructions a chunk: %.0f" % (whole / 100000))
print("  times those of half as many: %.2f (at most 2.2)" % (whole / half))
print("20,000 flushes of a chunk, instructions a flush: %.0f" % (many / 20000))
print("  times those of half as many: %.2f (at most 2.2)" % (many / few))
sys.exit(max(whole / half, many / few) > 2.2)' "$half" "$whole" "$few" "$many"
