#!/bin/sh
# Counts the instructions of an append and a flush, with every piece made visible, of 65,536 and of 131,072 values in
# chunks of 65,536 rows. Prints the instructions a value, and how many times more the second run takes. And the most memory at once of
# 65,536 rows that are appended in 64 lines and flushed, of which no piece becomes visible: in one chunk, and in chunks of one row. The image
# in memory and its journal, which make room for the pieces, are among it.
# Wants valgrind and python3.
top=$(cd "$(dirname "$0")/.." && pwd -P) || exit 1
work=$(mktemp -d) || exit 1
trap 'rm -rf "$work"' EXIT
"$top/h5swmr" play --type i32le --chunk 65536 </dev/null || exit 1

# lines of at most 65,536 bytes, which together append N values
script() {
    python3 -c '
import sys
left = int(sys.argv[1])
while left > 0:
    count = min(left, 8192)
    print("append " + " ".join(str(v % 1000000) for v in range(left - count, left)))
    left -= count
print("flush")
print("write 1000000")' "$1"
}

instructions() {
    script "$1" > "$work/script"
    valgrind --tool=callgrind --callgrind-out-file="$work/out" \
        "$top/crates/h5w_cli/out/h5w_cli" play --type i32le --chunk 65536 --budget 1073741824 <"$work/script" >"$work/replies" 2>"$work/log" || exit 1
    tail -n 1 "$work/replies" >&2
    sed -n 's/^summary: //p; s/^totals: //p' "$work/out" | head -n 1
}

# the most bytes at once, by the rows of a chunk
bytes() {
    python3 -c '
for line in range(64):
    print("append " + " ".join(str(1024 * line + it) for it in range(1024)))
print("flush")' >"$work/script"
    valgrind --tool=massif --massif-out-file="$work/heap" \
        "$top/crates/h5w_cli/out/h5w_cli" play --type i32le --chunk "$1" --budget 1073741824 <"$work/script" >"$work/replies" 2>"$work/log" || exit 1
    sed -n 's/^mem_heap_B=//p' "$work/heap" | sort -n | tail -n 1
}

wide=$(bytes 65536) || exit 1
many=$(bytes 1) || exit 1
once=$(instructions 65536) || exit 1
twice=$(instructions 131072) || exit 1
python3 -c '
import sys
once, twice, wide, many = map(int, sys.argv[1:])
print("65536 values: %d instructions, %.1f a value" % (once, once / 65536))
print("131072 values: %d instructions, %.1f a value" % (twice, twice / 131072))
print("twice the rows: %.3f times the instructions (at most 2.2)" % (twice / once))
print("65,536 rows in one chunk: %.1f bytes of memory a value of 4 bytes at the most" % (wide / 65536))
print("65,536 chunks of a row: %.0f bytes of memory a chunk at the most" % (many / 65536))
sys.exit(0 if twice <= 2.2 * once else 1)' "$once" "$twice" "$wide" "$many"
