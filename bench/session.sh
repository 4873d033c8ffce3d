#!/bin/sh
# Counts the instructions of appends and flushes of 32-bit integers in a world in memory, with every piece made visible, and how they
# grow: chunks of one row in one flush and in many, a row into a stored chunk, 65,536 rows in one chunk, and rows one by one past a small
# budget and a larger one. They are those of the steps of the world in the built program: text is not among them.
# Wants valgrind and python3.
top=$(cd "$(dirname "$0")/.." && pwd -P) || exit 1
work=$(mktemp -d) || exit 1
trap 'rm -rf "$work"' EXIT
"$top/h5swmr" play --type i32le --chunk 1 </dev/null || exit 1

# the instructions of all steps of a world by chunks of so many rows, with so many rows in each of so many flushes, by this budget, and with at
# most so many in an append
steps() {
    python3 -c '
import sys
rows, flushes, most = map(int, sys.argv[1:])
for _ in range(flushes):
    for first in range(0, rows, most):
        print("append " + " ".join(str(value % 1000000) for value in range(first, min(first + most, rows))))
        if most == 1:
            print("write 1000000")
    print("flush\nwrite 1000000")' "$2" "$3" "${5:-8192}" > "$work/script"
    valgrind --tool=callgrind --callgrind-out-file="$work/out" \
        "$top/crates/h5w_cli/out/h5w_cli" play --type i32le --chunk "$1" --budget "${4:-1073741824}" <"$work/script" >"$work/replies" 2>"$work/log" || { tail -n 5 "$work/log" >&2; exit 1; }
    callgrind_annotate --inclusive=yes "$work/out" | python3 -c '
import re, sys
costs = [int(m.group(1).replace(",", "")) for line in sys.stdin for m in [re.match(r" *([0-9,]+) .*World::step", line)] if m]
print(max(costs))'
}

half=$(steps 1 65530 1) || exit 1
whole=$(steps 1 131060 1) || exit 1
few=$(steps 1 131 500) || exit 1
many=$(steps 1 131 1000) || exit 1
wide=$(steps 65536 65536 1) || exit 1
one=$(steps 65536 1 101) || exit 1
more=$(steps 65536 1 201) || exit 1
low=$(steps 2 20000 1 1024 1) || exit 1
high=$(steps 2 20000 1 65536 1) || exit 1
python3 -c '
import sys
half, whole, few, many, wide, one, more, low, high = map(int, sys.argv[1:])
rows = [
    ("131,060 chunks of a row in one flush, instructions a chunk", whole / 131060, None),
    ("  times those of half as many", whole / half, 2.2),
    ("1,000 flushes of 131 chunks of a row, instructions a chunk", many / 131000, None),
    ("  times those of half as many", many / few, 2.2),
    ("65,536 rows in one chunk, instructions a value", wide / 65536, 60),
    ("a row into a stored chunk, from its append to its last piece, instructions", (more - one) / 100, 2300),
    ("20,000 rows one by one past a budget of 65,536 bytes, in chunks of 2, instructions a row", high / 20000, None),
    ("  times those of a budget of 1,024", high / low, 1.2),
]
failed = False
for text, value, most in rows:
    print("%s: %.1f%s" % (text, value, "" if most is None else " (at most %s)" % most))
    failed = failed or most is not None and value > most
sys.exit(failed)' "$half" "$whole" "$few" "$many" "$wide" "$one" "$more" "$low" "$high"
