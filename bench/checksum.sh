#!/bin/sh
# Counts the instructions of the checksum over the 82 bytes of a dataset header, at each of 2,000 flushes of one row, and
# of the same loop in C. Wants valgrind, cc and python3.
top=$(cd "$(dirname "$0")/.." && pwd -P) || exit 1
work=$(mktemp -d) || exit 1
trap 'rm -rf "$work"' EXIT
"$top/h5swmr" play --type i32le --chunk 65536 </dev/null || exit 1
cc -O2 -o "$work/lookup3" "$top/bench/lookup3.c" || exit 1
python3 -c '
for row in range(2000):
    print("append %d\nflush\nwrite 9" % row)' > "$work/script"

# prints the calls of the function from its most frequent caller, and what they cost together
calls() {
    valgrind --tool=callgrind --callgrind-out-file="$work/out" "$@" >"$work/replies" 2>"$work/log" || exit 1
    python3 -c '
import re, sys
lines = open(sys.argv[1]).read().split("\n")
name = next(m.group(1) for line in lines for m in [re.match(r"c?fn=(\(\d+\)) (?:h5w_sum::)?lookup3$", line)] if m)
costs = []
for at, line in enumerate(lines):
    if line.split(" ")[0] == "cfn=" + name:
        at = next(k for k in range(at, len(lines)) if lines[k].startswith("calls="))
        costs.append((int(lines[at][6:].split()[0]), int(lines[at + 1].split()[1])))
print("%d %d" % max(costs))' "$work/out"
}

ours=$(calls "$top/crates/h5w_cli/out/h5w_cli" play --type i32le --chunk 65536 --budget 1073741824 <"$work/script") || exit 1
theirs=$(calls "$work/lookup3" 82 2000) || exit 1
python3 -c '
import sys
ours, theirs = [tuple(map(int, it.split())) for it in sys.argv[1:]]
print("%d sums of 82 bytes: %.1f instructions each" % (ours[0], ours[1] / ours[0]))
print("%d sums in C: %.1f instructions each" % (theirs[0], theirs[1] / theirs[0]))' "$ours" "$theirs"
