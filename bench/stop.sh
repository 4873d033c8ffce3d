#!/bin/sh
# Counts the instructions of a sweep over every stop position, by the pieces of its writer: rows that are flushed one by one into one
# chunk, two pieces each. Times it too. Wants valgrind and python3.
top=$(cd "$(dirname "$0")/.." && pwd -P) || exit 1
for tool in valgrind python3; do
    command -v "$tool" >/dev/null || { echo "skipped: no $tool"; exit 0; }
done
work=$(mktemp -d) || exit 1
trap 'rm -rf "$work"' EXIT
"$top/h5swmr" stop --type i32le --chunk 65536 </dev/null >/dev/null || exit 1

# the instructions of a sweep over so many flushes
counts() {
    python3 -c 'import sys; print("append 7\nflush\n" * int(sys.argv[1]), end="")' "$1" >"$work/script"
    valgrind --tool=callgrind --callgrind-out-file="$work/out" \
        "$top/crates/h5w_cli/out/h5w_cli" stop --type i32le --chunk 65536 <"$work/script" >"$work/report" 2>"$work/log" || { tail -n 5 "$work/log" >&2; exit 1; }
    callgrind_annotate --inclusive=yes --threshold=100 "$work/out" | python3 -c '
import re, sys
print(max(int(m.group(1).replace(",", "")) for line in sys.stdin for m in [re.match(r" *([0-9,]+) .*PROGRAM TOTALS", line)] if m))'
}

one=$(counts 5000) || exit 1
pieces=$(tail -n 1 "$work/report" | cut -d ' ' -f 4)
start=$(date +%s%N)
"$top/crates/h5w_cli/out/h5w_cli" stop --type i32le --chunk 65536 <"$work/script" >"$work/report" || exit 1
end=$(date +%s%N)
two=$(counts 10000) || exit 1
more=$(tail -n 1 "$work/report" | cut -d ' ' -f 4)
python3 -c '
import sys
one, pieces, start, end, two, more = map(int, sys.argv[1:])
print("%d pieces: %.3f s, %.0f instructions a piece" % (pieces, (end - start) / 1e9, one / pieces))
print("%d pieces: %.2f times those (at most 2.2)" % (more, two / one))
sys.exit(two > 2.2 * one)' "$one" "$pieces" "$start" "$end" "$two" "$more"
