#!/bin/sh
# Counts the instructions of `make`: of a file in memory of a generator's values, with its check and the reading of all values, by part, and
# how they grow. Beside them stands what HDF5's library takes to append as many values to a file, in as many flushes. Of both are counted the
# instructions, the writes of the file (of ours one for each piece), and the pages of memory that the system gives. What the system does for a
# write or a page valgrind doesn't see. So the last line tells how many instructions a write may take where `make` and its pieces are to take at
# most 0.6 of the library's append, if pages take none. These counts are those of any run and any load; `bench/peer append` has the times.
# Wants valgrind and python3, and for the library gcc, strace and Debian's libhdf5-dev.
top=$(cd "$(dirname "$0")/.." && pwd -P) || exit 1
work=$(mktemp -d) || exit 1
trap 'rm -rf "$work"' EXIT
program="$top/crates/h5w_cli/out/h5w_cli"
"$top/h5swmr" play --type i32le --chunk 1 </dev/null || exit 1

# the instructions of a program with these words, whose profile is kept
counts() {
    valgrind --tool=callgrind --callgrind-out-file="$work/out" "$@" >"$work/told" 2>"$work/log" || { tail -n 5 "$work/log" >&2; exit 1; }
    sed -n 's/^summary: //p; s/^totals: //p' "$work/out" | head -n 1
}

# those of the library's append of so many values, in batches of 1,000, to an empty file of ours
library() {
    cp "$work/empty.h5" "$work/f.h5" && counts "$work/peer" append "$work/f.h5" "$1" 1000
}

half=$(counts "$program" make 500000 7) && whole=$(counts "$program" make 1000000 7) || exit 1
pieces=$(sed -n 's/.* pieces \([0-9]*\) .*/\1/p' "$work/told")
callgrind_annotate --inclusive=yes --threshold=100 "$work/out" >"$work/costs" || exit 1
start=0 theirs=0 writes=0
if pkg-config --exists hdf5 && command -v gcc >/dev/null && command -v strace >/dev/null; then
    gcc -O2 -o "$work/peer" "$top/bench/peer.c" $(pkg-config --cflags --libs hdf5) || exit 1
    "$program" new "$work/empty.h5" --type i32le --chunk 64 >"$work/told" || exit 1
    start=$(library 0) && theirs=$(library 1000000) || exit 1
    cp "$work/empty.h5" "$work/f.h5" || exit 1
    strace -e trace=pwrite64 -o "$work/calls" "$work/peer" append "$work/f.h5" 1000000 1000 || exit 1
    writes=$(grep -c '^pwrite64' "$work/calls")
    cp "$work/empty.h5" "$work/f.h5" || exit 1
fi
python3 - "$work" "$program" "$half" "$whole" "$pieces" "$start" "$theirs" "$writes" <<'END'
import os
import re
import subprocess
import sys

FOLDER, PROGRAM = sys.argv[1:3]
half, whole, pieces, start, theirs, writes = map(int, sys.argv[3:])
VALUES = 1_000_000
PARTS = [("appended, flushed, and made visible", r"h5w_make::batch::put_batch"), ("  the flush", r"WriterCore::flush"),
         ("  pieces made visible", r"h5w_make::batch::show_all"), ("read back", r"h5w_make::reading::answered")]


def pages(*words):
    """How many pages of memory the system gives to a program."""
    program = subprocess.Popen(words, stdout=subprocess.DEVNULL)
    _, status, used = os.wait4(program.pid, 0)
    program.returncode = os.waitstatus_to_exitcode(status)
    return used.ru_minflt


with open(f"{FOLDER}/costs", encoding="utf-8") as file:
    lines = [(int(it[1].replace(",", "")), it[2]) for line in file for it in [re.match(r" *([0-9,]+) \([^)]*\) +(.*)", line)] if it]
print("a file of 1,000,000 values, instructions a value: %.1f (at most 135)" % (whole / VALUES))
for what, name in PARTS:
    found = [count for count, function in lines if re.search(name, function)]
    if found:
        print("  of these %s: %.1f" % (what, max(found) / VALUES))
print("  times those of half as many: %.2f (at most 2.2)" % (whole / half))
if theirs:
    most = (0.6 * theirs - whole) / (pieces - 0.6 * writes)
    print("the library's append of them: %.1f, of which %.1f to start and to close; `make` takes %.2f of all" % (theirs / VALUES, start / VALUES, whole / theirs))
    print("writes of a file: %d of ours, one a piece, and %d of the library's" % (pieces, writes))
    print("pages of memory: %d of ours, and %d of the library's" % (pages(PROGRAM, "make", str(VALUES), "7"), pages(f"{FOLDER}/peer", "append", f"{FOLDER}/f.h5", str(VALUES), "1000")))
    print("both together take at most 0.6 of the library's append where a write takes at most %.0f instructions" % most)
sys.exit(whole > 135 * VALUES or whole > 2.2 * half)
END
