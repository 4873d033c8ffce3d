#!/bin/sh
# Measures the most memory of `append`, of an input of 200 MB beside one of 20 MB, each one batch: 32-bit integers, 1,000 in a line, in chunks
# of 1,024 rows. Rows past the budget are written before their flush, so the second takes hardly more: the places of its chunks, and the blocks
# of their index. Beside them stands the shorter input with the greatest budget, whose cells wait to the end. Then it counts the instructions
# a value of batches of 1,000 values, which are within the budget: those of one more batch, with its values in one line and with one in each
# line. If another program is named, of that too.
# Wants time, valgrind and python3, and 100 MB in the folder of temporary files.
top=$(cd "$(dirname "$0")/.." && pwd -P) || exit 1
work=$(mktemp -d) || exit 1
trap 'rm -rf "$work"' EXIT
"$top/h5swmr" play --type i32le --chunk 1024 </dev/null || exit 1
python3 - "$work" "$top/crates/h5w_cli/out/h5w_cli" "$@" <<'END_OF_SCRIPT'
import os
import subprocess
import sys

FOLDER, PROGRAMS = sys.argv[1], sys.argv[2:]
FILE, TOLD, COSTS = (f"{FOLDER}/{it}" for it in ("f", "told", "costs"))
LINE = " ".join(str(1_000_000 + it) for it in range(1000)).encode() + b"\n"
SINGLE = LINE.replace(b" ", b"\n")
MEGABYTE = 1 << 20


def appended(before, program, line, lines, ends, *options):
    """Appends so many times a thousand values to a new file, each with these line ends, by a command that stands behind others."""
    subprocess.run([program, "new", FILE, "--type", "i32le", "--chunk", "1024"], check=True, stdout=subprocess.DEVNULL)
    process = subprocess.Popen([*before, program, "append", FILE, *options], stdin=subprocess.PIPE, stdout=subprocess.PIPE, stderr=subprocess.DEVNULL)
    for _ in range(lines):
        process.stdin.write(line + ends)
        if ends:
            process.stdin.flush()
            process.stdout.readline()
    process.stdin.close()
    last = process.stdout.read().split(b"\n")[-2]
    size = os.path.getsize(FILE)
    os.remove(FILE)
    if process.wait() or last != b"closed %d" % (1000 * lines):
        sys.exit(f"{program} append: {last}")
    return size


def most_memory(program, megabytes, *options):
    """The most bytes at once of an append of an input of so many megabytes, which is one batch."""
    appended(["/usr/bin/time", "-o", TOLD, "-f", "%M"], program, LINE, megabytes * MEGABYTE // len(LINE), b"", *options)
    with open(TOLD, encoding="utf-8") as told:
        return int(told.read().split()[-1]) * 1024


def instructions(program, line, batches):
    """The instructions of an append of so many batches of the 1,000 values of these lines."""
    appended(["valgrind", "--tool=callgrind", f"--callgrind-out-file={COSTS}"], program, line, batches, b"\n")
    with open(COSTS, encoding="utf-8") as costs:
        return max(int(it.split()[1]) for it in costs if it.startswith(("summary:", "totals:")))


short, long, whole = most_memory(PROGRAMS[0], 20), most_memory(PROGRAMS[0], 200), most_memory(PROGRAMS[0], 20, "--budget", str(1 << 30))
print(f"the most memory of an input of 20 MB: {short / MEGABYTE:.1f} MB")
print(f"of one of 200 MB: {long / MEGABYTE:.1f} MB (at most 4 MB more)")
print(f"of 20 MB with a budget of 2^30: {whole / MEGABYTE:.1f} MB")
for program in PROGRAMS:
    for line, what in (LINE, "a line of 1,000 values"), (SINGLE, "1,000 lines of one value"):
        each = (instructions(program, line, 300) - instructions(program, line, 100)) / 200_000
        print(f"{program}: batches of {what}, instructions a value: {each:.1f}")
sys.exit(long > short + 4 * MEGABYTE)
END_OF_SCRIPT
