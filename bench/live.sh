#!/bin/sh
# Times the writer of runs in threads, by how many readers poll beside it: 4,000 batches of 50 32-bit integers, 1,024 in a chunk. The writer's
# time is that from the start of the first other thread to the moment when it waits for its readers (bench/threads.c, preloaded). Each of them
# makes 200 calls, and each call reads the values that are new. In the first row one reader makes one call, in the last ones 1 or 8 others poll
# a second image beside one reader. Each figure is the median of 9 runs, or of as many as the first word says, one of each row in turn. Of the
# writer's thread these are told too: its time on a processor, its page faults, and how often it left its processor while it could go on; and its
# time in as many runs in which it has a processor of its own, and all other threads share the rest.
# Nothing here is a test: the figures are those of one machine at one time.
# Wants gcc and python3.
top=$(cd "$(dirname "$0")/.." && pwd -P) || exit 1
work=$(mktemp -d) || exit 1
trap 'rm -rf "$work"' EXIT
gcc -O2 -Wall -shared -fPIC -o "$work/threads.so" "$top/bench/threads.c" || exit 1
"$top/h5swmr" play --type i32le --chunk 1 </dev/null || exit 1
python3 - "$top/crates/h5w_cli/out/h5w_cli" "$work" "${1:-9}" <<'END_OF_SCRIPT'
import os
import statistics
import subprocess
import sys

PROGRAM, FOLDER, RUNS = sys.argv[1], sys.argv[2], int(sys.argv[3])
BATCHES, VALUES, CALLS = 4000, 50, 200
INPUT, CLOCK = f"{FOLDER}/input", {**os.environ, "LD_PRELOAD": f"{FOLDER}/threads.so"}


def measured(readers, mirrors, calls, has_own):
    """The writer's seconds, those on a processor, its page faults and how often it left; how many calls ended before the last flush was whole."""
    words = [PROGRAM, "live", "--type", "i32le", "--chunk", "1024", "--readers", str(readers), "--polls", str(calls), "--mirrors", str(mirrors)]
    with open(INPUT, "rb") as source:
        told = subprocess.run(words, stdin=source, capture_output=True, check=True, text=True, env=CLOCK | ({"THREADS_ALONE": "1"} if has_own else {}))
    lines = [it.split(" ") for it in told.stdout.splitlines()]
    flushed = max(int(it[1]) for it in lines if it[0] == "flush")
    polls = [it for it in lines if it[0] == "poll"]
    ended = [it for it in polls if int(it[4]) < flushed]
    passed, on, faults, left = (int(it) for it in told.stderr.split()[:4])
    return passed / 1e9, on / 1e9, faults, left, len(ended)


with open(INPUT, "w", encoding="utf-8") as text:
    text.writelines(" ".join(str(at + k) for k in range(VALUES)) + "\n\n" for at in range(0, BATCHES * VALUES, VALUES))
rows = [(1, 0, 1)] + [(readers, 0, CALLS) for readers in (1, 2, 4, 8, 16)] + [(1, mirrors, CALLS) for mirrors in (1, 8)]
seen = [[(measured(*row, False), measured(*row, True)[0]) for row in rows] for _ in range(RUNS)]
print(f"{BATCHES:,} batches of {VALUES} values, {os.cpu_count()} processors, median of {RUNS} runs\n")
columns = ["the writer's time", "beside one call", "with a processor of its own", "on a processor", "page faults", "left it", "calls that ended meanwhile", "calls a second"]
print(f"| readers | {' | '.join(columns)} |")
print("|---" * (len(columns) + 1) + "|")
alone = None
for (readers, mirrors, calls), runs in zip(rows, zip(*seen)):
    seconds, on, faults, left, ended = (statistics.median(column) for column in zip(*(shared for shared, _ in runs)))
    own = statistics.median(own for _, own in runs)
    alone = alone or seconds
    name = "1, with one call" if calls == 1 else f"1, and {mirrors} of a second image" if mirrors else readers
    calls_seen = ("-", "-") if calls == 1 else (f"{ended:,.0f}", f"{ended / seconds:,.0f}")
    times = f"{1e3 * seconds:.1f} ms | {seconds / alone:.1f} times | {1e3 * own:.1f} ms | {1e3 * on:.1f} ms | {faults:,.0f} | {left:,.0f}"
    print(f"| {name} | {times} | {' | '.join(calls_seen)} |")
END_OF_SCRIPT
