"""Trials of the built program that runs a writer and its readers in threads: what differs from run to run is held against the batches, by
a plain count. Each finds what is not as it may be, a line each."""
import os
import subprocess

from new_files import TYPES

TOP = os.path.dirname(os.path.dirname(os.path.realpath(__file__)))
PROGRAM = f"{TOP}/crates/h5w_cli/out/h5w_cli"
# where other programs want all processors a turn at the image may have to wait for its thread
SECONDS = 60


class Told:
    """What a run may tell of these batches: rows of so many columns behind so many pieces of the creation, and so many calls of each reader."""

    def __init__(self, batches, columns, calls, attempts, first=5):
        self.batches, self.columns, self.calls, self.attempts = [it for it in batches if it], columns, calls, attempts
        self.first, self.flushes, self.sums = first, [], [0]
        values = [value for batch in batches for value in batch]
        for at in range(0, len(values), columns):
            self.sums.append(self.sums[-1] + sum(values[at : at + columns]))

    def flushed(self, pieces):
        """The rows of the last flush that was whole once so many pieces were visible."""
        return max((rows for p, rows in self.flushes if p <= pieces), default=0)

    def take_flushes(self, lines):
        """A line for each batch with rows: more pieces than before, and the rows up to it."""
        pieces, rows = self.first, 0
        for batch, line in zip(self.batches, lines):
            word, p, n = line.split(" ")
            if word != "flush" or int(p) <= pieces or int(n) != rows + len(batch) // self.columns:
                raise ValueError(f"{line!r} behind {pieces} pieces and {rows} rows")
            pieces, rows = int(p), int(n)
            self.flushes.append((pieces, rows))

    def take_call(self, line, reader, call, pieces, seen):
        """The next call of a reader that had seen so many pieces and rows; what it has seen then."""
        word, r, k, before, after, answer, *numbers = line.split(" ")
        before, after = int(before), int(after)
        if (word, int(r), int(k)) != ("poll", reader, call) or not pieces <= before <= after:
            raise ValueError(f"{line!r} behind {pieces} pieces")
        if answer == "again":
            rises = sum(before < p <= after for p, _ in self.flushes)
            if [int(it) for it in numbers] != [self.attempts] or rises < self.attempts:
                raise ValueError(f"{line!r}: {rises} flushes became whole")
            return after, seen
        rows, total = int(numbers[0]), int(numbers[2])
        may = {self.flushed(before)} | {n for p, n in self.flushes if before < p <= after}
        if (answer, numbers[1]) != ("rows", "sum") or rows not in may or rows < seen or total != self.sums[rows]:
            raise ValueError(f"{line!r} behind {seen} rows: of {sorted(may)}")
        return after, rows

    def take(self, text, readers, mirrors=0):
        """The whole text: the flushes, then the calls of each reader, how many pieces a second image has, and all rows."""
        lines = text.decode().split("\n")
        wanted = len(self.batches) + (readers + mirrors) * self.calls
        self.take_flushes(lines)
        pieces = self.flushes[-1][0] if self.flushes else self.first
        # the close writes a piece more
        ends = [f"mirror {pieces + 1}"] * (mirrors > 0) + [f"done {len(self.sums) - 1}", ""]
        if lines[wanted:] != ends:
            raise ValueError(f"{len(lines) - 1} lines, wanted {wanted + len(ends) - 1}; the last are {lines[-3:]}")
        polls = iter(lines[len(self.batches) :])
        for reader in range(1, readers + mirrors + 1):
            pieces, seen = self.first, 0
            for call in range(1, self.calls + 1):
                pieces, seen = self.take_call(next(polls), reader, call, pieces, seen)


def text_of(batches):
    """The batches as lines, each closed by an empty one."""
    return b"".join(b" ".join(b"%d" % it for it in batch) + b"\n\n" if batch else b"\n" for batch in batches)


def live(words, batches, columns=1, readers=1, calls=1, attempts=8, mirrors=0):
    """A run of these batches. Rows of columns that are not fixed have a tree, which is a block less at first."""
    first = 5 if columns == 1 or "--fixed" in words else 4
    words = ["live", *words.split(" "), "--readers", str(readers), "--polls", str(calls), "--attempts", str(attempts)]
    words += ["--mirrors", str(mirrors)] if mirrors else []
    words += ["--columns", str(columns), "--width", "2"] if columns > 1 else []
    try:
        ran = subprocess.run([PROGRAM, *words], input=text_of(batches), capture_output=True, timeout=SECONDS)
    except subprocess.TimeoutExpired:
        return [f"{words}: it had not ended after {SECONDS} seconds"]
    if (ran.returncode, ran.stderr) != (0, b""):
        return [f"{words}: status {ran.returncode}, {ran.stdout[-200:]!r}, {ran.stderr!r}"]
    try:
        Told(batches, columns, calls, attempts, first).take(ran.stdout, readers, mirrors)
    except (IndexError, ValueError) as error:
        return [f"{words}: {error}"]
    return []


def of_each_type(columns, *options):
    """The least and the greatest value of each type, among others, in three flushes."""
    found = []
    for kind, (size, _, signed) in TYPES.items():
        least, greatest = -(2 ** (8 * size - 1)) * signed, 2 ** (8 * size - signed) - 1
        batches = [[greatest, least, 1] * 2, [least] * columns, [greatest] * columns * 3]
        found += live(" ".join([f"--type {kind} --chunk 2", *options]), batches, columns, readers=2, calls=3)
    return found


def sees_differences():
    """Wrong texts of one flush of two rows and one call are each found wrong."""
    wrong = ["flush 10 2\npoll 1 1 5 5 rows 2 sum 3\ndone 2\n", "flush 10 2\npoll 1 1 5 10 rows 2 sum 4\ndone 2\n"]
    wrong += ["flush 10 2\npoll 1 1 5 10 rows 1 sum 1\ndone 2\n", "flush 10 2\npoll 1 1 5 10 again 8\ndone 2\n", "flush 5 2\npoll 1 1 5 5 rows 2 sum 3\ndone 2\n"]
    wrong += ["flush 10 2\npoll 1 1 10 9 rows 2 sum 3\ndone 2\n", "flush 10 2\npoll 2 1 5 10 rows 2 sum 3\ndone 2\n", "flush 10 2\ndone 2\n"]
    wrong += ["flush 10 2\npoll 1 1 5 10 rows 2 sum 3\ndone 3\n", "flush 10 2\npoll 1 1 10 10 rows 0 sum 0\ndone 2\n"]
    passed = []
    for text in wrong:
        try:
            Told([[1, 2]], 1, 1, 8).take(text.encode(), 1)
            passed.append(f"{text!r} passed")
        except ValueError:
            pass
    Told([[1, 2]], 1, 1, 8).take(b"flush 10 2\npoll 1 1 5 10 rows 2 sum 3\ndone 2\n", 1)
    return passed


def trials():
    small, many = [[1, 2, 3], [4]], [[it, -it, 7] for it in range(40)]
    table = {
        "each type": lambda: of_each_type(1),
        "each type, in rows of three columns": lambda: of_each_type(3),
        "each type, in rows of three fixed columns": lambda: of_each_type(3, "--fixed"),
        "empty batches": lambda: live("--type i32le --chunk 2", [[], [1, 2, 3], [], [], [4], []], readers=2, calls=3),
        "10,000 calls": lambda: live("--type i32le --chunk 2", small, calls=10_000),
        "16 readers": lambda: live("--type i64be --chunk 64", many, readers=16, calls=5),
        "16 readers of rows of three columns": lambda: live("--type i16le --chunk 64", [it * 2 for it in many[:20]], 3, readers=16, calls=5),
        "16 readers of rows of three fixed columns": lambda: live("--type i16le --chunk 64 --fixed", [it * 2 for it in many[:20]], 3, readers=16, calls=5),
        "16 readers of each of two images": lambda: live("--type i64be --chunk 64", many, readers=16, calls=5, mirrors=16),
        "a reader, and 4 of a second image": lambda: live("--type i32le --chunk 2", small, calls=1000, mirrors=4),
        "rows of three columns with a second image": lambda: live("--type i16le --chunk 64", [it * 2 for it in many[:20]], 3, readers=2, calls=5, mirrors=2),
        "one attempt a call": lambda: live("--type i32le --chunk 64", many, readers=4, calls=20, attempts=1),
        "10,000 values in a line": lambda: live("--type u16be --chunk 4096", [range(10_000)] * 3, readers=2, calls=3),
        "wrong texts are found wrong": sees_differences,
    }
    for name, find in table.items():
        yield f"live: {name}", find
