"""Writers of ours that are stopped before each of their writes in turn, and whose files others take over while readers go on: h5py, which has the file
open as SWMR reader, and a `poll` of ours. No reader's rows become fewer, and no value is another; the rows of batches that were told are there, and
rows that were not flushed are gone. At the end all tools read the same rows."""
import itertools
import os
import shutil
import signal
import subprocess
import tempfile

import h5py

import several
from appends import SECONDS, lines_of, of, table, text_of, values_of, wide
from stopping import COLUMNS, PROGRAM, Case, built, plain_cases, ran, read_by_all

ATTEMPTS, POLLS = 1000, 3000


def cases():
    """What writers are stopped in, and one of whose rows some are written before their flush."""
    for columns in COLUMNS:
        yield from plain_cases(columns)
        yield Case("our file", 64, columns, 0, [400, 1, 300], ("--budget", "1024"))


class Watch:
    """A poll of ours that goes on beside the writers."""

    def __init__(self, file):
        words = [PROGRAM, "poll", file, "--times", str(POLLS), "--attempts", str(ATTEMPTS), "--values"]
        self.process = subprocess.Popen(words, stdout=subprocess.PIPE, stderr=subprocess.STDOUT, text=True)
        self.first = self.process.stdout.readline()

    def found(self, least, lines):
        """What it says otherwise than at least so many rows at first, never fewer, and these lines from the first on."""
        # (what was read ahead of the first line is in the stream's own buffer)
        text = self.first + self.process.stdout.read()
        self.process.wait(SECONDS)
        said = text.split("\n")[:-1]
        counts = [int(it[5:]) for it in said if it.startswith("rows ")]
        values = [it for it in said if not it.startswith("rows ")]
        found = of("the status of the poll", self.process.returncode, 0)
        if not counts or counts[0] < least or counts != sorted(counts):
            found.append(f"polls find {counts[:5]} .. {counts[-5:]} rows, at first {least} are there")
        return found + of("the values of the poll", values, lines[: len(values)]) + of("their number", len(values), max(counts, default=0))


class Taking:
    """An append that takes a file over, fed batch by batch."""

    def __init__(self, file, *options):
        # (HDF5's library reads meanwhile, so no place is used again)
        self.process = subprocess.Popen([PROGRAM, "append", file, "--takeover", "--no-reuse", *options], stdin=subprocess.PIPE, stdout=subprocess.PIPE, text=True)

    def feed(self, values, columns):
        """Flushes these values; the line that tells it."""
        self.process.stdin.write(text_of([values], columns) + "\n")
        self.process.stdin.flush()
        return self.process.stdout.readline()

    def end(self):
        """Closes the file; the status, and what is written last."""
        self.process.stdin.close()
        text = self.process.stdout.read()
        return self.process.wait(SECONDS), text


def seen(opened, values, columns, what):
    """What h5py reads otherwise than these values."""
    opened["data"].id.refresh()
    return of(f"h5py {what}", opened["data"][:].tolist(), table(values, columns))


def taken(case, file, there):
    """What is not as it should be where a file whose stopped writer had flushed these values is taken over."""
    columns, values, found = case.columns, list(there), []
    watch = Watch(file)
    with h5py.File(file, "r", libver="latest", swmr=True) as opened:
        found += seen(opened, values, columns, "before it is taken over")
        writer = Taking(file)
        for rows in (1, case.chunk + 1):
            values += case.values(20_000 + len(values), rows)
            count = len(values) // wide(columns)
            found += of("append", writer.feed(values[-rows * wide(columns) :], columns), f"rows {count}\n")
            found += seen(opened, values, columns, f"at {count} rows")
        found += of("the end", writer.end(), (0, f"closed {len(values) // wide(columns)}\n"))
        found += seen(opened, values, columns, "behind it")
    found += watch.found(len(there) // wide(columns), lines_of(values, columns))
    return found + read_by_all(case, {file: values})


def stopped(case, shim, folder):
    """What is not as it should be at any stop of this case."""
    begun, file = case.begin(f"{folder}/begun"), f"{folder}/stopped"
    batches, found = case.under_way(10_000), []
    for at in itertools.count(1):
        shutil.copyfile(f"{folder}/begun", file)
        how = {"env": {**os.environ, "LD_PRELOAD": shim, "H5SWMR_STOP": str(at)}}
        status, text = ran([PROGRAM, "append", file, "--no-reuse", *case.options], text_of(batches, case.columns), **how)
        if status == 0:
            return found + ([f"{at - 1} writes were stopped"] if found or at < 6 else [])
        here = of("status", status, -signal.SIGKILL)
        if at == 1:
            here += of("the takeover of a file that nobody writes", ran([PROGRAM, "append", file, "--takeover"]), (6, "error flags 0\n"))
        else:
            here += taken(case, file, begun + sum(batches[: text.count("rows ")], []))
        found += [f"before write {at}: {it}" for it in here]


# ---- Several datasets


def copied(held):
    """The values of each dataset, as lists of their own."""
    return {name: list(values) for name, values in held.items()}


def rows_there(file, names):
    """How many rows a poll finds of each dataset."""
    return [int(ran([PROGRAM, "poll", file, "--name", it])[1].split(" ")[1]) for it in names]


def all_taken(file, names, held):
    """What is not as it should be where a file with these values is taken over by all names while h5py has it open."""
    values, found = copied(held), []
    with h5py.File(file, "r", libver="latest", swmr=True) as opened:
        writer = Taking(file, "--name", ",".join(names))
        for turn in (0, 1):
            text, wanted = several.input_of(names, values, [[(it, 1 + 2 * turn + at) for at, it in enumerate(names)]])
            # (the lines of a call begin with its first dataset in use, and the next call's are in the same)
            writer.process.stdin.write(("use 1\n" if turn else "") + text)
            writer.process.stdin.flush()
            found += of("append", writer.process.stdout.readline(), wanted.split("\n")[0] + "\n")
            for name in names:
                opened[name].id.refresh()
                found += of(f"h5py {name}", opened[name][...].ravel().tolist(), values[name])
        numbers = " ".join(str(len(several.rows_in(it, values[it]))) for it in names)
        found += of("the end", writer.end(), (0, f"closed {numbers}\n"))
    return found + several.read_all(file, names, values, False)


def several_stopped(names, shim, folder):
    """What is not as it should be at any stop of an append to several datasets at once. Behind a stop each dataset has the rows that were told, or
    also those of the batch that was under way, since each has a piece of its own by which its rows are there."""
    begun, file = f"{folder}/begun", f"{folder}/stopped"
    several.made(begun, names)
    first = {it: values_of(several.SETS[it][0], several.SETS[it][1][0] * several.width_of(it)) for it in names}
    batches = [[(it, 3 + 2 * at) for at, it in enumerate(names)], [(names[-1], 40), (names[0], 1)]]
    ends = [first]
    for at in range(len(batches)):
        after = copied(ends[-1])
        several.input_of(names, after, [batches[at]])
        ends.append(after)
    text, found = several.input_of(names, copied(first), batches)[0], []
    for at in itertools.count(1):
        shutil.copyfile(begun, file)
        how = {"env": {**os.environ, "LD_PRELOAD": shim, "H5SWMR_STOP": str(at)}}
        status, told = ran([PROGRAM, "append", file, "--no-reuse", "--name", ",".join(names)], text, **how)
        if status == 0:
            return found + ([f"{at - 1} writes were stopped"] if found or at < 10 else [])
        if at == 1:
            continue
        whole = told.count("rows ")
        may = [{len(several.rows_in(it, end[it])) for end in ends[whole : whole + 2]} for it in names]
        counts = rows_there(file, names)
        here = [f"{it} has {count} rows, not {sorted(these)}" for it, count, these in zip(names, counts, may) if count not in these]
        held = {it: ends[-1][it][: count * several.width_of(it)] for it, count in zip(names, counts)}
        found += [f"before write {at}: {it}" for it in here + all_taken(file, names, held)]


def trials():
    """Each trial by its name: what it finds is not as it should be, in a folder of its own."""
    if not shutil.which("cc"):
        print("cc missing: no file is taken over from a writer that was stopped")
        return
    with tempfile.TemporaryDirectory(prefix="h5swmr-take-") as folder:
        shim = built(folder)
        for case in cases():
            yield f"taken over: {case.name()}", lambda it, c=case: stopped(c, shim, it)
        for names in (["line", "table"], ["fixed", "line"]):
            yield f"taken over: {', '.join(names)} at once", lambda it, n=names: several_stopped(n, shim, it)
