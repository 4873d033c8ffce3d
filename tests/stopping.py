"""Writers of ours that are stopped before each of their writes in turn. Then `clear` and `check` take the file, `append` goes on with no row, with
one, and with as many as were under way, and h5py appends behind those; after each of these steps all tools read the same rows."""
import itertools
import os
import shutil
import signal
import subprocess
import tempfile
from dataclasses import dataclass

import h5py

from appends import SECONDS, TOP, appended, lines_of, made, of, of_h5py, resized, table, text_of, wide
from new_files import in_words

# (./h5swmr looks at all sources first, and here the program runs thousands of times)
PROGRAM = f"{TOP}/crates/h5w_cli/out/h5w_cli"
KIND = "i32le"
COLUMNS = (None, (3, 2), (3, 2, "fixed"))

# The process is killed where it would write to a place of a file for the H5SWMR_STOP-th time.
SHIM = """
#define _GNU_SOURCE
#include <signal.h>
#include <stdlib.h>
#include <sys/syscall.h>
#include <unistd.h>

ssize_t pwrite64(int file, const void *bytes, size_t count, off64_t at) {
    static long calls;
    const char *last = getenv("H5SWMR_STOP");
    if (last && ++calls == atol(last))
        kill(getpid(), SIGKILL);
    return syscall(SYS_pwrite64, file, bytes, count, at);
}

ssize_t pwrite(int file, const void *bytes, size_t count, off_t at) {
    return pwrite64(file, bytes, count, at);
}
"""


def built(folder):
    """The shim as a library that is loaded before all others."""
    source, library = f"{folder}/stop.c", f"{folder}/stop.so"
    with open(source, "w", encoding="utf-8") as file:
        file.write(SHIM)
    subprocess.run(["cc", "-shared", "-fPIC", "-o", library, source], check=True, timeout=SECONDS)
    return library


def ran(words, text="", **how):
    """The status of a command, and what it writes."""
    done = subprocess.run(words, input=text.encode(), capture_output=True, timeout=SECONDS, close_fds=False, **how)
    return done.returncode, (done.stdout + done.stderr).decode(errors="replace")


@dataclass
class Case:
    """A file: its maker, its chunks, its columns if it has two dimensions, the rows that it begins with, the batches of the append, and its options."""

    maker: str
    chunk: int
    columns: tuple
    before: int
    batches: list
    options: tuple = ()

    def name(self):
        """The case in words."""
        sides = f"{self.chunk} by {self.columns[1]} of {self.columns[0]} columns" if self.columns else str(self.chunk)
        return f"{self.maker}, {self.before} rows in chunks of {sides}: stopped before each write of an append of {self.batches} rows{''.join(f' {it}' for it in self.options)}"

    def values(self, first, rows):
        """The values of so many rows."""
        return list(range(first, first + rows * wide(self.columns)))

    def begin(self, file):
        """Makes the file; the values that it begins with."""
        values = self.values(1, self.before)
        if self.maker == "our file":
            found = made(file, KIND, self.chunk, None, self.columns) + (appended(file, [values], 0, self.columns) if values else [])
            if found:
                raise ValueError(found[0])
        elif self.maker == "h5py's file":
            of_h5py(file, KIND, self.chunk, values, None, 0, self.columns)
        else:
            of_h5py(file, KIND, self.chunk, [], None, 0, self.columns)
            with h5py.File(file, "r+", libver="latest") as opened:
                opened["data"].resize(self.before, axis=0)
            values = [0] * len(values)
        return values

    def under_way(self, first):
        """The values of each batch; they are no others' values."""
        begins = itertools.accumulate(self.batches, initial=0)
        return [self.values(first + before * wide(self.columns), rows) for before, rows in zip(begins, self.batches)]


def plain_cases(columns):
    """Arrays or trees, whose blocks are in place or are copied, and whose index is there or is made by the append."""
    for chunk in (1, 2, 64):
        yield Case("our file", chunk, columns, 0, [chunk + 1, 1, chunk])
        yield Case("our file", chunk, columns, 3 * chunk, [2 * chunk + 1, 1])
        yield Case("h5py's file", chunk, columns, 2 * chunk - 1, [chunk + 2, 1])
        yield Case("h5py's file without chunks", chunk, columns, chunk - 1, [chunk + 1])


def cases():
    """These, and appends of which some rows are written before their flush."""
    for columns in COLUMNS:
        yield from plain_cases(columns)
        for more in ((), ("--no-reuse",)):
            yield Case("our file", 64, columns, 0, [400, 1, 300], ("--budget", "1024", *more))
            yield Case("h5py's file", 64, columns, 100, [400, 1], ("--budget", "1024", *more))


# ---- What is read of files that were stopped


def dumped(files):
    """The values that h5dump prints of each file."""
    status, text = ran(["h5dump", "-y", "-w", "1", "-d", "/data", *files])
    bodies = [it.split("}")[0].replace(",", " ").split() for it in text.split("DATA {")[1:]]
    well = (status, len(bodies)) == (0, len(files))
    return [list(map(int, it)) for it in bodies] if well else [f"status {status}: {text[:200]}"] * len(files)


def read_by_all(case, files):
    """What the tools read otherwise than the values that each file is to have."""
    found = []
    for (file, values), seen in zip(files.items(), dumped(files)):
        rows = lines_of(values, case.columns)
        with h5py.File(file, "r") as opened:
            each = of("h5py", opened["data"][:].tolist(), table(values, case.columns)) + of("h5dump", seen, values)
        each += of("poll", ran([PROGRAM, "poll", file, "--values"]), (0, "\n".join([f"rows {len(rows)}", *rows, ""])))
        found += [f"{os.path.basename(file)}: {it}" for it in each + checked(file, len(rows))]
    return found


def checked(file, rows):
    """What `check` says otherwise of a valid file with so many rows."""
    status, text = ran([PROGRAM, "check", file])
    return of("check", (status, text.split(" ")[:3]), (0, ["valid", "rows", str(rows)]))


def goes_on(case, folder, there, under_way):
    """What is not as it should be once others append to a file with these values, whose writer had so many rows under way."""
    files, found = {}, []
    for rows in sorted({0, 1, under_way}):
        file, more = f"{folder}/{rows} rows more", case.values(20_000, rows)
        shutil.copyfile(f"{folder}/stopped", file)
        files[file], count = there + more, len(there + more) // wide(case.columns)
        said = ran([PROGRAM, "append", file], text_of([more], case.columns) if more else "")
        found += of("append", said, (0, (f"rows {count}\n" if more else "") + f"closed {count}\n"))
    found += read_by_all(case, files)
    for file in files:
        more = case.values(30_000, case.chunk + 1)
        resized(file, more, case.columns)
        files[file] = files[file] + more
    return found + [f"behind them rows of h5py's: {it}" for it in read_by_all(case, files)]


# ---- The stops


def stop(case, shim, folder, at, batches):
    """Appends to a copy of the file that was begun, but for this write and all behind it, and clears the flags. How many batches were told,
    and what is not as it should be; None in place of the first if all writes are before that."""
    file = f"{folder}/stopped"
    shutil.copyfile(f"{folder}/begun", file)
    how = {"env": {**os.environ, "LD_PRELOAD": shim, "H5SWMR_STOP": str(at)}}
    status, text = ran([PROGRAM, "append", file, *case.options], text_of(batches, case.columns), **how)
    if status == 0:
        return None, []
    found = of("status", status, -signal.SIGKILL) + of("clear", ran([PROGRAM, "clear", file]), (0, f"clear {0 if at == 1 else 5} 0\n"))
    return text.count("rows "), found


def stopped(case, shim, folder, begun, first=10_000, then=None):
    """What is not as it should be at any stop of an append to a file that begins with these values, once others go on, or `then` does."""
    batches, found = case.under_way(first), []
    for at in itertools.count(1):
        told, here = stop(case, shim, folder, at, batches)
        if told is None:
            return found + ([f"{at - 1} writes were stopped"] if found or at < 6 else [])
        there = begun + sum(batches[:told], [])
        here += checked(f"{folder}/stopped", len(there) // wide(case.columns))
        here += then(there) if then else goes_on(case, folder, there, (case.batches + [case.chunk + 1])[told])
        found += [f"before write {at}: {it}" for it in here]


def stopped_once(case, shim, folder):
    """What is not as it should be at any stop of this case."""
    return stopped(case, shim, folder, case.begin(f"{folder}/begun"))


def stopped_twice(case, shim, folder):
    """What is not as it should be at any stop of an append to a file whose writer was stopped before."""

    def again(there):
        with tempfile.TemporaryDirectory(dir=folder) as other:
            shutil.copyfile(f"{folder}/stopped", f"{other}/begun")
            return [f"and then {it}" for it in stopped(case, shim, other, there, 15_000)]

    return stopped(case, shim, folder, case.begin(f"{folder}/begun"), 10_000, again)


def trials():
    """Each trial by its name: what it finds is not as it should be, in a folder of its own."""
    if not shutil.which("cc"):
        print("cc missing: no append is stopped before each of its writes")
        return
    with tempfile.TemporaryDirectory(prefix="h5swmr-stop-") as folder:
        shim = built(folder)
        for case in cases():
            yield case.name(), lambda it, c=case: stopped_once(c, shim, it)
        for columns in (None, (3, 2)):
            case = Case("our file", 1, columns, 0, [2])
            yield f"{case.name()}, and then again", lambda it, c=case: stopped_twice(c, shim, it)
