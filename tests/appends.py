"""Files that the program appends to, as other tools read and write them, also while they are written."""
import os
import re
import select
import signal
import subprocess
import time

import h5py
import numpy

from new_files import column_words, in_words, maximums_of

TOP = os.path.dirname(os.path.dirname(os.path.realpath(__file__)))
PROGRAM = f"{TOP}/h5swmr"
SECONDS = 60


def numpy_type(kind):
    """A type of the program as numpy writes it: u16be is >u2."""
    sign, bits, order = re.fullmatch(r"([iu])(\d+)(le|be|)", kind).groups()
    return numpy.dtype(("<" if order != "be" else ">") + sign + str(int(bits) // 8))


def wide(columns):
    """How many values a row has: a dataset has columns, of which chunks have so many side by side, or one dimension."""
    return columns[0] if columns else 1


def table(values, columns):
    """The values as rows of the dataset."""
    return values if columns is None else [values[at : at + columns[0]] for at in range(0, len(values), columns[0])]


def shape_of(rows, columns):
    return (rows,) if columns is None else (rows, columns[0])


def listed(shape, columns):
    """The dimensions as h5ls writes them: behind each its maximum, where that is another."""
    return ("{" + ", ".join(str(it) if most == it else f"{it}/{most or 'Inf'}" for it, most in zip(shape, maximums_of(columns))) + "}").split()


def values_of(kind, count):
    """So many values of a type, its least and its greatest among them."""
    info = numpy.iinfo(numpy_type(kind))
    low, high = int(info.min), int(info.max)
    return [(low, high, 0)[it] if it < 3 else low + (it * 2654435761 + it * it) % (high - low + 1) for it in range(count)]


def text_of(batches, columns=None):
    """Lines of at most 1,000 values and of whole rows, an empty one behind each batch but the last."""
    step = 1000 // wide(columns) * wide(columns)
    return "\n\n".join("\n".join(" ".join(map(str, it[at : at + step])) for at in range(0, len(it), step)) for it in batches) + "\n"


def run(words, text=""):
    """What a command writes, with its status where that is not 0."""
    ran = subprocess.run(words, input=text.encode(), capture_output=True, timeout=SECONDS)
    said = (ran.stdout + ran.stderr).decode(errors="replace")
    return said if not ran.returncode else f"status {ran.returncode}: {said}"


def of(what, seen, wanted):
    """What is not as it should be, shortened where it is long."""
    short = lambda it: repr(it) if len(repr(it)) <= 200 else f"{repr(it)[:100]} .. {repr(it)[-80:]}"
    return [] if seen == wanted else [f"{what}: {short(seen)}, wanted {short(wanted)}"]


def made(file, kind, chunk, fill=None, columns=None):
    words = [PROGRAM, "new", file, "--type", kind, "--chunk", str(chunk)] + (["--fill", str(fill)] if fill is not None else [])
    return of("new", run(words + column_words(columns)).split(" ")[:2], ["new", "end"])


def appended(file, batches, before=0, columns=None):
    """What the program says otherwise when these batches are appended to so many rows."""
    wanted, rows = "", before
    for batch in batches:
        rows += len(batch) // wide(columns)
        wanted += f"rows {rows}\n" if batch else ""
    return of("append", run([PROGRAM, "append", file], text_of(batches, columns)), f"{wanted}closed {rows}\n")


# ---- What other tools read of a file that stands still


def dumped(file):
    """The values that h5dump prints."""
    text = run(["h5dump", "-y", "-w", "1", "-d", "/data", file])
    body = text.split("DATA {")[1].split("}")[0] if "DATA {" in text else ""
    return [int(it) for it in body.replace(",", " ").split()]


def still(file, kind, wanted, folder, stored=True, columns=None):
    """What other tools read otherwise than these values, some of which are stored in a chunk."""
    rows = table(wanted, columns)
    found = of("h5dump", dumped(file), wanted)
    found += of("h5ls", run(["h5ls", file]).split(), ["data", "Dataset", *listed(shape_of(len(rows), columns), columns)])
    for how in ({}, {"libver": "latest", "swmr": True}):
        with h5py.File(file, "r", **how) as opened:
            found += of(f"h5py {how}", [opened["data"].dtype.str, opened["data"][:].tolist()], [numpy_type(kind).str, rows])
    packed = f"{folder}/packed.h5"
    found += of("h5repack", run(["h5repack", file, packed]), "")
    # (h5diff compares no datasets without rows, nor without chunks)
    found += of("h5diff", run(["h5diff", file, packed]), "") if wanted and stored else []
    return found + of("h5dump of h5repack's file", dumped(packed), wanted)


def lines_of(values, columns=None):
    """A line for each row."""
    return [str(it) if columns is None else " ".join(map(str, it)) for it in table(values, columns)]


def read_by_us(file, wanted, columns=None):
    """What the program finds otherwise than these values."""
    lines = lines_of(wanted, columns)
    found = of("poll", run([PROGRAM, "poll", file, "--values"]), f"rows {len(lines)}\n" + "".join(f"{it}\n" for it in lines))
    return found + of("check", run([PROGRAM, "check", file]).split(" ")[:3], ["valid", "rows", str(len(lines))])


def stands_still(folder, kind, chunk, counts, fill=None, columns=None):
    """Batches of so many rows in a file of this type and chunk, read by other tools and by the program."""
    file, values = f"{folder}/f.h5", values_of(kind, sum(counts) * wide(columns))
    found, batches = made(file, kind, chunk, fill, columns), []
    for count in counts:
        batches.append(values[sum(map(len, batches)) :][: count * wide(columns)])
    found += appended(file, batches, 0, columns) if counts else []
    return found + still(file, kind, values, folder, True, columns) + read_by_us(file, values, columns)


# ---- Files that both append to


def resized(file, values, columns=None):
    """h5py appends these values."""
    rows = table(values, columns)
    with h5py.File(file, "r+", libver="latest") as opened:
        data = opened["data"]
        data.resize(len(data) + len(rows), axis=0)
        data[len(data) - len(rows) :] = rows


def of_h5py(file, kind, chunk, values, fill=None, attributes=0, columns=None, version=3):
    """h5py makes a file whose rows grow, and their columns too where they are not fixed. Its superblock has version 2 where it is made as a
    library of before SWMR makes it, and the dataset later."""
    rows, sides = table(values, columns), (chunk,) if columns is None else (chunk, columns[1])
    if version == 2:
        h5py.File(file, "w", libver=("v108", "v108")).close()
    with h5py.File(file, "r+" if version == 2 else "w", libver="latest") as opened:
        data = opened.create_dataset("data", shape=shape_of(0, columns), maxshape=maximums_of(columns), chunks=sides, dtype=numpy_type(kind), fillvalue=fill, track_times=True)
        for it in range(attributes):
            data.attrs[f"attribute {it}"] = "of the other program"
        data.resize(len(rows), axis=0)
        if rows:
            data[:] = rows


def in_turn(folder, kind, chunk, ours_first, attributes=0, columns=None):
    """A file that one program made and both append to, in turn; each reads it right after each append."""
    count = wide(columns)
    file, values = f"{folder}/f.h5", values_of(kind, (4 * chunk + 7) * count)
    cuts = [0, chunk + 1, chunk + 3, 3 * chunk + 3, len(values) // count]
    parts = [values[one * count : other * count] for one, other in zip(cuts, cuts[1:])]
    if ours_first:
        found = made(file, kind, chunk, None, columns)
        found += appended(file, [parts[0]], 0, columns)
    else:
        of_h5py(file, kind, chunk, parts[0], None, attributes, columns)
        found = []
    there = len(parts[0])
    for turn, part in enumerate(parts[1:]):
        if (turn % 2 == 1) == ours_first:
            found += appended(file, [part], there // count, columns)
        else:
            resized(file, part, columns)
        there += len(part)
        found += read_by_us(file, values[:there], columns) + still(file, kind, values[:there], folder, True, columns)
    if attributes:
        with h5py.File(file, "r") as opened:
            found += of("attributes", [opened["data"].attrs[it] for it in opened["data"].attrs], ["of the other program"] * attributes)
    return found


def begun_by_h5py(folder, kind, chunk, columns, rows):
    """A file of h5py's with so many rows, to which both append in turn, we first."""
    count = wide(columns)
    file, values = f"{folder}/f.h5", values_of(kind, (rows + 3 * chunk + 4) * count)
    of_h5py(file, kind, chunk, values[: rows * count], None, 0, columns)
    found, there = [], rows
    for turn, more in enumerate((0, 1, chunk, 2 * chunk + 3)):
        part = values[there * count : (there + more) * count]
        if turn % 2 == 1:
            found += appended(file, [part], there, columns)
        elif part:
            resized(file, part, columns)
        there += more
        found += read_by_us(file, values[: there * count], columns) + still(file, kind, values[: there * count], folder, there > 0, columns)
    return found


def bytes_of(file):
    with open(file, "rb") as opened:
        return opened.read()


def upgraded(folder, kind, chunk, columns=None):
    """A file of h5py's whose superblock has version 2: it is read and checked as any other, and refused to who writes it. Then it gets
    version 3, all else as it was, and both append."""
    count = wide(columns)
    file, values = f"{folder}/f.h5", values_of(kind, (3 * chunk + 5) * count)
    cuts = [it * count for it in (chunk + 1, 2 * chunk + 3, 3 * chunk + 5)]
    of_h5py(file, kind, chunk, values[: cuts[0]], None, 0, columns, 2)
    found, before = read_by_us(file, values[: cuts[0]], columns), bytes_of(file)
    found += of("h5dump", dumped(file), values[: cuts[0]]) + of("the version", before[8], 2)
    for words in (["append", file], ["clear", file], ["append", file, "--no-reuse"]):
        found += of(words, run([PROGRAM, *words], "1\n"), "status 4: error writer version 2\n")
    found += of("the file is as it was", bytes_of(file) == before, True)
    for wanted in ("upgrade 2 3\n", "clear 0 0\n"):
        found += of("clear --upgrade", run([PROGRAM, "clear", file, "--upgrade"]), wanted)
    after = bytes_of(file)
    found += of("the bytes that are not as they were", sorted({it for it, (one, other) in enumerate(zip(before, after)) if one != other} - {44, 45, 46, 47}), [8])
    found += of("the version and the flags", (len(after), after[8], after[11]), (len(before), 3, 0))
    found += still(file, kind, values[: cuts[0]], folder, True, columns) + appended(file, [values[cuts[0] : cuts[1]]], cuts[0] // count, columns)
    found += read_by_us(file, values[: cuts[1]], columns) + still(file, kind, values[: cuts[1]], folder, True, columns)
    resized(file, values[cuts[1] :], columns)
    return found + read_by_us(file, values, columns) + still(file, kind, values, folder, True, columns)


def without_chunks(folder, kind, chunk, rows, fill, columns=None):
    """A file of h5py's with so many rows, none of which it wrote: no chunk is there, and no index. We make the index, then both append."""
    count = wide(columns)
    file, values = f"{folder}/f.h5", values_of(kind, (3 * chunk + 2) * count)
    of_h5py(file, kind, chunk, [], fill, 0, columns)
    with h5py.File(file, "r+", libver="latest") as opened:
        opened["data"].resize(rows, axis=0)
    wanted = [fill or 0] * rows * count
    found = read_by_us(file, wanted, columns) + appended(file, [], rows, columns) + still(file, kind, wanted, folder, False, columns)
    for turn, at in enumerate(range(0, len(values), chunk * count)):
        part = values[at : at + chunk * count]
        if turn % 2 == 0:
            found += appended(file, [part], len(wanted) // count, columns)
        else:
            resized(file, part, columns)
        wanted = wanted + part
        found += read_by_us(file, wanted, columns) + still(file, kind, wanted, folder, True, columns)
    return found


def by_columns(folder, kind, order):
    """A file of h5py's whose columns it writes one after another, in this order of theirs, so that chunks come before, between and behind others
    in its tree; then we append."""
    columns, rows = (len(order), 1), 100
    file, values = f"{folder}/f.h5", values_of(kind, (rows + 3) * len(order))
    there = table(values[: rows * len(order)], columns)
    of_h5py(file, kind, 1, [], None, 0, columns)
    with h5py.File(file, "r+", libver="latest") as opened:
        opened["data"].resize(rows, axis=0)
        for at in order:
            opened["data"][:, at] = [row[at] for row in there]
    found = read_by_us(file, values[: rows * len(order)], columns) + appended(file, [values[rows * len(order) :]], rows, columns)
    return found + read_by_us(file, values, columns) + still(file, kind, values, folder, True, columns)


# ---- Files that are read while they are written


class Appending:
    """The program that appends to a file, fed a batch at a time."""

    def __init__(self, file, *options):
        self.process = subprocess.Popen([PROGRAM, "append", file, *options], stdin=subprocess.PIPE, stdout=subprocess.PIPE)

    def feed(self, values, columns=None):
        """Appends a batch, and waits until it is told to be there; the line that tells it."""
        self.process.stdin.write(text_of([values, []], columns).encode())
        self.process.stdin.flush()
        return self.line()

    def line(self):
        if not select.select([self.process.stdout], [], [], SECONDS)[0]:
            raise ValueError("no line of append")
        return self.process.stdout.readline().decode().rstrip("\n")

    def end(self):
        self.process.stdin.close()
        said = self.process.stdout.read().decode()
        return self.process.wait(SECONDS), said


def watched_by_h5py(folder, kind, chunk, batches, columns=None):
    """h5py reads, as SWMR reader, what the program told to be there, after each batch: the beginning of the values, and all that was told."""
    m = wide(columns)
    file, values, found = f"{folder}/f.h5", values_of(kind, sum(batches) * m), made(f"{folder}/f.h5", kind, chunk, None, columns)
    writer, rows = Appending(file, "--no-reuse"), 0
    try:
        opened = None
        for count in batches:
            rows += count
            found += of("append", writer.feed(values[(rows - count) * m : rows * m], columns), f"rows {rows}")
            opened = opened or h5py.File(file, "r", libver="latest", swmr=True)
            opened["data"].id.refresh()
            found += of(f"h5py at {rows} rows", opened["data"][:].tolist(), table(values[: rows * m], columns))
        found += of("the end", writer.end(), (0, f"closed {rows}\n"))
        opened.close()
        return found
    except (OSError, ValueError) as error:
        writer.process.kill()
        return found + [f"{type(error).__name__}: {error}"]


def grown(file, size):
    """Whether the file has more bytes than these before long."""
    until = time.monotonic() + SECONDS
    while os.path.getsize(file) <= size:
        if time.monotonic() > until:
            return False
        time.sleep(0.005)
    return True


def watched_early(folder, kind, chunk, lines, options, columns=None):
    """h5py reads, as SWMR reader, beside a writer with little budget: behind each line of a batch, whose rows are in the file before their flush, it
    finds those of the batches before, and behind the empty line all."""
    m = wide(columns)
    file, values, found = f"{folder}/f.h5", values_of(kind, 3 * sum(lines) * m), made(f"{folder}/f.h5", kind, chunk, None, columns)
    writer, rows, flushed, opened = Appending(file, "--budget", "1024", *options), 0, 0, None

    def read(count):
        opened["data"].id.refresh()
        with h5py.File(file, "r", libver="latest", swmr=True) as other:
            there = [other["data"][:].tolist(), opened["data"][:].tolist()]
        return of(f"h5py at {count} rows", there, [table(values[: count * m], columns)] * 2)

    try:
        for _ in range(3):
            for count in lines:
                size, rows = os.path.getsize(file), rows + count
                writer.process.stdin.write(text_of([values[(rows - count) * m : rows * m]], columns).encode())
                writer.process.stdin.flush()
                found += [] if grown(file, size) else [f"{rows} rows are not in the file before their flush"]
                opened = opened or h5py.File(file, "r", libver="latest", swmr=True)
                found += read(flushed) + of("poll", run([PROGRAM, "poll", file]), f"rows {flushed}\n")
            writer.process.stdin.write(b"\n")
            writer.process.stdin.flush()
            flushed = rows
            found += of("append", writer.line(), f"rows {rows}") + read(rows)
        opened.close()
        found += of("the end", writer.end(), (0, f"closed {rows}\n"))
        return found + read_by_us(file, values, columns) + still(file, kind, values, folder, True, columns)
    except (OSError, ValueError) as error:
        writer.process.kill()
        return found + [f"{type(error).__name__}: {error}"]


def watched_by_us(folder, kind, chunk, batches, columns=None):
    """The program polls what h5py writes, as SWMR writer: each poll that finds rows has a beginning of the values. HDF5's library writes blocks
    of its index where they stand, so that a poll may find one half written, or a superblock of before: such a poll is made again."""
    m = wide(columns)
    file, values = f"{folder}/f.h5", values_of(kind, sum(batches) * m)
    of_h5py(file, kind, chunk, [], None, 0, columns)
    found, rows, again = [], 0, 0
    with h5py.File(file, "r+", libver="latest") as opened:
        opened.swmr_mode = True
        data = opened["data"]
        for count in batches:
            rows += count
            data.resize(rows, axis=0)
            data[rows - count :] = table(values[(rows - count) * m : rows * m], columns)
            data.flush()
            said = run([PROGRAM, "poll", file, "--values"])
            if said.startswith("status 5: error damaged"):
                again += 1
                continue
            seen = said.split("\n")
            count_seen = int(seen[0].split(" ")[1]) if seen[0].startswith("rows ") else -1
            found += of("poll", seen, [f"rows {count_seen}", *lines_of(values[: max(count_seen, 0) * m], columns), ""])
    return found + read_by_us(file, values, columns) + ([f"{again} of {len(batches)} polls were refused"] if again == len(batches) else [])


# ---- Writers that were stopped


def stopped(folder, kind, chunk):
    """A writer of ours is killed: the rows that it told are there, h5clear clears its flags, and appending goes on. A writer of h5py is gone:
    `clear` clears its flags."""
    file, values, found = f"{folder}/f.h5", values_of(kind, 3 * chunk), made(f"{folder}/f.h5", kind, chunk)
    for clear in (["h5clear", "-s", file], [PROGRAM, "clear", file]):
        begun = int(run([PROGRAM, "poll", file]).split(" ")[1])
        writer = Appending(file)
        found += of("append", writer.feed(values[begun : begun + chunk]), f"rows {begun + chunk}")
        writer.process.send_signal(signal.SIGKILL)
        writer.process.wait(SECONDS)
        found += read_by_us(file, values[: begun + chunk])
        found += of("append to an open file", run([PROGRAM, "append", file], "1\n"), "status 6: error flags 5\n")
        said = run(clear)
        found += of(f"{clear[0]}", said, "" if clear[0] == "h5clear" else "clear 5 0\n")
        found += still(file, kind, values[: begun + chunk], folder)
    found += appended(file, [values[2 * chunk :]], 2 * chunk) + still(file, kind, values, folder)
    theirs = f"{folder}/theirs.h5"
    of_h5py(theirs, kind, chunk, values)
    with open(theirs, "r+b") as it:
        head = bytearray(it.read(48))
    gone = subprocess.run(["/usr/bin/python3", "-c", f"import h5py, os\nf = h5py.File({theirs!r}, 'r+', libver='latest')\nf.swmr_mode = True\nf.flush()\nos._exit(1)"], timeout=SECONDS)
    with open(theirs, "rb") as it:
        flags = it.read(12)[11]
    found += of("the other writer", (gone.returncode, flags, head[11]), (1, 5, 0))
    found += of("clear", run([PROGRAM, "clear", theirs]), "clear 5 0\n")
    return found + still(theirs, kind, values, folder) + appended(theirs, [values[:3]], len(values))


def watch(folder, kind, chunk):
    """examples/watch.py prints the rows that are appended while it runs."""
    file, values, found = f"{folder}/f.h5", values_of(kind, 5 * chunk + 1), made(f"{folder}/f.h5", kind, chunk)
    writer = Appending(file, "--no-reuse")
    try:
        found += of("append", writer.feed(values[:1]), "rows 1")
        watcher = subprocess.Popen(["/usr/bin/python3", f"{TOP}/examples/watch.py", file, "data", str(len(values))], stdout=subprocess.PIPE)
        for at in range(1, len(values), chunk):
            found += of("append", writer.feed(values[at : at + chunk]), f"rows {at + chunk}")
        said, _ = watcher.communicate(timeout=SECONDS)
        found += of("watch.py", said.decode(), "".join(f"{it}\n" for it in values))
        return found + of("the end", writer.end(), (0, f"closed {len(values)}\n"))
    except (OSError, ValueError, subprocess.TimeoutExpired) as error:
        writer.process.kill()
        return found + [f"{type(error).__name__}: {error}"]


# Files with fixed columns: the type, the rows of a chunk, the columns, and how many rows h5py writes, up to 5,000 chunks.
FIXED = [
    ("i8", 1, (1, 1, "fixed"), 0),
    ("i8", 3, (2, 1, "fixed"), 7),
    ("i16le", 2, (3, 2, "fixed"), 5),
    ("u64le", 4, (4, 2, "fixed"), 100),
    ("i32be", 1, (5, 2, "fixed"), 300),
    ("i16le", 1, (5, 1, "fixed"), 1000),
    ("u64le", 7, (3, 3, "fixed"), 1000),
    ("i32be", 2, (4, 3, "fixed"), 33),
]


# Files of columns that are read while they are written: the type, the rows of a chunk, those of each batch, the columns.
LIVE = [
    (kind, chunk, batches, columns + fixed)
    for kind, chunk, batches, columns in (("i32le", 1, [1] * 40, (2, 1)), ("u16be", 3, [5, 1, 1, 40, 200], (3, 2)), ("i64le", 2, [170, 1, 1, 1, 300, 1], (5, 4)))
    for fixed in ((), ("fixed",))
]


# Files whose rows are written before their flush: the type, the rows of a chunk, those of each line of a batch, and the columns. Each line needs new
# chunks of more bytes than the budget of 1,024.
EARLY = [
    ("i32le", 300, [300, 700, 301], None),
    ("u16be", 64, [1000, 1500, 1000], None),
    ("i32le", 200, [200, 300, 401], (3, 2)),
    ("i64le", 64, [65, 130, 200], (4, 4, "fixed")),
]


def trials(kinds):
    """Each trial by its name: what it finds is not as it should be, in a folder of its own."""
    for kind, chunk, lines, columns in EARLY:
        words = f"{kind} of {in_words(columns)} in chunks of {chunk} by {columns[1]}" if columns else f"{kind} in chunks of {chunk}"
        for options in (["--no-reuse"], []):
            yield f"{words}: h5py beside rows that are written before their flush{', --no-reuse' if options else ''}", lambda it, k=kind, c=chunk, n=lines, o=options, m=columns: watched_early(it, k, c, n, o, m)
    for at, kind in enumerate(kinds):
        chunk = (2, 5, 64, 300)[at % 4]
        for counts in ([], [1], [3, 2], [chunk, 4 * chunk - 1, 1], [299, 1]):
            yield f"{kind} in chunks of {chunk}: {counts} rows appended", lambda it, k=kind, c=chunk, n=counts: stands_still(it, k, c, n, 7 if c == 5 else None)
        yield f"{kind}: our file, and both append", lambda it, k=kind, c=chunk: in_turn(it, k, c, True)
        yield f"{kind}: h5py's file, and both append", lambda it, k=kind, c=chunk, n=at % 3: in_turn(it, k, c, False, n)
        for rows in (0, 1, 2 * chunk + 1):
            yield f"{kind} in chunks of {chunk}: h5py's file of {rows} rows without chunks, and both append", lambda it, k=kind, c=chunk, n=rows: without_chunks(it, k, c, n, 7 if c == 5 else None)
    for at, kind in enumerate(kinds):
        chunk, columns, fill = ((1, (1, 1), None), (2, (3, 2), 7), (5, (4, 4), None), (64, (2, 300), 7))[at % 4]
        words = f"{kind} of {columns[0]} columns in chunks of {chunk} by {columns[1]}"
        for counts in ([], [3, 2], [chunk, 4 * chunk - 1, 1]):
            yield f"{words}: {counts} rows appended", lambda it, k=kind, c=chunk, n=counts, f=fill, m=columns: stands_still(it, k, c, n, f, m)
        yield f"{words}: our file, and both append", lambda it, k=kind, c=chunk, m=columns: in_turn(it, k, c, True, 0, m)
        yield f"{words}: h5py's file, and both append", lambda it, k=kind, c=chunk, n=at % 3, m=columns: in_turn(it, k, c, False, n, m)
        for rows in (2 * chunk + 1,) if at % 4 else (0,):
            yield f"{words}: h5py's file of {rows} rows without chunks, and both append", lambda it, k=kind, c=chunk, n=rows, f=fill, m=columns: without_chunks(it, k, c, n, f, m)
    for kind, chunk, columns, rows in FIXED:
        words = f"{kind} of {in_words(columns)} in chunks of {chunk} by {columns[1]}"
        yield f"{words}: h5py's file of {rows} rows, and both append", lambda it, k=kind, c=chunk, n=rows, m=columns: begun_by_h5py(it, k, c, m, n)
        yield f"{words}: our file, and both append", lambda it, k=kind, c=chunk, m=columns: in_turn(it, k, c, True, 0, m)
        yield f"{words}: h5py's file of {chunk} rows without chunks, and both append", lambda it, k=kind, c=chunk, m=columns: without_chunks(it, k, c, c, 7, m)
        for counts in ([], [3, 2], [chunk, 4 * chunk - 1, 1]):
            yield f"{words}: {counts} rows appended", lambda it, k=kind, c=chunk, n=counts, m=columns: stands_still(it, k, c, n, None, m)
    for kind, chunk, columns in (("i32le", 2, None), ("u16be", 3, (3, 2, "fixed")), ("i64le", 2, (3, 2))):
        words = f"{kind} of {in_words(columns)}" if columns else kind
        yield f"{words}: h5py's file with a superblock of version 2, which is upgraded", lambda it, k=kind, c=chunk, m=columns: upgraded(it, k, c, m)
    for order in ((0, 1, 2, 3, 4), (4, 3, 2, 1, 0), (2, 0, 4, 1, 3)):
        yield f"h5py's file, its columns written in the order {order}, and we append", lambda it, o=order: by_columns(it, "i32le", o)
    yield "5,000 chunks of one row and one column, in flushes of 1,000", lambda it: stands_still(it, "i16be", 1, [500] * 5, None, (2, 1))
    yield "300 chunks of one row", lambda it: stands_still(it, "i32le", 1, [300])
    yield "5,000 chunks of one row, in flushes of 1,000", lambda it: stands_still(it, "i16be", 1, [1000] * 5)
    for kind, chunk, batches in (("i32le", 1, [1] * 60), ("u16be", 3, [5, 1, 1, 40, 200] * 4), ("i64le", 1, [300, 1, 1, 1, 700, 1, 1])):
        yield f"{kind} in chunks of {chunk}: h5py watches our writer, {len(batches)} batches", lambda it, k=kind, c=chunk, b=batches: watched_by_h5py(it, k, c, b)
        yield f"{kind} in chunks of {chunk}: we watch h5py's writer, {len(batches)} batches", lambda it, k=kind, c=chunk, b=batches: watched_by_us(it, k, c, b)
    for kind, chunk, batches, columns in LIVE:
        words = f"{kind} of {in_words(columns)} in chunks of {chunk} by {columns[1]}"
        yield f"{words}: h5py watches our writer, {len(batches)} batches", lambda it, k=kind, c=chunk, b=batches, m=columns: watched_by_h5py(it, k, c, b, m)
        yield f"{words}: we watch h5py's writer, {len(batches)} batches", lambda it, k=kind, c=chunk, b=batches, m=columns: watched_by_us(it, k, c, b, m)
    yield "writers that were stopped", lambda it: stopped(it, "i32le", 4)
    yield "examples/watch.py", lambda it: watch(it, "i32le", 3)
