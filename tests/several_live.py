"""Files of several datasets while somebody writes all of them: h5py reads what an append by several names tells, and the program polls each dataset of a
file that h5py writes as SWMR writer. No reader finds fewer rows than before, or other values."""

import h5py

from appends import PROGRAM, SECONDS, Appending, of, run, values_of
from several import SETS, made, read_all, rows_in, width_of

# how many rows each dataset gets in each batch, by the order of its name; in some of them one gets none
BATCHES = ((3, 1, 2), (0, 40, 1), (1, 0, 0), (70, 5, 9), (0, 0, 30))


def held_by(names):
    """The values that the datasets of a file of h5py have at first."""
    return {name: values_of(SETS[name][0], SETS[name][1][0] * width_of(name)) for name in names}


def more_of(name, held, rows):
    """So many rows behind those that a dataset has."""
    count = rows * width_of(name)
    return values_of(SETS[name][0], len(held) + count)[len(held) :]


def shown(opened, name, values, what):
    """What h5py reads otherwise of a dataset of a file that it has open."""
    opened[name].id.refresh()
    return of(f"h5py {name} {what}", opened[name][...].ravel().tolist(), values)


def beside_ours(folder, names):
    """An append by all names; behind each line that it tells h5py, which has the file open, finds all rows of each dataset, and so does who opens it."""
    file, found = f"{folder}/f.h5", []
    made(file, names)
    held = held_by(names)
    writer = Appending(file, "--name", ",".join(names), "--no-reuse")
    opened = None
    try:
        for counts in (it for it in BATCHES if any(it[: len(names)])):
            lines = []
            for at, name in enumerate(names):
                more = more_of(name, held[name], counts[at])
                held[name] = held[name] + more
                lines += [f"use {at + 1}", *(" ".join(map(str, it)) for it in rows_in(name, more))]
            writer.process.stdin.write(("\n".join(lines) + "\n\n").encode())
            writer.process.stdin.flush()
            numbers = " ".join(str(len(rows_in(it, held[it]))) for it in names)
            found += of("append", writer.line(), f"rows {numbers}")
            opened = opened or h5py.File(file, "r", libver="latest", swmr=True)
            with h5py.File(file, "r", libver="latest", swmr=True) as other:
                for name in names:
                    found += shown(opened, name, held[name], f"at {numbers}") + shown(other, name, held[name], f"opened at {numbers}")
            for name in names:
                found += of(f"poll {name}", run([PROGRAM, "poll", file, "--name", name]), f"rows {len(rows_in(name, held[name]))}\n")
        opened.close()
        numbers = " ".join(str(len(rows_in(it, held[it]))) for it in names)
        found += of("the end", writer.end(), (0, f"closed {numbers}\n"))
    except (OSError, ValueError) as error:
        writer.process.kill()
        writer.process.wait(SECONDS)
        return [*found, f"{type(error).__name__}: {error}"]
    return found + read_all(file, names, held)


def polled_once(file, name, values, least):
    """The rows that a poll of a dataset finds, none where a block was half written, and what is not a beginning of its values."""
    said = run([PROGRAM, "poll", file, "--name", name, "--values"])
    if said.startswith("status 5: error damaged"):
        return None, []
    lines = said.split("\n")
    count = int(lines[0].split(" ")[1]) if lines[0].startswith("rows ") else -1
    wanted = [f"rows {count}", *(" ".join(map(str, it)) for it in rows_in(name, values)[: max(count, 0)]), ""]
    return count, of(f"poll {name}", lines, wanted) + of(f"poll {name}: fewer rows", count < least, False)


def beside_h5py(folder, names):
    """h5py writes all datasets as SWMR writer; each poll of a dataset finds a beginning of its values, never less than before. HDF5's library writes
    blocks of its index where they stand, so a poll may find one half written; some are not."""
    file, found, refused, polls = f"{folder}/f.h5", [], 0, 0
    made(file, names)
    held = held_by(names)
    least = {name: 0 for name in names}
    with h5py.File(file, "r+", libver="latest") as opened:
        opened.swmr_mode = True
        for counts in BATCHES * 3:
            for name, rows in zip(names, counts):
                if rows:
                    more = more_of(name, held[name], rows)
                    held[name] = held[name] + more
                    opened[name].resize(opened[name].shape[0] + rows, axis=0)
                    opened[name][-rows:] = more if width_of(name) == 1 else rows_in(name, more)
                opened[name].flush()
            for name in names:
                count, differs = polled_once(file, name, held[name], least[name])
                found, polls = found + differs, polls + 1
                refused += count is None
                least[name] = least[name] if count is None else max(least[name], count)
    return found + read_all(file, names, held) + ([f"all of {polls} polls were refused"] if refused == polls else [])


def trials():
    for names in (["line", "table"], ["fixed", "line"], ["table", "fixed", "line"]):
        yield f"an append to {', '.join(names)} at once, which h5py watches", lambda folder, it=names: beside_ours(folder, it)
        yield f"h5py writes {', '.join(names)} at once, which polls watch", lambda folder, it=names: beside_h5py(folder, it)
