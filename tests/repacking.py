"""Files written anew by `repack`: of h5py and of the program, with what h5diff, h5dump, h5py, `check` and `poll` find in the new file beside the
old one, and that its ranges follow one another from 0 to its end. And each valid closed file that any other trial leaves."""
import itertools
import os
import re

import h5py

from appends import PROGRAM, numpy_type, of, run, values_of

# Datasets by name: type, shape, greatest shape, sides of a chunk, fill value, and which rows are written, if not all.
SETS = {
    "a line": ("i32le", (201,), (None,), (2,), None, None),
    "an empty line": ("u64le", (0,), (None,), (10,), 7, None),
    "a line with holes": ("i16be", (3001,), (None,), (2,), -3, range(0, 3001, 9)),
    "a long line": ("u8", (9001,), (None,), (1,), None, None),
    "a table": ("u16be", (41, 7), (None, None), (2, 3), None, None),
    "a wide table with holes": ("i64le", (60, 50), (None, None), (1, 1), 5, range(0, 60, 7)),
    "a fixed table": ("i8", (29, 4), (None, 4), (3, 2), None, None),
    "a fixed table with holes": ("u32be", (500, 6), (None, 6), (2, 4), 9, range(3, 500, 50)),
}


def make(opened, name, kind, shape, greatest, sides, fill, written):
    """A dataset that grew in two steps, so that blocks of its index stand between its chunks."""
    data = opened.create_dataset(name, (shape[0] // 2, *shape[1:]), maxshape=greatest, chunks=sides, dtype=numpy_type(kind), fillvalue=fill)
    wide = shape[1] if len(shape) > 1 else 1
    values = values_of(kind, shape[0] * wide)
    for rows in (range(shape[0] // 2), range(shape[0] // 2, shape[0])):
        data.resize(rows.stop, axis=0)
        for at in rows if written is None else [it for it in written if it in rows]:
            data[at] = values[at] if len(shape) == 1 else values[at * wide : (at + 1) * wide]


def facts(file, name):
    """What h5py finds in a dataset: form, values, and how many chunks have a place."""
    with h5py.File(file, "r") as opened:
        data = opened[name]
        return [data.dtype.str, data.shape, data.maxshape, data.chunks, data.fillvalue, data[...].tolist(), data.id.get_num_chunks()]


def ranges_of(told):
    return [[int(it) for it in line.split(" ")[1:]] for line in told.splitlines() if line.startswith("range ")]


def packed(file, to, *names):
    """What is otherwise than it should be once these datasets were written anew, in this order."""
    words = ["--name", ",".join(names)]
    told = run([PROGRAM, "repack", file, to, *words, "--ranges"])
    ended = re.search(r"^repack end (\d+) blocks (\d+) chunks (\d+)\n\Z", told, re.M)
    if not ended:
        return [f"repack: {told!r}"]
    end, blocks, chunks = (int(it) for it in ended.groups())
    ranges, place = ranges_of(told), 0
    found = of("ranges of blocks and of chunks", [len(ranges), sum(it[2] == 8 for it in ranges)], [blocks + chunks, chunks])
    for at, length, _ in ranges:
        found += of("a range's place", at, place)
        place = at + length
    found += of("the end", [end, place], [os.path.getsize(to)] * 2)
    rows = {name: facts(to, name)[1][0] for name in names}
    numbers = " ".join(str(rows[it]) for it in names)
    found += of("check", run([PROGRAM, "check", to, *words]), f"valid rows {numbers} chunks {chunks} blocks {blocks} end {end} lost 0\n")
    for name in names:
        if rows[name]:  # h5diff compares no datasets without values
            found += of(f"h5diff of {name}", run(["h5diff", file, to, f"/{name}", f"/{name}"]), "")
        found += of(f"h5py of {name}", facts(to, name), facts(file, name))
        polled = [run([PROGRAM, "poll", it, "--name", name, "--values"]) for it in (to, file)]
        found += of(f"poll of {name}", polled[0], polled[1])
    found += of("the same again", run([PROGRAM, "repack", file, to, *words]), "status 3: error exists\n")
    return found


def grown(to, name):
    """A file that was written anew grows as any other one: by h5py, and then by the program."""
    with h5py.File(to, "r+", libver="latest") as opened:
        data = opened[name]
        rows, wide = data.shape[0], data.shape[1] if len(data.shape) > 1 else 1
        data.resize(rows + 3, axis=0)
        data[rows:] = 1
    told = run([PROGRAM, "append", to, "--name", name], f"{' '.join(['1'] * 2 * wide)}\n")
    found = of("append", told, f"rows {rows + 5}\nclosed {rows + 5}\n")
    return found + of("values behind", facts(to, name)[5][rows:], [1 if wide == 1 and len(facts(to, name)[1]) == 1 else [1] * wide] * 5)


def of_library(folder, it):
    file, to = f"{folder}/f.h5", f"{folder}/g.h5"
    with h5py.File(file, "w", libver="latest") as opened:
        make(opened, "data", *SETS[it])
    return packed(file, to, "data") + grown(to, "data") + packed(to, f"{folder}/h.h5", "data")


def of_two(folder):
    """One of two datasets of a file, and the other."""
    file, found = f"{folder}/f.h5", []
    with h5py.File(file, "w", libver="latest") as opened:
        make(opened, "line", *SETS["a line"])
        make(opened, "table", *SETS["a table"])
    for name in ("line", "table"):
        found += packed(file, f"{folder}/{name}.h5", name)
    return found


def of_several(folder, names):
    """Datasets of a file all at once, in two orders, without one, and the new file once more."""
    file, first = f"{folder}/f.h5", names[0]
    with h5py.File(file, "w", libver="latest") as opened:
        for name in names:
            make(opened, name, *SETS[f"a {name.replace('_', ' ')} with holes"])
    found = packed(file, f"{folder}/g.h5", *names) + packed(file, f"{folder}/h.h5", *reversed(names)) + packed(file, f"{folder}/one.h5", *names[1:])
    found += packed(f"{folder}/g.h5", f"{folder}/again.h5", *reversed(names))
    found += of("the new file written anew again", read(f"{folder}/again.h5"), read(f"{folder}/h.h5"))
    with h5py.File(file, "r+", libver="latest") as opened:
        opened["twice"] = opened[first]
        place = h5py.h5o.get_info(opened[first].id).addr
    words = [PROGRAM, "repack", file, f"{folder}/never.h5", "--name", ",".join([*names, "twice"])]
    found += of("one dataset under two names", run(words), f"status 5: finding 21 {place}\n")
    found += [] if not os.path.exists(f"{folder}/never.h5") else ["a new file of one dataset under two names"]
    return found + grown(f"{folder}/g.h5", names[-1])


def read(path):
    with open(path, "rb") as file:
        return file.read()


# ---- Each file that another trial leaves


def wholes(file):
    """The names of datasets of a closed file that `check` finds valid, each by itself, but for those with attributes: these are not written
    anew, and h5diff compares them too. Of names that hold a comma no list is made."""
    try:
        with h5py.File(file, "r") as opened:
            links = [it for it in opened if isinstance(opened.get(it, getlink=True), h5py.HardLink) and "," not in it]
            names = [it for it in links if isinstance(opened[it], h5py.Dataset) and not len(opened[it].attrs)]
    except (OSError, KeyError, UnicodeError):
        return []
    return [it for it in names if run([PROGRAM, "check", file, "--name", it]).startswith("valid ")]


def one_by_one(file, names):
    """The names but those that lead to the dataset of an earlier one, 8 of them at most."""
    places = {}
    with h5py.File(file, "r") as opened:
        for it in names:
            places.setdefault(h5py.h5o.get_info(opened[it].id).addr, it)
    return list(places.values())[:8]


def is_closed(file):
    head = read(file)[:12]
    return head[:4] == b"\x89HDF" and (head[8] == 2 or not head[11] & 5)


def differs(file, to, name):
    """What h5diff and h5py find otherwise in a dataset of the new file; chunks past the rows are not written anew."""
    old, new = facts(file, name), facts(to, name)
    found = of(f"h5py of {name}", new[:-1], old[:-1])
    compared = new[1][0] and new[-1]  # h5diff compares no datasets without rows, nor without chunks
    return found + (of(f"h5diff of {name}", run(["h5diff", file, to, f"/{name}", f"/{name}"]), "") if compared else [])


def anew(file, to):
    """What is otherwise than it should be once all of a file's datasets were written anew, if it is valid and closed."""
    names = wholes(file) if is_closed(file) else []
    if not names:
        return []
    names = one_by_one(file, names)
    words = ["--name", ",".join(names)]
    told, checked = run([PROGRAM, "repack", file, to, *words]), run([PROGRAM, "check", to, *words])
    ended = re.fullmatch(r"repack end (\d+) blocks (\d+) chunks (\d+)\n", told)
    if not ended:
        return of(f"repack of {names}", told, run([PROGRAM, "check", file, *words]))
    rows = " ".join(str(facts(to, it)[1][0]) for it in names)
    end, blocks, chunks = ended.groups()
    found = of("check of the new file", checked, f"valid rows {rows} chunks {chunks} blocks {blocks} end {end} lost 0\n")
    return found + list(itertools.chain.from_iterable(differs(file, to, it) for it in names))


def all_anew(folder):
    """What is otherwise than it should be once each valid closed file of a folder was written anew."""
    found = []
    for at, _, files in sorted(os.walk(folder)):
        for it in sorted(files):
            file, to = f"{at}/{it}", f"{folder}/written anew"
            found += [f"{it} written anew: {told}" for told in anew(file, to)]
            if os.path.exists(to):
                os.remove(to)
    return found


def of_program(folder, options):
    """A file of the program with places that nothing uses: each flush copies blocks, and none is used again."""
    file, to = f"{folder}/f.h5", f"{folder}/g.h5"
    run([PROGRAM, "new", file, "--type", "i32le", "--chunk", "2", *options])
    run([PROGRAM, "append", file, "--no-reuse"], "".join(f"{k} {k + 1} {k + 2}\n\n" for k in range(0, 900, 3)))
    lost = int(run([PROGRAM, "check", file]).split(" ")[-1])
    found = packed(file, to, "data") + grown(to, "data")
    return found if lost else [*found, "no byte was lost before"]


def trials():
    for it in SETS:
        yield f"repack of {it} of h5py", lambda folder, it=it: of_library(folder, it)
    yield "repack of each of two datasets of h5py", of_two
    for names in (("line", "wide_table"), ("wide_table", "fixed_table", "line")):
        yield f"repack of {len(names)} datasets of h5py at once", lambda folder, it=names: of_several(folder, it)
    for options in ([], ["--columns", "3", "--width", "2"], ["--columns", "3", "--width", "2", "--fixed"]):
        yield f"repack of a file of the program {' '.join(options)}".rstrip(), lambda folder, it=options: of_program(folder, it)
