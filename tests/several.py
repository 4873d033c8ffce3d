"""Files of several datasets: as h5py makes them, with the check of all names in one call, in every order of the names, and appends
to all of them in one call; and as the program makes them, with what other tools read and write."""
import itertools
import os
import re

import h5py

from appends import PROGRAM, lines_of, listed, numpy_type, of, run, shape_of, table, text_of, values_of, wide
from new_files import column_words, in_words, maximums_of

# Datasets by name: type, shape, greatest shape, sides of a chunk. An array finds the chunks of a line and of a fixed table, a tree those of a table.
SETS = {
    "line": ("i32le", (201,), (None,), (2,)),
    "table": ("u16be", (41, 7), (None, None), (2, 3)),
    "fixed": ("i8", (29, 4), (None, 4), (3, 2)),
    "empty": ("u64le", (0,), (None,), (10,)),
}


def made(file, names):
    """Makes a file with these datasets, each half full before the next, and tells the rows and the chunks of each."""
    with h5py.File(file, "w", libver="latest") as opened:
        for name in names:
            kind, shape, greatest, sides = SETS[name]
            opened.create_dataset(name, (shape[0] // 2, *shape[1:]), maxshape=greatest, chunks=sides, dtype=numpy_type(kind))[...] = 1
        for name in names:
            kind, shape, _, _ = SETS[name]
            count = shape[0] * (shape[1] if len(shape) > 1 else 1)
            opened[name].resize(shape[0], axis=0)
            opened[name][...] = [it for it in values_of(kind, count)] if len(shape) == 1 else [values_of(kind, count)[at : at + shape[1]] for at in range(0, count, shape[1])]
        return {name: opened[name].shape[0] for name in names}, {name: opened[name].id.get_num_chunks() for name in names}


def differing(file, names, rows, chunks):
    """What a check of these names says otherwise, in each of their orders; blocks and lost bytes do not depend on it."""
    found, rest = [], set()
    for order in itertools.permutations(names):
        said = run([PROGRAM, "check", file, "--name", ",".join(order)])
        numbers = " ".join(str(rows[it]) for it in order)
        wanted = f"valid rows {numbers} chunks {sum(chunks[it] for it in order)} blocks (\\d+) end {os.path.getsize(file)} lost (\\d+)\n"
        told = re.fullmatch(wanted, said)
        found += [] if told else [f"check {','.join(order)}: {said!r}, wanted {wanted!r}"]
        rest |= {told.groups()} if told else set()
    return found if len(rest) <= 1 else [*found, f"blocks and lost bytes by the order of names: {sorted(rest)}"]


def checked(folder, names):
    """Each dataset by itself, all in each order, and again once the program has appended to one."""
    file = f"{folder}/f.h5"
    rows, chunks = made(file, names)
    found = differing(file, names, rows, chunks)
    for name in names:
        found += differing(file, [name], rows, chunks)
    if "line" in names:
        found += of("append", run([PROGRAM, "append", file, "--name", "line"], "1 2 3\n"), "rows 204\nclosed 204\n")
        found += differing(file, names, {**rows, "line": 204}, {**chunks, "line": 102})
    return found


def linked(folder, names):
    """Two links to one dataset, among others: the second is found, at the header."""
    file = f"{folder}/f.h5"
    made(file, names)
    with h5py.File(file, "r+", libver="latest") as opened:
        opened["again"] = opened[names[0]]
        place = h5py.h5o.get_info(opened[names[0]].id).addr
    found = []
    for order in ([*names, "again"], ["again", *names], [names[0], "again", "nothing"]):
        found += of(f"check {','.join(order)}", run([PROGRAM, "check", file, "--name", ",".join(order)]), f"status 5: finding 21 {place}\n")
    missing = run([PROGRAM, "check", file, "--name", f"{names[0]},nothing,again"])
    return found if re.fullmatch(r"status 5: finding 7 \d+\n", missing) else [*found, f"a missing name before the second link: {missing!r}"]


# ---- Files that the program makes

# how many values each of the datasets gets, in turn
COUNTS = (18, 0, 6, 600, 12, 6, 24, 30)


def seen(file, kind, held, columns):
    """What h5ls, h5dump and h5py read otherwise than these values of each dataset."""
    found, wanted = [], {name: table(values, columns) for name, values in held.items()}
    told = sorted(re.sub(r" +", " ", it) for it in run(["h5ls", file]).splitlines())
    found += of("h5ls", told, sorted(f"{name} Dataset {' '.join(listed(shape_of(len(rows), columns), columns))}" for name, rows in wanted.items()))
    for name, values in held.items():
        text = run(["h5dump", "-y", "-w", "1", "-d", f"/{name}", file])
        found += of(f"h5dump {name}", text.split("DATA {")[-1].split("}")[0].replace(",", " ").split(), [str(it) for it in values])
    with h5py.File(file, "r") as opened:
        found += of("names", sorted(opened), sorted(held))
        for name, rows in wanted.items():
            data = opened[name]
            found += of(f"h5py {name}", [data.dtype.str, data.maxshape, data[:].tolist()], [numpy_type(kind).str, maximums_of(columns), rows])
    return found


def differs(file, kind, held, columns):
    """What h5diff finds between a file and one that h5py makes of these values."""
    other = f"{file}.other"
    with h5py.File(other, "w", libver="latest") as opened:
        for name, values in held.items():
            rows = table(values, columns)
            opened.create_dataset(name, shape_of(len(rows), columns), maxshape=maximums_of(columns), chunks=True, dtype=numpy_type(kind))[...] = rows
    return of("h5diff", run(["h5diff", file, other]), "")


def polled(file, held, columns):
    """What the program reads otherwise of each dataset by itself, and of all in one check."""
    found = []
    for name, values in held.items():
        rows = table(values, columns)
        found += of(f"poll {name}", run([PROGRAM, "poll", file, "--name", name, "--values"]), "".join(f"{it}\n" for it in [f"rows {len(rows)}", *lines_of(values, columns)]))
    numbers = " ".join(str(len(it) // wide(columns)) for it in held.values())
    said = run([PROGRAM, "check", file, "--name", ",".join(held)])
    return found + ([] if re.fullmatch(rf"valid rows {numbers} chunks \d+ blocks \d+ end {os.path.getsize(file)} lost \d+\n", said) else [f"check: {said!r}"])


def ours(folder, kind, names, columns):
    """A file that the program makes: each dataset is appended to by the program in its turn, and then by h5py."""
    file, held = f"{folder}/f.h5", {name: [] for name in names}
    said = run([PROGRAM, "new", file, "--type", kind, "--chunk", "2", "--name", ",".join(names), *column_words(columns)])
    found = of("new", said, f"new end {os.path.getsize(file)}\n") + seen(file, kind, held, columns) + polled(file, held, columns)
    for name, count in zip(names, COUNTS):
        held[name] = values_of(kind, count)
        rows = count // wide(columns)
        line = f"rows {rows}\n" if rows else ""
        found += of(f"append {name}", run([PROGRAM, "append", file, "--name", name], text_of([held[name]], columns)), f"{line}closed {rows}\n")
        found += polled(file, held, columns)
    found += seen(file, kind, held, columns)
    with h5py.File(file, "r+", libver="latest") as opened:
        for name in names:
            more = values_of(kind, 9 * wide(columns))
            opened[name].resize(opened[name].shape[0] + 9, axis=0)
            opened[name][-9:] = table(more, columns)
            held[name] += more
    return found + seen(file, kind, held, columns) + polled(file, held, columns) + differs(file, kind, held, columns)


# ---- Appends by several names


def width_of(name):
    return SETS[name][1][1] if len(SETS[name][1]) > 1 else 1


def rows_in(name, values):
    return [values[at : at + width_of(name)] for at in range(0, len(values), width_of(name))]


def batches_of(names, turn):
    """Some batches: how many rows each dataset gets in it, in the order in which the lines name them."""
    few = [(name, 3 + 2 * at + turn) for at, name in enumerate(names)]
    many = [(name, 40 + 7 * at) for at, name in enumerate(reversed(names))]
    return [few, [(names[-1], 1)], [], [(names[0], 2), (names[-1], 3), (names[0], 1)], many]


def input_of(names, held, batches):
    """The lines of these batches, with values behind those that each dataset has, and the lines that the program writes of them."""
    lines, wanted, used = [], [], names[0]
    for batch in batches:
        for name, count in batch:
            lines += [f"use {names.index(name) + 1}"] if name != used else []
            used = name
            more = values_of(SETS[name][0], len(held[name]) + count * width_of(name))[-count * width_of(name) :]
            lines += [" ".join(map(str, it)) for it in rows_in(name, more)]
            held[name] += more
        lines.append("")
        wanted += [f"rows {' '.join(str(len(rows_in(it, held[it]))) for it in names)}"] if batch else []
    return "\n".join(lines) + "\n", "\n".join([*wanted, f"closed {' '.join(str(len(rows_in(it, held[it]))) for it in names)}"]) + "\n"


def read_all(file, names, held, ends=True):
    """What h5py, h5dump, a poll of each name and a check of all of them read otherwise. The file ends where its superblock says so, unless a writer was
    stopped behind that."""
    found = []
    with h5py.File(file, "r") as opened:
        for name in names:
            found += of(f"h5py {name}", opened[name][...].ravel().tolist(), held[name])
    for name in names:
        text = run(["h5dump", "-y", "-w", "1", "-d", f"/{name}", file])
        found += of(f"h5dump {name}", text.split("DATA {")[-1].split("}")[0].replace(",", " ").split(), [str(it) for it in held[name]])
        rows = rows_in(name, held[name])
        found += of(f"poll {name}", run([PROGRAM, "poll", file, "--name", name, "--values"]), "".join(f"{it}\n" for it in [f"rows {len(rows)}", *(" ".join(map(str, it)) for it in rows)]))
    numbers = " ".join(str(len(rows_in(it, held[it]))) for it in names)
    said, end = run([PROGRAM, "check", file, "--name", ",".join(names)]), os.path.getsize(file) if ends else r"\d+"
    return found + ([] if re.fullmatch(rf"valid rows {numbers} chunks \d+ blocks \d+ end {end} lost \d+\n", said) else [f"check: {said!r}"])


def together(folder, names):
    """h5py makes the file; the program appends to all its datasets in one call, then h5py to each, and the program once more."""
    file, found = f"{folder}/f.h5", []
    made(file, names)
    held = {name: values_of(SETS[name][0], SETS[name][1][0] * width_of(name)) for name in names}
    for turn in range(2):
        text, wanted = input_of(names, held, batches_of(names, turn))
        found += of("append", run([PROGRAM, "append", file, "--name", ",".join(names)], text), wanted) + read_all(file, names, held)
        with h5py.File(file, "r+", libver="latest") as opened:
            for name in names:
                more = values_of(SETS[name][0], len(held[name]) + 5 * width_of(name))[-5 * width_of(name) :]
                opened[name].resize(opened[name].shape[0] + 5, axis=0)
                opened[name][-5:] = more if width_of(name) == 1 else rows_in(name, more)
                held[name] += more
        found += read_all(file, names, held)
    return found


def refused(folder, names):
    """Lines that say nothing, and names that lead to one dataset: what was closed before stays, and nothing else."""
    file, found = f"{folder}/f.h5", []
    made(file, names)
    held = {name: values_of(SETS[name][0], SETS[name][1][0] * width_of(name)) for name in names}
    words = [PROGRAM, "append", file, "--name", ",".join(names)]
    for bad in (f"use {len(names) + 1}", "use 0", "use", "use  1", "use 01", "use 1 ", "Use 1"):
        text, wanted = input_of(names, held, [[(name, 1) for name in names]])
        found += of(bad, run(words, text + "use 2\n" + bad + "\n"), f"status 8: {wanted.splitlines()[0]}\nerror line {len(text.splitlines()) + 2}\n")
    with h5py.File(file, "r+", libver="latest") as opened:
        opened["again"] = opened[names[1]]
    found += of("one header", run([*words[:-1], ",".join([*names, "again"])], "1\n"), f"status 4: error writer same 2 {len(names) + 1}\n")
    return found + read_all(file, names, held)


def trials():
    for names in (("line", "table"), ("table", "line", "fixed"), ("fixed", "empty", "line", "table")):
        yield f"appends to {', '.join(names)} in one call, which h5py makes and appends to meanwhile", lambda folder, it=list(names): together(folder, it)
    yield "appends in one call that are refused", lambda folder: refused(folder, ["line", "fixed"])
    for count in (2, 3, 4):
        for names in itertools.combinations(SETS, count):
            yield f"h5py makes {', '.join(names)}; a check of all", lambda folder, it=names: checked(folder, it)
    for names in (("line",), ("table", "fixed")):
        yield f"h5py makes {', '.join(names)}, and a second link to {names[0]}", lambda folder, it=names: linked(folder, it)
    for kind, count, columns in (("i32le", 2, None), ("u8", 8, None), ("i16be", 3, (3, 2)), ("u64le", 2, (3, 2, "fixed"))):
        names = ["a", "b", "line_3", "D" * 64, "e", "f", "g", "h"][:count]
        of_columns = f" of {in_words(columns)}" if columns else ""
        yield f"the program makes {count} datasets of {kind}{of_columns}", lambda folder, it=(kind, names, columns): ours(folder, *it)
