"""A file whose extensible array is its header alone, which names no index block: no chunk has an address, and all of its rows are fill. It
follows from the format's description alone. Trials of the built program that appends to it."""
from new_files import dataset_header, new_file, root_header, superblock
from program import named, of, read, steps
from trees import UNDEFINED, sealed

KIND = "i32le"
CHUNK = 2


def alone_file(rows):
    """Its bytes: the array's header stands last."""
    dataset = 48 + 54 + 4
    head = sealed(b"EAHD" + bytes([0, 0, 8, 32, 4, 16, 4, 10]) + bytes(48) + UNDEFINED)
    at = dataset + len(dataset_header(KIND, CHUNK, None, 0))
    return superblock(0, at + len(head)) + root_header(b"data", dataset) + dataset_header(KIND, CHUNK, None, at, rows=rows) + head


def made_behind(folder):
    """An index block is made behind the header. That stays where it is, and the file is then as one that was made with both."""
    with open(f"{folder}/f", "wb") as file:
        file.write(alone_file(0))
    found = steps(
        folder,
        ("check f", b"", 0, b"valid rows 0 chunks 0 blocks 4 end 260 lost 0\n"),
        ("append f", b"", 0, b"closed 0\n"),
        ("check f", b"", 0, b"valid rows 0 chunks 0 blocks 4 end 260 lost 0\n"),
        ("append f", b"1 2 3\n", 0, b"rows 3\nclosed 3\n"),
        ("check f", b"", 0, b"valid rows 3 chunks 2 blocks 5 end 574 lost 0\n"),
        ("poll f --values", b"", 0, b"rows 3\n1\n2\n3\n"),
    )
    with open(f"{folder}/g", "wb") as file:
        file.write(new_file(KIND, CHUNK))
    found += steps(folder, ("append g", b"1 2 3\n", 0, b"rows 3\nclosed 3\n"))
    return found + of("the file", read(f"{folder}/f"), read(f"{folder}/g")) + steps(folder, ("append f", b"4 5 6\n\n7\n", 0, b"rows 6\nrows 7\nclosed 7\n"))


def behind_fill(folder):
    """Rows that are all fill stay so: only the chunks of the new rows are written."""
    with open(f"{folder}/f", "wb") as file:
        file.write(alone_file(5))
    return steps(
        folder,
        ("poll f --values", b"", 0, b"rows 5\n0\n0\n0\n0\n0\n"),
        ("append f", b"7 8\n\n9\n", 0, b"rows 7\nrows 8\nclosed 8\n"),
        ("check f", b"", 0, b"valid rows 8 chunks 2 blocks 5 end 574 lost 0\n"),
        ("poll f --values", b"", 0, b"rows 8\n0\n0\n0\n0\n0\n7\n8\n9\n"),
    )


def trials():
    yield from named("append to a header alone", made_behind, behind_fill)
