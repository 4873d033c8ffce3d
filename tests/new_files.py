"""The bytes of a new file, by the format's description alone: what `new` should leave. It knows nothing of the code under test."""
import struct

from trees import UNDEFINED, header, message, sealed

# The names of the types: size in bytes, most significant byte first, with a sign.
TYPES = {f"{sign}{8 * size}{order}": (size, order == "be", sign == "i") for size in (1, 2, 4, 8) for sign in "iu" for order in ([""] if size == 1 else ["le", "be"])}


def column_words(columns):
    """The options of a row's and of a chunk's columns, where there are any; behind the two numbers may stand that they are fixed."""
    return ["--columns", str(columns[0]), "--width", str(columns[1]), *(f"--{it}" for it in columns[2:])] if columns else []


def maximums_of(columns):
    """The maximum of each dimension, None where it has none: columns that are fixed are their own."""
    return (None,) if not columns else (None, columns[0] if columns[2:] else None)


def in_words(columns):
    """What the columns are called."""
    return f"{columns[0]} {' '.join([*columns[2:], 'columns'])}"


def width_of(number):
    """How many bytes a chunk size is written in: those of the greatest of the sizes."""
    return (number.bit_length() - 1) // 8 + 1


def superblock(flags, end, version=3):
    return sealed(b"\x89HDF\r\n\x1a\n" + bytes([version, 8, 8, flags]) + bytes(8) + UNDEFINED + struct.pack("<QQ", end, 48))


def root_header(name, dataset, *more):
    """With a link to a dataset, and to more of them, each a name and a place."""
    link_info = bytes(2) + UNDEFINED * 2
    links = [bytes([1, 0, len(name)]) + name + struct.pack("<Q", place) for name, place in ((name, dataset), *more)]
    return header(message(2, 0, link_info) + message(10, 0, bytes(2)) + b"".join(message(6, 0, it) for it in links))


def dataset_header(kind, chunk, fill, index, columns=None, rows=0):
    """A dataset of so many rows: of one dimension, or of two, with so many columns of which a chunk has so many. An extensible array
    finds the chunks where dimension 0 alone grows, else a version 2 B-tree."""
    size, big, signed = TYPES[kind]
    dimensions, sides = ([rows], [chunk]) if columns is None else ([rows, columns[0]], [chunk, columns[1]])
    width = width_of(max(*sides, size))
    shape = bytes([2, len(dimensions), 1, 1]) + b"".join(struct.pack("<Q", it) for it in dimensions)
    shape += b"".join(UNDEFINED if it is None else struct.pack("<Q", it) for it in maximums_of(columns))
    number = bytes([0x30, big | signed << 3, 0, 0]) + struct.pack("<IHH", size, 0, 8 * size)
    value = b"" if fill is None else struct.pack("<I", size) + fill.to_bytes(size, "big" if big else "little")
    fills = bytes([3, 0x0B if fill is None else 0x2B]) + value
    sizes = b"".join(it.to_bytes(width, "little") for it in [*sides, size])
    found_by = bytes([5, 0, 8, 0, 0, 100, 40]) if grows(columns) else bytes([4, 32, 4, 4, 16, 10])
    layout = bytes([4, 2, 0, len(sides) + 1, width]) + sizes + found_by + struct.pack("<Q", index)
    return header(message(1, 0, shape) + message(3, 0, number) + message(5, 0, fills) + message(8, 0, layout))


def grows(columns):
    """Whether both dimensions grow."""
    return maximums_of(columns) == (None, None)


def array_blocks(at):
    """The header of an extensible array without chunks, and its index block behind it."""
    head = sealed(b"EAHD" + bytes([0, 0, 8, 32, 4, 16, 4, 10]) + struct.pack("<7Q", 0, 0, 0, 0, 0, 4, at + 72))
    return head + sealed(b"EAIB" + bytes(2) + struct.pack("<Q", at) + UNDEFINED * 35)


def tree_block():
    """The header of a version 2 B-tree without chunks."""
    return sealed(b"BTHD" + bytes([0, 10]) + struct.pack("<IHHBB", 2048, 24, 0, 100, 40) + UNDEFINED + struct.pack("<HQ", 0, 0))


def new_file(kind, chunk, fill=None, name=b"data", flags=0, columns=None, version=3, more=()):
    """The bytes of a file with an empty dataset of this type, with so many rows in a chunk, and with such a one under each of more names."""
    places, sets = [], b""
    first = 48 + len(root_header(name, 0, *((it, 0) for it in more)))
    for _ in (name, *more):
        places.append(first + len(sets))
        index = places[-1] + len(dataset_header(kind, chunk, fill, 0, columns))
        sets += dataset_header(kind, chunk, fill, index, columns) + (tree_block() if grows(columns) else array_blocks(index))
    return superblock(flags, first + len(sets), version) + root_header(name, places[0], *zip(more, places[1:])) + sets
