"""A file whose tree has depth 3 and no room on the way to its next chunk, though it holds few: each node on that way is full, and no other node
has more than one record. It follows from the format's description alone. Trials of the built program that appends to it."""
import struct

from new_files import dataset_header, root_header, superblock
from program import in_folder, of, read, steps
from trees import sealed

NODE = 2048
DEPTH = 3
# The most records of a node, and the bytes of its pointers to children, by its depth.
MOST = [84, 61, 57, 56]
# Of a chunk, which has one column.
ROWS = 2


class Tree:
    """Its blocks by their places, from this one on; the chunks follow one another in the order of their keys."""

    def __init__(self, at):
        self.next = at
        self.blocks = {}
        self.chunks = 0
        self.nodes = 0

    def place(self, block, size):
        at, self.next = self.next, self.next + size
        self.blocks[at] = block
        return at

    def record(self):
        """The next chunk, and what names it."""
        row = self.chunks * ROWS
        self.chunks += 1
        return struct.pack("<QQQ", self.place(bytes((row + it) % 251 for it in range(ROWS)), ROWS), self.chunks - 1, 0)

    def node(self, depth, full):
        """The node's place, its records, and all under it; where it is to be full so are the last ones under it."""
        count = MOST[depth] if full else 1
        self.nodes += 1
        records, pointers, total = b"", b"", count
        for it in range(count + (depth > 0)):
            if depth:
                at, own, under = self.node(depth - 1, full and it == count)
                pointers += struct.pack("<QB", at, own) + (under.to_bytes(depth, "little") if depth > 1 else b"")
                total += under
            if it < count:
                records += self.record()
        return self.place(sealed((b"BTIN" if depth else b"BTLF") + bytes([0, 10]) + records + pointers), NODE), count, total


def deep_file():
    """Its bytes, its rows, its chunks and its nodes. The last chunk has one row less than it may have."""
    dataset = 48 + 54 + 4
    tree = dataset + len(dataset_header("u8", ROWS, None, 0, (1, 1)))
    made = Tree(tree + 38)
    root, count, total = made.node(DEPTH, True)
    rows = made.chunks * ROWS - 1
    made.blocks[tree] = sealed(b"BTHD" + bytes([0, 10]) + struct.pack("<IHHBBQHQ", NODE, 24, DEPTH, 100, 40, root, count, total))
    made.blocks[dataset] = dataset_header("u8", ROWS, None, tree, (1, 1), rows)
    made.blocks[48] = root_header(b"data", dataset)
    made.blocks[0] = superblock(0, made.next)
    image = bytearray(made.next)
    for at, block in made.blocks.items():
        image[at : at + len(block)] = block
    return bytes(image), rows, made.chunks, made.nodes


def too_deep(folder):
    """Rows that need one more chunk are refused, and those before them stay; what was refused leaves each byte as it was."""
    image, rows, chunks, nodes = deep_file()
    with open(f"{folder}/f", "wb") as file:
        file.write(image)
    summary = b"valid rows %d chunks %d blocks %d end %d lost 0\n"
    found = steps(folder, ("check f", b"", 0, summary % (rows, chunks, nodes + 4, len(image))), ("append f", b"7 8\n", 9, b"error deep\n"))
    found += [] if read(f"{folder}/f") == image else ["append f: the file is another"]
    found += steps(
        folder,
        ("append f", b"7\n\n8\n", 9, b"rows %d\nerror deep\n" % (rows + 1)),
        ("append f", b"8\n", 9, b"error deep\n"),
        ("check f", b"", 0, summary % (rows + 1, chunks, nodes + 4, len(image))),
        ("poll f --values", b"", 0, b"rows %d\n" % (rows + 1) + b"".join(b"%d\n" % (it % 251) for it in range(rows)) + b"7\n"),
    )
    return found + of("the flags", read(f"{folder}/f")[11], 0)


def trials():
    yield "append: a tree without room for one more chunk", lambda: in_folder(too_deep)
