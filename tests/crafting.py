"""Valid files that no library would leave: trees of any shape, whose nodes have few records, whose header tells another total, and whose keys stand outside
of the dataset. A check finds them valid, so they are polled and appended to like any others. They are made here by the format, from a seed."""
import os
import random
import struct
import subprocess
import tempfile

from new_files import superblock
from trees import TREE, UNDEFINED, header, message, sealed

PROGRAM = f"{os.path.dirname(os.path.dirname(os.path.realpath(__file__)))}/crates/h5w_cli/out/h5w_cli"
SECONDS = 60
COLUMNS, FILES = 3, 60


class Tree:
    """A file of bytes in chunks of one by one: some of its cells have chunks, and so have some keys outside of it."""

    def __init__(self, seed):
        self.dice = random.Random(seed)
        self.rows = self.dice.randrange(0, 6)
        self.depth = self.dice.randrange(4)
        self.next, self.blocks = TREE + 38, {}
        inside = [(i, j) for i in range(self.rows + 3) for j in range(COLUMNS)]
        outside = [(self.rows + 2000, 0), (2, COLUMNS + 1), (self.rows + 1, 2**40), (2**50, 2**50)]
        self.keys = sorted(self.dice.sample(inside, self.dice.randrange(len(inside) + 1)) + self.dice.sample(outside, self.dice.randrange(len(outside) + 1)))
        self.values = {key: self.dice.randrange(1, 256) for key in self.keys}
        self.left = list(self.keys)

    def place(self, size):
        at, self.next = self.next, self.next + size
        return at

    def records(self, count):
        """The next records, as they are spelled; each has a chunk."""
        spelled = b""
        for key in self.left[:count]:
            at = self.place(1)
            self.blocks[at] = bytes([self.values[key]])
            spelled += struct.pack("<QQQ", at, *key)
        self.left = self.left[count:]
        return spelled

    def node(self, depth, share, least=0):
        """The place of a node with the next so many keys under it, at least so many of them its own, and how many are its own."""
        at = self.place(2048)
        if depth == 0:
            self.blocks[at] = sealed(b"BTLF\x00\x0a" + self.records(share))
            return at, share
        own = max(least, self.dice.randrange(min(share, 4) + 1))
        cuts = sorted(self.dice.randrange(share - own + 1) for _ in range(own))
        shares = [b - a for a, b in zip([0, *cuts], [*cuts, share - own])]
        records, pointers = b"", b""
        for number, under in enumerate(shares):
            records += self.records(1) if number else b""
            child, count = self.node(depth - 1, under)
            pointers += struct.pack("<QB", child, count) + (under.to_bytes(depth, "little") if depth > 1 else b"")
        self.blocks[at] = sealed(b"BTIN\x00\x0a" + records + pointers)
        return at, own

    def image(self):
        """The bytes of the file."""
        # (HDF5's library takes a root without records of its own for a tree without records)
        root, count = self.node(self.depth, len(self.keys), min(len(self.keys), 1))
        total = len(self.keys) + self.dice.choice([0, 0, 1, 7, 2**40])
        self.blocks[TREE] = sealed(b"BTHD\x00\x0a" + struct.pack("<IHHBBQHQ", 2048, 24, self.depth, 100, 40, root, count, total))
        self.blocks[0] = superblock(0, self.next)
        link = b"\x01\x00\x04data" + struct.pack("<Q", 106)
        self.blocks[48] = header(message(2, 0, b"\x00\x00" + UNDEFINED * 2) + message(10, 0, b"\x00\x00") + message(6, 0, link))
        space = b"\x02\x02\x01\x01" + struct.pack("<QQ", self.rows, COLUMNS) + UNDEFINED * 2
        layout = b"\x04\x02\x00\x03\x01\x01\x01\x01\x05\x00\x08\x00\x00\x64\x28" + struct.pack("<Q", TREE)
        kind = b"\x30\x00\x00\x00" + struct.pack("<IHH", 1, 0, 8)
        self.blocks[106] = header(message(1, 0, space) + message(3, 0, kind) + message(5, 0, b"\x03\x0b") + message(8, 0, layout))
        image = bytearray(self.next)
        for at, block in self.blocks.items():
            image[at : at + len(block)] = block
        return bytes(image)

    def lines(self, rows):
        """The rows of the dataset as they are printed; a cell without a chunk has the fill."""
        return [" ".join(str(self.values.get((i, j), 0)) for j in range(COLUMNS)) for i in range(rows)]


def ran(words, text=""):
    done = subprocess.run([PROGRAM, *words], input=text.encode(), capture_output=True, timeout=SECONDS, close_fds=False)
    return done.returncode, (done.stdout + done.stderr).decode(errors="replace")


def of(what, seen, wanted):
    return [] if seen == wanted else [f"{what}: {seen!r}, wanted {wanted!r}"]


def read(file, lines, dumped):
    """What is read otherwise of a file that has these rows: by a poll, by a check, and by other tools if they are there."""
    status, said = ran(["check", file])
    found = of("check", (status, said.split(" ")[:3]), (0, ["valid", "rows", str(len(lines))]))
    found += of("poll", ran(["poll", file, "--values"]), (0, "\n".join([f"rows {len(lines)}", *lines, ""])))
    return found + (of("h5dump", dumped(file), " ".join(lines).split()) if dumped and lines else [])


def crafted(seed, dumped):
    """What is not as it should be of such a file, before and after rows are appended in two batches."""
    with tempfile.TemporaryDirectory(prefix="h5swmr-crafted-") as folder:
        tree, file = Tree(seed), f"{folder}/f"
        with open(file, "wb") as out:
            out.write(tree.image())
        return appended(tree, file, dumped)


def appended(tree, file, dumped):
    """What is not as it should be of the file of this tree, before and after."""
    lines = tree.lines(tree.rows)
    found = read(file, lines, dumped)
    more = [" ".join(str(tree.dice.randrange(256)) for _ in range(COLUMNS)) for _ in range(tree.dice.randrange(2, 6))]
    said = ran(["append", file], "\n\n".join([more[0], "\n".join(more[1:])]) + "\n")
    rows = len(lines) + len(more)
    found += of("append", said, (0, f"rows {len(lines) + 1}\nrows {rows}\nclosed {rows}\n"))
    return found + read(file, lines + more, dumped)


def trials(dumped=None):
    """Each trial by its name: what it finds is not as it should be."""
    for seed in range(FILES):
        yield f"a tree of any form, seed {seed}", lambda *_, it=seed: crafted(it, dumped)
