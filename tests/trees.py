#!/usr/bin/env python3
"""Makes small HDF5 files whose chunks stand in a version 2 B-tree of depth 0 to 3, as rows of a test: a name, the bytes in hexadecimal
digits, and what a reader of the dataset `data` finds. It knows nothing of the code under test."""
import struct


def rotate(x, k):
    return ((x << k) | (x >> (32 - k))) & 0xFFFFFFFF


def lookup3(data):
    """Bob Jenkins' hashlittle with the initial value 0."""
    a = b = c = (0xDEADBEEF + len(data)) & 0xFFFFFFFF
    m = 0xFFFFFFFF
    i, n = 0, len(data)
    while n > 12:
        x, y, z = struct.unpack_from("<III", data, i)
        a, b, c = (a + x) & m, (b + y) & m, (c + z) & m
        a = (a - c) & m; a ^= rotate(c, 4); c = (c + b) & m
        b = (b - a) & m; b ^= rotate(a, 6); a = (a + c) & m
        c = (c - b) & m; c ^= rotate(b, 8); b = (b + a) & m
        a = (a - c) & m; a ^= rotate(c, 16); c = (c + b) & m
        b = (b - a) & m; b ^= rotate(a, 19); a = (a + c) & m
        c = (c - b) & m; c ^= rotate(b, 4); b = (b + a) & m
        i, n = i + 12, n - 12
    if n == 0:
        return c
    x, y, z = struct.unpack("<III", data[i:] + bytes(12 - n))
    a, b, c = (a + x) & m, (b + y) & m, (c + z) & m
    for (p, q, r, k) in [("c", "b", "b", 14), ("a", "c", "c", 11), ("b", "a", "a", 25), ("c", "b", "b", 16), ("a", "c", "c", 4), ("b", "a", "a", 14), ("c", "b", "b", 24)]:
        v = {"a": a, "b": b, "c": c}
        v[p] = ((v[p] ^ v[q]) - rotate(v[r], k)) & m
        a, b, c = v["a"], v["b"], v["c"]
    return c


def sealed(block):
    return block + struct.pack("<I", lookup3(block))


def message(kind, flags, body):
    return struct.pack("<BHB", kind, len(body), flags) + body


def header(messages):
    """A header of these messages, whose size takes one byte, or two where it is above 255."""
    size = struct.pack("<BB", 0, len(messages)) if len(messages) < 256 else struct.pack("<BH", 1, len(messages))
    return sealed(b"OHDR\x02" + size + messages)


UNDEFINED = b"\xff" * 8
POINTER = [0, 9, 11, 12]
TREE = 300
KEYS = [(0, 0), (0, 2), (1, 0), (1, 1), (1, 2)]
VALUES = [11, 13, 21, 22, 23]

# a node of depth 0 is its count of records; another is its records between its children
SHAPES = {
    0: 5,
    1: [1, 1, 1],
    2: [[1, 1], [1]],
    3: [[[1, 1]], [[1]]],
}


class File:
    def __init__(self, depth):
        self.next = TREE + 38
        self.blocks = {}
        self.chunks = list(zip(KEYS, VALUES))
        self.depth = depth

    def place(self, size):
        at, self.next = self.next, self.next + size
        return at

    def record(self):
        (i, j), value = self.chunks.pop(0)
        at = self.place(1)
        self.blocks[at] = bytes([value])
        return struct.pack("<QQQ", at, i, j)

    def node(self, depth, shape):
        """The node's place, its records, and all under it."""
        if depth == 0:
            records = b"".join(self.record() for _ in range(shape))
            at = self.place(2048)
            self.blocks[at] = sealed(b"BTLF\x00\x0a" + records)
            return at, shape, shape
        records, pointers, total = b"", b"", 0
        for n, child in enumerate(shape):
            if n > 0:
                records += self.record()
                total += 1
            at, count, under = self.node(depth - 1, child)
            total += under
            pointers += struct.pack("<QB", at, count)
            if depth > 1:
                pointers += under.to_bytes(depth, "little")
        at = self.place(2048)
        self.blocks[at] = sealed(b"BTIN\x00\x0a" + records + pointers)
        return at, len(shape) - 1, total

    def bytes(self):
        root, count, total = self.node(self.depth, SHAPES[self.depth])
        self.blocks[TREE] = sealed(b"BTHD\x00\x0a" + struct.pack("<IHHBBQHQ", 2048, 24, self.depth, 100, 40, root, count, total))
        self.blocks[0] = sealed(b"\x89HDF\r\n\x1a\n\x03\x08\x08\x00" + bytes(8) + UNDEFINED + struct.pack("<QQ", self.next, 48))
        link = b"\x01\x00\x04data" + struct.pack("<Q", 106)
        self.blocks[48] = header(message(2, 0, b"\x00\x00" + UNDEFINED * 2) + message(10, 0, b"\x00\x00") + message(6, 0, link))
        space = b"\x02\x02\x01\x01" + struct.pack("<QQ", 2, 3) + UNDEFINED * 2
        kind = b"\x30\x00\x00\x00" + struct.pack("<IHH", 1, 0, 8)
        layout = b"\x04\x02\x00\x03\x01\x01\x01\x01\x05\x00\x08\x00\x00\x64\x28" + struct.pack("<Q", TREE)
        self.blocks[106] = header(message(1, 0, space) + message(3, 0, kind) + message(5, 0, b"\x03\x0b") + message(8, 0, layout))
        image = bytearray(self.next)
        for at, block in self.blocks.items():
            image[at:at + len(block)] = block
        return bytes(image)


def words(image):
    """Digits, with `XX*N` for a byte that stands so often."""
    out, i = "", 0
    lines, line = [], ""
    tokens, plain = [], ""
    while i < len(image):
        n = 1
        while i + n < len(image) and image[i + n] == image[i]:
            n += 1
        if n >= 5:
            if plain:
                tokens.append(plain)
            plain = ""
            tokens.append("%02x*%d" % (image[i], n))
        else:
            plain += "%02x" % image[i] * n
        i += n
    if plain:
        tokens.append(plain)
    for token in tokens:
        if len(line) + len(token) > 118 and line:
            lines.append(line)
            line = ""
        line += (" " if line else "") + token
    return "\n".join(lines + [line])


if __name__ == "__main__":
    for depth in range(4):
        print("# tree_of_depth_%d" % depth)
        print(words(File(depth).bytes()))
        print("= rows 2 [11, 0, 13, 21, 22, 23]\n")
