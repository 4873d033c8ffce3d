"""Files byte by byte, and what the program is to say of each. They were made by other programs, by hand, or by libhdf5; what is wanted follows
from the format's description. In tests/files/*.txt a file has a name behind `#`, its bytes in hexadecimal digits, of which `XX*N` is the byte `XX`
so often, and behind `=` the status and the line. Behind `rows N:` stand the values: all, or with `..` the first of them, the last, or both."""
import tempfile

from program import TOP, named, of, read, run, steps
from trees import lookup3

# What is asked of the files of each list, and how they came to be.
LISTS = {
    "outside": "poll f --values",  # by an independent program, and by libhdf5
    "groups": "poll f --values",  # with one thing changed in the superblock, the root header or its links
    "datasets": "poll f --values",  # with one thing changed in the dataset's header, or of each type
    "arrays": "poll f --values",  # with chunks behind data blocks and secondary blocks
    "grids": "poll f --values",  # of two dimensions
    "trees": "poll f --values",  # by tests/trees.py, of depth 0 to 3
    "checked": "check f",  # valid, or with the findings of a check
}


def files(name):
    """The files of a list: the name, the bytes, and what is wanted."""
    with open(f"{TOP}/tests/files/{name}.txt", encoding="utf-8") as text:
        for row in text.read().split("# ")[1:]:
            title, *lines, wanted = row.strip().split("\n")
            words = " ".join(lines).split(" ")
            yield title, b"".join(bytes.fromhex(it.split("*")[0]) * int(f"{it}*1".split("*")[1]) for it in words), wanted.removeprefix("= ")


def told(status, text, wanted):
    """What the program said, as it is wanted: as many of the values, from the end where these are."""
    line, *values = text.decode().split("\n", 1)
    values = values[0].split() if status == 0 and line.startswith("rows ") else []
    few = wanted.partition(": ")[2].split()
    if ".." in few:
        first = few.index("..")
        values = values[:first] + [".."] + values[len(values) - (len(few) - 1 - first) :]
    return f"{status} {line}" + (f": {' '.join(values)}" if values else "")


def asked(words, content, wanted):
    """What is not as wanted of a file with these bytes."""
    with tempfile.TemporaryDirectory(prefix="h5swmr-image-") as folder:
        with open(f"{folder}/f", "wb") as file:
            file.write(content)
        status, text, errors = run(folder, words.split(" "))
        return of(words, (told(status, text, wanted), errors), (wanted, b""))


def two_links(folder):
    """Two links to one header: in a new file of two datasets the link to the second one leads to the first."""
    found = steps(folder, ("new f --type i32le --chunk 2 --name a,b", b"", 0, b"new end 1023\n"))
    content = bytearray(read(f"{folder}/f"))
    found += of("the places of the links", [int.from_bytes(content[at : at + 8], "little") for at in (91, 107)], [119, 571])
    content[107:115] = (119).to_bytes(8, "little")
    content[115:119] = lookup3(bytes(content[48:115])).to_bytes(4, "little")
    with open(f"{folder}/f", "wb") as file:
        file.write(content)
    return found + steps(folder, ("append f --name a,b", b"", 4, b"error writer same 1 2\n"), ("check f --name a,b", b"", 5, b"finding 21 119\n"), ("check f --name a", b"", 0, b"valid rows 0 chunks 0 blocks 5 end 1023 lost 452\n"))


def trials():
    yield from named("links", two_links)
    for name, words in LISTS.items():
        for title, content, wanted in files(name):
            yield f"{words.split(' ')[0]}, {name}: {title}", lambda w=words, c=content, it=wanted: asked(w, c, it)
