"""Where an append puts the blocks of the index that it copies: each write is told by a shim that is loaded before all else. If what it leaves is not
to be used again, no place of the file has two blocks one after another, nor a block and then a chunk; else some place has."""
import os
import shutil
import subprocess
import tempfile

from appends import SECONDS, TOP, made, of, text_of
from new_files import in_words

PROGRAM = f"{TOP}/crates/h5w_cli/out/h5w_cli"

# Each write tells its place, how many bytes it has, and its first four.
SHIM = """
#define _GNU_SOURCE
#include <stdio.h>
#include <stdlib.h>
#include <string.h>
#include <sys/syscall.h>
#include <unistd.h>

ssize_t pwrite64(int file, const void *bytes, size_t count, off64_t at) {
    static FILE *told;
    const unsigned char *first = bytes;
    if (!told)
        told = fopen(getenv("H5SWMR_TOLD"), "w");
    if (told && count >= 4)
        fprintf(told, "%ld %zu %02x%02x%02x%02x\\n", (long)at, count, first[0], first[1], first[2], first[3]);
    if (told)
        fflush(told);
    return syscall(SYS_pwrite64, file, bytes, count, at);
}

ssize_t pwrite(int file, const void *bytes, size_t count, off_t at) {
    return pwrite64(file, bytes, count, at);
}
"""

# The blocks that are copied, by their signatures: data blocks and secondary blocks of an array, nodes of a tree.
COPIED = {it.hex() for it in (b"EADB", b"EASB", b"BTLF", b"BTIN")}

# The columns of a dataset and of a chunk if it has two dimensions, and the rows of each batch in chunks of one row.
CASES = [(None, [1] * 60), (None, [5, 1, 1, 30, 1]), ((3, 2), [1] * 60), ((3, 2), [100, 1, 1, 40]), ((3, 2, "fixed"), [1] * 60)]


def written(folder, shim, words, columns, batches):
    """Each write of an append to a new file in turn, its place, its length and its first four bytes; and what is not as it should be."""
    file, told = f"{folder}/f", f"{folder}/told"
    found = made(file, "i32le", 1, None, columns)
    values = [[7] * (rows * (columns[0] if columns else 1)) for rows in batches]
    how = {"env": {**os.environ, "LD_PRELOAD": shim, "H5SWMR_TOLD": told}}
    ran = subprocess.run([PROGRAM, "append", file, *words], input=text_of(values, columns).encode(), capture_output=True, timeout=SECONDS, **how)
    found += of("append", (ran.returncode, ran.stdout.decode().split("\n")[-2]), (0, f"closed {sum(batches)}"))
    with open(told, encoding="utf-8") as lines:
        writes = [line.split() for line in lines]
    os.remove(file)
    return [(int(at), int(count), first) for at, count, first in writes], found


def twice(writes):
    """The places that had a block of the index and were written again from their beginning on."""
    blocks, again = set(), []
    for at, _, first in writes:
        again += [at] if at in blocks else []
        if first in COPIED:
            blocks.add(at)
    return again


def placed(shim, columns, batches, folder):
    """What is not as it should be: with the flag no place has two uses, and without it some place has, so that this can fail."""
    alone, found = written(folder, shim, ["--no-reuse"], columns, batches)
    again, more = written(folder, shim, [], columns, batches)
    found += more + of("places that are used twice with --no-reuse", twice(alone), [])
    return found + ([] if twice(again) else ["no place is used twice without --no-reuse"])


def trials():
    """Each trial by its name: what it finds is not as it should be, in a folder of its own."""
    if not shutil.which("cc"):
        print("cc missing: the places of an append's writes are not told")
        return
    with tempfile.TemporaryDirectory(prefix="h5swmr-told-") as folder:
        source, library = f"{folder}/told.c", f"{folder}/told.so"
        with open(source, "w", encoding="utf-8") as file:
            file.write(SHIM)
        subprocess.run(["cc", "-shared", "-fPIC", "-o", library, source], check=True, timeout=SECONDS)
        for columns, batches in CASES:
            shape = in_words(columns) if columns else "one dimension"
            yield f"places that an append leaves, {shape}, {len(batches)} batches", lambda it, c=columns, b=batches: placed(library, c, b, it)
