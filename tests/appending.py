"""Trials of the built program that appends to files: what memory cannot show. Each finds what is not as it should be, a line each."""
import os
import resource
import select
import signal
import subprocess
import time

from new_files import dataset_header, new_file
from program import PROGRAM, SECONDS, named, of, read, run, steps

NEW = "new f --type i32le --chunk 2"


def begins(folder):
    """A new file, three rows, and what reads it; input without a last line end, and none at all."""
    return steps(
        folder,
        (NEW, b"", 0, b"new end 558\n"),
        ("append f", b"1 2 3\n", 0, b"rows 3\nclosed 3\n"),
        ("check f", b"", 0, b"valid rows 3 chunks 2 blocks 5 end 574 lost 0\n"),
        ("poll f --times 2 --values", b"", 0, b"rows 3\n1\n2\n3\nrows 3\n"),
        ("append f", b"", 0, b"closed 3\n"),
        ("append f", b"\n", 0, b"closed 3\n"),
        ("append f", b"\n\n4\n\n\n5 6", 0, b"rows 4\nrows 6\nclosed 6\n"),
        ("poll f --values", b"", 0, b"rows 6\n1\n2\n3\n4\n5\n6\n"),
        ("append f", b"7\nx\n", 8, b"error line 2\n"),
        ("append f", b"7\n\nx\n", 8, b"rows 7\nerror line 3\n"),
        ("append f", b"8 2147483648\n", 8, b"error range 1 1 2147483648\n"),
        ("check f", b"", 0, b"valid rows 7 chunks 4 blocks 5 end 590 lost 0\n"),
        ("append g", b"1\n", 3, b"error missing\n"),
        ("append .", b"1\n", 10, b"error disk\n"),
        ("append f/g", b"1\n", 10, b"error disk\n"),
    ) + of("the flags", read(f"{folder}/f")[11], 0)


def used_again(folder):
    """Blocks that were written anew: their places are used again, or not."""
    return steps(
        folder,
        ("new f --type i32le --chunk 1", b"", 0, b"new end 558\n"),
        ("append f", b"1 2 3 4 5\n\n6\n\n7\n", 0, b"rows 5\nrows 6\nrows 7\nclosed 7\n"),
        ("check f", b"", 0, b"valid rows 7 chunks 7 blocks 6 end 886 lost 150\n"),
        ("new g --type i32le --chunk 1", b"", 0, b"new end 558\n"),
        ("append g --no-reuse", b"1 2 3 4 5\n\n6\n\n7\n", 0, b"rows 5\nrows 6\nrows 7\nclosed 7\n"),
        ("check g", b"", 0, b"valid rows 7 chunks 7 blocks 6 end 1036 lost 300\n"),
    )


def two_dimensions(folder):
    """Rows of three columns in chunks of two by two: bands that go on, nodes that are written anew, and places that are used again, or not."""
    rows, found = b"1 2 3 4 5 6\n\n7 8 9\n10 11 12\n\n13 14 15\n", []
    for option, end, lost in (("", 4388, 2048), (" --no-reuse", 6436, 4096)):
        found += steps(
            folder,
            ("new f --type i16le --chunk 2 --columns 3 --width 2", b"", 0, b"new end 244\n"),
            (f"append f{option}", rows, 0, b"rows 2\nrows 4\nrows 5\nclosed 5\n"),
            ("check f", b"", 0, b"valid rows 5 chunks 6 blocks 5 end %d lost %d\n" % (end, lost)),
            ("append f", b"1 2\n", 8, b"error line 1\n"),
            ("append f", b"16 17 18\n\nx\n", 8, b"rows 6\nerror line 3\n"),
            ("poll f --values", b"", 0, b"rows 6\n1 2 3\n4 5 6\n7 8 9\n10 11 12\n13 14 15\n16 17 18\n"),
        )
        os.remove(f"{folder}/f")
    return found


def fixed_columns(folder):
    """Rows of three fixed columns in chunks of two by two: bands that go on, and blocks of an array behind its first four chunks."""
    found = steps(
        folder,
        ("new f --type i16le --chunk 2 --columns 3 --width 2 --fixed", b"", 0, b"new end 575\n"),
        ("append f", b"1 2 3 4 5 6\n\n7 8 9\n10 11 12\n\n13 14 15\n", 0, b"rows 2\nrows 4\nrows 5\nclosed 5\n"),
        ("check f", b"", 0, b"valid rows 5 chunks 6 blocks 6 end 773 lost 0\n"),
        ("append f", b"1 2\n", 8, b"error line 1\n"),
        ("append f --no-reuse", b"16 17 18\n19 20 21\n", 0, b"rows 7\nclosed 7\n"),
        ("check f", b"", 0, b"valid rows 7 chunks 8 blocks 6 end 939 lost 150\n"),
        ("poll f --values", b"", 0, b"rows 7\n1 2 3\n4 5 6\n7 8 9\n10 11 12\n13 14 15\n16 17 18\n19 20 21\n"),
        ("clear f --upgrade", b"", 0, b"clear 0 0\n"),
    )
    return found + of("the dataset header", read(f"{folder}/f")[106:205], dataset_header("i16le", 2, None, 205, (3, 2, "fixed"), 7))


def damaged(folder):
    """A file that is cut, one whose header is changed, one that another writer has open, an older one: nothing is written."""
    steps(folder, (NEW, b"", 0, b"new end 558\n"), ("append f", b"1 2 3\n", 0, b"rows 3\nclosed 3\n"))
    whole, found = read(f"{folder}/f"), []
    changed = whole[:300] + bytes([whole[300] ^ 1]) + whole[301:]
    table = [(whole[:300], 5, b"error cut 574 300\n"), (whole[:30], 5, b"error damaged 0 cut 48 30\n"), (whole[:7], 4, b"error nothdf5\n"), (b"", 4, b"error nothdf5\n")]
    table += [(new_file("i32le", 2, flags=it), 6, b"error flags %d\n" % it) for it in (1, 4, 5)]
    table += [(new_file("i32le", 2, flags=it, version=2), 4, b"error writer version 2\n") for it in (0, 5)]
    for content, status, wanted in table:
        with open(f"{folder}/g", "wb") as file:
            file.write(content)
        found += steps(folder, ("append g", b"1\n", status, wanted)) + of("the file", read(f"{folder}/g"), content)
    with open(f"{folder}/g", "wb") as file:
        file.write(changed)
    status, text, _ = run(folder, ["append", "g"], b"1\n")
    return found + of("a changed block", (status, text[:22], read(f"{folder}/g")), (5, b"error damaged 260 sum ", changed))


def limited():
    """Files may have 560 bytes, as on a device that is full; a write past them fails."""
    resource.setrlimit(resource.RLIMIT_FSIZE, (560, 560))
    signal.signal(signal.SIGXFSZ, signal.SIG_IGN)


def full_device(folder):
    """A device without room for the second byte of a chunk: the flags piece is all that stands, and `clear` and `append` go on."""
    steps(folder, (NEW, b"", 0, b"new end 558\n"))
    empty = read(f"{folder}/f")
    found = of("append", run(folder, ["append", "f"], b"1 2 3\n", preexec_fn=limited), (10, b"error disk\n", b""))
    found += of("the file", read(f"{folder}/f")[:558], new_file("i32le", 2, flags=5))
    return found + of("its first bytes", empty, new_file("i32le", 2)) + steps(
        folder,
        ("poll f", b"", 0, b"rows 0\n"),
        ("append f", b"1\n", 6, b"error flags 5\n"),
        ("clear f", b"", 0, b"clear 5 0\n"),
        ("append f", b"1 2 3\n", 0, b"rows 3\nclosed 3\n"),
        ("poll f --values", b"", 0, b"rows 3\n1\n2\n3\n"),
    )


def told_at_once(folder):
    """Each line of `append` is out once its batch is there, while it waits for more; then the writer is killed."""
    steps(folder, (NEW, b"", 0, b"new end 558\n"))
    process = subprocess.Popen([PROGRAM, "append", f"{folder}/f"], stdin=subprocess.PIPE, stdout=subprocess.PIPE)
    found = []
    for rows in (1, 2, 3):
        process.stdin.write(b"%d\n\n" % rows)
        process.stdin.flush()
        is_there = select.select([process.stdout], [], [], SECONDS)[0]
        found += of("a line", process.stdout.readline() if is_there else None, b"rows %d\n" % rows)
        found += steps(folder, ("poll f", b"", 0, b"rows %d\n" % rows))
    process.stdin.write(b"4 5 6\n")
    process.stdin.flush()
    process.kill()
    process.wait(SECONDS)
    return found + steps(
        folder,
        ("poll f --values", b"", 0, b"rows 3\n1\n2\n3\n"),
        ("check f", b"", 0, b"valid rows 3 chunks 2 blocks 5 end 574 lost 0\n"),
        ("append f", b"4\n", 6, b"error flags 5\n"),
        ("clear f", b"", 0, b"clear 5 0\n"),
        ("append f", b"4\n", 0, b"rows 4\nclosed 4\n"),
        ("poll f --values", b"", 0, b"rows 4\n1\n2\n3\n4\n"),
    )


def before_their_flush(folder):
    """Rows past the budget: they are in the file before their batch ends, and no reader finds them. Then the writer is killed."""
    found = steps(folder, ("new f --type i32le --chunk 255", b"", 0, b"new end 558\n"))
    for option in ([], ["--no-reuse"]):
        process = subprocess.Popen([PROGRAM, "append", f"{folder}/f", "--budget", "1024", *option], stdin=subprocess.PIPE, stdout=subprocess.PIPE)
        process.stdin.write(b"1 2 3\n")
        process.stdin.flush()
        wanted, until = new_file("i32le", 255, flags=5) + bytes([1, 0, 0, 0, 2, 0, 0, 0, 3]) + bytes(1011), time.monotonic() + SECONDS
        while read(f"{folder}/f") != wanted and time.monotonic() < until:
            time.sleep(0.01)
        found += of("the file before the flush", read(f"{folder}/f"), wanted)
        found += steps(folder, ("poll f", b"", 0, b"rows 0\n"), ("check f", b"", 0, b"valid rows 0 chunks 0 blocks 5 end 558 lost 0\n"))
        process.kill()
        process.wait(SECONDS)
        found += steps(folder, ("append f", b"4\n", 6, b"error flags 5\n"), ("clear f", b"", 0, b"clear 5 0\n"))
        os.truncate(f"{folder}/f", 558)
    return found + steps(
        folder,
        ("append f --budget 1024", b"1 2 3\nx\n", 8, b"error line 2\n"),
        ("check f", b"", 0, b"valid rows 0 chunks 0 blocks 5 end 558 lost 0\n"),
        ("append f --budget 1024", b"4\n", 0, b"rows 1\nclosed 1\n"),
        ("poll f --values", b"", 0, b"rows 1\n4\n"),
        ("check f", b"", 0, b"valid rows 1 chunks 1 blocks 5 end 1578 lost 0\n"),
    )


# Datasets, by their options: an array, a tree, and an array with fixed columns.
SHAPES = [f"--type i32le --chunk {it}" for it in (1, 7, 300)] + [f"--type i16be --chunk {it} --columns 3 --width 2{fixed}" for it in (1, 50, 300) for fixed in ("", " --fixed")]


def any_budget(folder):
    """Files with the same rows: each byte is the same whatever the budget, since chunks get their places in the same order."""
    rows, found = iter(range(10_000)), []
    lines = [" ".join(str(next(rows) % 30_000) for _ in range(3 * it)) for it in (1, 2, 300, 7, 1, 1, 500, 40, 3, 1000)]
    text = "\n".join([*lines[:3], "", *lines[3:6], "", "", *lines[6:8], lines[8], "", lines[9]]).encode()
    for shape in SHAPES:
        for option in ("", " --no-reuse"):
            files = set()
            for budget in ("", " --budget 1024", " --budget 2000", " --budget 1073741824"):
                found += of("new", run(folder, f"new f {shape}".split(" "))[0], 0) + of("append", run(folder, f"append f{option}{budget}".split(" "), text)[0], 0)
                files.add(read(f"{folder}/f"))
                os.remove(f"{folder}/f")
            found += of(f"files of {shape}{option}", len(files), 1)
    return found


def unwritten(folder):
    """An output that nobody takes: the batch is there, and the file is closed. An input that is a folder: the file is closed."""
    steps(folder, (NEW, b"", 0, b"new end 558\n"))
    with open("/dev/full", "wb") as full:
        ran = subprocess.run([PROGRAM, "append", f"{folder}/f"], input=b"1\n\n2\n", stdout=full, stderr=subprocess.PIPE, timeout=SECONDS)
    found = of("append into a full device", (ran.returncode, ran.stderr), (12, b"")) + of("the flags", read(f"{folder}/f")[11], 0)
    found += steps(folder, ("poll f --values", b"", 0, b"rows 1\n1\n"))
    source = os.open(folder, os.O_RDONLY)
    ran = subprocess.run([PROGRAM, "append", f"{folder}/f"], stdin=source, capture_output=True, timeout=SECONDS)
    os.close(source)
    found += of("append of a folder", (ran.returncode, ran.stdout, ran.stderr), (11, b"error source\n", b""))
    return found + of("the flags then", read(f"{folder}/f")[11], 0)


WORDS = ["append", "append f g", "append f --budget 1023", "append f --budget 1073741825", "append f --budget=", "append f --limit 1023", "append f --name a/b", "append f --no-reuse --no-reuse", "append f --takeover --takeover", "append f --values", "append --no-reuse"]


def other_words(folder):
    """Other words: usage, and the file stays."""
    steps(folder, (NEW, b"", 0, b"new end 558\n"))
    found = steps(folder, *((it, b"1\n", 2, b"error usage\n") for it in WORDS))
    return found + of("the file", read(f"{folder}/f"), new_file("i32le", 2))


def trials():
    yield from named("append", begins, used_again, two_dimensions, fixed_columns, damaged, full_device, told_at_once, before_their_flush, any_budget, unwritten, other_words)
