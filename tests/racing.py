"""Trials of the built program: a reader polls a real file as fast as it can, while a writer appends a row at a time as fast as it can. The file
system may show the reader a write half done; that is no damage, and is not told as such. Each finds what is not as it should be, a line each."""
import concurrent.futures
import contextlib
import subprocess
import tempfile
import threading

from new_files import array_blocks, dataset_header, root_header, superblock
from program import PROGRAM, of, read, run, steps
from trees import lookup3, message, sealed

# where other programs want all processors a turn may be long
SECONDS = 120
READERS, POLLS, ATTEMPTS = 3, 1_000_000, 1000


def with_long_header():
    """The bytes of a new file of i32le whose dataset header has 512 bytes, the most of a write: behind its messages is one of nothing. The longer
    it is the sooner a reader sees it half written."""
    messages = dataset_header("i32le", 65536, None, 106 + 512)[7:-4]
    messages += message(0, 0, bytes(512 - 8 - 4 - 4 - len(messages)))
    blocks = array_blocks(106 + 512)
    header = sealed(b"OHDR\x02\x01" + len(messages).to_bytes(2, "little") + messages)
    return superblock(0, 106 + 512 + len(blocks)) + root_header(b"data", 106) + header + blocks


class Fast:
    """The program that appends a row at a time for as long as it is wanted. Nobody reads its lines, so that it never waits."""

    def __init__(self, file):
        self.process = subprocess.Popen([PROGRAM, "append", file], stdin=subprocess.PIPE, stdout=subprocess.DEVNULL)
        self.wanted, self.thread = True, threading.Thread(target=self.feed)
        self.thread.start()

    def feed(self):
        """Writes batches of one row until they are wanted no more."""
        with contextlib.suppress(BrokenPipeError):
            while self.wanted:
                self.process.stdin.write(b"7\n\n" * 16384)
            self.process.stdin.close()

    def end(self):
        """Closes the file; the status."""
        self.wanted = False
        self.thread.join(SECONDS)
        return self.process.wait(SECONDS)


def polled(file):
    """The rows that so many attempts find, and what is not as it should be. A call beside so fast a writer may find the dataset header changed in
    each of its attempts; then those that are left begin with an open."""
    rows, found, left = [], [], POLLS
    while not found and left > 0:
        ran = subprocess.run([PROGRAM, "poll", file, "--times", str(left), "--attempts", str(ATTEMPTS)], capture_output=True, timeout=SECONDS)
        lines = ran.stdout.decode().split("\n")
        more = [int(it[5:]) for it in lines if it.startswith("rows ")]
        is_again = ran.returncode == 7 and lines[len(more)].startswith(f"error again {ATTEMPTS} ")
        found = [] if is_again else of("poll", (ran.returncode, lines[len(more) :], ran.stderr), (0, [""], b""))
        rows, left = rows + more, left - len(more) - ATTEMPTS * is_again
    return rows, found + of("rows that fell", [it for it in zip(rows, rows[1:]) if it[1] < it[0]], [])


def polls(folder):
    """Beside a fast `append`: each call finds rows, never fewer than before, and at last all are there."""
    file = f"{folder}/f"
    with open(file, "wb") as it:
        it.write(with_long_header())
    writer, found = Fast(file), []
    try:
        with concurrent.futures.ThreadPoolExecutor(READERS) as pool:
            for rows, differs in pool.map(polled, [file] * READERS):
                found += differs + ([] if rows[-1:] > rows[:1] else ["no row came while it polled"])
    finally:
        found += of("append", writer.end(), 0)
    return found + of("the rows in the end", run(folder, ["check", "f"])[1].split()[:3:2], [b"valid", run(folder, ["poll", "f"])[1].split()[1]])


def damaged(folder):
    """A file of which one bit is changed: `poll` tells the block, its sum and that of its bytes."""
    steps(folder, ("new f --type i32le --chunk 2", b"", 0, b"new end 558\n"), ("append f", b"1 2 3\n", 0, b"rows 3\nclosed 3\n"))
    whole = bytearray(read(f"{folder}/f"))
    whole[300] ^= 1
    with open(f"{folder}/f", "wb") as file:
        file.write(whole)
    stored, computed = int.from_bytes(whole[554:558], "little"), lookup3(whole[260:554])
    told = b"error damaged 260 sum %08x %08x\n" % (stored, computed)
    return steps(folder, *((f"poll f --attempts {it}", b"", 5, told) for it in (1, 1000)))


def trials():
    for find in (polls, damaged):
        with tempfile.TemporaryDirectory(prefix="h5swmr-race-") as folder:
            yield f"poll: {find.__doc__.split(':')[0].replace('`', '').lower()}", lambda it=find: it(folder)
