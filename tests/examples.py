"""The examples, as they run beside the program."""
import signal
import subprocess

from appends import PROGRAM, SECONDS, TOP, Appending, made, of, read_by_us, run, still, values_of

PYTHON = "/usr/bin/python3"


def detector(folder):
    """A detector takes 23 frames: h5py finds each batch beside it, and the program and the other tools all frames in the end."""
    file, columns = f"{folder}/f.h5", (10, 10, "fixed")
    frames = [1000 if pixel == at % 10 else pixel for at in range(23) for pixel in range(10)]
    lines = [f"{rows} frames, the spot of the newest is at pixel {(rows - 1) % 10}" for rows in (5, 10, 15, 20, 23)]
    told = run([PYTHON, f"{TOP}/examples/detector.py", file, "23"]).split("\n")
    found = of("detector.py", told, [told[0], *lines, "closed 23", ""]) + of("its first line", told[0].split(" ")[:2], ["new", "end"])
    return found + read_by_us(file, frames, columns) + still(file, "u16le", frames, folder, True, columns)


def viewer(folder):
    """A viewer of a writer's rows: its last picture is that of the newest eight."""
    file, columns = f"{folder}/f.h5", (10, 4)
    rows = [[9 * (pixel == at % 10) for pixel in range(10)] for at in range(20)] + [list(range(10))]
    found, writer = made(file, "i16be", 4, None, columns), Appending(file, "--no-reuse")
    try:
        found += of("append", writer.feed(rows[0], columns), "rows 1")
        shows = subprocess.Popen([PYTHON, f"{TOP}/examples/viewer.py", file, "data", "21"], stdout=subprocess.PIPE)
        for at in range(1, 21):
            found += of("append", writer.feed(rows[at], columns), f"rows {at + 1}")
        said, _ = shows.communicate(timeout=SECONDS)
        wanted = ["21 rows", *("@".rjust(pixel + 1).ljust(10) for pixel in range(3, 10)), " .:-=+*#%@", ""]
        found += of("viewer.py", said.decode().split("\n")[-10:], wanted)
        return found + of("the end", writer.end(), (0, "closed 21\n"))
    except (OSError, ValueError, subprocess.TimeoutExpired) as error:
        writer.process.kill()
        return found + [f"{type(error).__name__}: {error}"]


def recovery(folder):
    """A recovery: of a file whose writer was killed and of one that has other damage."""
    file, text, values = f"{folder}/f.h5", f"{folder}/rows", values_of("i32le", 9)
    with open(text, "w", encoding="utf-8") as it:
        it.writelines(f"{value}\n" for value in values)
    found, writer = made(file, "i32le", 2), Appending(file)
    found += of("append", writer.feed(values[:5]), "rows 5")
    writer.process.send_signal(signal.SIGKILL)
    writer.process.wait(SECONDS)
    words = ["sh", f"{TOP}/examples/recover.sh", file, text]
    told = run(words).split("\n")
    found += of("recover.sh", [told[0].split(" ")[:3], *told[1:]], [["valid", "rows", "5"], "clear 5 0", "rows 9", "closed 9", ""])
    found += read_by_us(file, values) + still(file, "i32le", values, folder)
    found += of("recover.sh again", run(words).split("\n")[1:], ["clear 0 0", "closed 9", ""])
    with open(file, "r+b") as it:
        it.seek(110)
        it.write(b"\xaa")
    said = run(words)
    return found + of("recover.sh of damage", (said, said[:18]), (run([PROGRAM, "check", file]), "status 5: finding "))


def trials():
    """Each trial by its name: what it finds is not as it should be, in a folder of its own."""
    for name, find in (("detector.py", detector), ("viewer.py", viewer), ("recover.sh", recovery)):
        yield f"examples/{name}", find
