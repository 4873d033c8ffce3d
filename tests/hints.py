"""Trials of ./h5swmr itself: its help, its version, the hints that it adds to two statuses, and what input and signals the program gets."""
import os
import re
import shutil
import signal
import subprocess
import tempfile
import time

from new_files import new_file

TOP = os.path.dirname(os.path.dirname(os.path.realpath(__file__)))
SCRIPT, PROGRAM, USAGE = f"{TOP}/h5swmr", f"{TOP}/crates/h5w_cli/out/h5w_cli", f"{TOP}/docs/usage.txt"
SECONDS = 20

# What the script answers itself, and the status.
ASKED = [([], 2), (["help"], 0), (["--help"], 0), (["-h"], 0)]
VERSION = rb"h5swmr \d+\.\d+\.\d+(, commit [0-9a-f]{7,40}(-dirty)?)?\n"

NEW = ["--type", "i32le", "--chunk", "2"]


def read(path):
    with open(path, "rb") as file:
        return file.read()


def of(what, seen, wanted):
    return [] if seen == wanted else [f"{what}: {seen!r}, wanted {wanted!r}"]


def wanted(status, errors):
    """What standard error should have had, after a run through the script by a path: what it has, if that is a hint of this status."""
    if status == 2:
        return errors if re.fullmatch(rb"h5swmr: see [^\n]*h5swmr --help\n", errors) else b"h5swmr: see ./h5swmr --help\n"
    return errors if status == 10 and re.fullmatch(rb"h5swmr: [^\n]+\n", errors) else b""


def run(words, folder, program=SCRIPT, **how):
    how = {"stdin": subprocess.DEVNULL, "stdout": subprocess.PIPE, **how}
    ran = subprocess.run([program, *words], stderr=subprocess.PIPE, cwd=folder, timeout=SECONDS, **how)
    return ran.returncode, ran.stdout, ran.stderr


def helps(folder):
    """The usage, which has at most 40 lines, and the version; the program itself answers these words as any others that it does not know."""
    usage = read(USAGE)
    found = of("lines of the usage over 40", usage.count(b"\n") > 40, False)
    for words, status in ASKED:
        found += of(f"the answer to {words}", run(words, folder), (status, usage, b""))
        with open("/dev/full", "wb") as full:
            found += of(f"{words} into a full device", run(words, folder, stdout=full), (12, None, b""))
        found += of(f"the program's own answer to {words}", run(words, folder, PROGRAM), (2, b"error usage\n", b""))
    status, text, errors = run(["--version"], folder)
    if (status, errors) != (0, b"") or not re.fullmatch(VERSION, text):
        found.append(f"the version: {status}, {text!r}, {errors!r}")
    found += of("the program's own answer to --version", run(["--version"], folder, PROGRAM), (2, b"error usage\n", b""))
    manual = re.search(r'^\.TH H5SWMR 1 "[^"]*" "h5swmr ([^"]*)"', read(f"{TOP}/docs/h5swmr.1").decode(), re.M)
    return found + of("the version", text.split(b",")[0].split()[1:2], [manual.group(1).encode()] if manual else [])


def helps_without_a_program(folder):
    """The script answers where no program is built, and makes nothing."""
    os.mkdir(f"{folder}/docs")
    shutil.copy(SCRIPT, f"{folder}/h5swmr")
    shutil.copy(USAGE, f"{folder}/docs/usage.txt")
    found = of("help", run(["--help"], "/", f"{folder}/h5swmr"), (0, read(USAGE), b""))
    status, text, errors = run(["--version"], "/", f"{folder}/h5swmr")
    found += of("version", (status, text.count(b"\n"), errors), (0, 1, b""))
    return found + of("what is there", sorted(os.listdir(folder)), ["docs", "h5swmr"])


# What is odd at a file, and the hint of the status 10 that follows.
ODD = [
    (["check", "folder"], b"folder is a folder, and not a file"),
    (["append", "folder/"], b"folder/ is a folder, and not a file"),
    (["poll", ".", "--values"], b". is a folder, and not a file"),
    (["check", "file/f"], b"file is a file, and not a folder"),
    (["new", "file/f", *NEW], b"file is a file, and not a folder"),
    (["new", "none/f", *NEW], b"there is no folder none"),
    (["new", "none/none/f", *NEW, "--columns", "3", "--width", "2"], b"there is no folder none/none"),
    (["new", "--columns=3", "--width", "2", "--fixed", "none/f", *NEW], b"there is no folder none"),
    (["clear", "--upgrade", "folder"], b"folder is a folder, and not a file"),
]
# The same where nothing may be written or read.
LOCKED = [
    (["new", "locked/f", *NEW], b"there is no leave to make a file in locked"),
    (["append", "locked/shown"], b"there is no leave to write locked/shown"),
    (["append", "locked/hidden", "--no-reuse"], b"there is no leave to read locked/hidden"),
    (["append", "--takeover", "locked/hidden"], b"there is no leave to read locked/hidden"),
    (["check", "locked/hidden", "--name", "a b"], b"there is no leave to read locked/hidden"),
    (["poll", "locked/hidden"], b"there is no leave to read locked/hidden"),
]


def odd_files(folder):
    """What the script sees of a file's folder and leave is told with the status 10, and never with another."""
    os.mkdir(f"{folder}/folder")
    os.mkdir(f"{folder}/locked")
    made = new_file("i32le", 2)
    for name in ("file", "locked/shown", "locked/hidden"):
        with open(f"{folder}/{name}", "wb") as file:
            file.write(made)
    found = []
    for words, hint in ODD:
        found += of(f"{words}", run(words, folder), (10, b"error disk\n", b"h5swmr: %s\n" % hint))
    found += of("no file", run(["check", "none/f"], folder), (3, b"error missing\n", b""))
    found += of("a file that is there", run(["new", "file", *NEW], folder), (3, b"error exists\n", b""))
    for name, mode in (("locked/shown", 0o444), ("locked/hidden", 0), ("locked", 0o555), ("", 0o755)):
        os.chmod(f"{folder}/{name}", mode)
    user = {"user": "nobody", "group": "nogroup", "extra_groups": []} if os.geteuid() == 0 else {}
    if user and subprocess.run(["/bin/sh", "-c", f"test -x {PROGRAM}"], **user).returncode:
        return found  # (nobody comes to the program)
    for words, hint in LOCKED:
        found += of(f"{words}", run(words, folder, **user), (10, b"error disk\n", b"h5swmr: %s\n" % hint))
    return found + of("a file that may be read", run(["check", "locked/shown"], folder, **user)[::2], (0, b""))


# Words whose program waits for a line.
WAITING = [["append", "f"], ["append", "--name=data", "f", "--no-reuse"], ["append", "--", "f"], ["append", "\u00e9 f"], ["play", *NEW]]
WAITING += [["live", *NEW, "--readers", "2", "--polls", "3"]]


def is_there(pid):
    """Whether this process runs the program."""
    try:
        return os.path.realpath(f"/proc/{pid}/exe") == PROGRAM
    except OSError:
        return False


def programs(process):
    """The processes that run the program, for the one that was begun: it, or its children."""
    try:
        below = read(f"/proc/{process.pid}/task/{process.pid}/children").decode().split()
    except OSError:
        below = []
    return [it for it in (process.pid, *map(int, below)) if is_there(it)]


def begun(words, folder):
    """The script, and the process that runs the program."""
    process = subprocess.Popen([SCRIPT, *words], stdin=subprocess.PIPE, stdout=subprocess.PIPE, stderr=subprocess.PIPE, cwd=folder)
    for _ in range(SECONDS * 100):
        found = programs(process)
        if found:
            return process, found[0]
        time.sleep(0.01)
    return process, process.pid


def stays(pid):
    """Whether this process still runs the program after some time, in which the system may end it."""
    for _ in range(100):
        if not is_there(pid):
            return False
        time.sleep(0.02)
    return True


def processes(folder):
    """The program gets what the script gets: input, signals, and its end."""
    for name in ("f", "\u00e9 f"):
        with open(f"{folder}/{name}", "wb") as file:
            file.write(new_file("i32le", 2))
    found = []
    for words in WAITING:
        process, _ = begun(words, folder)
        _, errors = process.communicate(b"", SECONDS)
        found += of(f"{words} at the end of the input", (process.returncode, errors), (0, b""))
    words = ["play", *NEW]
    found += of(f"the text of {words}", piped(words, folder), (0, b"appended 1\nflushing 5\n", b""))
    for it in (signal.SIGTERM, signal.SIGINT, signal.SIGHUP, signal.SIGQUIT):
        process, pid = begun(words, folder)
        process.send_signal(it)
        found += of(f"{words} by {it.name}", process.wait(SECONDS), -it)
        found += of(f"the program of {words} is there after {it.name}", is_there(pid), False)
        process.communicate()
    process, pid = begun(["append", "f"], folder)
    process.kill()
    found += of("append by a kill", process.wait(SECONDS), -signal.SIGKILL)
    found += of("the program is there after a kill of the script", stays(pid), False)
    process.communicate()
    process, pid = begun(words, folder)
    os.kill(pid, signal.SIGKILL)
    return found + of(f"{words} whose program is killed", (process.wait(SECONDS), process.communicate()[1]), (-9, b""))


def piped(words, folder):
    ran = subprocess.run([SCRIPT, *words], input=b"append 1\nflush", capture_output=True, cwd=folder, timeout=SECONDS)
    return ran.returncode, ran.stdout, ran.stderr


def in_folder(find):
    with tempfile.TemporaryDirectory(prefix="h5swmr-hints-") as folder:
        return find(folder)


def trials():
    table = {
        "help and version": helps,
        "help and version where no program is": helps_without_a_program,
        "hints of what is odd at a file": odd_files,
        "the program's input and signals": processes,
    }
    for name, find in table.items():
        yield name, lambda it=find: in_folder(it)
