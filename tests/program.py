"""The built program's commands on files of a folder, one after another, and what is not as it is wanted, a line each."""
import os
import subprocess
import tempfile

TOP = os.path.dirname(os.path.dirname(os.path.realpath(__file__)))
PROGRAM = f"{TOP}/crates/h5w_cli/out/h5w_cli"
SECONDS = 20


def of(what, seen, wanted):
    return [] if seen == wanted else [f"{what}: {seen!r}, wanted {wanted!r}"]


def read(path):
    with open(path, "rb") as file:
        return file.read()


def run(folder, words, text=b"", **how):
    ran = subprocess.run([PROGRAM, *words], input=text, capture_output=True, timeout=SECONDS, cwd=folder, **how)
    return ran.returncode, ran.stdout, ran.stderr


def steps(folder, *table):
    """Commands on the same files, one after another: the words, the input, and the status and the text that are wanted."""
    found = []
    for words, text, status, wanted in table:
        found += of(words, run(folder, words.split(" "), text), (status, wanted, b""))
    return found


def in_folder(find):
    with tempfile.TemporaryDirectory(prefix="h5swmr-append-") as folder:
        return find(folder)


def named(what, *finds):
    """A trial in a folder of its own of each of these, by what its first words say."""
    for find in finds:
        first = find.__doc__.split(":")[0].split(".")[0].lower()
        yield f"{what}: {first}", lambda it=find: in_folder(it)
