#!/usr/bin/env python3
"""Checks of the crates as rooms: how much stands in each, what stands in two of them, and what nothing names.

    tests/rooms.py      every check; tests/run tries them among its rows
    tests/rooms.py all  also each group of definitions, and of lemmas, that are equal but for their names, and each
                        lemma that nothing names

A lemma is named by another lemma of its file, by a `use` line of another file, or by `using` of a function. Those of
files of examples, and one that is called `example`, are theorems by themselves. An answer to a goal of a function is
no lemma: functions of one shape have answers of one shape. The last line is 'N passed, M failed'.
"""
import collections
import glob
import os
import re
import sys

TOP = os.path.dirname(os.path.dirname(os.path.realpath(__file__)))

# The most functions of a crate, and lines of a file.
FUNCTIONS, LINES = 100, 800

# The most groups of equal definitions, and of equal lemmas, and the most lemmas that nothing names. These only fall.
DEFINITIONS, LEMMAS, UNNAMED = 13, 54, 0

# Shorter texts than this are equal by chance.
SHORT = 60

# What a definition or a lemma begins with, and its name.
HEAD = r"(?:(?:abbrev|unfoldable|pub|record|data|opaque|inline)\s+)*([^\s:(){}]+)"
STATED = re.compile(HEAD + r"(?:\s*[({][^)}]*[)}])*\s*:\s")

# A word of a definition.
WORD = re.compile(r"[\w\-']+")

# The files of proofs/ that answer what the check asks of one function.
ANSWERS = {"Answers", "Invariants", "Proof", "Reads", "Kinds", "Layout"}


def read(path):
    with open(path, encoding="utf8") as file:
        return file.read()


def crates():
    return re.findall(r"^(h5w_\w+)(?: staticlib)?:", read(f"{TOP}/crates.txt"), re.M)


def files(crate, folder, kind):
    return sorted(glob.glob(f"{TOP}/crates/{crate}/{folder}/**/*.{kind}", recursive=True))


def place(path):
    return os.path.relpath(path, f"{TOP}/crates")


def blocks(path):
    """The definitions and lemmas of a file: the first line of each, its name and its lines."""
    found, start, lines = [], 0, []
    for number, line in enumerate([*read(path).split("\n"), ""], 1):
        if not line.strip() or line.startswith("--"):
            head = STATED.match(lines[0]) if lines else None
            if head and not lines[0].startswith(("use ", "pub use ", "pub mod ", "mod ")):
                found.append((start, head[1], lines))
            lines = []
        else:
            start, lines = start if lines else number, [*lines, line.rstrip()]
    return found


def equal(folder):
    """The groups of definitions or lemmas that are equal but for their own names, each with its places."""
    groups = collections.defaultdict(list)
    for crate in crates():
        for path in files(crate, folder, "antt"):
            if os.path.basename(path).removesuffix(".antt") in ANSWERS:
                continue
            for start, name, lines in blocks(path):
                text = re.sub(r"(?<![\w.])" + re.escape(name) + r"(?![\w])", "@", "\n".join(lines))
                text = re.sub(r"\s+", " ", re.sub(r"\bpub\b", "", text)).strip()
                if len(text) >= SHORT:
                    groups[text].append(f"{name} {place(path)}:{start}")
    return sorted((it for it in groups.values() if len(it) > 1), key=len, reverse=True)


def few_equal(folder, most):
    found = equal(folder)
    return [f"{len(found)} groups in {folder}/ are equal but for their names, more than {most}: tests/rooms.py all"] if len(found) > most else []


def large_crates():
    """The crates of more functions, and the files of more lines, than a room has."""
    found = []
    for crate in crates():
        count = sum(len(re.findall(r"^\s*(?:pub(?:\(\w+\))? )?(?:const )?(?:unsafe )?(?:extern \"C\" )?fn ", read(it), re.M)) for it in files(crate, "src", "rt"))
        found += [f"{crate} has {count} functions, more than {FUNCTIONS}"] if count > FUNCTIONS else []
        for path in [*files(crate, "src", "rt"), *files(crate, "specs", "antt"), *files(crate, "proofs", "antt")]:
            lines = read(path).count("\n")
            found += [f"{place(path)} has {lines} lines, more than {LINES}"] if lines > LINES else []
    return found


def named_outside():
    """What files name of the lemmas of other files: module and name, and modules that are taken whole."""
    names, whole = set(), collections.defaultdict(set)
    for crate in crates():
        for path in [*files(crate, "proofs", "antt"), *files(crate, "specs", "antt")]:
            text = read(path)
            for module, items in re.findall(r"^(?:pub )?use Rattle\.(h5w_\w+\.proofs\.[\w.+\-]+)\.\{([^}]*)\}", text, re.M):
                names |= {(module, it.split(" as ")[0].strip()) for it in items.split(",")}
            for module, alias in re.findall(r"^(?:pub )?use Rattle\.(h5w_\w+\.proofs\.[\w.+\-]+) as (\w+)", text, re.M):
                whole[module] |= set(re.findall(r"(?<![\w.])" + alias + r"\.([\w\-']+)", text))
        for path in files(crate, "src", "rt"):
            for root, module, name in re.findall(r"(\w+)::proofs::([\w:+]+)::([\w\-]+)", read(path)):
                names.add((f"{crate if root == 'crate' else root}.proofs.{module.replace('::', '.')}", name))
    return names, whole


def unnamed():
    """The lemmas that nothing names, with their places."""
    names, whole = named_outside()
    found = []
    for crate in crates():
        for path in files(crate, "proofs", "antt"):
            base = os.path.basename(path).removesuffix(".antt")
            if base in ANSWERS or base.endswith("Examples"):
                continue
            module = f"{crate}.proofs." + os.path.relpath(path, f"{TOP}/crates/{crate}/proofs").removesuffix(".antt").replace("/", ".")
            words = collections.Counter(w for it in read(path).split("\n") if not it.startswith(("--", "use ", "pub use ")) for w in WORD.findall(it))
            for start, name, own in blocks(path):
                inside = words[name] > sum(WORD.findall(it).count(name) for it in own)
                if not inside and name != "example" and (module, name) not in names and name not in whole[module]:
                    found.append(f"{name}, {place(path)}:{start}")
    return found


def few_unnamed():
    found = unnamed()
    return [f"{len(found)} lemmas are named by nothing, more than {UNNAMED}", *found] if len(found) > UNNAMED else []


def trials():
    """Each check by its name."""
    yield "crates and files are rooms", large_crates
    yield "few definitions stand twice", lambda: few_equal("specs", DEFINITIONS)
    yield "few lemmas stand twice", lambda: few_equal("proofs", LEMMAS)
    yield "few lemmas are named by nothing", few_unnamed


def main(words):
    if words:
        for folder in ("specs", "proofs"):
            found = equal(folder)
            print(f"{folder}: {len(found)} groups", *["    " + "; ".join(it) for it in found], sep="\n")
        found = unnamed()
        print(f"named by nothing: {len(found)}", *["    " + it for it in found], sep="\n")
    passed = failed = 0
    for name, find in trials():
        found = find()
        print(f"{'FAILED' if found else 'ok'}: {name}", *[f"    {it}" for it in found], sep="\n", flush=True)
        passed, failed = passed + (not found), failed + bool(found)
    print(f"{passed} passed, {failed} failed")
    return 1 if failed or not passed else 0


if __name__ == "__main__":
    sys.exit(main(sys.argv[1:]))
