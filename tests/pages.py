#!/usr/bin/env python3
"""Checks of the pages: their length, and that they have what the sources, the script and each other have.

    tests/pages.py      every check; tests/run tries them among its rows

Each check finds what is not as it should be, a line each. The last line is 'N passed, M failed'.
"""
import glob
import os
import re
import sys

TOP = os.path.dirname(os.path.dirname(os.path.realpath(__file__)))
LINES, COLUMNS, WORDS = 200, 120, 40
PAGES = ["ARCHITECTURE", "FORMAT", "DEFINITIONS", "DECISIONS", "PROMISES", "LIBRARY", "CONTRIBUTING", "WORDS", "PERFORMANCE"]

# The crates whose sources spell what the program prints.
SPELLING = ["h5w_text", "h5w_files", "h5w_repacking", "h5w_appending", "h5w_running", "h5w_stopping", "h5w_commands", "h5w_cli"]


def read(name):
    with open(f"{TOP}/{name}", encoding="utf8") as file:
        return file.read()


def crates():
    return re.findall(r"^(h5w_\w+)(?: staticlib)?:", read("crates.txt"), re.M)


def prose(text):
    """The paragraphs and points of a page, each as one line; without its headings, tables and code."""
    parts, fenced = [""], False
    for line in text.split("\n"):
        fenced ^= line.startswith("```")
        if fenced or line.startswith(("```", "    ", "#", "|")) or not line.strip():
            parts.append("")
        elif re.match(r"\s*([-*]|\d+\.) ", line):
            parts.append(re.sub(r"^\s*([-*]|\d+\.) ", "", line))
        else:
            parts[-1] += " " + line.strip()
    return [it.strip() for it in parts if it.strip()]


def sentences(text):
    """The sentences of a page; what stands between semicolons counts as one."""
    return [it for part in prose(text) for it in re.split(r"(?<=[.!?:;])(?:\*\*|[)\"])?\s+", part)]


def front_page():
    """README is a page that is read: so many lines of so many columns."""
    lines = read("README.md").rstrip("\n").split("\n")
    found = [f"README.md has {len(lines)} lines, more than {LINES}"] if len(lines) > LINES else []
    return found + [f"README.md:{k} has {len(it)} columns, more than {COLUMNS}" for k, it in enumerate(lines, 1) if len(it) > COLUMNS]


def short_sentences():
    """No sentence of README, of the crates' pages and of docs/ is longer than so many words; PERFORMANCE.md tells measurements."""
    names = ["README.md", *[f"crates/{it}/README.md" for it in crates()], *[f"docs/{it}.md" for it in PAGES if it != "PERFORMANCE"]]
    found = []
    for name in names:
        for it in sentences(read(name)) if os.path.exists(f"{TOP}/{name}") else []:
            if len(it.split()) > WORDS:
                found.append(f"{name} has a sentence of {len(it.split())} words, more than {WORDS}: {it[:80]} ..")
    return found


def code_of(text):
    """The code of a page, by its words: what stands between backticks, and lines that are set in by four columns."""
    spans = re.findall(r"`([^`]+)`", text) + re.findall(r"^    (.*)$", text, re.M)
    return [" " + " ".join(re.findall(r"[A-Za-z0-9]+", it)) + " " for it in spans]


def texts():
    """The section of FORMAT.md that has what the program reads and prints."""
    return re.search(r"^## Texts.*?(?=^## |\Z)", read("docs/FORMAT.md"), re.M | re.S).group(0)


def spelled():
    """Each text that the sources spell, with its place: byte strings that have a word, outside of tests."""
    for crate in SPELLING:
        for path in sorted(glob.glob(f"{TOP}/crates/{crate}/src/**/*.rt", recursive=True)):
            if "/src/tests" in path:
                continue
            name = os.path.relpath(path, TOP)
            for number, line in enumerate(read(name).split("\n"), 1):
                code = line.split("//")[0]
                for text in re.findall(r'b"((?:[^"\\]|\\.)*)"', code):
                    words = re.sub(r"\\.", " ", text).split()
                    if words:
                        yield f"{name}:{number}", " ".join(words)


def each_text_is_told():
    """Each text that the sources spell stands in the section of FORMAT.md, its words together."""
    code, listed = code_of(texts()), list(spelled())
    found = [f"docs/FORMAT.md, Texts, has no `{text}`, which {place} spells" for place, text in listed if not any(f" {text} " in it for it in code)]
    return found if len(listed) > 80 else [f"only {len(listed)} texts were found in the sources"]


def error_lines(text):
    """The error lines of the tables of FORMAT.md, or of the manual page."""
    return re.findall(r"^\| `((?:error|finding) [^`]*)` \|", text, re.M) + re.findall(r"^\.TP\n\\fB((?:error|finding) .*?)\\fR$", text, re.M)


def each_line_is_spelled():
    """Each error line of FORMAT.md is made of words that the sources spell, the manual page has the same lines, and each status stands in both."""
    words = {it for _, text in spelled() for it in text.split()}
    section, manual = texts(), read("docs/h5swmr.1")
    lines = error_lines(section)
    found = [f"no source spells `{it}`" for it in lines if not {w for w in it.split() if not w.isupper()} <= words]
    found += [f"the manual page and FORMAT.md have not the same of {it}" for it in sorted({*lines} ^ {*error_lines(manual)})]
    statuses = {*re.findall(r"^number_of \w+ = (\d+)$", read("crates/h5w_text/specs/Statuses.antt"), re.M), "10"}
    for what, those in (("FORMAT.md", re.findall(r"^\*\*(\d+)\*\*", section, re.M)), ("the manual page", re.findall(r'^\.SS "(\d+) ', manual, re.M))):
        found += [f"{what} does not have the status {it} once" for it in sorted(statuses | {*those}) if those.count(it) != 1 or it not in statuses]
    return found if len(lines) > 30 else [f"only {len(lines)} error lines were found in FORMAT.md"]


def each_crate_has_its_pages():
    """Each crate has a page, one row of README (a row may be of several) and a place in ARCHITECTURE, and no other is named as one."""
    names, cells = crates(), re.findall(r"^\| ((?:h5w_\w+(?:, )?)+) \|", read("README.md"), re.M)
    rows = [it for cell in cells for it in cell.split(", ")]
    found = [f"crates/{it}/README.md is missing" for it in names if not os.path.exists(f"{TOP}/crates/{it}/README.md")]
    found += [f"README.md has {rows.count(it)} rows for {it}" for it in names if rows.count(it) != 1]
    found += [f"README.md has a row for {it}, which is no crate" for it in rows if it not in names]
    house = read("docs/ARCHITECTURE.md")
    found += [f"docs/ARCHITECTURE.md does not name {it}" for it in names if not re.search(rf"\b{it}\b", house)]
    # (the names that C calls begin as crates do)
    page = "\n".join(read(f"docs/{it}.md") for it in PAGES if it != "LIBRARY" and os.path.exists(f"{TOP}/docs/{it}.md"))
    found += [f"docs/ names {it}, which is no crate" for it in sorted({*re.findall(r"\bh5w_\w+", page)} - {*names})]
    return found if len(names) > 60 else [f"only {len(names)} crates were found"]


def each_page_is_there():
    return [f"docs/{it}.md is missing" for it in PAGES if not os.path.exists(f"{TOP}/docs/{it}.md")]


def options_agree():
    """The manual page's synopsis and the usage have the same options and commands."""
    synopsis = re.search(r"^\.SH SYNOPSIS\n(.*?)^\.SH ", read("docs/h5swmr.1"), re.M | re.S).group(1)
    synopsis = re.sub(r"\\f[BIR]", "", synopsis).replace("\\-", "-")
    usage = read("docs/usage.txt")
    options = {*re.findall(r"--([a-z-]+)", synopsis)} - {"version"}
    found = [f"docs/usage.txt and the synopsis differ in --{it}" for it in sorted(options ^ ({*re.findall(r"--([a-z-]+)", usage)} - {"version"}))]
    commands = {*re.findall(r"^h5swmr ([a-z]+)", synopsis, re.M)}
    found += [f"docs/usage.txt and the synopsis differ in {it}" for it in sorted(commands ^ {*re.findall(r"^  h5swmr ([a-z]+)", usage, re.M)})]
    return found if len(commands) == 11 and len(options) > 10 else [f"{len(commands)} commands and {len(options)} options were found in the synopsis"]


def versions_agree():
    """The script, the manual page, README and CHANGES.md tell the same version."""
    if not os.path.exists(f"{TOP}/docs/CHANGES.md"):
        return ["docs/CHANGES.md is missing"]
    places = [("h5swmr", r"^version=(.*)$"), ("docs/h5swmr.1", r'^\.TH .* "h5swmr ([^"]*)"'), ("README.md", r"\bVersion (\d[\d.]*\d)"), ("docs/CHANGES.md", r"^## (\d[\d.]*\d)")]
    told = [(name, re.search(form, read(name), re.M)) for name, form in places]
    versions = {it.group(1) for _, it in told if it}
    return [f"{name} tells no version" for name, it in told if not it] + ([f"versions {sorted(versions)}"] if len(versions) > 1 else [])


def headings_are_listed():
    """DECISIONS.md begins with a list of its headings."""
    page = read("docs/DECISIONS.md")
    headings = re.findall(r"^## (.*)$", page, re.M)
    listed = re.findall(r"^- \[(.*?)\]\(#(.*?)\)", page.split("\n## ")[0], re.M)
    found = [f"docs/DECISIONS.md: {it!r} is not in both its list and its headings" for it in sorted({*headings} ^ {it for it, _ in listed})]
    return found + [f"docs/DECISIONS.md: #{link} is not {it!r}" for it, link in listed if link != re.sub(r"[^a-z0-9 -]", "", it.lower()).replace(" ", "-")]


def words_are_told_once():
    """WORDS.md has each word once, with a sentence."""
    rows = re.findall(r"^\| \*\*(.+?)\*\* \| (.+?) \|", read("docs/WORDS.md"), re.M)
    names = [it for it, _ in rows]
    found = [f"docs/WORDS.md has {it!r} {names.count(it)} times" for it in sorted({*names}) if names.count(it) > 1]
    found += [f"docs/WORDS.md: what {it!r} means is no sentence" for it, meaning in rows if not re.fullmatch(r"[^.]*(\.[^ .][^.]*)*\.", meaning)]
    return found if len(rows) >= 50 else [f"only {len(rows)} words were found in docs/WORDS.md"]


def definitions_are_there():
    """Each name of DEFINITIONS.md is in the crate under whose heading it is, or in the one that is named behind it."""
    crate, found, count, of = "", [], 0, {}
    for number, line in enumerate(read("docs/DEFINITIONS.md").split("\n"), 1):
        heading = re.match(r"##+ (h5w_\w+)$", line)
        crate = heading.group(1) if heading else crate
        for name, other in re.findall(r"`([A-Za-z_][\w-]*)`(?: of (h5w_\w+))?", line) if crate else []:
            where = other or crate
            if where not in of:
                paths = glob.glob(f"{TOP}/crates/{where}/specs/**/*.antt", recursive=True) + glob.glob(f"{TOP}/crates/{where}/src/**/*.rt", recursive=True)
                of[where] = {it for path in paths for it in re.findall(r"[A-Za-z_][\w-]*", read(os.path.relpath(path, TOP)))}
            count += 1
            found += [f"docs/DEFINITIONS.md:{number}: {where} has no `{name}`"] if name not in of[where] and name != "clap" else []
    return found if count > 300 else [f"only {count} names were found in docs/DEFINITIONS.md"]


def no_wide_cells():
    """No cell of a table of docs/ has more than 300 columns."""
    found = []
    for it in PAGES:
        if not os.path.exists(f"{TOP}/docs/{it}.md"):
            continue
        for number, line in enumerate(read(f"docs/{it}.md").split("\n"), 1):
            if line.startswith("|") and max(map(len, line.split(" | "))) > 300:
                found.append(f"docs/{it}.md:{number} has a cell of {max(map(len, line.split(' | ')))} columns")
    return found


def trials():
    """Each check by its name."""
    yield "README's lines and columns", front_page
    yield "no sentence is long", short_sentences
    yield "each text that the sources spell stands in FORMAT.md", each_text_is_told
    yield "each error line of FORMAT.md is spelled, and stands in the manual page", each_line_is_spelled
    yield "each crate has its page and its rows", each_crate_has_its_pages
    yield "each page is there", each_page_is_there
    yield "manual page, usage and script have the same options", options_agree
    yield "the version is the same everywhere", versions_agree
    yield "DECISIONS.md lists its headings", headings_are_listed
    yield "WORDS.md has each word once", words_are_told_once
    yield "each name of DEFINITIONS.md is in its crate", definitions_are_there
    yield "tables without wide cells", no_wide_cells


def main():
    passed = failed = 0
    for name, find in trials():
        found = find()
        print(f"{'FAILED' if found else 'ok'}: {name}", *[f"    {it}" for it in found[:40]], sep="\n", flush=True)
        passed, failed = passed + (not found), failed + bool(found)
    print(f"{passed} passed, {failed} failed")
    return 1 if failed or not passed else 0


if __name__ == "__main__":
    sys.exit(main())
