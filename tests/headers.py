"""The library's header against the exports of crates/h5w_c: each prototype, each code, and each struct by the places of its fields."""
import os
import re

TOP = os.path.dirname(os.path.dirname(os.path.realpath(__file__)))
BINDINGS = f"{TOP}/bindings"


def of(what, seen, wanted):
    short = lambda it: repr(it) if len(repr(it)) <= 200 else f"{repr(it)[:100]} .. {repr(it)[-80:]}"
    return [] if seen == wanted else [f"{what}: {short(seen)}, wanted {short(wanted)}"]


def read(path):
    with open(path, encoding="utf8") as file:
        return file.read()


# How a parameter's type crosses to C.
CROSSES = {
    "Global": [],
    "&[u8]": ["const uint8_t *", "size_t"],
    "&mut [u8]": ["uint8_t *", "size_t"],
    "&[i64]": ["const int64_t *", "size_t"],
    "&[u64]": ["const uint64_t *", "size_t"],
    "&mut [i64]": ["int64_t *", "size_t"],
    "&mut [u64]": ["uint64_t *", "size_t"],
    "&mut H5wPlace": ["h5w_place *"],
    "&mut H5wShape": ["h5w_shape *"],
    "&H5wOptions": ["const h5w_options *"],
    "&[H5wOptions]": ["const h5w_options *", "size_t"],
    "H5wTold": ["h5w_told"],
    "u8": ["uint8_t"],
    "u32": ["uint32_t"],
    "u64": ["uint64_t"],
    "i64": ["int64_t"],
    "usize": ["size_t"],
    "bool": ["bool"],
    "*mut u8": ["void *"],
    "": ["void"],
}
SIZES = {"u8": 1, "bool": 1, "u32": 4, "u64": 8, "i64": 8, "*mut u8": 8, "Global": 0}


def sources(crate):
    folder = f"{TOP}/crates/{crate}/src"
    return "\n".join(re.sub(r"//.*", "", read(f"{folder}/{it}")) for it in sorted(os.listdir(folder)) if it.endswith(".rt"))


def exported():
    """The exports as C declares them: what each answers and takes."""
    text = sources("h5w_c")
    for name, taken, answer in re.findall(r'pub extern "C" fn (\w+)\((.*?)\)(?:\s*->\s*([^{\s]+))?', text, re.S):
        types = [" ".join(it.split(":", 1)[1].split()) for it in taken.split(",") if ":" in it]
        # (all kinds of handle are one type there)
        handle = [f"h5w_{name.split('_')[1]} *"]
        yield name, (CROSSES[answer][0], [c for it in types for c in (handle if it == "&mut Handle" else CROSSES[it])])


def declared():
    """The same of the header's first part."""
    text = re.sub(r"/\*.*?\*/", "", read(f"{BINDINGS}/h5swmr.h"), flags=re.S)
    for answer, name, taken in re.findall(r"^(\w+)\s+(h5w_\w+)\(([^)]*)\);", text, re.M):
        # (a parameter's own name stands behind its type)
        types = [re.sub(r"(?<=[\s*])\w+$", "", it.strip()) if not re.fullmatch(r"(const )?\w+( \*)?", it.strip()) else it.strip() for it in taken.split(",")]
        yield name, (answer, [it.strip() for it in types if it.strip()])


def prototypes():
    """Each export has its prototype, and there is no other."""
    ours, theirs = dict(declared()), dict(exported())
    found = [f"{it}: the header has {ours.get(it)}, the exports {theirs.get(it)}" for it in sorted({*ours, *theirs}) if ours.get(it) != theirs.get(it)]
    return found if len(theirs) > 20 else [*found, f"only {len(theirs)} exports were found"]


def structs():
    """The fields of each struct that crosses, by name and type."""
    text = "".join(map(sources, ("h5w_handles", "h5w_writer_handles", "h5w_c")))
    for name, body in re.findall(r"#\[repr\(C\)\]\s*(?:#\[[^\]]*\]\s*)*pub struct (\w+) \{(.*?)\n\}", text, re.S):
        fields = re.findall(r"^\s*(?:pub )?(\w+): ([^,{]+),", re.sub(r"^\s*(pub )?ghost .*$", "", body, flags=re.M), re.M)
        yield name, fields


def laid_out(fields, known, at=0):
    """Each field with its place and size; those of a struct within come in its stead."""
    for name, kind in fields:
        if kind in known:
            inner = [*laid_out(known[kind], known)]
            at = -(-at // max(it[2] for it in inner)) * max(it[2] for it in inner)
            yield from ((n, at + place, size) for n, place, size in inner)
            at += -(-(inner[-1][1] + inner[-1][2]) // 8) * 8
        elif SIZES[kind]:
            at = -(-at // SIZES[kind]) * SIZES[kind]
            yield name, at, SIZES[kind]
            at += SIZES[kind]


def layouts(printed):
    """Each struct has its fields where the exports have them, by what bindings/trials/layout.c prints."""
    known, ours, found = dict(structs()), {}, []
    for line in printed.split("\n"):
        name, *words = line.split() or [""]
        ours[name] = [(words[at], int(words[at + 1]), int(words[at + 2])) for at in range(1, len(words), 3)]
    for name, theirs in (("h5w_told", "H5wTold"), ("h5w_place", "H5wPlace"), ("h5w_shape", "H5wShape"), ("h5w_options", "H5wOptions"), ("h5w_reader", "Handle"), ("h5w_writer", "Handle"), ("h5w_several", "Handle")):
        found += of(name, ours[name], [*laid_out(known[theirs], known)])
    return found


def codes():
    """The header, the exports and docs/LIBRARY.md have the same codes; from 64 on they are the file layer's."""
    enum = re.search(r"enum h5w_code \{(.*?)\};", read(f"{BINDINGS}/h5swmr.h"), re.S).group(1)
    ours = {name: int(number) for name, number in re.findall(r"H5W_(\w+) = (\d+)", enum)}
    theirs = {name.upper().replace("DONE", "OK"): int(number) for name, number in re.findall(r"H5wCode::(\w+) => (\d+)", sources("h5w_handles"))}
    told = {name: int(number) for number, name in re.findall(r"^\| (\d+) \| ([A-Z]+) \|", read(f"{TOP}/docs/LIBRARY.md"), re.M)}
    found = of("codes of the exports", {name: number for name, number in ours.items() if number < 64}, theirs)
    return found + of("codes of the page", told, {name: number for name, number in ours.items() if name not in ("MORE", "VALUES")})
