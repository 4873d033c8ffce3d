"""h5swmr in Python: a writer appends rows to a dataset of an HDF5 file, or to several, and readers find them, with no lock. By ctypes, over
libh5swmr.so.

    with h5swmr.create("f.h5", kind="i32le", chunk=1024) as writer:
        writer.append([1, 2, 3])
        writer.flush()

    with h5swmr.Reader("f.h5") as reader:
        print(reader.read(0, reader.refresh()))

    with h5swmr.create("g.h5", names={"frames": {"kind": "u16le"}, "times": {}}) as writer:
        writer.append([1, 2, 3], name="frames")
        writer.append([4], name="times")
        writer.flush()

Values come as a NumPy array if NumPy is there. Else they come as one array of the module array, or as a list of them if rows have
several values. What is refused is an Error, which has the code and what the code tells (h5swmr.h has them all).

A handle keeps a lock for its calls, since ctypes lets other threads run meanwhile. It is to stay in the thread that opened it, and in
the process: the child of a fork opens its own.
"""
import array
import collections
import collections.abc
import ctypes
import os
import re
import threading

try:
    import numpy
except ImportError:
    numpy = None

__all__ = ["Again", "Error", "Reader", "SeveralWriter", "Shape", "Writer", "append_to", "create", "take_over"]

OK, AGAIN, SHRUNK, REFUSED, ROWS, STOPPED, RANGE, CHUNKS, FULL, OPENED, IO = 0, 3, 4, 5, 8, 10, 11, 12, 13, 14, 64
LIMIT, BUDGET, SEVERAL_BUDGET = 1 << 40, 65536, 1 << 26
HERE = os.path.dirname(os.path.realpath(__file__))


class Told(ctypes.Structure):
    """What a call comes to."""

    _fields_ = [("code", ctypes.c_uint32), ("detail", ctypes.c_uint32), ("count", ctypes.c_uint64)]


class Options(ctypes.Structure):
    """How a file is made."""

    _fields_ = [(it, ctypes.c_uint64) for it in ("chunk_rows", "columns", "width", "limit", "budget")] + [("fill", ctypes.c_int64)]
    _fields_ += [(it, ctypes.c_uint8) for it in ("size", "big", "is_signed", "filled", "fixed")]


class RawShape(ctypes.Structure):
    """What a dataset is."""

    _fields_ = [(it, ctypes.c_uint64) for it in ("rows", "columns", "chunk_rows", "width")]
    _fields_ += [(it, ctypes.c_uint8) for it in ("dimensions", "growing", "size", "big", "is_signed")]


def library():
    """The shared library: that of H5SWMR_LIBRARY, one beside this file as `make` or `make install` leave it, or the system's."""
    name = "libh5swmr.so"
    places = [os.environ.get("H5SWMR_LIBRARY"), f"{HERE}/{name}", f"{HERE}/out/{name}", f"{HERE}/../{name}"]
    return ctypes.CDLL(next((it for it in places if it and os.path.exists(it)), name))


HANDLE, NUMBER, POINTER, TEXT, SIZE = ctypes.c_void_p, ctypes.c_uint64, ctypes.c_void_p, ctypes.c_char_p, ctypes.c_size_t
TEXTS = ctypes.POINTER(TEXT)
CALLS = {
    "open": (Told, ctypes.POINTER(HANDLE), TEXT, TEXT, ctypes.c_uint32),
    "refresh": (Told, HANDLE),
    "rows": (NUMBER, HANDLE),
    "shape": (Told, HANDLE, ctypes.POINTER(RawShape)),
    "load": (Told, HANDLE, NUMBER, NUMBER),
    "values": (Told, HANDLE, NUMBER, POINTER, SIZE),
    "values_u64": (Told, HANDLE, NUMBER, POINTER, SIZE),
    "close_reader": (Told, ctypes.POINTER(HANDLE)),
    "create": (Told, ctypes.POINTER(HANDLE), TEXT, TEXT, ctypes.POINTER(Options)),
    "append_to": (Told, ctypes.POINTER(HANDLE), TEXT, TEXT, NUMBER, NUMBER),
    "create_several": (Told, ctypes.POINTER(HANDLE), TEXT, TEXTS, SIZE, ctypes.POINTER(Options), SIZE),
    "append_to_several": (Told, ctypes.POINTER(HANDLE), TEXT, TEXTS, SIZE, NUMBER, NUMBER),
    "take_over": (Told, ctypes.POINTER(HANDLE), TEXT, TEXTS, SIZE, NUMBER, NUMBER),
    "keep_retired": (Told, HANDLE),
    "append_in": (Told, HANDLE, SIZE, POINTER, SIZE),
    "append_in_u64": (Told, HANDLE, SIZE, POINTER, SIZE),
    "flush": (Told, HANDLE),
    "appended_in": (NUMBER, HANDLE, SIZE),
    "columns_in": (NUMBER, HANDLE, SIZE),
    "close_writer": (Told, ctypes.POINTER(HANDLE)),
    "text": (ctypes.c_char_p, Told),
    "line": (ctypes.c_char_p,),
}


def call_of(lib, name):
    call = getattr(lib, f"h5swmr_{name}")
    call.restype, *call.argtypes = CALLS[name]
    return call


_library = library()
_calls = {it: call_of(_library, it) for it in CALLS}


def has_line(call, code):
    """Whether a refusal has the line that the program would print. ROWS and RANGE have one of an append, and none of a read."""
    return code in (AGAIN, SHRUNK, REFUSED, STOPPED, CHUNKS, FULL, OPENED) or (call.startswith("append") and code in (ROWS, RANGE))


class Error(OSError):
    """A refused call: its `code`, `detail` and `count` as h5swmr.h tells them. `line` is what the program would print of a
    file that it cannot read, or of rows that it cannot write, and else empty. Of a failed call of the system `errno` is its
    number."""

    def __init__(self, call, told):
        line = _calls["line"]().decode() if has_line(call, told.code) else ""
        super().__init__(f"{call}: {_calls['text'](told).decode()} (code {told.code}, detail {told.detail}, count {told.count}){line and ': '}{line}")
        self.call, self.code, self.detail, self.count, self.line = call, told.code, told.detail, told.count, line
        self.errno = told.detail if told.code == IO else None


class Again(Error):
    """The dataset header changed in each attempt, so the rows are those of before: refresh again."""


def number(value, bits=64):
    """The value, as one that C takes: ctypes would cut it off."""
    if not 0 <= value < 1 << bits:
        raise OverflowError(f"{value} is no number of {bits} bits")
    return value


def word(text):
    """A name or path as C takes it, which ends by its first zero byte."""
    if b"\0" in text:
        raise ValueError(f"{text!r} has a zero byte")
    return text


def done(call, told):
    """The count of a call that is done."""
    if told.code != OK:
        raise (Again if told.code == AGAIN else Error)(call, told)
    return told.count


class Handle:
    """What a reader and a writer share: the pointer, and a lock for its calls."""

    closing = ""

    def __init__(self):
        self._pointer, self._lock = HANDLE(), threading.Lock()

    def _call(self, name, *words):
        with self._lock:
            return done(name, _calls[name](self._pointer, *words))

    def _number(self, name, *words):
        with self._lock:
            return _calls[name](self._pointer, *words)

    @property
    def closed(self):
        return not self._pointer

    def close(self):
        """Closes the file, unless it is closed. Any other call is refused from then on, as misuse."""
        with self._lock:
            if self._pointer:
                done("close", _calls[self.closing](ctypes.byref(self._pointer)))

    def __enter__(self):
        return self

    def __exit__(self, *_):
        self.close()


def room_for(count, unsigned):
    """Room for so many values, and where it is."""
    if numpy:
        room = numpy.empty(count, numpy.uint64 if unsigned else numpy.int64)
        return room, room.ctypes.data
    room = array.array("Q" if unsigned else "q", bytes(8 * count))
    return room, room.buffer_info()[0]


def as_rows(room, rows):
    """The values as rows, where a row has several."""
    if not rows or len(room) == rows:
        return room
    if numpy:
        return room.reshape(rows, -1)
    wide = len(room) // rows
    return [room[at : at + wide] for at in range(0, len(room), wide)]


Shape = collections.namedtuple("Shape", "rows columns dimensions growing chunk_rows width kind")


def kind_of(raw):
    """The type of the values, as `create` takes it."""
    order = "" if raw.size == 1 else "be" if raw.big else "le"
    return f"{'i' if raw.is_signed else 'u'}{8 * raw.size}{order}"


class Reader(Handle):
    """A reader of a dataset of the root group. The values of a dataset of u64 come as 64-bit unsigned ones, and those of all others as signed ones;
    `unsigned` says otherwise. A call tries `attempts` times where the dataset header changes meanwhile."""

    closing = "close_reader"

    def __init__(self, path, name="data", attempts=8, unsigned=None):
        super().__init__()
        self._unsigned = unsigned
        told = _calls["open"](ctypes.byref(self._pointer), word(os.fsencode(path)), word(name.encode()), number(attempts, 32))
        if told.code != AGAIN:
            done("open", told)

    @property
    def rows(self):
        """The rows that the last open or refresh found."""
        return self._number("rows")

    def __len__(self):
        return self.rows

    @property
    def shape(self):
        """What the last open or refresh found: rows, columns (1 in one dimension), dimensions, whether there may be more columns later, the rows and
        columns of a chunk, and the kind of the values."""
        raw = RawShape()
        self._call("shape", ctypes.byref(raw))
        return Shape(raw.rows, raw.columns, raw.dimensions, bool(raw.growing), raw.chunk_rows, raw.width, kind_of(raw))

    def refresh(self):
        """Looks for new rows, and tells how many are there."""
        return self._call("refresh")

    def _is_unsigned(self):
        """Whether the values are to come as unsigned ones."""
        if self._unsigned is not None:
            return self._unsigned
        raw = RawShape()
        return _calls["shape"](self._pointer, ctypes.byref(raw)).code == OK and raw.size == 8 and not raw.is_signed

    def read(self, start=0, count=None):
        """The values of so many rows from row `start` on, of those that were seen; without a count all the others."""
        count = max(self.rows - start, 0) if count is None else count
        with self._lock:
            there = done("read", _calls["load"](self._pointer, number(start), number(count)))
            unsigned = self._is_unsigned()
            room, place = room_for(there, unsigned)
            done("read", _calls["values_u64" if unsigned else "values"](self._pointer, 0, place, there))
        return as_rows(room, count)


def as_values(values):
    """The values as one range of 64-bit integers, and how many a row has where they come in rows."""
    if numpy and isinstance(values, numpy.ndarray):
        if values.size and values.dtype.kind not in "iub":
            raise TypeError(f"values of {values.dtype} are no integers of 64 bits")
        kept = numpy.ascontiguousarray(values, numpy.uint64 if values.dtype.kind == "u" else numpy.int64)
        return kept.reshape(-1), kept.shape[1] if kept.ndim == 2 else None
    if isinstance(values, array.array) and values.typecode in "qQ":
        return values, None
    rows = list(values)
    wide = {len(it) for it in rows if hasattr(it, "__len__")}
    if len(wide) > 1:
        raise ValueError(f"rows of {sorted(wide)} values")
    flat = [it for row in rows for it in row] if wide else rows
    return array.array("Q" if flat and max(flat) >= 1 << 63 else "q", flat), wide.pop() if wide else None


def place_of(kept):
    """Where the values stand, how many they are, and whether they are unsigned."""
    if isinstance(kept, array.array):
        return *kept.buffer_info(), kept.typecode == "Q"
    return kept.ctypes.data, kept.size, kept.dtype == numpy.uint64


class Writer(Handle):
    """The one writer of a file with one dataset of it: `create` and `append_to` make it."""

    closing = "close_writer"

    def __init__(self, call, path, names, words, keep_retired):
        super().__init__()
        done(call, _calls[call](ctypes.byref(self._pointer), word(os.fsencode(path)), *names, *words))
        if keep_retired:
            self._call("keep_retired")

    @property
    def rows(self):
        """The rows that were appended in all; those that were not flushed count too."""
        return self._number("appended_in", 0)

    @property
    def columns(self):
        """How many values a row has."""
        return self._number("columns_in", 0)

    def _append(self, dataset, values):
        kept, wide = as_values(values)
        columns = self._number("columns_in", dataset)
        if wide is not None and columns not in (0, wide):  # (0 of a closed one)
            raise ValueError(f"rows of {wide} values, and the dataset has {columns}")
        place, count, unsigned = place_of(kept)
        with self._lock:
            return done("append", _calls["append_in_u64" if unsigned else "append_in"](self._pointer, dataset, place, count))

    def append(self, values):
        """Appends whole rows, and tells how many rows there are in all. They wait for a flush. A refusal appends nothing."""
        return self._append(0, values)

    def flush(self):
        """Makes the appended rows visible: how many each reader finds whose call begins from now on."""
        return self._call("flush")


class SeveralWriter(Writer):
    """The one writer of a file with several datasets of it: `create`, `append_to` and `take_over` make it where they are given names. Rows wait for their
    flush, which is of all datasets. An append with which the chunks of a dataset's rows that wait had more bytes than the budget is refused for want of
    memory."""

    def __init__(self, call, path, names, words, keep_retired):
        self.names = tuple(names)
        texts = [word(it.encode()) for it in self.names]
        super().__init__(call, path, ((TEXT * len(texts))(*texts), len(texts)), words, keep_retired)

    def _by_name(self, call):
        return {it: self._number(call, at) for at, it in enumerate(self.names)}

    @property
    def rows(self):
        """The rows of each dataset that were appended in all; those that were not flushed count too."""
        return self._by_name("appended_in")

    @property
    def columns(self):
        """How many values a row of each dataset has."""
        return self._by_name("columns_in")

    def append(self, values, name):
        """Appends whole rows to the dataset of this name, and tells how many rows it has in all. They wait for a flush. A refusal appends nothing."""
        if name not in self.names:
            raise KeyError(f"no dataset of this writer: {name!r}")
        return self._append(self.names.index(name), values)

    def flush(self):
        """Makes the appended rows of all datasets visible: how many of each every reader finds whose call begins from now on."""
        self._call("flush")
        return self.rows


def budget_of(budget, names):
    """How many bytes may wait, of each dataset: 65,536 if it is not said, and where there are names 64 MiB."""
    return budget if budget is not None else BUDGET if names is None else SEVERAL_BUDGET


def writer_of(call, path, name, names, words, keep_retired):
    """A writer of one dataset, or of several where names are given."""
    if names is None:
        return Writer(call, path, (word(name.encode()),), words, keep_retired)
    if isinstance(names, (str, bytes)):
        raise TypeError(f"{names!r} are no names")
    return SeveralWriter(f"{call}_several", path, names, words, keep_retired)


def options_of(limit, budget, kind="i64le", chunk=1024, columns=0, width=0, fixed=False, fill=None):
    """How a dataset is made, by the words of `create`."""
    parts = re.fullmatch("([iu])(?:(8)|(16|32|64)(le|be))", kind)
    if not parts:
        raise ValueError(f"no such type: {kind!r}")
    sign, short, long, order = parts.groups()
    if fill is not None and not -1 << 63 <= fill < 1 << 63:
        raise OverflowError(f"a fill of {fill} is no signed number of 64 bits")
    numbers = [number(it) for it in (chunk, columns, width, limit, budget)]
    return Options(*numbers, fill or 0, int(short or long) // 8, order == "be", sign == "i", fill is not None, fixed)


def create(path, name="data", kind="i64le", chunk=1024, columns=0, width=0, fixed=False, fill=None, limit=LIMIT, budget=None, keep_retired=False, names=None):
    """Makes a file, which must not be there, with an empty dataset, and gives its writer. The words are those of `h5swmr new`: kind is one of i8, u8,
    i16le and so on, chunk the rows of a chunk; with columns there are two dimensions, and width columns in a chunk. keep_retired is as
    `--no-reuse`, for HDF5's own library as a reader. With names there is a dataset of each, 1 to 8 of them, and the writer is a SeveralWriter: all by
    these words, or each by its own, as in names={"line": {"kind": "i64le"}, "frames": {"kind": "u16le", "columns": 640, "width": 640}}; the other
    words are those of the call. The budget is 65,536 bytes if it is not said, and with names 64 MiB of each."""
    words = {"kind": kind, "chunk": chunk, "columns": columns, "width": width, "fixed": fixed, "fill": fill}
    own = names.values() if isinstance(names, collections.abc.Mapping) else [{}]
    each = [options_of(limit, budget_of(budget, names), **{**words, **it}) for it in own]
    how = (Options * len(each))(*each)
    return writer_of("create", path, name, names, (how,) if names is None else (how, len(each)), keep_retired)


def append_to(path, name="data", limit=LIMIT, budget=None, keep_retired=False, names=None):
    """Opens a file to append to it, and gives its writer; with names a SeveralWriter of these datasets. Nobody else may write the file."""
    return writer_of("append_to", path, name, names, (number(limit), number(budget_of(budget, names))), keep_retired)


def take_over(path, names, limit=LIMIT, budget=None, keep_retired=False):
    """Opens a file that a writer left open, which was killed and writes no more, and gives a SeveralWriter of these datasets. Rows that it had not
    flushed are gone."""
    if isinstance(names, (str, bytes)):
        raise TypeError(f"{names!r} are no names")
    return SeveralWriter("take_over", path, names, (number(limit), number(budget_of(budget, names))), keep_retired)
