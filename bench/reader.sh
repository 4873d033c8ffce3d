#!/bin/sh
# Counts the instructions of a reader's calls over images in memory: of a refresh that finds nothing new, at 10 and at 100,000
# chunks; of one that looks up the first chunk again, which is absent, at 10 and behind which 100,000 stand; of a refresh that
# finds one chunk behind 100,000; of an open at 100,000 chunks, by the chunk; and of a read of 1,000,000 values of i32le in chunks
# of 65,536 rows, by the value. The looks at the image are among them, and are told beside them.
# Wants git, valgrind and python3; the last commit is what is measured.
top=$(cd "$(dirname "$0")/.." && pwd -P) || exit 1
work=$(mktemp -d) || exit 1
trap 'rm -rf "$work"' EXIT

# a copy with a program that leads a reader through calls
mkdir -p "$work/copy/crates/reader_input/src" || exit 1
git -C "$top" archive HEAD crates crates.txt HANDLES | tar -x -C "$work/copy" || exit 1
rm -rf "$work/copy"/crates/*/must-fail
cd "$work/copy" || exit 1
echo "reader_input: h5w_image h5w_reader" >> crates.txt
cat > crates/reader_input/src/main.rt <<'END_OF_PROGRAM'
//! Leads a reader through calls on two images, which it reads one behind the other: it opens the dataset in the first one. Then
//! it refreshes in the second one, once and a thousand times, or where a word is given it reads all rows.
#![tactic(auto)]

ghost use Rattle.std.specs.Prelude.{◌≡◌, ◌≤◌, length, true};

use h5w_image::{MemImage, Piece, PieceRead};
use h5w_reader::{Look, ReaderCore, Step};
use std::alloc::Global;
use std::env;
use std::io::Read;
use std::process::ExitCode;

/// Looks at the image; false where that fails.
#[inline(never)]
fn shows(image: &mut MemImage, look: Look, piece: &mut Piece) -> bool
    requires { look.len ≤ 512 }
    ensures { result ≡ true → length piece.new ≤ look.len }
{
    image.look(look.at, look.len, piece).is_ok()
}

/// What the unfinished call comes to.
fn answer(reader: &mut ReaderCore, image: &mut MemImage, piece: &mut Piece) -> Option<Step> {
    for _ in 0..1_000_000 {
        let look = reader.want()?;
        if !shows(image, look, piece) {
            return None;
        }
        match reader.give(piece) {
            Step::More => {}
            step => return Some(step),
        }
    }
    None
}

/// The rows that a refresh tells, 0 where it is refused.
fn refreshed(reader: &mut ReaderCore, image: &mut MemImage, piece: &mut Piece) -> u64 {
    if reader.refresh().is_err() {
        return 0;
    }
    match answer(reader, image, piece) {
        Some(Step::Rows(rows)) => rows,
        _ => 0,
    }
}

#[inline(never)]
fn refresh_once(reader: &mut ReaderCore, image: &mut MemImage, piece: &mut Piece) -> u64 {
    refreshed(reader, image, piece)
}

#[inline(never)]
fn refresh_idly(reader: &mut ReaderCore, image: &mut MemImage, piece: &mut Piece) -> u64 {
    let mut rows = 0;
    for _ in 0..1000 {
        rows = refreshed(reader, image, piece);
    }
    rows
}

/// How many values a read of so many rows gives.
#[inline(never)]
fn read_rows(reader: &mut ReaderCore, image: &mut MemImage, piece: &mut Piece, rows: u64) -> u64 {
    match reader.read(0, rows) {
        Ok(None) => {}
        _ => return 0,
    }
    match answer(reader, image, piece) {
        Some(Step::Values(values)) => values.as_slice().len() as u64,
        _ => 0,
    }
}

/// Opens the dataset in an image: its rows.
#[inline(never)]
fn opened(reader: &mut ReaderCore, image: &mut MemImage, piece: &mut Piece) -> Option<u64> {
    match answer(reader, image, piece)? {
        Step::Rows(rows) => Some(rows),
        _ => None,
    }
}

/// Whether all rows are read in this image.
fn reads(alloc: Global, bytes: &[u8]) -> Option<bool> {
    let mut image = MemImage::of(alloc, bytes).ok()?;
    let mut reader = ReaderCore::open(alloc, b"data", 3).ok()?;
    let mut piece = Piece::new();
    let rows = opened(&mut reader, &mut image, &mut piece)?;
    Some(read_rows(&mut reader, &mut image, &mut piece, rows) == rows)
}

/// Whether refreshes go on from one image to the other.
fn refreshes(alloc: Global, first: &[u8], second: &[u8]) -> Option<bool> {
    let mut older = MemImage::of(alloc, first).ok()?;
    let mut newer = MemImage::of(alloc, second).ok()?;
    let mut reader = ReaderCore::open(alloc, b"data", 3).ok()?;
    let mut piece = Piece::new();
    let rows = opened(&mut reader, &mut older, &mut piece)?;
    let found = refresh_once(&mut reader, &mut newer, &mut piece);
    Some(rows <= found && refresh_idly(&mut reader, &mut newer, &mut piece) == found)
}

fn main(rt: HostRuntime) -> ExitCode {
    let mut bytes = Vec::new(rt.alloc());
    if rt.stdin().read_to_end(&mut bytes).is_err() {
        return ExitCode::from(1);
    }
    let Ok(words) = env::args(&rt) else {
        return ExitCode::from(2);
    };
    let (first, second) = bytes.as_slice().split_at(bytes.len() / 2);
    let led = if words.count() > 1 {
        reads(rt.alloc(), first)
    } else {
        refreshes(rt.alloc(), first, second)
    };
    match led {
        Some(true) => ExitCode::from(0),
        _ => ExitCode::from(3),
    }
}
END_OF_PROGRAM

cat > "$work/images.py" <<'END_OF_PROGRAM'
import sys

MASK = 0xffffffff

def rot(x, k):
    return ((x << k) | (x >> (32 - k))) & MASK

def lookup3(b):
    a = d = c = (0xdeadbeef + len(b)) & MASK
    k = 0
    while len(b) - k > 12:
        a, d, c = [(v + int.from_bytes(b[k + i:k + i + 4], 'little')) & MASK for v, i in ((a, 0), (d, 4), (c, 8))]
        for r in (4, 6, 8, 16, 19, 4):
            a = (a - c) & MASK ^ rot(c, r)
            c = (c + d) & MASK
            a, d, c = d, c, a
        k += 12
    if k == len(b):
        return c
    t = b[k:] + bytes(12 - len(b) + k)
    a, d, c = [(v + int.from_bytes(t[i:i + 4], 'little')) & MASK for v, i in ((a, 0), (d, 4), (c, 8))]
    for r in (14, 11, 25, 16, 4, 14, 24):
        c = (c ^ d) - rot(d, r) & MASK
        a, d, c = d, c, a
    return d

def le(n, w):
    return n.to_bytes(w, 'little')

def seal(b):
    return b + le(lookup3(b), 4)

def message(kind, data):
    return bytes([kind]) + le(len(data), 2) + b'\0' + data

def header(messages):
    m = b''.join(messages)
    return seal(b'OHDR\2\0' + bytes([len(m)]) + m)

NOWHERE = 2 ** 64 - 1
CHUNKS = 131060

# an image of so many rows of i32le, of which so many chunks of `length` rows are there, but for the first where it is absent; where
# `room` is more, there are bytes for so many chunks
def image(length, rows, chunks, absent=False, room=0):
    width = (length.bit_length() - 1) // 8 + 1
    root = header([message(2, b'\0\0' + 2 * le(NOWHERE, 8)), message(10, b'\0\0'), message(6, b'\1\0\4data' + le(106, 8))])
    array = 106 + 78 + 2 * width + 2
    dataset = header([
        message(1, b'\2\1\1\1' + le(rows, 8) + le(NOWHERE, 8)), message(3, b'\x10\x08\0\0\4\0\0\0\0\0\x20\0'), message(5, b'\3\x0b'),
        message(8, b'\4\2\0\2' + le(width, 1) + le(length, width) + le(4, width) + b'\4\x20\4\4\x10\x0a' + le(array, 8))])
    assert len(root) == 58 and 106 + len(dataset) == array
    at = array + 72 + 298
    size = 4 * length
    places = [at + size * i if i < chunks and not (absent and i == 0) else NOWHERE for i in range(CHUNKS)]
    at += size * max(chunks, room)
    behind = []
    first, offset = 4, 0
    named, second = [], []
    for s in range(13):
        slots = 16 << ((s + 1) // 2)
        blocks, start = [], offset
        for _ in range(1 << (s // 2)):
            if first < chunks:
                behind.append(seal(b'EADB\0\0' + le(array, 8) + le(offset, 4) + b''.join(le(a, 8) for a in places[first:first + slots])))
                blocks.append(at)
                at += len(behind[-1])
            else:
                blocks.append(NOWHERE)
            first += slots
            offset += slots
        if s < 4:
            named += blocks
        elif blocks[0] != NOWHERE:
            behind.append(seal(b'EASB\0\0' + le(array, 8) + le(start, 4) + b''.join(le(a, 8) for a in blocks)))
            second.append(at)
            at += len(behind[-1])
        else:
            second.append(NOWHERE)
    index = seal(b'EAIB\0\0' + le(array, 8) + b''.join(le(a, 8) for a in places[:4] + named + second) + 16 * le(NOWHERE, 8))
    top = seal(b'EAHD\0\0\x08\x20\4\x10\4\x0a' + bytes(48) + le(array + 72, 8))
    base = seal(b'\x89HDF\r\n\x1a\n\3\x08\x08\5' + bytes(8) + le(NOWHERE, 8) + le(at, 8) + le(48, 8))
    cells = b''.join(le(i % 1000, 4) for i in range(length)) * max(chunks, room)
    return base + root + dataset + top + index + cells + b''.join(behind)

for name, older, newer in [
        ('few', (2, 20, 10), (2, 20, 10)),
        ('many', (2, 200000, 100000, False, 100001), (2, 200002, 100001)),
        ('few_absent', (2, 20, 10, True), (2, 20, 10, True)),
        ('many_absent', (2, 200002, 100001, True), (2, 200002, 100001, True)),
        ('rows', (65536, 1000000, 16), (65536, 1000000, 16))]:
    open(sys.argv[1] + '/' + name, 'wb').write(image(*older) + image(*newer))
END_OF_PROGRAM
python3 "$work/images.py" "$work" || exit 1

cd crates/reader_input || exit 1
rt run < "$work/few" >"$work/built" 2>&1 || { tail -n 20 "$work/built"; exit 1; }

# the instructions of a function of the program, led by these images and words, and how many of them are looks at the image
count() {
    name=$1
    images=$2
    shift 2
    valgrind --tool=callgrind --callgrind-out-file="$work/out" --toggle-collect="reader_input::$name" out/reader_input "$@" <"$work/$images" 2>"$work/log" || { tail -n 5 "$work/log" >&2; exit 1; }
    callgrind_annotate --inclusive=yes --threshold=100 "$work/out" | python3 -c '
import re, sys
costs = dict((m.group(2), int(m.group(1).replace(",", ""))) for line in sys.stdin for m in [re.match(r" *([0-9,]+) .*reader_input::(\w+)", line)] if m)
print(costs[sys.argv[1]], costs["shows"])' "$name"
}

few=$(count refresh_idly few) || exit 1
many=$(count refresh_idly many) || exit 1
few_absent=$(count refresh_idly few_absent) || exit 1
many_absent=$(count refresh_idly many_absent) || exit 1
more=$(count refresh_once many) || exit 1
open=$(count opened many) || exit 1
rows=$(count read_rows rows read) || exit 1
python3 -c '
import sys
rows = [
    ("an idle refresh at 10 chunks, instructions", 1000, 1500),
    ("an idle refresh at 100,001 chunks, instructions", 1000, 1500),
    ("a refresh that looks up an absent chunk before 9 others, instructions", 1000, 15000),
    ("a refresh that looks up an absent chunk before 100,000 others, instructions", 1000, 15000),
    ("a refresh with one new chunk behind 100,000, instructions", 1, 38000),
    ("an open at 100,000 chunks, instructions a chunk", 100000, 60),
    ("a read of 1,000,000 values, instructions a value", 1000000, 12),
]
failed = False
for (text, times, most), counts in zip(rows, sys.argv[1:]):
    cost, looks = [int(count) / times for count in counts.split()]
    print("%s: %.1f, %.1f of them looks at the image (at most %s)" % (text, cost, looks, most))
    failed = failed or cost > most
sys.exit(failed)' "$few" "$many" "$few_absent" "$many_absent" "$more" "$open" "$rows"
