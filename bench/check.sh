#!/bin/sh
# Counts the instructions of the check of a file of 131,060 chunks, as one flush lays them out: all chunks in rising order, and
# then the index blocks. Prints the instructions a chunk, those for reading the file among them. Wants git, valgrind and python3; the last commit is what is measured.
top=$(cd "$(dirname "$0")/.." && pwd -P) || exit 1
work=$(mktemp -d) || exit 1
trap 'rm -rf "$work"' EXIT

# a copy with a program that checks what it reads
mkdir -p "$work/copy/crates/check_input/src" || exit 1
git -C "$top" archive HEAD crates crates.txt HANDLES | tar -x -C "$work/copy" || exit 1
rm -rf "$work/copy"/crates/*/must-fail
cd "$work/copy" || exit 1
echo "check_input: h5w_image h5w_check" >> crates.txt
cat > crates/check_input/src/main.rt <<'END'
//! Checks the file that it reads.
#![tactic(auto)]

use h5w_check::check;
use h5w_image::MemImage;
use std::io::Read;
use std::process::ExitCode;

fn main(rt: HostRuntime) -> ExitCode {
    let mut bytes = Vec::new(rt.alloc());
    if rt.stdin().read_to_end(&mut bytes).is_err() {
        return ExitCode::from(1);
    }
    let Ok(mut image) = MemImage::of(rt.alloc(), &bytes) else {
        return ExitCode::from(2);
    };
    let size = image.len();
    match check(rt.alloc(), &mut image, size, b"data") {
        Ok(summary) if summary.chunks == 131_060 && summary.lost == 0 => ExitCode::from(0),
        _ => ExitCode::from(3),
    }
}
END

python3 - "$work/file" <<'END' || exit 1
import sys

MASK = 0xffffffff

def rot(x, k):
    return ((x << k) | (x >> (32 - k))) & MASK

def lookup3(b):
    a = d = c = (0xdeadbeef + len(b)) & MASK
    k = 0
    while len(b) - k > 12:
        a, d, c = [(v + int.from_bytes(b[k + i:k + i + 4], 'little')) & MASK for v, i in ((a, 0), (d, 4), (c, 8))]
        for r in (4, 6, 8, 16, 19, 4):
            a = (a - c) & MASK ^ rot(c, r)
            c = (c + d) & MASK
            a, d, c = d, c, a
        k += 12
    if k == len(b):
        return c
    t = b[k:] + bytes(12 - len(b) + k)
    a, d, c = [(v + int.from_bytes(t[i:i + 4], 'little')) & MASK for v, i in ((a, 0), (d, 4), (c, 8))]
    for r in (14, 11, 25, 16, 4, 14, 24):
        c = (c ^ d) - rot(d, r) & MASK
        a, d, c = d, c, a
    return d

def le(n, w):
    return n.to_bytes(w, 'little')

def seal(b):
    return b + le(lookup3(b), 4)

def message(kind, data):
    return bytes([kind]) + le(len(data), 2) + b'\0' + data

def header(messages):
    m = b''.join(messages)
    return seal(b'OHDR\2\0' + bytes([len(m)]) + m)

NONE = le(2 ** 64 - 1, 8)
CHUNKS = 131060
root = header([message(2, b'\0\0' + 2 * NONE), message(10, b'\0\0'), message(6, b'\1\0\4data' + le(106, 8))])
dataset = header([
    message(1, b'\2\1\1\1' + le(2 * CHUNKS, 8) + NONE), message(3, b'\x10\x08\0\0\4\0\0\0\0\0\x20\0'), message(5, b'\3\x0b'),
    message(8, b'\4\2\0\2\1\2\4' + b'\4\x20\4\4\x10\x0a' + le(188, 8))])
assert len(root) == 58 and len(dataset) == 82
at = 558
chunks = [at + 8 * i for i in range(CHUNKS)]
at += 8 * CHUNKS
behind = b''
first = 4
offset = 0
named, second = [], []
for s in range(13):
    slots = 16 << ((s + 1) // 2)
    blocks = []
    for _ in range(1 << (s // 2)):
        block = seal(b'EADB\0\0' + le(188, 8) + le(offset, 4) + b''.join(le(a, 8) for a in chunks[first:first + slots]))
        blocks.append(at)
        behind += block
        at += len(block)
        first += slots
        offset += slots
    if s < 4:
        named += blocks
    else:
        block = seal(b'EASB\0\0' + le(188, 8) + le(offset - slots * len(blocks), 4) + b''.join(le(a, 8) for a in blocks))
        second.append(at)
        behind += block
        at += len(block)
assert first == CHUNKS and len(named) == 6 and len(second) == 9
index = seal(b'EAIB\0\0' + le(188, 8) + b''.join(le(a, 8) for a in chunks[:4] + named + second) + 16 * NONE)
array = seal(b'EAHD\0\0\x08\x20\4\x10\4\x0a' + bytes(48) + le(260, 8))
base = seal(b'\x89HDF\r\n\x1a\n\3\x08\x08\5' + bytes(8) + NONE + le(at, 8) + le(48, 8))
open(sys.argv[1], 'wb').write(base + root + dataset + array + index + bytes(8 * CHUNKS) + behind)
END

cd crates/check_input || exit 1
rt run < "$work/file" || exit 1
valgrind --tool=callgrind --callgrind-out-file="$work/out" out/check_input <"$work/file" 2>"$work/log" || exit 1
callgrind_annotate --inclusive=yes "$work/out" | python3 -c '
import re, sys
costs = [int(m.group(1).replace(",", "")) for line in sys.stdin for m in [re.match(r" *([0-9,]+) .*check_input::main", line)] if m]
cost = max(costs)
print("131060 chunks: %d instructions, %.1f a chunk (at most 400)" % (cost, cost / 131060))
sys.exit(0 if cost <= 400 * 131060 else 1)'
