#!/usr/bin/env python3
"""A detector that writes frames to a file through `h5swmr append`, while h5py reads the file beside it.

    examples/detector.py FILE [FRAMES]    makes FILE, and takes so many frames (20)

A frame is a row of pixels. Frames go through a pipe, a line of numbers each, and an empty line closes a batch. The program answers once the
batch is there for every reader that begins from then on. A detector that waits for this line knows what it need not send again after a crash.
"""
import os
import subprocess
import sys

import h5py

H5SWMR = f"{os.path.dirname(os.path.realpath(__file__))}/../h5swmr"
PIXELS, BATCH = 10, 5


def frame(at):
    """What the detector sees: a spot that moves on by a pixel from frame to frame."""
    return [1000 if pixel == at % PIXELS else pixel for pixel in range(PIXELS)]


def record(writer, frames):
    """Sends a batch, and waits for the answer: how many rows the file has then."""
    lines = [" ".join(map(str, it)) for it in frames]
    writer.stdin.write("\n".join(lines) + "\n\n")
    writer.stdin.flush()
    answer = writer.stdout.readline()  # `rows 5`, or a line that begins with `error`
    if not answer.startswith("rows "):
        raise OSError(answer.strip())
    return int(answer.split()[1])


def main(file, count="20"):
    words = ["--type", "u16le", "--chunk", "64", "--columns", str(PIXELS), "--width", str(PIXELS), "--fixed"]
    subprocess.run([H5SWMR, "new", file, *words], check=True)
    # (HDF5's own library reads beside it, and wants the places of old blocks unused)
    writer = subprocess.Popen([H5SWMR, "append", file, "--no-reuse"], stdin=subprocess.PIPE, stdout=subprocess.PIPE, text=True)
    opened = None
    for first in range(0, int(count), BATCH):
        rows = record(writer, [frame(at) for at in range(first, min(first + BATCH, int(count)))])
        opened = opened or h5py.File(file, "r", libver="latest", swmr=True)
        opened["data"].id.refresh()
        newest = opened["data"][rows - 1]
        print(f"{len(opened['data'])} frames, the spot of the newest is at pixel {newest.argmax()}", flush=True)
    writer.stdin.close()  # the end of the input closes the file
    print(writer.stdout.read(), end="")
    return writer.wait()


if __name__ == "__main__":
    sys.exit(main(*sys.argv[1:]))
