#!/usr/bin/env python3
"""Prints each new row of a dataset that another program appends to, by bindings/h5swmr.py: a line a row.

    make -C bindings
    examples/viewer_ctypes.py FILE [NAME] [ROWS]    dataset NAME (data), until it has ROWS rows (without end)

The writer needs no option for it: a refresh that finds nothing costs a microsecond, and each row that was flushed before it is found.
"""
import os
import sys
import time

sys.path.insert(0, f"{os.path.dirname(os.path.realpath(__file__))}/../bindings")
import h5swmr

SECONDS, ATTEMPTS = 0.01, 100


def opened(file, name):
    """A reader of the file, which is waited for."""
    while not os.path.exists(file) or not os.path.getsize(file):
        time.sleep(SECONDS)
    return h5swmr.Reader(file, name, ATTEMPTS)


def rows(reader):
    """The rows, as they come."""
    seen = 0
    while True:
        try:
            count = reader.refresh()
        except h5swmr.Again:  # the writer flushed faster than the reader looked
            continue
        if count > seen:
            yield from reader.read(seen)
            seen = count
        else:
            time.sleep(SECONDS)


def main(file, name="data", most=None):
    with opened(file, name) as reader:
        for count, row in enumerate(rows(reader), 1):
            print(*(row if hasattr(row, "__len__") else [row]), flush=True)
            if most is not None and count >= int(most):
                return


if __name__ == "__main__":
    main(*sys.argv[1:])
