#!/usr/bin/env python3
"""Watches a dataset of an HDF5 file that another program appends to, with h5py, and prints each row once as it comes.

    examples/watch.py FILE [NAME] [ROWS]    dataset NAME (data), until it has ROWS rows (without end)

The writer is to keep the places of old blocks unused: `h5swmr append FILE --no-reuse`. HDF5's library does not look at the dataset
header again behind its looks at the index, so it could take a block that was written over an old one for the old one.
"""
import sys
import time

import h5py

SECONDS = 0.05


def rows(file, name):
    """The rows of a dataset, as they come."""
    with h5py.File(file, "r", libver="latest", swmr=True) as opened:
        data, seen = opened[name], 0
        while True:
            data.id.refresh()
            if len(data) > seen:
                yield from data[seen:].tolist()
                seen = len(data)
            else:
                time.sleep(SECONDS)


def main(file, name="data", most=None):
    for count, row in enumerate(rows(file, name), 1):
        print(*(row if isinstance(row, list) else [row]), flush=True)
        if most is not None and count >= int(most):
            return


if __name__ == "__main__":
    main(*sys.argv[1:])
