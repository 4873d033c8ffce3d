#!/usr/bin/env python3
"""Shows the newest rows of a dataset that another program appends to, with h5py: a line a row, and the greater a value the darker its mark.

    examples/viewer.py FILE [NAME] [ROWS]    dataset NAME (data), until it has ROWS rows (without end)

A viewer does not need each row. It shows what is newest whenever rows came, and then waits; so it never falls behind, however fast the writer
is. As for examples/watch.py the writer is to run with `--no-reuse`.
"""
import sys
import time

import h5py

SECONDS, SHOWN, MARKS = 0.1, 8, " .:-=+*#%@"


def marks(row, greatest):
    """The marks of a row's values, of which `greatest` has the darkest."""
    return "".join(MARKS[int(it) * (len(MARKS) - 1) // greatest] if it > 0 else " " for it in row)


def show(data):
    """Shows the newest rows; of one dimension the newest values, in one line."""
    newest = data[max(len(data) - SHOWN, 0) :]
    picture = newest if newest.ndim > 1 else newest.reshape(1, -1)
    print(f"{len(data)} rows", *(marks(row, int(picture.max())) for row in picture), sep="\n", flush=True)


def main(file, name="data", most=None):
    with h5py.File(file, "r", libver="latest", swmr=True) as opened:
        data, shown = opened[name], 0
        while most is None or shown < int(most):
            data.id.refresh()  # asks the file again
            if len(data) > shown:
                show(data)
                shown = len(data)
            else:
                time.sleep(SECONDS)


if __name__ == "__main__":
    main(*sys.argv[1:])
