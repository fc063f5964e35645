#!/usr/bin/env python3
"""Writes files to pipes in turn, so many bytes of each at a time, as a sender does that has one thread: `in_turn.py
COUNT FILE PIPE FILE PIPE ..`."""

import pathlib
import sys


def main() -> None:
    """Opens all pipes, writes, and closes them."""
    count, names = int(sys.argv[1]), sys.argv[2:]
    files = [pathlib.Path(name).read_bytes() for name in names[::2]]
    # (a pipe is opened once its reader has it open)
    pipes = [open(name, "wb", buffering=0) for name in names[1::2]]
    for start in range(0, max(map(len, files)), count):
        for file, pipe in zip(files, pipes):
            rest = file[start : start + count]
            while rest:
                rest = rest[pipe.write(rest) :]
    for pipe in pipes:
        pipe.close()


main()
