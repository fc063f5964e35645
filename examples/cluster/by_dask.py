#!/usr/bin/env python3
"""by_dask.py N GRAPH RECORDING JOINED: runs N slices of a recording by the workers of Dask, and joins their parts.

The workers are those of the scheduler at DASK_SCHEDULER_ADDRESS, or without it some on this machine.
"""

import pathlib
import subprocess
import sys

from distributed import Client

HERE = pathlib.Path(__file__).resolve().parent


def main():
    """Runs the slices and joins their parts; a folder of parts that is there already is refused."""
    count = sys.argv[1]
    graph, recording, joined = (str(pathlib.Path(word).resolve()) for word in sys.argv[2:])
    pathlib.Path(joined + ".parts").mkdir()
    slices = [[str(HERE / "slice.sh"), graph, recording, joined, count, str(at + 1)] for at in range(int(count))]
    with Client() as client:
        # (Dask gives the slices of a lost worker to another one; `retries` is for slices that fail)
        client.gather(client.map(subprocess.run, slices, check=True, retries=3, pure=False))
    subprocess.run([HERE / "join.sh", joined, count], check=True)


if __name__ == "__main__":
    main()
