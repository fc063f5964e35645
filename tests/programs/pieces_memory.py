#!/usr/bin/env python3
"""pieces_memory.py FIRST ALL PROGRAM..: that a run in pieces between pipes, by the program whose words are given, has
some pieces in memory, however long the stream is. While nobody reads what it writes, it takes no more than a piece for
each thread and one more; and from when the FIRST pieces are read until ALL are, the most memory that it had grows by
less than a piece for each thread. Prints what is wrong."""

import os
import pathlib
import subprocess
import sys
import tempfile
import threading
import time

THREADS = 2
# So many bytes a piece has at most, and so many at a time are written.
PIECE = 1 << 21
WRITTEN = 1 << 16
# (a program that is built with checks keeps what it gives back for a while, to see that nobody uses it)
KEEPS_NOTHING = {**os.environ, "ASAN_OPTIONS": "quarantine_size_mb=0:thread_local_quarantine_size_kb=0"}
# A run that has not taken anything for so many looks in a row, in all of which its threads sleep, waits for its reader.
LOOKS = 20
GRAPH = """
block = [
    { name = "in", kind = "vector_source", type = "int" },
    { name = "out", kind = "vector_sink", type = "int" },
]
connect = [{ from = "in", to = "out" }]
"""


class Sender(threading.Thread):
    """Writes so many bytes to a run, and closes its input when it is told to."""

    def __init__(self, stream, count):
        super().__init__(daemon=True)
        self.stream, self.count, self.taken = stream, count, 0
        self.may_close = threading.Event()

    def run(self):
        block = bytes(WRITTEN)
        try:
            while self.taken < self.count:
                self.taken += os.write(self.stream.fileno(), block[: self.count - self.taken])
        except BrokenPipeError:
            return
        self.may_close.wait()
        self.stream.close()


def sleeps(number):
    """Whether all threads of a process wait."""
    try:
        threads = [it.read_text(encoding="ascii") for it in pathlib.Path("/proc/%d/task" % number).glob("*/stat")]
    except OSError:
        # (one has ended meanwhile)
        return False
    return all(it.rpartition(") ")[2].startswith("S") for it in threads)


def most_memory(number):
    """The most memory that a process had so far, in bytes."""
    status = pathlib.Path("/proc/%d/status" % number).read_text(encoding="ascii")
    return next(int(line.split()[1]) * 1024 for line in status.splitlines() if line.startswith("VmHWM:"))


def wait_until_full(running, sender):
    """Waits until a run takes nothing more."""
    looks, taken = 0, 0
    while looks < LOOKS and sender.taken < sender.count and running.poll() is None:
        time.sleep(0.05)
        looks = looks + 1 if sender.taken == taken and sleeps(running.pid) else 0
        taken = sender.taken


def read(stream, count):
    """Reads so many bytes."""
    while count > 0:
        came = os.read(stream.fileno(), min(count, WRITTEN))
        if not came:
            raise ValueError("%d bytes did not come" % count)
        count -= len(came)


def measured(folder, first, pieces):
    """How many bytes a run on so many pieces takes while nobody reads what it writes, and the most memory that it has
    until the first are read, and until all but one are."""
    words = [*sys.argv[3:], "run", "--jobs", str(THREADS), "-i", "in=-", "-o", "out=-", "graph.toml"]
    with subprocess.Popen(
        words, cwd=folder, env=KEEPS_NOTHING, stdin=subprocess.PIPE, stdout=subprocess.PIPE, stderr=subprocess.DEVNULL
    ) as running:
        sender = Sender(running.stdin, pieces * PIECE)
        sender.start()
        wait_until_full(running, sender)
        taken = sender.taken
        read(running.stdout, first * PIECE)
        short = most_memory(running.pid)
        read(running.stdout, (pieces - first - 1) * PIECE)
        long = most_memory(running.pid)
        sender.may_close.set()
        read(running.stdout, PIECE)
    if running.returncode != 0:
        raise ValueError("a run of %d pieces: %d" % (pieces, running.returncode))
    return taken, short, long


def wrong_in(folder):
    folder.joinpath("graph.toml").write_text(GRAPH, encoding="utf-8")
    taken, short, long = measured(folder, int(sys.argv[1]), int(sys.argv[2]))
    # (a pipe has something too, and what was read and is in no piece)
    if taken > (THREADS + 1) * PIECE:
        return "while nobody read it took %d bytes" % taken
    if long > short + THREADS * PIECE:
        return "it had %d bytes of memory for %s pieces, and %d for %s" % (short, sys.argv[1], long, sys.argv[2])
    return None


def main():
    with tempfile.TemporaryDirectory() as room:
        try:
            wrong = wrong_in(pathlib.Path(room))
        except ValueError as error:
            wrong = error
    if wrong:
        print(wrong)
    return 1 if wrong else 0


sys.exit(main())
