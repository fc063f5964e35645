#!/usr/bin/env python3
"""How long runs between files take: on one thread, with helpers, in slices on threads, in slices as processes, and by
GNU Radio.

usage: slices.py FLOW [--rounds N] [--millions N] [--folder FOLDER]

FLOW is the program. Each row is a graph over so many million shorts, 100 if none is said. In a round each way is run
once, in turn, and the least of the rounds counts, 3 if none is said. The files stand in a folder of /dev/shm, which is
gone afterwards. A way whose output differs from that of one thread ends the script. Beside the seconds stand the
processor seconds of all threads and processes. Where GNU Radio is not installed its column is empty."""

import argparse
import filecmp
import os
import pathlib
import resource
import subprocess
import sys
import tempfile
import time

BLOCK = '[[block]]\nname = "%s"\nkind = "%s"\ntype = "short"\n'
LINE = '[[connect]]\nfrom = "%s"\nto = "%s"\n'
# The usual taps of benches: light ones, whose sums of products stay within 32 bits.
TAPS = [(7 * at) % 23 - 11 for at in range(256)]
SHIFT = 8


def chain(*kinds):
    """A graph file: a source, blocks of these kinds one behind the other, each with its parameters as text, and a
    sink."""
    names = ["in"] + ["b%d" % at for at in range(len(kinds))] + ["out"]
    text = BLOCK % ("in", "vector_source")
    for name, (kind, parameters) in zip(names[1:], kinds):
        text += BLOCK % (name, kind) + parameters
    text += BLOCK % ("out", "vector_sink")
    return text + "".join(LINE % pair for pair in zip(names, names[1:]))


def adders(count):
    return [("add_const", "value = 1\n")] * count


def filters(count, taps):
    return [("fir", "taps = %s\nshift = %d\n" % (TAPS[:taps], SHIFT))] * count


RATES = [
    ("fir", "taps = %s\nshift = %d\ndecimation = 5\n" % (TAPS[:31], SHIFT)),
    ("interp_fir", "taps = %s\nshift = %d\ninterpolation = 3\n" % (TAPS[:24], SHIFT)),
    ("moving_sum", "length = 64\n"),
    ("keep_one_in_n", "n = 2\n"),
]

# Of each row its name, its blocks, and which part of the items is taken: dear graphs take fewer.
ROWS = [
    ("1 adder", adders(1), 1.0),
    ("16 adders", adders(16), 1.0),
    ("4 filters of 64 taps", filters(4, 64), 1.0),
    ("4 filters of 256 taps", filters(4, 256), 1.0),
    ("rates: filters / 5 and x 3, sums of 64, one in 2", RATES, 1.0),
    ("the same with a tag on each thousandth item", RATES, 1.0),
]
TAGGED = ROWS[-1][0]


def timed(words, count=1):
    """The seconds and the processor seconds of so many processes side by side, whose words are made of their number."""
    before = resource.getrusage(resource.RUSAGE_CHILDREN)
    begun = time.perf_counter()
    running = [subprocess.Popen(words(at), stdin=subprocess.DEVNULL, stdout=subprocess.DEVNULL) for at in range(count)]
    statuses = [it.wait() for it in running]
    seconds = time.perf_counter() - begun
    after = resource.getrusage(resource.RUSAGE_CHILDREN)
    if any(statuses):
        sys.exit("slices.py: %s ends in status %s" % (" ".join(words(0)), statuses))
    return seconds, after.ru_utime + after.ru_stime - before.ru_utime - before.ru_stime


class Row:
    """A graph with its input, and each way to run it."""

    def __init__(self, folder, flow, blocks, tagged):
        """With tags, a mark stands on each item of these numbers."""
        self.folder, self.flow, self.blocks, self.has_tags = folder, flow, blocks, bool(tagged)
        folder.joinpath("graph.toml").write_text(chain(*blocks), encoding="utf-8")
        folder.joinpath("marks").write_text("".join("@%d:key=%d\n" % (at, at) for at in tagged), encoding="utf-8")

    def ends(self, way):
        tags = ["--marks", "in=marks", "--tags", "out=%s.tags" % way] if self.has_tags else []
        return ["-i", "in=input", "-o", "out=%s" % way, *tags, "graph.toml"]

    def outputs(self, way):
        return [way, way + ".tags"] if self.has_tags else [way]

    def run(self, way, *words):
        return timed(lambda at: [self.flow, "run", "--quiet", *words, *self.ends(way)])

    def processes(self, way, count):
        """Each slice as a process of its own, and the time of joining them not counted."""
        part = "%s.%%d" % way
        took = timed(
            lambda at: [
                self.flow, "run", "--quiet", "--one-thread", "--slice", "%d/%d" % (at + 1, count),
                *self.ends(part % at),
            ],
            count,
        )
        for whole, *parts in zip(self.outputs(way), *(self.outputs(part % at) for at in range(count))):
            with open(whole, "wb") as joined:
                for path in parts:
                    joined.write(pathlib.Path(path).read_bytes())
                    os.remove(path)
        return took

    def ways(self):
        yield "one thread", lambda way: self.run(way, "--one-thread")
        yield "helpers", lambda way: self.run(way, "--jobs", "1")
        yield "2 jobs", lambda way: self.run(way, "--jobs", "2")
        yield "4 jobs", lambda way: self.run(way, "--jobs", "4")
        yield "no word", lambda way: self.run(way)
        yield "4 processes", lambda way: self.processes(way, 4)


def gnu_radio(row):
    """What the same blocks take in GNU Radio with its threads, between the same files; none where it has no block for
    one of them, or is not installed."""
    script = pathlib.Path(__file__).with_name("between_files.py")
    words = ["/usr/bin/python3", str(script), "input", "gnu_radio"]
    if row.has_tags:
        return None
    for kind, parameters in row.blocks:
        if kind not in ("add_const", "fir") or "decimation" in parameters:
            return None
        words.append("adder" if kind == "add_const" else "fir%d" % (parameters.count(",") + 1))
    answer = subprocess.run(words, stdin=subprocess.DEVNULL, capture_output=True, text=True, check=False)
    return float(answer.stdout) if answer.returncode == 0 else None


def measure(row, rounds):
    """The least seconds of each way, with the processor seconds of that run."""
    best = {}
    for _ in range(rounds):
        for name, way in row.ways():
            took = way(name)
            best[name] = min(took, best.get(name, took))
            for first, other in zip(row.outputs("one thread"), row.outputs(name)):
                if not filecmp.cmp(first, other, shallow=False):
                    sys.exit("slices.py: %s gives other bytes" % name)
        took = timed(lambda at: ["sh", "-c", "cat input | cat >copy"])
        best["cat | cat"] = min(took, best.get("cat | cat", took))
        took = gnu_radio(row)
        if took is not None:
            best["GNU Radio"] = (min(took, best.get("GNU Radio", (took,))[0]), None)
    return best


def shown(took):
    if took is None:
        return ""
    seconds, processor = took
    return "%.2f" % seconds if processor is None else "%.2f (%.2f)" % (seconds, processor)


def main():
    words = argparse.ArgumentParser()
    words.add_argument("flow")
    words.add_argument("--rounds", type=int, default=3)
    words.add_argument("--millions", type=float, default=100)
    words.add_argument("--folder", default="/dev/shm")
    called = words.parse_args()
    flow = os.path.realpath(called.flow)
    columns = ["one thread", "helpers", "2 jobs", "4 jobs", "no word", "4 processes", "GNU Radio", "cat | cat"]
    print("| graph | millions |", " | ".join(columns), "|")
    print("|---|---:|" + "---:|" * len(columns))
    for name, blocks, share in ROWS:
        with tempfile.TemporaryDirectory(dir=called.folder) as folder:
            os.chdir(folder)
            count = int(called.millions * share * 1e6)
            with open("input", "wb") as file:
                piece = os.urandom(1 << 20)
                for at in range(0, 2 * count, len(piece)):
                    file.write(piece[: 2 * count - at])
            tagged = range(0, count, 1000) if name == TAGGED else ()
            best = measure(Row(pathlib.Path(folder), flow, blocks, tagged), called.rounds)
            os.chdir("/")
        print("| %s | %g |" % (name, count / 1e6), " | ".join(shown(best.get(it)) for it in columns), "|", flush=True)


if __name__ == "__main__":
    main()
