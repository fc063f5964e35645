#!/usr/bin/env python3
"""slice_ends.py killed|tags|bad|threads PROGRAM..: runs in slices that end before their time, by the program whose
words are given. `killed`: one in pieces that is killed leaves a beginning, and one that goes on with it gives the
whole, with tags too. `tags`: so does one that goes on with items and lines of tags that are cut anywhere. `bad`: an
input that ends within an item, shrinks or grows meanwhile, a full disk, two outputs of one path, two slices into one
file, and marks out of order, where a run in pieces, or the slice that comes to it, ends as one on one thread does.
`threads`: which runs take a thread for each processor by themselves. Prints what differs."""

import os
import pathlib
import random
import resource
import signal
import struct
import subprocess
import sys
import tempfile
import time

# A run is killed so often, each time when its output has come so far as chance will have it.
KILLS = 10
ITEMS = 400_000
# An input of so many bytes is worth a thread for each processor.
LONG = 1 << 24
# One item in three of a filter, and the sums of these; a source of shorts.
FILTER = (
    'kind = "fir", type = "short", taps = [3, -1, 4, 1, -5, 9, 2, -6, 5, 3, 5, -8, 9, 7], shift = 4, decimation = 3'
)
SUM = 'kind = "moving_sum", type = "short", length = 40'
GRAPH = f"""
block = [
    {{ name = "in", kind = "vector_source", type = "short" }},
    {{ name = "fir", {FILTER} }},
    {{ name = "filtered", kind = "vector_sink", type = "short" }},
    {{ name = "sum", {SUM} }},
    {{ name = "summed", kind = "vector_sink", type = "short" }},
]
connect = [
    {{ from = "in", to = "fir" }},
    {{ from = "fir", to = "filtered" }},
    {{ from = "fir", to = "sum" }},
    {{ from = "sum", to = "summed" }},
]
"""
SINKS = ["filtered", "summed"]
OUTPUTS = [word for name in SINKS for word in ("-o", "%s=%s" % (name, name))]
TAGS = [word for name in SINKS for word in ("--tags", "%s=%s.tags" % (name, name))]


def bytes_of(count):
    """So many shorts that look like noise."""
    rng = random.Random(count)
    return struct.pack("<%dh" % count, *(rng.randint(-2000, 2000) for _ in range(count)))


def marks_of(count):
    """Lines of marks on so many items: on some none for long, and on others several, of which two come to one item of a
    filter, or more."""
    rng, lines, at = random.Random(count), [], 0
    while at < count:
        lines += ["@%d:k=%d\n" % (at, rng.randint(-9, 9)) for _ in range(rng.choice([1, 1, 3]))]
        at += rng.choice([0, 1, 2, 50, 500, 2000])
    return "".join(lines)


class Folder:
    """Where the runs of a test find the graph, the input, with marks if tags are asked for, and the outputs."""

    def __init__(self, path, items=ITEMS, has_tags=False):
        self.path = pathlib.Path(path)
        self.path.joinpath("graph.toml").write_text(GRAPH, encoding="utf-8")
        self.items = bytes_of(items)
        self.path.joinpath("in").write_bytes(self.items)
        self.names, self.ends = SINKS, OUTPUTS
        if has_tags:
            self.path.joinpath("marks").write_text(marks_of(items), encoding="utf-8")
            self.names, self.ends = [*SINKS, *("%s.tags" % name for name in SINKS)], [
                *OUTPUTS, "--marks", "in=marks", *TAGS,
            ]

    def words(self, *more):
        return [*sys.argv[2:], "run", *more, "-i", "in=in", *self.ends, "graph.toml"]

    def clear(self):
        for name in self.names:
            self.path.joinpath(name).unlink(missing_ok=True)

    def start(self, *more, **how):
        """A run that is not waited for."""
        return subprocess.Popen(
            self.words(*more), cwd=self.path, stdin=subprocess.DEVNULL, stdout=subprocess.DEVNULL,
            stderr=subprocess.PIPE, **how,
        )

    def run(self, *more, **how):
        """How a run ends: its status, what it says, and its outputs."""
        self.clear()
        with self.start(*more, **how) as running:
            _, errors = running.communicate(timeout=600)
        return running.returncode, errors.decode(), self.outputs()

    def outputs(self):
        paths = [self.path.joinpath(name) for name in self.names]
        return [path.read_bytes() if path.exists() else b"" for path in paths]

    def size(self):
        path = self.path.joinpath(SINKS[0])
        return path.stat().st_size if path.exists() else 0

    def whole(self):
        status, errors, outputs = self.run("--one-thread")
        if status != 0:
            raise ValueError("the whole run: %d %s" % (status, errors))
        return outputs


def are_beginnings(parts, wholes):
    return all(whole.startswith(part) for part, whole in zip(parts, wholes))


def wait_for(folder, running, size):
    """Waits until an output has so many bytes, or the run is over."""
    while folder.size() < size and running.poll() is None:
        time.sleep(0.001)


def killed_in(folder):
    """What is wrong with runs that are killed, and gone on with."""
    rng = random.Random(3)
    whole = folder.whole()
    were_midway = 0
    for _ in range(KILLS):
        folder.clear()
        with folder.start("--jobs", "3") as running:
            wait_for(folder, running, rng.randint(0, len(whole[0]) - 1))
            running.kill()
        left = folder.outputs()
        if not are_beginnings(left, whole):
            return "what a killed run left is no beginning of the whole"
        were_midway += 0 < len(left[0]) < len(whole[0])
        with folder.start("--resume", "--jobs", "2") as resumed:
            _, errors = resumed.communicate(timeout=600)
        if resumed.returncode != 0 or folder.outputs() != whole:
            return "gone on with behind a kill at %d bytes: %d %s" % (len(left[0]), resumed.returncode, errors.decode())
    return None if were_midway else "no run was killed midway"


def killed(path):
    for has_tags in (False, True):
        room = pathlib.Path(path).joinpath("tags" if has_tags else "items")
        room.mkdir()
        wrong = killed_in(Folder(room, has_tags=has_tags))
        if wrong:
            return wrong + (", with tags" if has_tags else "")
    return None


def same_item(lines):
    """Where the second line begins of two that name one item, in the middle of the lines."""
    place = 0
    for first, second in zip(lines, lines[1:]):
        place += len(first)
        if place > len(b"".join(lines)) // 2 and first[: first.index(b":")] == second[: second.index(b":")]:
            return place
    raise ValueError("no two tags are on one item")


def cut_outputs(items, tags):
    """What may be left of the items of a sink and of the lines of its tags: what is left, and of each file its bytes,
    or None where it is missing."""
    lines = tags.splitlines(keepends=True)
    half, line = len(items) // 2, len(b"".join(lines[: len(lines) // 2]))
    return [
        ("items alone", items[:half], b""),
        ("items without a file of tags", items, None),
        ("an unfinished last line", items, tags[: line - 3]),
        ("a line without its end", items, tags[: line - 1]),
        ("whole lines, and items beyond", items, tags[:line]),
        ("one of several tags of an item", items, tags[: same_item(lines)]),
        ("tags beyond the items", items[:half], tags),
        ("tags beyond the items, and an unfinished line", items[: half - 1], tags[:-2]),
        ("tags without items", b"", tags),
        ("tags without a file of items", None, tags),
        ("zeros behind the lines", items, tags[:line] + bytes(5000)),
        ("a line that is no tag", items, tags[:line] + b"x" + tags[line:]),
        ("all of both", items, tags),
    ]


def put(path, content):
    path.unlink(missing_ok=True)
    if content is not None:
        path.write_bytes(content)


def gone_on(path):
    """Runs that go on with items and tags, of which each sink has what another case leaves."""
    folder = Folder(path, 30_000, has_tags=True)
    whole = folder.whole()
    cases = list(zip(*(cut_outputs(items, tags) for items, tags in zip(whole, whole[len(SINKS) :]))))
    for number, first in enumerate(cases):
        for second in (number, (number + 5) % len(cases)):
            left = [first[0], cases[second][1]]
            for name, (_, items, tags) in zip(SINKS, left):
                put(folder.path.joinpath(name), items)
                put(folder.path.joinpath("%s.tags" % name), tags)
            way = ["--jobs", "2"] if number == second else ["--one-thread"]
            with folder.start("--resume", *way) as resumed:
                _, errors = resumed.communicate(timeout=600)
            if resumed.returncode != 0 or folder.outputs() != whole:
                return "gone on with %s, and %s, by %s: %d %s" % (
                    left[0][0], left[1][0], " ".join(way), resumed.returncode, errors.decode(),
                )
    return None


def cut_item(path):
    folder = Folder(path)
    with open(folder.path.joinpath("in"), "ab") as file:
        file.write(b"x")
    alone, pieces = folder.run("--one-thread"), folder.run("--jobs", "3")
    if alone[0] == 0 or pieces != alone:
        return "an input that ends within an item: %s, and alone %s" % (pieces[:2], alone[:2])
    first, second = folder.run("--slice", "1/2"), folder.run("--slice", "2/2")
    if first[:2] != (0, "") or second[:2] != alone[:2] or [a + b for a, b in zip(first[2], second[2])] != alone[2]:
        return "an input that ends within an item, in two slices: %s and %s" % (first[:2], second[:2])
    return None


def full_disk(path):
    folder = Folder(path)
    whole = folder.whole()
    most = len(whole[0]) // 2 + 1

    def limit():
        signal.signal(signal.SIGXFSZ, signal.SIG_IGN)
        resource.setrlimit(resource.RLIMIT_FSIZE, (most, most))

    alone, pieces = folder.run("--one-thread", preexec_fn=limit), folder.run("--jobs", "3", preexec_fn=limit)
    if alone[0] == 0 or pieces[:2] != alone[:2]:
        return "a full disk: %s, and alone %s" % (pieces[:2], alone[:2])
    if len(pieces[2][0]) != most or not are_beginnings(pieces[2], whole):
        return "a full disk: what was written is no beginning"
    rest = [it[2 * (len(it) // 8) :] for it in whole]
    part = folder.run("--from", str(len(whole[0]) // 8), preexec_fn=limit)
    if part[:2] != alone[:2] or len(part[2][0]) != most or not are_beginnings(part[2], rest):
        return "a full disk for a run from an item on: %s, and alone %s" % (part[:2], alone[:2])
    return None


def changed(path, shrinks):
    folder = Folder(path)
    whole, input_file = folder.whole(), folder.path.joinpath("in")
    other = folder.items[: len(folder.items) // 2] if shrinks else folder.items + bytes_of(1000)
    folder.clear()
    with folder.start("--jobs", "2") as running:
        wait_for(folder, running, 1)
        if shrinks:
            os.truncate(input_file, len(other))
        else:
            with open(input_file, "ab") as file:
                file.write(other[len(folder.items) :])
        _, errors = running.communicate(timeout=600)
    part = folder.outputs()
    input_file.write_bytes(other)
    after = folder.whole()
    least, most = (after, whole) if shrinks else (whole, after)
    if running.returncode != 0 or not are_beginnings(least, part) or not are_beginnings(part, most):
        return "an input that %s: %d %s" % ("shrinks" if shrinks else "grows", running.returncode, errors.decode())
    return None


def one_path(path):
    folder = Folder(path, 1000)
    os.symlink("one", folder.path.joinpath("link"))
    for second in ("one", "link"):
        said = []
        for way in (["--one-thread"], ["--jobs", "2"]):
            words = [
                *sys.argv[2:], "run", *way, "-i", "in=in", "-o", "filtered=one", "-o", "summed=%s" % second,
                "graph.toml",
            ]
            answer = subprocess.run(
                words, cwd=folder.path, stdin=subprocess.DEVNULL, capture_output=True, text=True, timeout=600,
                check=False,
            )
            said.append((answer.returncode, answer.stdout, answer.stderr))
        if said[0] != said[1] or said[0][0] == 0 or folder.path.joinpath("one").exists():
            return "two outputs in %s: %s, and alone %s" % (second, said[1], said[0])
    return None


def one_file(path):
    """A slice replaces what another wrote, as a whole run replaces what stood in its output."""
    folder = Folder(path)
    whole = folder.whole()
    _, _, first = folder.run("--slice", "1/2")
    with folder.start("--slice", "2/2") as running:
        _, errors = running.communicate(timeout=600)
    if running.returncode != 0 or folder.outputs() != [all_of[len(part) :] for all_of, part in zip(whole, first)]:
        return "a second slice into the files of the first: %d %s" % (running.returncode, errors.decode())
    return None


def unordered_marks(path):
    folder = Folder(path)
    whole = folder.whole()
    for wrong in (1, 50, 900):
        lines = ["@%d:k=%d\n" % (at * 400, at) for at in range(1000)]
        lines[wrong] = "@%d:k=1\n" % (wrong * 400 - 401)
        folder.path.joinpath("marks").write_text("".join(lines), encoding="utf-8")
        words = ["--marks", "in=marks"]
        alone, pieces = folder.run("--one-thread", *words), folder.run("--jobs", "3", *words)
        if alone[0] == 0 or pieces[:2] != alone[:2]:
            return "marks out of order in line %d: %s, and alone %s" % (wrong + 1, pieces[:2], alone[:2])
        if not are_beginnings(pieces[2], whole):
            return "marks out of order in line %d: what was written is no beginning" % (wrong + 1)
        slices = [folder.run("--slice", "%d/2" % number, *words)[:2] for number in (1, 2)]
        if slices[wrong > 500] != alone[:2] or (wrong > 500 and slices[0] != (0, "")):
            return "marks out of order in line %d, in two slices: %s, and alone %s" % (wrong + 1, slices, alone[:2])
    return None


def bad(path):
    tests = [
        cut_item, full_disk, lambda it: changed(it, True), lambda it: changed(it, False), one_path, one_file,
        unordered_marks,
    ]
    for number, test in enumerate(tests):
        room = pathlib.Path(path).joinpath(str(number))
        room.mkdir()
        wrong = test(room)
        if wrong:
            return wrong
    return None


def seconds_of(number):
    """The processor seconds that a process has taken."""
    times = pathlib.Path("/proc/%d/stat" % number).read_text(encoding="ascii").rpartition(") ")[2].split()[11:13]
    return sum(map(int, times)) / os.sysconf("SC_CLK_TCK")


def threads_of(folder, *more):
    """How many threads a run has that is at work."""
    folder.clear()
    with folder.start(*more) as running:
        while running.poll() is None and seconds_of(running.pid) < 0.7:
            time.sleep(0.01)
        count = len(os.listdir("/proc/%d/task" % running.pid)) if running.poll() is None else 0
        running.kill()
    return count


def threads(path):
    """A run between files takes as many threads as `--jobs` would with one for each processor, where it is long enough
    and all its blocks forget."""
    folder = Folder(path)
    processors = len(os.sched_getaffinity(0))
    if processors == 1:
        return None
    tests = [
        ("a long file", LONG, GRAPH, processors),
        ("a file that is too short", LONG - 2, GRAPH, 1),
        ("a block that may end", LONG, GRAPH.replace(SUM, 'kind = "head", type = "short", n = 9999999'), 1),
        ("cheap blocks", LONG, GRAPH.replace(FILTER, 'kind = "keep_one_in_n", type = "short", n = 3'), processors),
    ]
    for name, length, graph, jobs in tests:
        folder.path.joinpath("graph.toml").write_text(graph, encoding="utf-8")
        with open(folder.path.joinpath("in"), "wb") as file:
            file.truncate(length)
        own, wanted = threads_of(folder), threads_of(folder, "--jobs", str(jobs))
        if own != wanted:
            return "%s: %d threads, and with --jobs %d %d" % (name, own, jobs, wanted)
    return None


def main():
    with tempfile.TemporaryDirectory() as room:
        wrong = {"killed": killed, "tags": gone_on, "bad": bad, "threads": threads}[sys.argv[1]](room)
    if wrong:
        print(wrong)
    return 1 if wrong else 0


sys.exit(main())
