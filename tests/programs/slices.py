#!/usr/bin/env python3
"""Runs graphs that are drawn by chance whole and in parts, by the program whose words are given. What slices write, one
behind the other, is what the whole run writes, and so is what runs in pieces write, of files and of pipes. Of every
fifth graph, so is a run from an item on, one that goes on with cut outputs, or one in pieces that is killed and goes
on. A graph that is not cut is refused. Prints what differs. The environment variable SLICED_GRAPHS says how many graphs
are drawn of blocks that forget, 300 if it is not there; of any blocks there are a tenth of these, and a twentieth that
count. As many are run side by side as there are processors."""

import concurrent.futures
import os
import pathlib
import random
import struct
import subprocess
import sys
import tempfile
import time

sys.path.insert(0, str(pathlib.Path(__file__).parent.parent / "gnuradio"))

import drawn  # noqa: E402
import forgetful  # noqa: E402

GRAPHS = int(os.environ.get("SLICED_GRAPHS", "300"))
# So many more have blocks of any kinds and rates, of which some are not cut.
MIXED = GRAPHS // 10
# And so many a head and an additive scrambler, which go on where they stand.
COUNTED = GRAPHS // 20
FORMATS = {"byte": "B", "short": "h", "int": "i"}
SIZES = {"byte": 1, "short": 2, "int": 4}
# A run in pieces is killed so often, before it is done or behind.
KILLS = 3


def call(folder, *words):
    """What the program answers: its status, and what it writes to its two streams."""
    answer = subprocess.run(
        [*sys.argv[1:], *words], cwd=folder, stdin=subprocess.DEVNULL, capture_output=True, text=True, timeout=600,
        check=False,
    )
    return answer.returncode, answer.stdout, answer.stderr


def line_of(mark):
    """The line of a mark. Above some stands one that says that no mark on an item before comes."""
    above = "until %d\n" % mark[0] if mark[0] % 3 == 0 else ""
    return above + "@%d:%s=%d\n" % mark


def write(folder, graph, rng):
    """The files of a graph: its own, and that of each source, of which some end early, with its marks. Returns the
    words that name the inputs."""
    folder.joinpath("graph.toml").write_text(graph.text, encoding="utf-8")
    words = []
    for name, fed in graph.feeds.items():
        items = fed.items[: rng.choice([len(fed.items), len(fed.items) // 3])]
        folder.joinpath(name).write_bytes(struct.pack("<%d%s" % (len(items), FORMATS[fed.type]), *items))
        marks = [tag for tag in sorted(fed.tags, key=lambda tag: tag[0]) if tag[0] < len(items)]
        folder.joinpath("%s.marks" % name).write_text("".join(map(line_of, marks)), encoding="utf-8")
        words += ["-i", "%s=%s" % (name, name)]
    return words


def tagged(graph, place):
    """The words that name the marks of a run, and where its tags go."""
    marks = [word for name in graph.feeds for word in ("--marks", "%s=%s.marks" % (name, name))]
    return marks + [word for name in graph.sinks for word in ("--tags", "%s=%s.%s.tags" % (name, name, place))]


def tags(folder, graph, place):
    """What a run wrote of the tags of each sink."""
    return {name: folder.joinpath("%s.%s.tags" % (name, place)).read_text(encoding="utf-8") for name in graph.sinks}


def run(folder, inputs, graph, place, *words):
    """What a run writes for each sink."""
    outputs = [word for name in graph.sinks for word in ("-o", "%s=%s.%s" % (name, name, place))]
    status, _, errors = call(folder, "run", *words, *inputs, *outputs, "graph.toml")
    if status != 0:
        raise ValueError("run %s: %d %s" % (" ".join(words), status, errors))
    return {name: folder.joinpath("%s.%s" % (name, place)).read_bytes() for name in graph.sinks}


def slices_differ(folder, graph, inputs, whole, rng):
    """What is wrong with the slices of a graph."""
    count = rng.choice([2, 2, 2, 3, 5])
    items, lines = {name: b"" for name in whole}, {name: "" for name in whole}
    for at in range(count):
        part = run(folder, inputs, graph, "part", "--slice", "%d/%d" % (at + 1, count), *tagged(graph, "part"))
        for name, text in tags(folder, graph, "part").items():
            items[name] += part[name]
            lines[name] += text
    for name, text in tags(folder, graph, "whole").items():
        if items[name] != whole[name]:
            return "%s in %d slices has %d bytes, and %d in the whole run" % (
                name, count, len(items[name]), len(whole[name]),
            )
        if lines[name] != text:
            return "%s in %d slices has the tags %s, and %s in the whole run" % (name, count, lines[name], text)
    return None


def items_differ(folder, graph, inputs, whole, rng):
    """What is wrong with runs from an item on."""
    longest = max(len(items) // SIZES[graph.sinks[name]] for name, items in whole.items())
    start, count = rng.randint(0, longest + 5), rng.randint(0, longest + 5)
    for words, end in [
        (["--from", str(start)], None), (["--from", str(start), "--items", str(count)], start + count),
        (["--items", str(count)], count),
    ]:
        part = run(folder, inputs, graph, "part", *words)
        for name, items in whole.items():
            size = SIZES[graph.sinks[name]]
            wanted = items[(start if "--from" in words else 0) * size : None if end is None else end * size]
            if part[name] != wanted:
                return "%s by %s has %d bytes, and not %d" % (name, " ".join(words), len(part[name]), len(wanted))
    return None


def cut(path, content, rng):
    """A file with a beginning of what it may hold, or none."""
    path.unlink(missing_ok=True)
    if rng.random() < 0.8:
        path.write_bytes(content[: rng.randint(0, len(content))])


def resumed_differs(folder, graph, inputs, whole, rng):
    """What is wrong with a run that goes on with outputs that were cut anywhere, with tags too."""
    lines = tags(folder, graph, "whole")
    for more in ([], tagged(graph, "part")):
        for name, items in whole.items():
            cut(folder.joinpath("%s.part" % name), items, rng)
            cut(folder.joinpath("%s.part.tags" % name), lines[name].encode(), rng)
        part = run(folder, inputs, graph, "part", "--resume", *more)
        for name, items in whole.items():
            if part[name] != items:
                return "%s, gone on with, has %d bytes, and not %d" % (name, len(part[name]), len(items))
    if tags(folder, graph, "part") != lines:
        return "gone on with, the tags are %s, and not %s" % (tags(folder, graph, "part"), lines)
    return None


def jobs_differ(folder, graph, inputs, whole, rng):
    """What is wrong with a run in pieces."""
    return pieces_differ_by(folder, graph, inputs, whole, 0, ["--jobs", str(rng.choice([2, 2, 2, 3, 5]))])


def pieces_differ(folder, graph, inputs, whole, rng):
    """What is wrong with a run in one piece, in pieces from an item on, and in those of a slice."""
    start = rng.randint(0, 50)
    ways = [
        (0, ["--jobs", "1"]), (start, ["--jobs", "2", "--from", str(start)]), (0, ["--jobs", "2", "--slice", "1/1"]),
    ]
    return next(filter(None, (pieces_differ_by(folder, graph, inputs, whole, *way) for way in ways)), None)


def pieces_differ_by(folder, graph, inputs, whole, first, words):
    """What is wrong with what a run by these words gives, which is what the whole run gives from this item on."""
    part = run(folder, inputs, graph, "part", *words, *tagged(graph, "part"))
    for name, text in tags(folder, graph, "part").items():
        wanted = whole[name][first * SIZES[graph.sinks[name]] :]
        if part[name] != wanted:
            return "%s by %s has %d bytes, and not %d" % (name, " ".join(words), len(part[name]), len(wanted))
        lines = [
            line
            for line in tags(folder, graph, "whole")[name].splitlines(keepends=True)
            if first <= int(line[1 : line.index(":")])
        ]
        if text != "".join(lines):
            return "%s by %s has the tags %s, and not %s" % (name, " ".join(words), text, "".join(lines))
    return None


def send(folder, names, rng):
    """Writes files to pipes of their names with `.pipe` behind, some bytes of each in turn, and pauses now and then.
    Those whose files are at their end are closed."""
    rest = {name: folder.joinpath(name).read_bytes() for name in names}
    pipes = {name: open(folder.joinpath("%s.pipe" % name), "wb", buffering=0) for name in names}
    # (a pipe holds the whole of a file, so that it matters to no write which source is read)
    while pipes:
        for name in list(pipes):
            count = rng.choice([1, 3, 40, 1000])
            try:
                pipes[name].write(rest[name][:count])
            except BrokenPipeError:
                rest[name] = b""
            rest[name] = rest[name][count:]
            if not rest[name]:
                pipes.pop(name).close()
        if rng.random() < 0.02:
            time.sleep(0.002)


def piped_differ(folder, graph, inputs, whole, rng):
    """What is wrong with runs in pieces of what comes through pipes."""
    words, sent = ["run", "--jobs", str(rng.randint(2, 4)), *tagged(graph, "part")], [*graph.feeds]
    for name in sent:
        os.mkfifo(folder.joinpath("%s.pipe" % name))
        words += ["-i", "%s=%s.pipe" % (name, name)]
    for name in whole:
        words += ["-o", "%s=%s.part" % (name, name)]
    with subprocess.Popen(
        [*sys.argv[1:], *words, "graph.toml"], cwd=folder, stdin=subprocess.DEVNULL, stdout=subprocess.PIPE,
        stderr=subprocess.STDOUT, text=True,
    ) as piped:
        send(folder, sent, rng)
        said, _ = piped.communicate(timeout=600)
    if piped.returncode != 0:
        return "%s: %d %s" % (" ".join(words), piped.returncode, said)
    for name, text in tags(folder, graph, "part").items():
        part = folder.joinpath("%s.part" % name).read_bytes()
        if part != whole[name]:
            return "%s through pipes has %d bytes, and not %d" % (name, len(part), len(whole[name]))
        if text != tags(folder, graph, "whole")[name]:
            return "%s through pipes has the tags %s" % (name, text)
    return None


def killed_differs(folder, graph, inputs, whole, rng):
    """What is wrong with what killed runs in pieces left, and with the runs that go on with it."""
    outputs = [word for name in graph.sinks for word in ("-o", "%s=%s.part" % (name, name))]
    words, lines = [*sys.argv[1:], "run", "--jobs", "3", *inputs, *outputs, *tagged(graph, "part"), "graph.toml"], tags(
        folder, graph, "whole"
    )
    for _ in range(KILLS):
        for name in whole:
            folder.joinpath("%s.part" % name).unlink(missing_ok=True)
            folder.joinpath("%s.part.tags" % name).unlink(missing_ok=True)
        with subprocess.Popen(
            words, cwd=folder, stdin=subprocess.DEVNULL, stdout=subprocess.DEVNULL, stderr=subprocess.DEVNULL
        ) as killed:
            time.sleep(rng.uniform(0, 0.4))
            killed.kill()
        for name, items in whole.items():
            for path, content in (
                (folder.joinpath("%s.part" % name), items),
                (folder.joinpath("%s.part.tags" % name), lines[name].encode()),
            ):
                if path.exists() and not content.startswith(path.read_bytes()):
                    return "%s: what a killed run left is no beginning of the whole" % path.name
        part = run(folder, inputs, graph, "part", "--resume", "--jobs", "2", *tagged(graph, "part"))
        for name, items in whole.items():
            if part[name] != items:
                return "%s, gone on with behind a kill, has %d bytes, and not %d" % (name, len(part[name]), len(items))
        if tags(folder, graph, "part") != lines:
            return "gone on with behind a kill, the tags are %s, and not %s" % (tags(folder, graph, "part"), lines)
    return None


def counted(seed):
    """A graph with a head and an additive scrambler: the head ends before the items do, at their end or behind it, and
    the register has the fewest bits, the most or some."""
    rng = random.Random(seed)
    length, bits = rng.choice([0, 1, 50, 600, 3000]), rng.choice([2, 3, 17, 31, 32])
    mask = rng.choice([1, 2 ** (bits - 1), 2**bits - 1, rng.randint(1, 2**bits - 1)])
    init = rng.choice([0, 1, 2**bits - 1, rng.randint(0, 2**bits - 1)])
    count = rng.choice([0, 1, length // 3, length // 2, length, length + 1, 2**32])
    before = rng.choice(["moving_sum", "keep_one_in_n", "repeat", "delay", "skiphead"])
    blocks = [
        'name = "src", kind = "vector_source", type = "byte"',
        'name = "before", kind = "%s", type = "byte", %s = %d'
        % (before, "length" if before == "moving_sum" else "n", rng.randint(1, 9)),
        'name = "noise", kind = "additive_scrambler", bits = %d, mask = %d, init = %d' % (bits, mask, init),
        'name = "first", kind = "head", type = "byte", n = %d' % count,
        'name = "some", kind = "vector_sink", type = "byte"',
        'name = "all", kind = "vector_sink", type = "byte"',
    ]
    wires = [
        ("src", "before"),
        *rng.choice([[("before", "noise"), ("noise", "first")], [("before", "first"), ("first", "noise")]]),
    ]
    wires += [(wires[-1][1], "some"), ("before", "all")]
    text = "block = [%s]\nconnect = [%s]\n" % (
        ", ".join("{ %s }" % block for block in blocks),
        ", ".join('{ from = "%s", from_port = 0, to = "%s", to_port = 0 }' % wire for wire in wires),
    )
    items = [rng.randint(0, 255) for _ in range(length)]
    tags = [(rng.randrange(length), "k", at) for at in range(min(length, 20))]
    return drawn.Drawn(text, {"src": drawn.Fed("byte", items, tags)}, {"some": "byte", "all": "byte"})


def is_cut(folder):
    """Whether a graph is cut."""
    status, report, _ = call(folder, "check", "--slices", "graph.toml")
    if status != 0:
        raise ValueError("check: %d" % status)
    return "slices none" not in report


def not_refused(folder, graph, inputs):
    """What is wrong with the ways to cut a graph that is not cut."""
    outputs = [word for name in graph.sinks for word in ("-o", "%s=%s.part" % (name, name))]
    for words in (["--slice", "1/2"], ["--from", "0"], ["--jobs", "2"], ["--resume", *outputs]):
        status, _, errors = call(folder, "run", *words, *inputs, "graph.toml")
        if status != 1 or not errors.startswith("flow: refused 63 NoSlices "):
            return "%s is not refused: %d %s" % (" ".join(words), status, errors)
    return None


def differs(folder, graph, inputs, seed, rng):
    """What is wrong with the parts of a graph that is cut."""
    whole = run(folder, inputs, graph, "whole", "--one-thread", *tagged(graph, "whole"))
    ways = [slices_differ, jobs_differ, piped_differ]
    # (each call of the program is slow where it is built with checks)
    if seed % 5 == 0:
        ways.append([items_differ, resumed_differs, pieces_differ, killed_differs][seed // 5 % 4])
    return next(filter(None, (way(folder, graph, inputs, whole, rng) for way in ways)), None)


def tried(seed):
    """What is wrong with the graph of this number, and whether it is cut."""
    graph = forgetful.draw(seed) if seed < GRAPHS else drawn.draw(seed) if seed < GRAPHS + MIXED else counted(seed)
    rng = random.Random(seed)
    with tempfile.TemporaryDirectory() as room:
        folder = pathlib.Path(room)
        inputs = write(folder, graph, rng)
        try:
            if GRAPHS <= seed < GRAPHS + MIXED and not is_cut(folder):
                return not_refused(folder, graph, inputs), False
            return differs(folder, graph, inputs, seed, rng), True
        except ValueError as error:
            return str(error), True


def main():
    """Prints what is wrong, and how many graphs were cut where these were too few."""
    seeds, cut = range(GRAPHS + MIXED + COUNTED), 0
    with concurrent.futures.ThreadPoolExecutor(len(os.sched_getaffinity(0))) as pool:
        for seed, (wrong, is_cut) in zip(seeds, pool.map(tried, seeds)):
            cut += is_cut
            if wrong:
                print("graph %d: %s" % (seed, wrong))
                pool.shutdown(cancel_futures=True)
                return 1
    if cut < GRAPHS + COUNTED:
        print("only %d of %d graphs were cut" % (cut, len(seeds)))
        return 1
    return 0


sys.exit(main())
