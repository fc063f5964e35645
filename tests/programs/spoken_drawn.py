#!/usr/bin/env python3
"""Live runs of graphs that are drawn by chance, by the program whose words are given: pieces of the tapes, settings,
closes, levels and lines that are refused come in an order of chance, and a script that makes the same calls at the
items of the replies gives what streams. Prints what is wrong."""

import os
import pathlib
import random
import struct
import sys
import tempfile
import threading

from spoken import FORMATS, Live, Wrong, check, script

# So many graphs, and so many seconds for all of them at most.
GRAPHS = int(os.environ.get("SPOKEN_GRAPHS", 24))
SECONDS = 400 + 20 * GRAPHS
# A line of a script has so many items.
PIECE = 4000
LOW, HIGH = {"byte": 0, "short": -300, "int": -5000}, {"byte": 255, "short": 300, "int": 5000}
# What a graph has beside blocks that are set, with the least and the greatest of its parameter.
OTHERS = [("keep_one_in_n", "n", 1, 4), ("delay", "n", 0, 30), ("skiphead", "n", 0, 200),
    ("moving_sum", "length", 1, 6), ("not", None, 0, 0), ("repeat", "n", 2, 3)]


class Drawn:
    """A graph of one source or two, each with a chain of blocks behind it, which are joined or not, and a sink behind
    each chain."""

    def __init__(self, seed):
        self.chance = random.Random(seed)
        self.type = self.chance.choice(list(FORMATS))
        self.rows, self.wires, self.settable, self.sinks = [], [], {}, []
        self.sources = ["s%d" % number for number in range(self.chance.randint(1, 2))]
        ends = [self.chain(self.block("vector_source", source), self.chance.randint(0, 3)) for source in self.sources]
        self.is_joined = len(ends) == 2 and self.chance.random() < 0.5
        if self.is_joined:
            joined = self.block("add", "both")
            self.wires += ['{ from = "%s", to = "both", to_port = %d }' % (end, port) for port, end in enumerate(ends)]
            ends = [self.chain(joined, self.chance.randint(0, 2))]
        for end in ends:
            self.sinks.append(self.join(end, self.block("vector_sink", "o%d" % len(self.sinks))))

    def block(self, kind, name, keys=""):
        """A block more, of which the name is given."""
        is_small = kind != "vector_sink" and self.chance.random() < 0.5
        room = ", capacity = %d" % self.chance.choice([1, 7, 100]) if is_small else ""
        self.rows.append('{ name = "%s", kind = "%s", type = "%s"%s%s }' % (name, kind, self.type, keys, room))
        return name

    def join(self, writer, reader):
        """The reader, which takes what the writer gives."""
        self.wires.append('{ from = "%s", to = "%s" }' % (writer, reader))
        return reader

    def chain(self, end, count):
        """The last of a block that is set, so many others, and one more that is set, each behind the one before."""
        kinds = OTHERS
        for number in range(count + 2):
            name = "b%d" % len(self.rows)
            if 0 < number <= count:
                kind, key, least, most = self.chance.choice(kinds)
                # (of many items nothing is seen that few do not show)
                kinds = OTHERS[:-1] if kind == "repeat" else kinds
                keys = ", %s = %d" % (key, self.chance.randint(least, most)) if key else ""
                end = self.join(end, self.block(kind, name, keys))
            elif self.type != "byte" and self.chance.random() < 0.4:
                count_of_taps = self.chance.randint(1, 5)
                self.settable[name] = count_of_taps
                end = self.join(end, self.block("fir", name, ", taps = %r" % self.values(count_of_taps)))
            else:
                self.settable[name] = 1
                kind = self.chance.choice(["add_const", "multiply_const"])
                end = self.join(end, self.block(kind, name, ", value = %d" % self.values(1)[0]))
        return end

    def values(self, count):
        """So many numbers that each type has."""
        return [self.chance.randint(0, 20) for _ in range(count)]

    def text(self):
        """The graph file."""
        rows, wires = ",\n    ".join(self.rows), ",\n    ".join(self.wires)
        return "block = [\n    %s,\n]\nconnect = [\n    %s,\n]\n" % (rows, wires)


class Talk:
    """A live run of such a graph, and what was said to it."""

    def __init__(self, program, folder, graph):
        self.graph, self.chance, self.folder = graph, graph.chance, folder
        words = []
        for source in graph.sources:
            os.mkfifo(folder / source)
            words += ["-i", "%s=%s" % (source, source)]
        for sink in graph.sinks:
            words += ["-o", "%s=%s" % (sink, sink)]
        self.live = Live(program, folder, *words)
        self.ends = {source: open(folder / source, "wb", buffering=0) for source in graph.sources}
        self.tapes = {source: [] for source in graph.sources}
        self.settings, self.closed, self.taken = [], {}, {}

    def give(self):
        """A piece of a tape, of any length."""
        source = self.chance.choice(self.graph.sources)
        if source in self.closed:
            return
        kind = self.graph.type
        piece = [self.chance.randint(LOW[kind], HIGH[kind]) for _ in range(self.chance.choice([0, 1, 5, 40, 150]))]
        self.ends[source].write(struct.pack("<%d%s" % (len(piece), FORMATS[kind]), *piece))
        self.tapes[source] += piece

    def set(self):
        """A setting, of now or of an item that has come, or comes, or never does."""
        name, count = self.chance.choice(list(self.graph.settable.items()))
        values = " ".join(map(str, self.graph.values(count)))
        longest = max(map(len, self.tapes.values()), default=0)
        place = "now" if self.chance.random() < 0.5 else str(self.chance.randint(0, 2 * longest + 50))
        word, *numbers = self.live.ask("set %s %s %s" % (name, place, values)).split()
        at = int(numbers[-1])
        if word == "refused":
            check(numbers[0] == "27" and place != "now" and int(place) < at,
                "a setting of %s at %s is refused %s" % (name, place, numbers))
        else:
            check(word == "taken" and place in ("now", str(at)),
                "a setting of %s at %s is taken at %d" % (name, place, at))
            self.settings.append("set %s %d %s" % (name, at, values))
        # What is open does not fall.
        if word == "refused" or place == "now":
            check(self.taken.get(name, 0) <= at, "%s was at %d, and is at %d" % (name, self.taken.get(name, 0), at))
            self.taken[name] = at

    def levels(self):
        """How far each block is."""
        lines = [self.live.ask("levels")] + [self.live.reply() for _ in self.graph.rows[1:]]
        for line, row in zip(lines, self.graph.rows):
            word, name, taken, given, waiting = line.split()
            check(word == "levels" and 'name = "%s"' % name in row
                and min(int(taken), int(given), int(waiting)) >= 0, "levels: %r" % line)
            check(self.taken.get(name, 0) <= int(taken),
                "%s was at %d, and is at %s" % (name, self.taken.get(name, 0), taken))
            self.taken[name] = int(taken)

    def wrong(self):
        """A line that is refused."""
        name = next(iter(self.graph.settable))
        line, reply = self.chance.choice([("set none now 1", "20"), ("close " + name, "21"),
            ("set %s now 1" % self.graph.sinks[0], "28"), ("read o0 0 1", "50"), ("close none", "20")])
        came = self.live.ask(line)
        check(came == "refused " + reply, "to %r came %r" % (line, came))

    def close(self):
        """A source is closed, and its reader is not read any more; a second close is refused. One source stays open."""
        source = next(iter(self.closed), None) or self.chance.choice(self.graph.sources)
        word, number = self.live.ask("close " + source).split()
        if source in self.closed:
            check((word, number) == ("refused", "23"), "a second close is answered %s %s" % (word, number))
            return
        check(word == "closed" and int(number) <= len(self.tapes[source]),
            "of %d items %s were read" % (len(self.tapes[source]), number))
        self.closed[source] = int(number)

    def whole(self, program):
        """What a script with the same calls at the same items reads of each sink, and how it ends."""
        lines = list(self.settings)
        for source, tape in self.tapes.items():
            tape = tape[: self.closed.get(source, len(tape))]
            lines += ["feed %s %s" % (source, " ".join(map(str, tape[at : at + PIECE])))
                for at in range(0, len(tape), PIECE)]
            lines.append("close " + source)
        lines.append("settle")
        reads = ["read %s 0 100000" % sink for sink in self.graph.sinks]
        replies = script(program, self.folder, lines + reads)
        for line, reply in zip(self.settings, replies):
            check(reply == "taken " + line.split()[2], "a script answers %r to %r" % (reply, line))
        shown = zip(self.graph.sinks, replies[len(lines) :])
        return {sink: [int(item) for item in reply.split()[2:]] for sink, reply in shown}

    def finish(self, program):
        """It ends by itself once the producers do, or by a stop, and what streamed is what the script reads, or a
        beginning of it."""
        # (where one of two that are joined is closed, it may have ended)
        is_stopped = self.chance.random() < 0.3 and not (self.graph.is_joined and self.closed)
        if is_stopped:
            check(self.live.ask("stop") == "stopped", "the reply to a stop")
        for end in self.ends.values():
            end.close()
        wanted = self.whole(program)
        report, errors = self.live.run.communicate(timeout=200)
        *sinks, last = report.splitlines()
        check((self.live.run.returncode, errors, last) == (0, "", "stopped" if is_stopped else "done"),
            "it ended in %d with %r and %r" % (self.live.run.returncode, report, errors))
        for sink, line in zip(self.graph.sinks, sinks):
            items = wanted[sink][: int(line.split()[2])] if is_stopped else wanted[sink]
            check(line == "sink %s %d" % (sink, len(items)),
                "the report has %r, of %d items" % (line, len(wanted[sink])))
            came = (self.folder / sink).read_bytes()
            check(came == struct.pack("<%d%s" % (len(items), FORMATS[self.graph.type]), *items),
                "what streamed to %s is not what the script reads" % sink)


def talk(program, folder, seed):
    """One graph."""
    graph = Drawn(seed)
    (folder / "graph.toml").write_text(graph.text(), encoding="utf-8")
    said = Talk(program, folder, graph)
    chance = graph.chance
    for turn in range(chance.randint(10, 40)):
        may_close = turn > 5 and len(graph.sources) == 2 and not graph.is_joined
        last = said.close if may_close else said.give
        chance.choice([said.give, said.give, said.set, said.set, said.levels, said.wrong, last])()
    if graph.is_joined and chance.random() < 0.5:
        said.close()
    said.finish(program)
    return len(said.settings), len(said.closed)


def main():
    """Tries the graphs."""
    program = sys.argv[1:]
    killer = threading.Timer(SECONDS, lambda: os._exit(1))
    killer.daemon = True
    killer.start()
    made = [0, 0]
    for seed in range(GRAPHS):
        with tempfile.TemporaryDirectory() as folder:
            try:
                made = [count + more for count, more in zip(made, talk(program, pathlib.Path(folder), seed))]
            except Wrong as wrong:
                print("graph %d: %s" % (seed, wrong))
                return 1
    if made[0] < 3 * GRAPHS or made[1] < GRAPHS // 20:
        print("of %d graphs only %d settings were taken, and %d sources closed" % (GRAPHS, *made))
        return 1
    return 0


if __name__ == "__main__":
    sys.exit(main())
