#!/usr/bin/env python3
"""Live runs between files, by the program whose words stand behind the name of a case: what lines ask while items
stream, and the replies. Prints what is wrong."""

import json
import os
import pathlib
import random
import shlex
import struct
import subprocess
import sys
import tempfile
import threading
import time

FORMATS = {"byte": "B", "short": "h", "int": "i"}
# So many items a source is given between two settings, and so many settings are made.
PIECE = 3000
SETTINGS = 8
# A stop takes so many seconds at most, beside a round of the blocks, at the best of a few. (A program with checks is
# slower than a proved one by far.)
SOON = 0.05
STOPS = 5
# A stream that is set for so many seconds, each hundredth of one or, if they are given, each second, grows by so many
# kilobytes at most, and has so many. A program with checks has more, terabytes of addresses among it, and keeps what is
# let go unless it is told not to.
LONG, PAUSE = (float(os.environ["SPOKEN_SECONDS"]), 1) if "SPOKEN_SECONDS" in os.environ else (4, 0.01)
GROWTH, MOST = 16384, 32768
KEEPS_NOTHING = {"ASAN_OPTIONS": "quarantine_size_mb=0:thread_local_quarantine_size_kb=0"}

# Of each graph its type, the blocks between source and sink, with their parameters, the one that is set, and what it is
# set to.
GRAPHS = [
    ("byte", ["add_const value = 1"], 0, [[3], [200]]),
    ("short", ["multiply_const value = 3"], 0, [[-2], [7]]),
    ("byte", ["and_const value = 15"], 0, [[240], [255]]),
    ("byte", ["or_const value = 1"], 0, [[2], [128]]),
    ("int", ["xor_const value = 1"], 0, [[77], [-1]]),
    ("short", ["fir taps = [1, 2, 3]"], 0, [[3, 4, 5], [-1, 0, 1]]),
    ("short", ["fir taps = [1, 2, 3, 4] decimation = 3"], 0, [[3, 4, 5, 6], [0, 0, 0, 1]]),
    ("int", ["interp_fir taps = [1, 2, 3] interpolation = 2"], 0, [[3, 4, 5], [9, 0, -9]]),
    ("byte", ["keep_one_in_n n = 3", "add_const value = 1"], 1, [[5], [6]]),
    ("byte", ["add_const value = 1", "keep_one_in_n n = 3"], 0, [[5], [6]]),
    ("short", ["repeat n = 4", "multiply_const value = 2"], 1, [[5], [6]]),
    ("byte", ["delay n = 9", "add_const value = 1", "not"], 1, [[5], [6]]),
]


class Wrong(Exception):
    """What is not as it has to be."""


def check(holds, text):
    """Whether this holds, which the text says."""
    if not holds:
        raise Wrong(text)


def graph(item, blocks):
    """The text of a graph file: a source, these blocks, one behind the other, and a sink."""
    rows = ['{ name = "src", kind = "vector_source", type = "%s" }' % item]
    for number, block in enumerate(blocks):
        kind, _, parameters = block.partition(" ")
        parameters = parameters.replace("] ", "], ").replace("  ", " ")
        rows.append(
            '{ name = "b%d", kind = "%s", type = "%s"%s }'
            % (number, kind, item, ", " + parameters if parameters else "")
        )
    rows.append('{ name = "out", kind = "vector_sink", type = "%s" }' % item)
    names = ["src", *("b%d" % number for number in range(len(blocks))), "out"]
    wires = ", ".join('{ from = "%s", to = "%s" }' % pair for pair in zip(names, names[1:]))
    return "block = [\n    %s,\n]\nconnect = [%s]\n" % (",\n    ".join(rows), wires)


class Live:
    """A live run in a folder, from the pipe `in` to the file `out`, with lines in the pipe `lines` and replies from the
    pipe `said`."""

    def __init__(self, program, folder, *words):
        self.folder = folder
        for name in ("in", "lines", "said"):
            os.mkfifo(folder / name)
        words = words or ("-i", "src=in", "-o", "out=out")
        self.run = subprocess.Popen(
            [*program, "live", *words, "--control", "lines", "--replies", "said", "graph.toml"],
            cwd=folder, stdin=subprocess.DEVNULL, stdout=subprocess.PIPE, stderr=subprocess.PIPE, text=True)
        self.lines = open(folder / "lines", "w", buffering=1, encoding="utf-8")
        self.said = None

    def ask(self, line):
        """Writes a line, and gives the reply."""
        self.lines.write(line + "\n")
        return self.reply()

    def reply(self):
        """The next reply."""
        if self.said is None:
            self.said = open(self.folder / "said", encoding="utf-8")
        return self.said.readline().rstrip("\n")

    def ends(self, status, report):
        """The run ends so."""
        errors = self.ends_telling(status, report)
        check(errors == "", "it told %r" % errors)

    def ends_telling(self, status, report):
        """The run ends so, and tells this on standard error."""
        came, errors = self.run.communicate(timeout=60)
        check(
            (self.run.returncode, came) == (status, report),
            "it ended in %d with %r and %r" % (self.run.returncode, came, errors),
        )
        return errors

    def rows(self, line, count):
        """The reply of so many lines."""
        return [self.ask(line), *(self.reply() for _ in range(count - 1))]


def script(program, folder, lines):
    """What a script of these lines replies."""
    text = "".join(line + "\n" for line in lines)
    answer = subprocess.run([*program, "script", "graph.toml"], cwd=folder, input=text, capture_output=True,
        text=True, timeout=200, check=False)
    check((answer.returncode, answer.stderr) == (0, ""),
        "the script ended in %d with %r" % (answer.returncode, answer.stderr))
    return answer.stdout.splitlines()


def whole(program, folder, settings, items):
    """What the sink holds behind these settings and items, by a script."""
    lines = list(settings)
    for at in range(0, len(items), 4000):
        lines.append("feed src " + " ".join(str(item) for item in items[at : at + 4000]))
    lines += ["close src", "settle"]
    held = int(script(program, folder, [*lines, "read out 0 1"])[-1].split()[1])
    reads = ["read out %d 4000" % at for at in range(0, held, 4000)]
    replies = script(program, folder, [*lines, *reads])
    got = []
    for reply in replies[len(lines) :]:
        got += [int(item) for item in reply.split()[2:]]
    check(len(got) == held, "the script shows %d of %d items" % (len(got), held))
    return got


def settings(program, folder):
    """Lines set a block while items stream; a script with the same settings at the items of the replies gives the
    same."""
    rng = random.Random(7)
    for number, (item, blocks, which, values) in enumerate(GRAPHS):
        here = folder / str(number)
        here.mkdir()
        (here / "graph.toml").write_text(graph(item, blocks), encoding="utf-8")
        live = Live(program, here)
        source = open(here / "in", "wb", buffering=0)
        fed, made, layout = [], [], "<%d" + FORMATS[item]
        low, high = (0, 255) if item == "byte" else (-1000, 1000)
        for turn in range(SETTINGS):
            piece = [rng.randint(low, high) for _ in range(PIECE)]
            source.write(struct.pack(layout % len(piece), *piece))
            fed += piece
            text = " ".join(str(value) for value in values[turn % 2])
            place = "now" if turn % 3 else str(PIECE * (turn + 1) + turn)
            reply = live.ask("set b%d %s %s" % (which, place, text))
            word, _, at = reply.partition(" ")
            # (that a place has come already is refused with the first that has not)
            if reply.startswith("refused 27 "):
                continue
            check(
                word == "taken" and at.isdigit() and (place == "now" or at == place),
                "graph %d: the reply is %r" % (number, reply),
            )
            made.append("set b%d %s %s" % (which, at, text))
        check(len(made) > SETTINGS // 2, "graph %d: only %d settings were taken" % (number, len(made)))
        source.close()
        wanted = whole(program, here, made, fed)
        live.ends(0, "sink out %d\ndone\n" % len(wanted))
        came = (here / "out").read_bytes()
        check(
            came == struct.pack(layout % len(wanted), *wanted),
            "graph %d: what streamed is not what the script gives" % number,
        )


def stop(program, folder):
    """A stop ends a recording whole, whose producer goes on."""
    (folder / "graph.toml").write_text(graph("short", ["add_const value = 1"]), encoding="utf-8")
    live = Live(program, folder)
    source = open(folder / "in", "wb", buffering=0)
    source.write(struct.pack("<500h", *range(500)))
    while [live.ask("levels"), live.reply(), live.reply()][2].split()[2] != "500":
        pass
    check(live.ask("stop") == "stopped", "the reply to a stop")
    live.ends(0, "sink out 500\nstopped\n")
    check((folder / "out").read_bytes() == struct.pack("<500h", *range(1, 501)), "what was recorded")
    source.close()


def killed(program, folder):
    """A producer that is killed ends a recording whole."""
    (folder / "graph.toml").write_text(graph("byte", ["add_const value = 1"]), encoding="utf-8")
    live = Live(program, folder)
    with open(folder / "in", "wb", buffering=0) as source:
        producer = subprocess.Popen(["sh", "-c", "while :; do printf abcde; sleep 0.01; done"], stdout=source)
    while int([live.ask("levels"), live.reply(), live.reply()][2].split()[2]) < 100:
        time.sleep(0.1)
    producer.kill()
    producer.wait()
    report, errors = live.run.communicate(timeout=60)
    came = (folder / "out").read_bytes()
    check((live.run.returncode, report, errors) == (0, "sink out %d\ndone\n" % len(came), ""),
        "it ended in %d with %r and %r" % (live.run.returncode, report, errors))
    check(len(came) >= 100 and came == b"bcdef" * (len(came) // 5), "what was recorded: %r" % came)


def closes(program, folder):
    """A source that is closed ends the run, and the reply is how many items it had."""
    (folder / "graph.toml").write_text(graph("byte", ["add_const value = 1"]), encoding="utf-8")
    live = Live(program, folder)
    source = open(folder / "in", "wb", buffering=0)
    source.write(bytes(range(100)))
    while True:
        levels = [live.ask("levels"), live.reply(), live.reply()]
        if all(level.split()[2] == "100" for level in levels):
            break
    check(
        levels == ["levels src 100 100 0", "levels b0 100 100 0", "levels out 100 100 0"], "levels at rest: %r" % levels
    )
    check(live.ask("close src") == "closed 100", "the reply to a close")
    live.ends(0, "sink out 100\ndone\n")
    source.close()


def lines(program, folder):
    """Lines that are no requests are refused, and the run goes on; so it does at the end of the lines of one that wrote
    them."""
    (folder / "graph.toml").write_text(graph("byte", ["add_const value = 1", "keep_one_in_n n = 2"]), encoding="utf-8")
    live = Live(program, folder)
    source = open(folder / "in", "wb", buffering=0)
    for line, reply in [
        ("feed src 1", "refused 50"),
        ("read out 0 1", "refused 50"),
        ("settle", "refused 50"),
        ("levls", "refused 50"),
        ("stop now", "refused 50"),
        ("# a comment\n\nset b0 now 3", "taken 0"),
        ("set b1 now 3", "refused 28"),
        ("set b0 now 3 4", "refused 29"),
        ("set zzz now 3", "refused 20"),
        ("close b0", "refused 21"),
        ("close zzz", "refused 20"),
        ("  levels  ", "levels src 0 0 0"),
    ]:
        came = live.ask(line)
        check(came == reply, "to %r came %r" % (line, came))
    live.reply(), live.reply(), live.reply()
    live.lines.close()
    live.lines = open(folder / "lines", "w", buffering=1, encoding="utf-8")
    source.write(bytes(20))
    source.close()
    live.ends(0, "sink out 10\ndone\n")
    check((folder / "out").read_bytes() == bytes([3] * 10), "what streamed")


def standard(program, folder):
    """Lines of standard input, with replies on standard output before the report."""
    (folder / "graph.toml").write_text(graph("byte", ["add_const value = 1"]), encoding="utf-8")
    os.mkfifo(folder / "in")
    run = subprocess.Popen(
        [*program, "live", "-i", "src=in", "-o", "out=out", "graph.toml"], cwd=folder, stdin=subprocess.PIPE,
        stdout=subprocess.PIPE, text=True, bufsize=1,
    )
    source = open(folder / "in", "wb", buffering=0)
    run.stdin.write("set b0 now 7\n")
    check(run.stdout.readline() == "taken 0\n", "the first reply")
    source.write(b"ab")
    run.stdin.write("set b0 2 9\nset b0 100 1\n")
    check([run.stdout.readline(), run.stdout.readline()] == ["taken 2\n", "taken 100\n"], "two replies")
    source.write(b"c")
    source.close()
    report, _ = run.communicate(timeout=60)
    check((run.returncode, report) == (0, "sink out 3\ndone\n"), "the end: %d and %r" % (run.returncode, report))
    check((folder / "out").read_bytes() == b"hil", "what streamed")


def two(program, folder):
    """While two sources are silent a line is answered, and one of them is closed."""
    text = graph("byte", []).replace(
        "]\nconnect",
        '    { name = "t", kind = "vector_source", type = "byte" },\n    { name = "o", kind = "vector_sink", type = '
        '"byte" },\n]\nconnect',
    )
    (folder / "graph.toml").write_text(text.replace('"out" }]', '"out" }, { from = "t", to = "o" }]'), encoding="utf-8")
    os.mkfifo(folder / "t")
    live = Live(program, folder, "-i", "src=in", "-i", "t=t", "-o", "out=out", "-o", "o=o")
    source, other = open(folder / "in", "wb", buffering=0), open(folder / "t", "wb", buffering=0)
    check(live.ask("close t") == "closed 0", "the reply to a close")
    source.write(b"abc")
    source.close()
    live.ends(0, "sink out 3\nsink o 0\ndone\n")
    other.close()


def soon(program, folder):
    """A stop of 254 blocks that run flat out comes within a round of them, which is what a setting takes."""
    (folder / "graph.toml").write_text(graph("int", ["add_const value = 1"] * 252), encoding="utf-8")

    def asked(line, reply):
        began = time.monotonic()
        run.stdin.write(line + "\n")
        check(run.stdout.readline().startswith(reply), "the reply to %s" % line)
        return time.monotonic() - began

    best, times = 100.0, []
    for _ in range(STOPS):
        run = subprocess.Popen(
            [*program, "live", "-i", "src=/dev/zero", "-o", "out=/dev/null", "graph.toml"], cwd=folder,
            stdin=subprocess.PIPE, stdout=subprocess.PIPE, text=True, bufsize=1,
        )
        # (the first rounds take their memory)
        for value in range(8):
            asked("set b0 now %d" % value, "taken ")
        rounds = max(asked("set b0 now %d" % value, "taken ") for value in range(4))
        took = asked("stop", "stopped")
        times.append("%.3f beside %.3f" % (took, rounds))
        best = min(best, took - 2 * rounds)
        report, _ = run.communicate(timeout=60)
        check(report.endswith("\nstopped\n") and run.returncode == 0, "the end: %r" % report)
    check(best <= SOON, "seconds of stops, beside those of rounds: %s" % ", ".join(times))
    if os.environ.get("TELL_TIMES"):
        print(", ".join(times), file=sys.stderr)


def long(program, folder):
    """A stream that is set again and again holds its memory."""
    (folder / "graph.toml").write_text(graph("short", ["fir taps = [1, 2, 3, 4, 5, 6, 7, 8]"]), encoding="utf-8")
    words = ["live", "-i", "src=/dev/zero", "-o", "out=/dev/null", "graph.toml"]
    run = subprocess.Popen([*program, *words], cwd=folder, env=KEEPS_NOTHING, stdin=subprocess.PIPE,
        stdout=subprocess.PIPE, text=True, bufsize=1)

    def memory(key="VmRSS:"):
        status = pathlib.Path("/proc/%d/status" % run.pid).read_text(encoding="utf-8")
        return int(status.partition(key)[2].split()[0])

    began, first, count, last = time.monotonic(), None, 0, -1
    while time.monotonic() - began < LONG:
        run.stdin.write("set b0 now 1 2 3 4 5 6 7 %d\n" % (count % 100))
        at = int(run.stdout.readline().split()[1])
        check(last <= at, "the places of settings fall")
        count, last = count + 1, at
        if first is None and time.monotonic() - began > LONG / 4:
            first = memory()
        time.sleep(PAUSE)
    grown, most, has_checks = memory() - first, memory("VmHWM:"), memory("VmSize:") > 1 << 30
    run.stdin.write("stop\n")
    run.communicate(timeout=60)
    check(run.returncode == 0 and last > 0 and count * PAUSE > LONG / 8, "%d settings, the last at %d" % (count, last))
    check(grown <= GROWTH and (has_checks or most <= MOST),
        "it grew by %d kilobytes to %d while it was set %d times" % (grown, most, count))
    if os.environ.get("TELL_TIMES"):
        print("%d settings, %d items, %d kilobytes at most, grown by %d" % (count, last, most, grown), file=sys.stderr)


def told_times(report):
    """Of each block in a report of JSON what a line `stats` tells of it."""
    keys = ("name", "firings", "nanoseconds_at_work", "turns")
    return [tuple(block[key] for key in keys) for block in json.loads(report)["blocks"]]


def asked_times(live, blocks):
    """What the lines for so many blocks tell of each."""
    told = []
    for row in live.rows("stats", blocks):
        word, name, *numbers = row.split(" ")
        check(word == "stats" and len(numbers) == 3 and all(it.isdigit() for it in numbers), "times: %r" % row)
        told.append((name, *map(int, numbers)))
    return told


def times(program, folder):
    """Of a run that is measured a line asks what its blocks have done, which grows to what its report tells."""
    (folder / "graph.toml").write_text(graph("byte", ["add_const value = 1", "keep_one_in_n n = 4"]), encoding="utf-8")
    live = Live(program, folder, "--stats=json", "-i", "src=in", "-o", "out=out")
    source = open(folder / "in", "wb", buffering=0)
    names, last = ("src", "b0", "b1", "out"), None
    for fed in (0, 1000, 2000):
        source.write(bytes(1000) if fed else b"")
        # (the run answers a line for levels between two rounds, so all turns up to there are over)
        while live.rows("levels", 4)[3].split()[2] != str(fed // 4):
            pass
        told = asked_times(live, 4)
        firings = [(name, fed if name in ("src", "b0") else fed // 4) for name in names]
        check([row[:2] for row in told] == firings, "behind %d items: %r" % (fed, told))
        check(all(turns <= count and (turns > 0) == (count > 0) for _, count, _, turns in told), "turns: %r" % told)
        if last is None:
            check(all(nanos == 0 for _, _, nanos, _ in told), "times of no turn: %r" % told)
        else:
            grows = all(now[at] >= before[at] for now, before in zip(told, last) for at in (2, 3))
            check(grows and sum(row[2] for row in told) > 0, "%r behind %r" % (told, last))
        last = told
    check(live.ask("stats now") == "refused 50" and live.ask("  stats ").startswith("stats src 2000 "), "odd lines")
    for _ in range(3):
        live.reply()
    check(live.ask("stop") == "stopped", "the reply to a stop")
    # (no line behind a stop has a reply)
    try:
        live.lines.write("stats\n")
    except BrokenPipeError:
        pass
    check(live.reply() == "", "a reply behind a stop")
    report = live.ends_telling(0, "sink out 500\nstopped\n")
    check(told_times(report) == last, "the report tells %r, and the lines told %r" % (report, last))
    source.close()


def times_now_and_then(program, folder):
    """The times of a live run so far, of which each report is a line, while its items come in three parts. (When each
    comes is up to the machine.)"""
    (folder / "graph.toml").write_text(graph("byte", ["add_const value = 1"]), encoding="utf-8")
    live = Live(program, folder, "--stats=json", "--stats-every", "1", "-i", "src=in", "-o", "out=out")
    source = open(folder / "in", "wb", buffering=0)
    check(live.ask("set b0 now 2") == "taken 0", "a reply")
    for _ in range(3):
        source.write(bytes(1000))
        time.sleep(1.2)
    source.close()
    reports = live.ends_telling(0, "sink out 3000\ndone\n").splitlines()
    told = [told_times(report)[0][1] for report in reports]
    check(len(told) > 1 and told == sorted(told) and told[-2] > 0 and told[-1] == 3000, "the firings: %r" % told)
    check((folder / "out").read_bytes() == bytes([2] * 3000), "what streamed")


def no_times(program, folder):
    """A line asks for the times of a run that is not measured, or only traced, and is refused."""
    for words in ((), ("--trace", "trace")):
        here = folder / ("here%d" % len(words))
        here.mkdir()
        (here / "graph.toml").write_text(graph("byte", ["add_const value = 1"]), encoding="utf-8")
        live = Live(program, here, *words, "-i", "src=in", "-o", "out=out")
        source = open(here / "in", "wb", buffering=0)
        check(live.ask("stats") == "refused 50", "the reply to a line for times")
        check(live.ask("set b0 now 2") == "taken 0", "the reply behind it")
        source.write(bytes(5))
        source.close()
        live.ends(0, "sink out 5\ndone\n")
        check((here / "out").read_bytes() == bytes([2] * 5), "what streamed")
        if words:
            events = json.loads((here / "trace").read_text(encoding="utf-8"))["traceEvents"]
            fired = sum(it["args"]["firings"] for it in events if it.get("cat") == "turn")
            check(fired == 15, "the trace has %d firings" % fired)


def gone(program, folder):
    """Replies that nobody reads are no fault of the run."""
    (folder / "graph.toml").write_text(graph("byte", ["add_const value = 1"]), encoding="utf-8")
    live = Live(program, folder)
    source = open(folder / "in", "wb", buffering=0)
    check(live.ask("set b0 now 2") == "taken 0", "a reply")
    live.said.close()
    live.lines.write("set b0 now 4\nset b0 now 5\n")
    source.write(bytes(5))
    source.close()
    live.ends(0, "sink out 5\ndone\n")


def readme(program, folder):
    """What README shows of a stream that is set comes as it stands there, and records what the filter's equation gives,
    by one list of taps up to its item 5000 and another from there on."""
    top = pathlib.Path(__file__).resolve().parents[2]
    shown = (top / "README.md").read_text(encoding="utf-8").partition('$ echo "set low')
    lines = (shown[1] + shown[2]).partition("\n```")[0].splitlines()
    calls = [line[2:] for line in lines if line.startswith("$ ")]
    output = [line for line in lines if not line.startswith("$ ")]
    (folder / "flow").write_text('#!/bin/sh\nexec %s "$@"\n' % shlex.join(program), encoding="utf-8")
    (folder / "flow").chmod(0o755)
    (folder / "examples").symlink_to(top / "examples")
    subprocess.run([sys.executable, "examples/signal/make.py", "recording", "recording.s16"], cwd=folder, check=True)
    came = subprocess.run(["bash", "-c", "\n".join(calls)], cwd=folder, capture_output=True, text=True, timeout=180,
        check=False)
    check((came.stdout.splitlines(), came.stderr) == (output, ""),
        "README shows %r, and there came %r and %r" % (output, came.stdout, came.stderr))
    tape = [0] * 20 + [item for (item,) in struct.iter_unpack("<h", (folder / "recording.s16").read_bytes())]
    first, then = [*range(1, 17), *range(16, 0, -1)], list(range(1, 33))
    wanted = []
    for at in range(0, len(tape), 10):
        total = sum(tap * tape[at - back] for back, tap in enumerate(first if at < 5000 else then) if back <= at)
        # (to the nearest number, ties up, within a short)
        wanted.append(max(-32768, min(32767, (total + 128) // 256)))
    check((folder / "set.s16").read_bytes() == struct.pack("<%dh" % len(wanted), *wanted), "what was recorded")


CASES = {"settings": settings, "stop": stop, "killed": killed, "closes": closes, "lines": lines,
    "standard": standard, "two": two, "soon": soon, "long": long, "gone": gone, "readme": readme, "times": times,
    "times_now_and_then": times_now_and_then, "no_times": no_times}


def main():
    """Tries the case."""
    name, program = sys.argv[1], sys.argv[2:]
    killer = threading.Timer(LONG + 200, lambda: os._exit(1))
    killer.daemon = True
    killer.start()
    with tempfile.TemporaryDirectory() as folder:
        try:
            CASES[name](program, pathlib.Path(folder))
        except Wrong as wrong:
            print(wrong)
            return 1
    return 0


if __name__ == "__main__":
    sys.exit(main())
