#!/usr/bin/env python3
"""Tries flow-from-grc, as the part `grc` of ./test: `run.py list` prints the names of the cases, `run.py run ROOM`
tries those that ROOM/wanted has.

cases/      drawings, each with the graph file that it stands for, and what standard error has; with NAME.samples, also
what each of its sinks holds in GNU Radio broken/     drawings that are refused, each with the line that says so
../../examples/grc/   drawings with their graph files, and with files of samples

Where flow is built (./build), the graphs run, and where GNU Radio is installed, grcc builds the drawings and they run
there: both have the same samples.
"""

from __future__ import annotations

import functools
import os
import pathlib
import re
import shutil
import struct
import subprocess
import sys
import tempfile
from dataclasses import dataclass
from typing import Callable, Dict, Iterator, List, Mapping, Sequence, Tuple

HERE = pathlib.Path(__file__).resolve().parent
TOP = HERE.parent.parent
EXAMPLES = TOP / "examples" / "grc"
CONVERTER = TOP / "flow-from-grc"
FLOW = TOP / "crates" / "flow_program" / "out" / "built" / "flow_program"
# (Debian's GNU Radio is there for its own Python alone.)
SYSTEM = {**os.environ, "PATH": "/usr/bin:/bin"}


def hand_made_samples() -> Dict[str, bytes]:
    """What the examples write, by hand and by the filter's equation, under the names of their files."""
    recording = struct.unpack("<100000h", made_recording())
    filtered = [recording[at] + (recording[at - 2] if at else 0) for at in range(0, len(recording), 10)]
    return {
        "early.u8": bytes([254, 255, 0, 1, 2, 3, 10, 9]),
        "late.u8": bytes([98, 99, 100, 101, 102, 103, 110, 109]),
        "filtered.s16": struct.pack("<10000h", *filtered),
        "sums.s32": struct.pack("<6i", 2, 2, 40, 40, 600, 600),
    }


def made_recording() -> bytes:
    """The recording of examples/signal."""
    with tempfile.TemporaryDirectory() as room:
        path = pathlib.Path(room) / "recording.s16"
        subprocess.run(
            [sys.executable, str(TOP / "examples" / "signal" / "make.py"), "recording", str(path)], check=True
        )
        return path.read_bytes()


@dataclass(frozen=True)
class Case:
    """A name, and a call that gives what came and what was wanted, or None where that cannot be tried here."""

    name: str
    outcome: Callable[[], Tuple[object, object]]
    lacks: str = ""


def convert(
    words: Sequence[str], room: pathlib.Path, env: Mapping[str, str] = os.environ
) -> "subprocess.CompletedProcess[str]":
    """Calls flow-from-grc in a folder."""
    return subprocess.run([sys.executable, str(CONVERTER), *words], cwd=room, env=env, capture_output=True, text=True)


def drawing(path: pathlib.Path) -> Tuple[object, object]:
    """The graph file of a drawing, and what standard error has where that stands beside it."""
    answer = convert([path.name], path.parent)
    errors = path.with_suffix(".err")
    wanted = errors.read_text() if errors.exists() else answer.stderr
    return (answer.returncode, answer.stdout, answer.stderr), (0, path.with_suffix(".toml").read_text(), wanted)


def broken_drawing(path: pathlib.Path) -> Tuple[object, object]:
    """One line for each that is refused, and nothing on standard output."""
    answer = convert([path.name], path.parent)
    return (answer.returncode, answer.stdout, answer.stderr), (1, "", path.with_suffix(".err").read_text())


def drawings() -> Iterator[Case]:
    """Those that have a graph file, and those that are refused."""
    for path in sorted([*(HERE / "cases").glob("*.grc"), *EXAMPLES.glob("*.grc")]):
        yield Case("drawn/" + path.stem, lambda path=path: drawing(path))
    for path in sorted((HERE / "broken").glob("*.grc")):
        yield Case("broken/" + path.stem, lambda path=path: broken_drawing(path))


def in_room(call: Callable[[pathlib.Path], Tuple[object, object]]) -> Callable[[], Tuple[object, object]]:
    """The same call in a folder of its own, with a drawing in it."""

    def outcome() -> Tuple[object, object]:
        with tempfile.TemporaryDirectory() as folder:
            room = pathlib.Path(folder)
            shutil.copy(EXAMPLES / "adders.grc", room)
            return call(room)

    return outcome


def to_a_file(room: pathlib.Path) -> Tuple[object, object]:
    """The graph goes to the file, and the command line to standard error."""
    answer = convert(["-o", "made.toml", "adders.grc"], room)
    text = (EXAMPLES / "adders.toml").read_text().replace("graph.toml", "made.toml")
    made = (room / "made.toml").read_text()
    wanted = "flow run -o early=early.u8 -o late=late.u8 made.toml"
    return (answer.returncode, answer.stdout, answer.stderr.splitlines()[-1], made), (0, "", wanted, text)


def to_a_path_of_two_lines(room: pathlib.Path) -> Tuple[object, object]:
    """Where a comment could not have the path, it has the one of a graph that goes to standard output."""
    found, wanted = [], []
    for path in ("a\nkey = 1.toml", "\x7f.toml"):
        answer = convert(["-o", path, "adders.grc"], room)
        found.append(
            (answer.returncode, (room / path).read_text(), answer.stderr.endswith("-o late=late.u8 '%s'\n" % path))
        )
        wanted.append((0, (EXAMPLES / "adders.toml").read_text(), True))
    return found, wanted


def onto_the_drawing(room: pathlib.Path) -> Tuple[object, object]:
    """The drawing stays, by whatever path it is to be written."""
    (room / "linked.toml").symlink_to("adders.grc")
    os.link(room / "adders.grc", room / "twin.toml")
    paths = ("adders.grc", "./adders.grc", "linked.toml", "twin.toml")
    answers = [convert(["-o", it, "adders.grc"], room) for it in paths]
    found = [(it.returncode, it.stdout, it.stderr) for it in answers]
    wanted = [(4, "", "flow-from-grc: refused 52 Write %s: it is the drawing\n" % it) for it in paths]
    return (found, (room / "adders.grc").read_bytes()), (wanted, (EXAMPLES / "adders.grc").read_bytes())


def status_of(*words: str) -> Callable[[pathlib.Path], Tuple[object, object]]:
    """Words that are none of its own."""
    return lambda room: (convert(words, room).returncode, 2)


def refusal_of(text: str, *words: str) -> Callable[[pathlib.Path], Tuple[object, object]]:
    """A file that cannot be read or written."""

    def call(room: pathlib.Path) -> Tuple[object, object]:
        answer = convert(words, room)
        return (answer.returncode, answer.stderr), (4, "flow-from-grc: refused %s: No such file or directory\n" % text)

    return call


def without_yaml(room: pathlib.Path) -> Tuple[object, object]:
    """A Python that has no module yaml."""
    (room / "yaml.py").write_text("raise ImportError\n")
    answer = convert(["adders.grc"], room, {**os.environ, "PYTHONPATH": str(room)})
    wanted = "flow-from-grc: Python has no module yaml: the package python3-yaml of Debian, or PyYAML of pip, has it\n"
    return (answer.returncode, answer.stdout, answer.stderr), (127, "", wanted)


def calls() -> Iterator[Case]:
    """Words, files that are not there or may not be written, and a Python without yaml."""
    yield Case("calls/to_a_file", in_room(to_a_file))
    yield Case("calls/to_a_path_of_two_lines", in_room(to_a_path_of_two_lines))
    yield Case("calls/onto_the_drawing", in_room(onto_the_drawing))
    yield Case("calls/no_words", in_room(status_of()))
    yield Case("calls/other_words", in_room(status_of("--fast", "adders.grc")))
    yield Case("calls/no_file", in_room(refusal_of("51 Read none.grc", "none.grc")))
    yield Case("calls/no_folder", in_room(refusal_of("52 Write none/made.toml", "-o", "none/made.toml", "adders.grc")))
    yield Case("calls/no_yaml", in_room(without_yaml))


def quotes() -> Iterator[Case]:
    """What pages show of calls of flow-from-grc: from a line that begins with $ to the next, or to the end of the
    fence."""
    call = re.compile(r"^\$ (?:\./)?flow-from-grc (.*)\n((?:(?!```|\$ ).*\n)*)", re.M)
    for page in (TOP / "docs" / "user" / "FOR_GNU_RADIO_USERS.md", EXAMPLES / "README.md"):
        found = call.findall(page.read_text())
        yield Case("pages/%s/shows_calls" % page.stem, lambda found=found: (bool(found), True))
        for number, (words, wanted) in enumerate(found):
            yield Case("pages/%s/%d" % (page.stem, number), lambda words=words, wanted=wanted: (quoted(words), wanted))


def quoted(words: str) -> str:
    """What a call writes whose files have their names from the top."""
    with tempfile.TemporaryDirectory() as folder:
        room = pathlib.Path(folder)
        for name in ("examples", "tests"):
            (room / name).symlink_to(TOP / name)
        answer = convert(words.split(), room)
        return answer.stdout + answer.stderr


def sinks_of(report: str) -> List[str]:
    """The sinks of a report of flow, by their names, without the sources of tags."""
    lines = [re.sub(r"(@\S+=-?\d+)/\d+", r"\1", it) for it in report.splitlines() if it.startswith("sink ")]
    return sorted(lines)


# Of this drawing GNU Radio itself gives too few items now and then, on a machine that is at work: its sinks were
# compared by hand. Each of its blocks stands beside flow's in tests/gnuradio/own.py.
UNSTEADY = {"frames"}


def runs(
    where: str,
    lacks: str,
    example: Callable[[pathlib.Path, pathlib.Path], None],
    sinks: Callable[[pathlib.Path], List[str]],
) -> Iterator[Case]:
    """The files that the examples write where they run, and what the sinks of the other drawings hold there."""

    @functools.lru_cache(maxsize=None)
    def written() -> Dict[str, bytes]:
        with tempfile.TemporaryDirectory() as folder:
            room = pathlib.Path(folder)
            (room / "recording.s16").write_bytes(made_recording())
            for path in sorted(EXAMPLES.glob("*.grc")):
                example(path, room)
            return {it.name: it.read_bytes() for it in room.iterdir() if it.is_file()}

    for name in ("early.u8", "late.u8", "filtered.s16", "sums.s32"):
        yield Case("%s/%s" % (where, name), lambda name=name: (written().get(name), hand_made_samples()[name]), lacks)
    for path in sorted((HERE / "cases").glob("*.samples")):
        if where != "gnu_radio" or path.stem not in UNSTEADY:
            yield Case(
                "%s/%s" % (where, path.stem), lambda path=path: (sinks(path), path.read_text().splitlines()), lacks
            )


def run_in_flow(path: pathlib.Path, room: pathlib.Path) -> None:
    """Runs the command line that flow-from-grc gives of a drawing."""
    words = convert(["-o", str(room / "graph.toml"), str(path)], room).stderr.splitlines()[-1].split()
    subprocess.run([str(FLOW), *words[1:]], cwd=room, check=False, stdout=subprocess.DEVNULL)


def sinks_in_flow(path: pathlib.Path) -> List[str]:
    """What flow reports of the graph file."""
    return sinks_of(
        subprocess.run(
            [str(FLOW), "run", str(path.with_suffix(".toml"))], capture_output=True, text=True, check=False
        ).stdout
    )


def in_flow() -> Iterator[Case]:
    """The graphs run in the program that ./build made."""
    yield from runs("flow", "" if FLOW.exists() else "./build has not built flow", run_in_flow, sinks_in_flow)


# Prints what the vector sinks of a drawing hold that grcc has built, as flow does.
SHOW_SINKS = """
import importlib, sys, pmt
drawn = importlib.import_module(sys.argv[1])
top = getattr(drawn, sys.argv[1])()
top.run()
for name, it in sorted(vars(top).items()):
    if hasattr(it, "data") and hasattr(it, "tags"):
        tags = ["@%d:%s=%d" % (tag.offset, pmt.symbol_to_string(tag.key), pmt.to_long(tag.value)) for tag in it.tags()]
        print("sink", name, len(it.data()), *it.data(), *tags)
"""


def run_in_gnu_radio(path: pathlib.Path, room: pathlib.Path) -> List[str]:
    """Has grcc build a drawing, and runs it."""
    env = {**SYSTEM, "HOME": str(room), "PYTHONPATH": str(room)}
    subprocess.run(["grcc", "-o", str(room), str(path)], env=env, cwd=room, capture_output=True, check=False)
    name = re.search(r"^    id: (\w+)$", path.read_text(), re.M)
    words = ["/usr/bin/python3", "-c", SHOW_SINKS, name.group(1) if name else ""]
    answer = subprocess.run(words, env=env, cwd=room, capture_output=True, text=True, check=False)
    # (GNU Radio tells of buffers there, too)
    return [line for line in answer.stdout.splitlines() if line.startswith("sink ")] or answer.stderr.splitlines()


def sinks_in_gnu_radio(path: pathlib.Path) -> List[str]:
    """What the sinks of a drawing hold there."""
    with tempfile.TemporaryDirectory() as folder:
        return run_in_gnu_radio(path.with_suffix(".grc"), pathlib.Path(folder))


def in_gnu_radio() -> Iterator[Case]:
    """The drawings run in GNU Radio: what they are held against above is what it gives."""
    lacks = "" if shutil.which("grcc", path=SYSTEM["PATH"]) else "GNU Radio is not installed"
    yield from runs("gnu_radio", lacks, lambda path, room: run_in_gnu_radio(path, room) and None, sinks_in_gnu_radio)


def cases() -> Iterator[Case]:
    """All of them."""
    for part in (drawings, calls, quotes, in_flow, in_gnu_radio):
        yield from part()


def tell(results: "pathlib.Path", case: Case) -> None:
    """Tries a case, and adds how it ended to the results."""
    name = "grc/" + case.name
    if case.lacks:
        print("left out: %s: %s" % (name, case.lacks))
        kind = "left_out"
    else:
        found, wanted = case.outcome()
        kind = "passed" if found == wanted else "failed"
        if kind == "failed":
            print("FAILED %s\n    wanted %s\n    and there came %s" % (name, wanted, found))
    with results.open("a") as out:
        out.write("%s %s\n" % (kind, name))


def main(words: Sequence[str]) -> None:
    """Lists the cases, or tries those that are wanted."""
    if words == ["list"]:
        for case in cases():
            print("grc/" + case.name)
        return
    room = pathlib.Path(words[1])
    wanted = set((room / "wanted").read_text().split())
    for case in cases():
        if "grc/" + case.name in wanted:
            tell(room / "results", case)


if __name__ == "__main__":
    main(sys.argv[1:])
