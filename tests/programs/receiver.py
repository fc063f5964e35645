#!/usr/bin/env python3
"""receiver.py CASE TOP START..: tries examples/receiver and docs/user/TUTORIAL.md of the checkout TOP, with a program
that these words start, and says what is wrong.

page        each command of the page, as it stands there, writes what the page shows, and the files of each step have
the items that receiver_model.py computes;
            the plots that come are those of the page
errors      ber.txt has the counts that the model makes of the same recordings
pictures    the pictures of the graphs show what `flow draw` writes
"""

import os
import re
import subprocess
import sys
import tempfile
from pathlib import Path
from typing import Iterator, List, Tuple

STEPS = ["1_filter", "2_frequency", "3_bits", "4_frames", "5_order", "6_text"]
# The longest that a command of the page takes, in seconds.
LONGEST = 300


def calls_of(page: Path) -> Iterator[Tuple[str, str]]:
    """The commands behind a `$` in fences without a language, each with what it shows. One that ends in `|` goes on in
    the next line."""
    for fence in re.findall(r"(?ms)^```\n(.*?)^```$", page.read_text()):
        for call in re.split(r"(?m)^\$ ", fence)[1:]:
            lines = call.splitlines(keepends=True)
            command = lines.pop(0)
            while command.endswith("|\n"):
                command += lines.pop(0)
            yield command.rstrip("\n"), "".join(lines)


def set_up(top: Path, start: List[str], room: Path) -> None:
    """A folder as the top of the checkout, with `flow` in PATH, and with this Python as `python3`."""
    (room / "bin").mkdir()
    (room / "bin" / "python3").symlink_to(sys.executable)
    (room / "examples").symlink_to(top / "examples")
    flow = room / "bin" / "flow"
    words = " ".join(f"'{word}'" for word in start)
    # (unproved, threads take ten times as long, since each claim is checked)
    flow.write_text(f"""#!/usr/bin/env bash
words=("$@")
[[ $1 != run ]] || words=(run --one-thread "${{@:2}}")
exec {words} "${{words[@]}}"
""")
    flow.chmod(0o755)
    os.environ["PATH"] = f"{room / 'bin'}:{os.environ['PATH']}"
    os.environ["PYTHONDONTWRITEBYTECODE"] = "1"
    os.chdir(room)


def commands_differ(page: Path) -> Iterator[str]:
    """Runs the commands of the page, and tells those that write something else."""
    calls = list(calls_of(page))
    if len(calls) < 15:
        yield f"{page.name} shows no more than {len(calls)} commands"
    for command, shown in calls:
        done = subprocess.run(
            ["bash", "-o", "pipefail", "-c", command], stdin=subprocess.DEVNULL, stdout=subprocess.PIPE,
            stderr=subprocess.STDOUT, text=True, timeout=LONGEST, check=False,
        )
        if done.returncode != 0 or done.stdout != shown:
            yield f"$ {command}\nstatus {done.returncode}, wanted\n{shown}and there came\n{done.stdout}"
            return


def steps_differ(top: Path) -> Iterator[str]:
    """Compares the files that the commands made with the items of the model."""
    import numpy
    import receiver_model as model

    blocks = model.blocks_of(top / "examples/receiver/receiver.toml")
    text = (top / "examples/receiver/text.txt").read_bytes()
    i, q = model.channel(numpy.fromfile("recording.iq", numpy.uint8), blocks)
    turns = model.frequency(i, q)
    sums = model.levels(turns)
    bits = model.marked(sums, blocks)
    phases = model.phases(sums, model.blocks_of(top / "examples/receiver/3_bits.toml"))
    soft = model.soft(sums, blocks)
    coded = model.coded(soft)
    lines = numpy.frombuffer(model.shown(model.decoded(coded)), numpy.uint8)
    for name, kind, wanted in (
        ("sent.u8", "u1", model.sent(text)),
        ("i.s16", "<i2", i),
        ("q.s16", "<i2", q),
        ("frequency.s32", "<i4", turns),
        ("levels.s32", "<i4", sums),
        ("phase.s32", "<i4", phases),
        ("soft.s32", "<i4", soft),
        ("bits.u8", "u1", bits),
        ("coded.s32", "<i4", coded),
        ("lines.txt", "u1", lines),
        ("all.u8", "u1", bits),
        ("all.txt", "u1", lines),
    ):
        came = numpy.fromfile(name, kind)
        if not numpy.array_equal(came, wanted):
            yield f"{name} has {len(came)} items, and the model gives {len(wanted)} that differ"
    came_lines = Path("lines.txt").read_text().splitlines()
    wrong = [line for line, sent in zip(came_lines, text.decode().splitlines()) if line != "+" + sent]
    if len(came_lines) != 12 or [line[0] for line in wrong] != ["-"]:
        yield f"of {len(came_lines)} lines these are not what was sent, and the page says one: {wrong}"


def numbers_of(picture: str) -> Tuple[str, List[float]]:
    """The text of a picture without its numbers, and these."""
    return re.sub(r"-?\d+(\.\d+)?", "#", picture), [float(it) for it in re.findall(r"-?\d+(?:\.\d+)?", picture)]


def plots_differ(top: Path) -> Iterator[str]:
    """Draws the plots of the files that the commands made, and tells those that the page does not show. A pixel more or
    less is none."""
    subprocess.run([sys.executable, top / "examples/receiver/plots.py", "."], check=True, timeout=LONGEST)
    plots = sorted(Path(".").glob("tutorial_*.svg"))
    if len(plots) != 6:
        yield f"plots.py draws {len(plots)} plots"
    for plot in plots:
        words, places = numbers_of(plot.read_text())
        shown_words, shown_places = numbers_of((top / "docs/user" / plot.name).read_text())
        if words != shown_words or any(abs(one - other) > 1 for one, other in zip(places, shown_places)):
            yield f"examples/receiver/plots.py draws another {plot.name} than docs/user has"


def page(top: Path) -> Iterator[str]:
    """The commands of the page, their files and the plots."""
    wrong = list(commands_differ(top / "docs/user/TUTORIAL.md"))
    if wrong:
        yield from wrong
        return
    yield from steps_differ(top)
    yield from plots_differ(top)


def errors(top: Path) -> Iterator[str]:
    """The counts of ber.txt."""
    import ber
    import numpy
    import receiver_model as model

    blocks = model.blocks_of(ber.HERE / "receiver.toml")
    shown = (top / "examples/receiver/ber.txt").read_text().splitlines()
    for line in shown:
        ratio = float(line.split()[0])
        text = ber.text(ratio)
        sent = {"text": text, "bits": model.sent(text.tobytes())}
        sums = model.levels(model.frequency(*model.channel(ber.recorded(sent["bits"], ratio), blocks)))
        lines = model.shown(model.decoded(model.coded(model.soft(sums, blocks))))
        # (the bits without the 64 before them)
        received = {"bits": model.before(model.sliced(sums, blocks), 64), "lines": numpy.frombuffer(lines, numpy.uint8)}
        wanted = ber.counts(ratio, sent, received)
        if line != wanted:
            yield f"ber.txt has '{line}', and the model counts '{wanted}'"
    if [float(line.split()[0]) for line in shown] != ber.RATIOS:
        yield f"ber.txt has {len(shown)} lines"


def pictures(top: Path) -> Iterator[str]:
    """The pictures of the graphs."""
    for number, step in enumerate(STEPS, 1):
        drawn = subprocess.run(
            ["flow", "draw", f"examples/receiver/{step}.toml"], stdout=subprocess.PIPE, text=True, timeout=LONGEST,
            check=True,
        ).stdout
        Path("drawn").write_text(drawn)
        told = subprocess.run(
            [sys.executable, top / "tests/drawn.py", "drawn", top / f"docs/user/tutorial_step_{number}.svg"],
            stdout=subprocess.PIPE, text=True, check=False,
        )
        if told.returncode != 0 or told.stdout:
            yield f"docs/user/tutorial_step_{number}.svg: {told.stdout}"


def main(words: List[str]) -> int:
    """Tries the case, and says what is wrong."""
    case, top, start = (
        {"page": page, "errors": errors, "pictures": pictures}[words[0]], Path(words[1]).resolve(), words[2:],
    )
    sys.path.insert(0, str(top / "examples/receiver"))
    with tempfile.TemporaryDirectory() as room:
        set_up(top, start, Path(room))
        wrong = list(case(top))
        os.chdir(top)
    print("\n".join(wrong), end="\n" if wrong else "")
    return 1 if wrong else 0


if __name__ == "__main__":
    sys.exit(main(sys.argv[1:]))
