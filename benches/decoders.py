#!/usr/bin/python3
"""How many bits a second GNU Radio and Magbelu decode of a convolutional code with 64 states and two bits for each,
from pairs of shorts in a file to bits in a file.

usage: decoders.py [--flow COMMAND] [--bits N]

COMMAND runs a graph file, `./flow` if none is said; N is a million if none is said. The code is that of the polynomials
171 and 133, in blocks of 256 bits, and each bit of it came as a short from -100 to 100 with noise. GNU Radio's block is
`trellis.viterbi_combined_sb`; the graph is what `flow-from-grc` makes of it, on one thread and on as many as the
program takes. Each row is the best of three runs in turn, and the least nanoseconds that all processors work on a bit,
both without what a start of GNU Radio or of the program costs. It ends with status 1 where the bits differ."""

import argparse
import random
import resource
import subprocess
import sys
import tempfile
import time
from array import array
from pathlib import Path
from typing import Callable, Dict, Tuple

TOP = Path(__file__).resolve().parent.parent
sys.path[:0] = [str(TOP / "python"), str(TOP / "tests" / "gnuradio")]

from gnuradio import blocks, digital, gr, trellis  # noqa: E402
from own import Port, Stream, drawn  # noqa: E402

CODE, STEPS = (1, 2, [0o171, 0o133]), 256
POINTS = [-100, -100, -100, 100, 100, -100, 100, 100]


def sent(count: int) -> array:
    """Bits by chance, coded and with noise."""
    draw, state, came = random.Random(1), 0, array("h")
    fsm = trellis.fsm(*CODE)
    following, given = fsm.NS(), fsm.OS()
    for at in range(count):
        if at % STEPS == 0:
            state = 0
        row = 2 * state + draw.getrandbits(1)
        came.extend(it + draw.randint(-120, 120) for it in POINTS[2 * given[row]:2 * given[row] + 2])
        state = following[row]
    return came


def in_gnu_radio(source: Path, target: Path) -> None:
    top = gr.top_block()
    decoder = trellis.viterbi_combined_sb(trellis.fsm(*CODE), STEPS, 0, -1, 2, POINTS, digital.TRELLIS_EUCLIDEAN)
    top.connect(blocks.file_source(gr.sizeof_short, str(source), False), decoder, blocks.file_sink(1, str(target)))
    top.run()


def graph_file() -> str:
    """The graph that flow-from-grc makes of such a block."""
    keys = {
        "type": "s", "out_type": "b", "fsm_args": ", ".join(map(str, CODE)), "block_size": STEPS, "dim": 2,
        "table": POINTS,
    }
    return drawn("trellis_viterbi_combined_xx", keys, [Stream("short", [])], [Port("byte")]).toml([])


def measured(way: Callable[[Path, Path], None], source: Path, target: Path) -> Tuple[float, float]:
    """How many seconds a run takes, and how many all processors work."""

    def worked() -> float:
        return sum(
            it.ru_utime + it.ru_stime
            for it in map(resource.getrusage, (resource.RUSAGE_SELF, resource.RUSAGE_CHILDREN))
        )

    begun, before = time.perf_counter(), worked()
    way(source, target)
    return time.perf_counter() - begun, worked() - before


def main() -> int:
    parser = argparse.ArgumentParser()
    parser.add_argument("--flow", default=str(TOP / "flow"))
    parser.add_argument("--bits", type=int, default=1_000_000)
    words = parser.parse_args()
    with tempfile.TemporaryDirectory() as folder:
        room = Path(folder)
        (room / "graph.toml").write_text(graph_file())

        def in_flow(*more: str) -> Callable[[Path, Path], None]:
            return (
                lambda source, target: subprocess.run(
                    [
                        *words.flow.split(), "run", "-q", *more, "-i", f"in0={source}", "-o", f"out0={target}",
                        str(room / "graph.toml"),
                    ],
                    check=True,
                    stdout=subprocess.DEVNULL,
                )
                and None
            )

        ways = {"GNU Radio": in_gnu_radio, "one thread": in_flow("--one-thread"), "threads": in_flow()}
        (room / "few").write_bytes(sent(STEPS).tobytes())
        (room / "all").write_bytes(sent(words.bits // STEPS * STEPS).tobytes())
        best: Dict[str, Tuple[float, float]] = {}
        bits = words.bits // STEPS * STEPS
        for _ in range(3):
            for name, way in ways.items():
                start, whole = (measured(way, room / size, room / name) for size in ("few", "all"))
                rest = tuple(end - begun for begun, end in zip(start, whole))
                best[name] = tuple(map(min, best.get(name, rest), rest))
        for name, (seconds, work) in best.items():
            print(f"{name:12} {bits / seconds / 1e6:8.3f} million bits a second {work / bits * 1e9:8,.0f} ns a bit")
        gives = [(room / name).read_bytes() for name in ways]
        equal = gives[0] == gives[1] == gives[2]
        print("the bits are equal" if equal else "the bits differ")
    return 0 if equal else 1


if __name__ == "__main__":
    sys.exit(main())
