#!/usr/bin/env python3
"""ber.py [DB..]: counts the wrong bits of receiver.toml for these Es/N0 in decibels, by runs of `flow`, and prints a
line `DB BITS WRONG DECODED WRONG` for each: how many bits came, how many of them were wrong, how many bits of text were
decoded, and how many of these were wrong.

The lines of text are bytes of chance. ber.txt has what comes for 2 to 13 dB. It needs numpy.
"""

import subprocess
import sys
import tempfile
from pathlib import Path
from typing import Dict, List

import numpy
from make import PREAMBLE, recording

HERE = Path(__file__).resolve().parent
# Es/N0 of the lines of ber.txt.
RATIOS = [2, 3, 4, 4.5, 5, 5.5, 6, 6.5, 7, 8, 9, 10, 11, 12, 13]
# A line of text with its line feed, and one that was received, which has a mark too.
LINE, SHOWN = 28, 29
# At which item of its output the first bit behind the preamble stands: 30 are of the noise before it, 64 of the access
# code, and the rest of the filter and the sum.
FIRST = 96 + len(PREAMBLE)


def text(ratio: float) -> numpy.ndarray:
    """The bytes of the lines that are sent for this Es/N0: more where few of their bits will be wrong."""
    count = 400 if 5 <= ratio <= 8 else 100
    return numpy.random.RandomState(round(10 * ratio)).randint(0, 256, count * LINE).astype(numpy.uint8)


def recorded(bits: numpy.ndarray, ratio: float) -> numpy.ndarray:
    """The recording of these bits."""
    return recording(bits, ratio, 1_000 + round(10 * ratio))


def counts(ratio: float, sent: Dict[str, numpy.ndarray], received: Dict[str, numpy.ndarray]) -> str:
    """The line for this Es/N0, of what was sent, its text and its bits, and what was received, bits with marks and
    lines."""
    bits = received["bits"][FIRST : FIRST + len(sent["bits"])] & 1
    wanted = sent["text"].reshape(-1, LINE)[:, :-1]
    lines = received["lines"].reshape(-1, SHOWN)[: len(wanted), 1:-1]
    wrong = numpy.count_nonzero(numpy.unpackbits(lines ^ wanted))
    return f"{ratio:g} {len(bits)} {numpy.count_nonzero(bits != sent['bits'])} {8 * wanted.size} {wrong}"


def run(graph: str, source: str, items: numpy.ndarray, sinks: List[str]) -> Dict[str, numpy.ndarray]:
    """What the sinks of a graph of this folder hold after a run on these items."""
    with tempfile.TemporaryDirectory() as room:
        items.tofile(Path(room) / source)
        outputs = [word for sink in sinks for word in ("-o", f"{sink}={room}/{sink}")]
        subprocess.run(
            ["flow", "run", "--quiet", "-i", f"{source}={room}/{source}", *outputs, HERE / graph], check=True,
            stdout=subprocess.DEVNULL,
        )
        return {sink: numpy.fromfile(Path(room) / sink, numpy.uint8) for sink in sinks}


def main(words: List[str]) -> None:
    """Prints a line for each of the words."""
    for ratio in map(float, words or RATIOS):
        sent = {"text": text(ratio)}
        sent.update(run("sender.toml", "text", sent["text"], ["bits"]))
        received = run("receiver.toml", "iq", recorded(sent["bits"], ratio), ["bits", "lines"])
        print(counts(ratio, sent, received), flush=True)


if __name__ == "__main__":
    main(sys.argv[1:])
