#!/usr/bin/env python3
"""plots.py FOLDER: draws what each step of this example gives, of the files that docs/user/TUTORIAL.md makes in the
current folder, and the wrong bits of ber.txt beside what theory.py calculates, as SVG files in FOLDER. It needs
numpy."""

import sys
from pathlib import Path
from typing import Callable, Dict, Iterator, List, Tuple

import numpy
import theory
from make import DEVIATION, LEVEL, OFFSET, RATE, RATIO, SAMPLES
from svg import BLUE, BOTTOM, GREEN, GREY, HEIGHT, LEFT, ORANGE, PURPLE, RED, TOP, Plot

HERE = Path(__file__).resolve().parent
# What the filter multiplies with, and how many samples it keeps one of.
GAIN, EVERY = 64, 4
# The least power that a spectrum shows, in decibels.
LEAST = -40


def read(name: str, kind: str) -> numpy.ndarray:
    """The items of a file."""
    return numpy.fromfile(name, kind).astype(numpy.int64)


def spectrum(samples: numpy.ndarray, rate: float, size: int) -> List[tuple]:
    """The power at each frequency in kHz, in decibels for a kHz."""
    window = numpy.hanning(size)
    pieces = samples[: len(samples) // size * size].reshape(-1, size) * window
    powers = (abs(numpy.fft.fft(pieces, axis=1)) ** 2).mean(axis=0) / ((window**2).sum() * rate / 1000)
    places = numpy.fft.fftshift(numpy.fft.fftfreq(size, 1000 / rate))
    return list(zip(places, numpy.maximum(LEAST, 10 * numpy.log10(numpy.fft.fftshift(powers)))))


def filter_plot() -> Plot:
    """The spectrum before the filter and behind it."""
    pairs = read("recording.iq", "u1").reshape(-1, 2) - 128
    plot = Plot((-128, 128), (LEAST, 30))
    plot.axes(
        [(at, str(at)) for at in range(-128, 129, 32)], [(at, str(at)) for at in range(LEAST, 31, 10)], "kHz", "dB"
    )
    plot.line(spectrum(pairs[:, 0] + 1j * pairs[:, 1], RATE, 512), GREY)
    plot.line(spectrum((read("i.s16", "<i2") + 1j * read("q.s16", "<i2")) / GAIN, RATE / EVERY, 128), BLUE)
    plot.legend([(GREY, "the recording"), (BLUE, "behind the filter")], LEFT + 12, TOP + 16)
    return plot


def frequency_plot() -> Plot:
    """The frequency from the end of the preamble on, beside that of the tones."""
    first, count = 1280, 320
    items = read("frequency.s32", "<i4")[first : first + count]
    # of an amplitude of the filtered signal, without noise
    amplitude = LEVEL * GAIN / numpy.sqrt(1 + SAMPLES / 10 ** (RATIO / 10))
    plot = Plot((first, first + count), (-3000, 3000))
    plot.axes(
        [(at, str(at)) for at in range(first, first + count + 1, 40)],
        [(at, str(at)) for at in range(-3000, 3001, 1000)], "item", "frequency",
    )
    plot.line(list(enumerate(items, first)), BLUE)
    for tone, text in ((DEVIATION, "a 1: 5 kHz"), (0, "the carrier: 1 kHz"), (-DEVIATION, "a 0: -3 kHz")):
        height = amplitude**2 * numpy.sin(2 * numpy.pi * (OFFSET + tone) * EVERY / RATE) / 256
        plot.line([(first, height), (first + count, height)], ORANGE, 1, ' stroke-dasharray="6 4"')
        plot.words(LEFT + 4, plot.place((0, height))[1] - 4, text, ORANGE)
    return plot


def levels_plot() -> Plot:
    """How often a level of a 1 and one of a 0 lies in each thousand."""
    sent = read("sent.u8", "u1")
    # (frames follow one another, and the first begins an access code before what is behind it)
    blocks = theory.blocks_of(HERE / "5_order.toml")
    levels = read("soft.s32", "<i4")[blocks["skip"]["n"] + blocks["frame"]["m"] - blocks["frame"]["n"] :][: len(sent)]
    edges = numpy.arange(-18_000, 18_001, 1000)
    plot = Plot((edges[0], edges[-1]), (0, 400))
    plot.axes(
        [(at, str(at)) for at in range(-15_000, 15_001, 5000)], [(at, str(at)) for at in range(0, 401, 100)], "level",
        "bits",
    )
    for bit, colour in ((0, ORANGE), (1, BLUE)):
        counts, _ = numpy.histogram(levels[sent == bit], edges)
        plot.line(zip(edges[:-1] + 500, counts), colour)
    plot.line([(0, 0), (0, 400)], RED)
    plot.legend([(ORANGE, "sent as 0"), (BLUE, "sent as 1")], LEFT + 12, TOP + 16)
    return plot


def frames_plot() -> Plot:
    """How many of the 64 bits before each bit are those of the access code; of 8 bits in a row the most."""
    items = read("bits.u8", "u1")
    code = numpy.array([int(digit) for digit in theory.blocks_of(HERE / "4_frames.toml")["code"]["code"]])
    bits = numpy.concatenate([numpy.zeros(len(code), numpy.int64), items & 1])
    alike = [int((bits[at : at + len(code)] == code).sum()) for at in range(len(items))]
    plot = Plot((0, len(items)), (0, 66))
    plot.axes(
        [(at, str(at)) for at in range(0, len(items), 1000)], [(at, str(at)) for at in range(0, 65, 16)], "bit",
        "bits as in the code",
    )
    plot.line([(at, max(alike[at : at + 8])) for at in range(0, len(items), 8)], BLUE, 0.8)
    plot.dots([(at, alike[at]) for at in numpy.flatnonzero(items & 2)], RED)
    return plot


def runs_of(bits: numpy.ndarray, height: float) -> Iterator[Tuple[float, float, float]]:
    """From where to where bits of a row are set, at this height."""
    edges = numpy.flatnonzero(numpy.diff(numpy.concatenate([[0], bits, [0]]).astype(int)))
    return ((begin, end, height) for begin, end in zip(edges[::2], edges[1::2]))


def draw_rows(plot: Plot, bits: numpy.ndarray, wanted: numpy.ndarray, top: float) -> None:
    """A row for each frame, grey where a bit is 1, with a red dot where it is wrong."""
    plot.stripes((run for row, frame in enumerate(bits) for run in runs_of(frame, top - row - 0.5)), 9, GREY)
    plot.dots([(at + 0.5, top - row - 0.5) for row, at in numpy.argwhere(bits != wanted)], RED)


def text_plot() -> Plot:
    """The bits of the frames as they came, and the lines that are decoded from them."""
    blocks = theory.blocks_of(HERE / "5_order.toml")
    frame = blocks["frame"]
    sent = read("sent.u8", "u1").reshape(-1, frame["n"])[:, frame["n"] - frame["m"] :]
    count = len(sent)
    came = read("soft.s32", "<i4")[blocks["skip"]["n"] :][: count * frame["n"]].reshape(count, -1)[:, : frame["m"]] >= 0
    shown, wanted = (
        numpy.frombuffer(path.read_bytes(), numpy.uint8).reshape(count, -1)
        for path in (Path("lines.txt"), HERE / "text.txt")
    )
    lines, right = (
        numpy.unpackbits(numpy.ascontiguousarray(bits), axis=1) for bits in (shown[:, 1:-1], wanted[:, :-1])
    )
    plot = Plot((0, frame["m"]), (0, 2 * count + 1), 340)
    plot.axes([(at, str(at)) for at in range(0, frame["m"] + 1, 51)], [], "bit", "")
    draw_rows(plot, came, sent, 2 * count + 1)
    draw_rows(plot, lines, right, count)
    for text, height in (("received", 1.5 * count + 1), ("decoded", 0.5 * count)):
        plot.words(LEFT - 6, plot.place((0, height))[1] + 4, text, anchor="end")
    return plot


def errors_plot() -> Plot:
    """The part of the bits that is wrong over Eb/N0, without a code and with it."""
    graph = HERE / "receiver.toml"
    parts, bits = theory.sum_of(graph), theory.wrong_bits(graph)
    # a bit of text has the energy of two that are sent
    rate = 10 * numpy.log10(2)
    plot = Plot((4, 13), (-5, 0), HEIGHT + 120)
    plot.axes(
        [(at, str(at)) for at in range(4, 14)], [(at, f"1e{at}") for at in range(-5, 1)], "Eb/N0 in dB",
        "part of the bits that is wrong",
    )
    for colour, ratios, chance in (
        (GREEN, numpy.arange(4, 14), theory.ideal),
        (ORANGE, numpy.arange(4, 14), lambda ratio: theory.wrong(parts, ratio, False)),
        (BLUE, numpy.arange(4, 14), lambda ratio: theory.wrong(parts, ratio, True)),
        (PURPLE, numpy.arange(8, 10, 0.125), lambda ratio: theory.bound(parts, ratio - rate, bits)),
    ):
        plot.line([(ratio, numpy.log10(chance(ratio))) for ratio in ratios], colour)
    counts = [tuple(map(float, line.split())) for line in (HERE / "ber.txt").read_text().splitlines()]
    plot.dots([(ratio, numpy.log10(wrong / count)) for ratio, count, wrong, _, _ in counts if ratio >= 4], RED)
    plot.dots([(ratio + rate, numpy.log10(wrong / count)) for ratio, _, _, count, wrong in counts if wrong], PURPLE)
    texts = [
        "the ideal receiver of two tones", "this receiver, with the carrier known",
        "this receiver, with the mean of 128 bits", "runs of flow without a code",
    ]
    plot.legend(
        list(zip((GREEN, ORANGE, BLUE, RED, PURPLE), [*texts, "the bound with the code, and runs of flow"])), LEFT + 12,
        HEIGHT + 120 - BOTTOM - 85,
    )
    return plot


PLOTS: Dict[str, Callable[[], Plot]] = {
    "filter": filter_plot,
    "frequency": frequency_plot,
    "levels": levels_plot,
    "frames": frames_plot,
    "text": text_plot,
    "errors": errors_plot,
}


def main(words: List[str]) -> None:
    """Draws all of them where the words say."""
    if len(words) != 1:
        sys.exit(__doc__)
    for name, plot in PLOTS.items():
        (Path(words[0]) / f"tutorial_{name}.svg").write_text(plot().text())


if __name__ == "__main__":
    main(sys.argv[1:])
