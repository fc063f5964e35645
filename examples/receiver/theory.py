"""How often a bit is wrong, by calculation: for the ideal receiver of two tones, and for the one of this example,
before its decoder and behind it. It needs numpy."""

import tomllib
from pathlib import Path
from typing import Callable, Dict, List, NamedTuple

import numpy
from make import BEFORE, DEVIATION, OFFSET, RATE, SAMPLES

# Bits that come to one sum through the filter, the middle one being that of the sum, and bits of the mean.
NEAR, MEAN = 5, 128
# In how many bits the paths differ that the bound of the decoder counts, at most.
DISTANCE = 28


class Sum(NamedTuple):
    """The sum over a bit as a form of its filtered samples y: that of Im(y[n] y*[n-1]), where y is a mean and noise."""

    # For each run of near bits, a row: 1 or -1 for each of the bits, and the mean of y.
    signs: numpy.ndarray
    means: numpy.ndarray
    # The form, and the covariance of the noise for N0 = 1 of a sample.
    form: numpy.ndarray
    noise: numpy.ndarray


class Level(NamedTuple):
    """How far a sum is on the right side of the carrier, as a random number v."""

    # The logarithm of the mean of exp(-s v), and up to which s there is one.
    logarithm: Callable[[numpy.ndarray], numpy.ndarray]
    most: float


def blocks_of(graph: Path) -> Dict[str, dict]:
    """The blocks of a graph file, by their names."""
    return {block["name"]: block for block in tomllib.loads(graph.read_text())["block"]}


def ideal(ratio: float) -> float:
    """Of the ideal receiver that does not know the phase, for two tones that are a bit rate apart: half of exp(-Es / 2
    N0)."""
    return 0.5 * numpy.exp(-(10 ** (ratio / 10)) / 2)


def sum_of(graph: Path) -> Sum:
    """The sum over a bit of the receiver of a graph file, for a signal of amplitude 1."""
    blocks = blocks_of(graph)
    taps, every = numpy.array(blocks["low_i"]["taps"], float), blocks["low_i"]["decimation"]
    count = SAMPLES // every
    # how many samples behind the last one of a bit its sum ends
    late = (every * blocks["keep"]["offset"] - BEFORE + 1) % SAMPLES
    places = (NEAR // 2 + 1) * SAMPLES - 1 + late - every * numpy.arange(count, -1, -1)
    signs = 2 * (numpy.arange(2**NEAR)[:, None] >> numpy.arange(NEAR) & 1) - 1
    frequency = OFFSET + DEVIATION * numpy.repeat(signs, SAMPLES, axis=1)
    signal = numpy.exp(2j * numpy.pi * numpy.cumsum(frequency, axis=1) / RATE)
    means = signal[:, places[:, None] - numpy.arange(len(taps))] @ taps
    form = (numpy.eye(count + 1, k=1) - numpy.eye(count + 1, k=-1)) * -0.5j
    # (what the filter makes of the noise is alike in samples that are near)
    alike = numpy.array([taps[at:] @ taps[: max(0, len(taps) - at)] for at in range(0, every * count + 1, every)])
    apart = abs(numpy.subtract.outer(numpy.arange(count + 1), numpy.arange(count + 1)))
    return Sum(signs, means, form, alike[apart])


def level_of(parts: Sum, ratio: float, spread: bool) -> Level:
    """The level of a bit for this Es/N0, with the carrier where it should be; with `spread`, where a mean over 128 bits
    of chance puts it."""
    noise = parts.noise * SAMPLES / 10 ** (ratio / 10)
    own = parts.signs[:, NEAR // 2]
    levels = numpy.einsum("pa,ab,pb->p", parts.means.conj(), parts.form, parts.means).real
    # what a bit adds to all sums that it comes to, and so to 128 times the mean
    share = (levels @ parts.signs).sum() / len(levels) if spread else 0.0
    carrier = own * (levels.mean() + numpy.trace(parts.form @ noise).real) + share / MEAN
    root = numpy.linalg.cholesky(noise)
    weights, turned = numpy.linalg.eigh(root.conj().T @ parts.form @ root)
    powers = abs(turned.conj().T @ numpy.linalg.solve(root, parts.means.T)) ** 2

    def logarithm(s: numpy.ndarray) -> numpy.ndarray:
        scaled = s[:, None, None] * own[:, None] * weights
        forms = (numpy.log(1 + scaled) + scaled * powers.T / (1 + scaled)).sum(axis=-1)
        all_runs = s[:, None] * carrier - forms
        most = all_runs.real.max(axis=-1, keepdims=True)
        return (most + numpy.log(numpy.exp(all_runs - most).mean(axis=-1, keepdims=True)))[
            :, 0
        ] + s**2 * share**2 / MEAN / 2

    return Level(logarithm, 1 / abs(weights).max())


def below(level: Level, count: int) -> float:
    """How often the sum of so many independent levels is on the wrong side, by its transform, along a line on which
    that falls fast."""
    reals = numpy.linspace(0.001, 0.999, 400) * level.most
    real = reals[numpy.argmin(count * level.logarithm(reals + 0j).real - numpy.log(reals))]
    way = numpy.linspace(0, 0.999, 500)
    heights = 8 * real * way / (1 - way)
    s = real + 1j * heights
    return float(numpy.trapz(numpy.exp(count * level.logarithm(s) - numpy.log(s)).real, heights) / numpy.pi)



def wrong(parts: Sum, ratio: float, spread: bool) -> float:
    """How often the receiver takes a bit for the other, for this Es/N0."""
    return below(level_of(parts, ratio, spread), 1)


def wrong_bits(graph: Path) -> List[int]:
    """Of the code that a graph file decodes, for each distance from 0 to DISTANCE: on all paths that leave state 0 once
    and come back, and differ in so many bits from the one that stays there, how many symbols are 1. From 10 on these
    are 36, 0, 211, 0, 1404, as in tables of the code of 64 states with the polynomials 171 and 133."""
    decoder = blocks_of(graph)["decode"]
    rows = [
        (at // 2, at % 2, state, output.bit_count())
        for at, (state, output) in enumerate(zip(decoder["next"], decoder["output"]))
    ]
    # for each state and distance how many paths there are, and how many ones these have
    counts = numpy.zeros((2, len(rows) // 2, DISTANCE + 1), int)
    counts[:, 0, 0] = 1, 0
    total = numpy.zeros(DISTANCE + 1, int)
    while counts[0].any():
        after = numpy.zeros_like(counts)
        for start, bit, state, far in rows:
            if start or bit or state:
                paths, ones = counts[:, start, : DISTANCE + 1 - far]
                after[0, state, far:] += paths
                after[1, state, far:] += ones + bit * paths
        total += after[1, 0]
        after[:, 0] = 0
        counts = after
    return total.tolist()


def bound(parts: Sum, ratio: float, bits: List[int]) -> float:
    """How often a decoded bit is wrong, at most, for this Es/N0: the union bound of textbooks (J. G. Proakis, Digital
    Communications, on soft decoding of convolutional codes). A path that differs in so many bits is taken where the sum
    of the levels of these is on the wrong side, and the order of the bits makes these levels independent."""
    level = level_of(parts, ratio, True)
    return sum(count * below(level, distance) for distance, count in enumerate(bits) if count)
