"""What stands for sources of GNU Radio that give items without end gives what these give, an item for each of a clock:
`endless.py NAME FLOW..` tries the function of this name, as own.py does."""

from __future__ import annotations

import random
from typing import Any

from gnuradio import analog, blocks, digital, gr

from joining import SINKS, waited
from own import (
    LETTERS, RANGES, SIZES, TRIED, Given, Graph, Kind, Port, Stream, Trial, each, row, try_named, typed, written,
)


def first_of(source: Any, type: str, count: int) -> list[int]:
    """The first items of a source."""
    top, sink = gr.top_block(), SINKS[type]()
    top.connect(source, blocks.head(SIZES[type], count), sink)
    top.start()
    waited(top)
    return list(sink.data())


def gives(source: Any, graph: Graph, clock: Stream, type: str, count: int) -> None:
    """Has a graph give the first items of a source."""
    TRIED.append(Trial(graph, [clock], [Given(first_of(source, type, count), [])], False))


def clock(type: str, count: int) -> Stream:
    """So many zeros, as /dev/zero has them."""
    return Stream(type, [0] * count)


def before(degree: int, mask: int, seed: int) -> int:
    """The bits that a register gave before it came to the seed, the last the lowest."""
    bits = 0
    for at in range(degree):
        bit = seed >> degree - 1 & 1
        seed = (seed ^ mask * bit) << 1 & 2**degree - 1 | bit
        bits |= bit << at
    return bits


def shift_registers() -> None:
    """glfsr_source_b is additive_scrambler of zeros, with a head where it does not repeat."""

    def trial(chance: random.Random) -> None:
        degree, count = chance.randint(2, 32), chance.randint(1, 1000)
        seed, again = chance.randint(1, 2**degree - 1), chance.random() < 0.7
        mask = chance.choice([0, 2 ** (degree - 1) | chance.getrandbits(degree - 1)])
        own = digital.glfsr_source_b(degree, again, mask, seed)
        whole = 2**degree - 1
        kinds = [
            Kind("additive_scrambler", {"bits": degree, "mask": own.mask(), "init": before(degree, own.mask(), seed)})
        ]
        kinds += [] if again else [Kind("head", {"type": "byte", "n": whole})]
        gives(own, row(kinds, clock("byte", count), Port("byte")), clock("byte", count), "byte", count)

    each(trial, 20)


def noise_of_the_usrp() -> None:
    """lfsr_32k_source_s is a machine that gives the 4,094 bytes of its 2,047 shorts again and again, the high one
    first, for two items of the clock each."""
    own, count = blocks.lfsr_32k_source_s(), 5000
    bit, held, shorts = 0, 0x7FFF, []
    for _ in range(2047):
        short = 0
        for at in range(16):
            held = ((held >> 1 ^ held) & 1) << 14 | held >> 1
            short |= (held & 1) << at
        shorts.append(short)
    again = [byte for it in shorts for byte in (it >> 8, it & 255)]
    kinds = [
        Kind("state_machine", {"symbols": 1, "next": [*range(1, len(again)), 0], "output": again, "init": 0}),
        Kind("convert", {"type": "byte", "to": "short"}),
        Kind("unpacked_to_packed", {"type": "short", "bits": 8}),
    ]
    gives(own, row(kinds, clock("byte", 2 * count), Port("short")), clock("byte", 2 * count), "short", count)


def waves() -> None:
    """sig_source_x is a pattern of a period, where that is 256 items or fewer and a power of two; one that is constant
    has one item."""

    def trial(chance: random.Random) -> None:
        type, period, shift = typed(chance), 2 ** chance.randint(0, 8), chance.randint(0, 40)
        wave = chance.choice(
            [
                analog.GR_CONST_WAVE, analog.GR_SIN_WAVE, analog.GR_COS_WAVE, analog.GR_SQR_WAVE, analog.GR_TRI_WAVE,
                analog.GR_SAW_WAVE,
            ]
        )
        own = getattr(analog, "sig_source_" + LETTERS[type])(period, wave, 1, chance.randint(1, 100), 100 + shift)
        count = 5 * period
        values = first_of(own, type, period)
        own = getattr(analog, "sig_source_" + LETTERS[type])(period, wave, 1, own.amplitude(), own.offset())
        gives(
            own, row([Kind("pattern", {"type": type, "values": values})], clock(type, count), Port(type)),
            clock(type, count), type, count,
        )

    each(trial, 12)


def uniform() -> None:
    """random_uniform_source_x of 2^k numbers is and_const and add_const of items that are as likely as one another, as
    those of /dev/urandom."""

    def trial(chance: random.Random) -> None:
        type, bits = typed(chance), chance.randint(1, 6)
        least = chance.randint(RANGES[type][0] // 2, RANGES[type][1] // 2)
        numbers = range(least, least + 2**bits)
        drawn = first_of(
            getattr(analog, "random_uniform_source_" + LETTERS[type])(least, numbers.stop, 1), type, 10_000
        )
        assert set(drawn) == set(numbers), "GNU Radio draws others"
        # (each of the lowest bits once, below bits that do not count)
        fed = Stream(type, [chance.randint(*RANGES[type]) & -(2**bits) | at for at in range(2**bits)])
        kinds = {
            "low": Kind("and_const", {"type": type, "value": 2**bits - 1}),
            "it": Kind("add_const", {"type": type, "value": least}),
        }
        graph = written(kinds, ["in0 low", "low it", "it out0"], [fed], [Port(type)])
        TRIED.append(Trial(graph, [fed], [Given(list(numbers), [])], False))

    each(trial)


def noise() -> None:
    """fastnoise_source_x of 256 samples is a table of these, of bytes that are as likely as one another, as those of
    /dev/urandom."""

    def trial(chance: random.Random) -> None:
        type, sort = chance.choice(["short", "int"]), chance.choice(
            [analog.GR_UNIFORM, analog.GR_GAUSSIAN, analog.GR_LAPLACIAN]
        )
        own = getattr(analog, "fastnoise_source_" + LETTERS[type])(
            sort, chance.randint(1, 5000), chance.getrandbits(30), 256
        )
        samples, fed = list(own.samples()), Stream("byte", list(range(256)))
        assert set(first_of(own, type, 10_000)) == set(samples), "GNU Radio draws others"
        TRIED.append(
            Trial(
                row([Kind("table", {"to": type, "values": samples})], fed, Port(type)), [fed], [Given(samples, [])],
                False,
            )
        )

    each(trial)


if __name__ == "__main__":
    try_named(globals())
