"""What stands for blocks of GNU Radio's module trellis gives what these give: `trellises.py NAME FLOW..` tries the
function of this name, as own.py does."""

from __future__ import annotations

import random
from typing import Any, NamedTuple

from gnuradio import digital, fec, gr, trellis

import magbelu
from own import SIZES, Kind, Port, Stream, compare, drawn, drawn_row, each, row, try_named

TYPES = {"b": "byte", "s": "short", "i": "int"}
TRIALS = 20

# (it tells of each machine that has states which nothing leads to)
gr.logging().set_default_level(gr.log_levels.off)


class Machine(NamedTuple):
    """What a `trellis.fsm` is made of."""

    symbols: int
    states: int
    outputs: int
    next: list[int]
    output: list[int]

    def reached(self, start: int, steps: int) -> list[int]:
        """The states in which paths of so many steps end; -1 is any start."""
        states = {start} if start >= 0 else set(range(self.states))
        for _ in range(steps):
            states = {self.next[self.symbols * it + symbol] for it in states for symbol in range(self.symbols)}
        return sorted(states)


def machine(chance: random.Random, most_symbols: int = 4, most_outputs: int = 8) -> Machine:
    """A machine by chance."""
    symbols, states, outputs = chance.randint(1, most_symbols), chance.randint(1, 16), chance.randint(1, most_outputs)
    rows = range(symbols * states)
    return Machine(
        symbols, states, outputs, [chance.randrange(states) for _ in rows], [chance.randrange(outputs) for _ in rows]
    )


def words(it: Machine) -> str:
    """The machine as a drawing has it."""
    return ", ".join(map(str, it))


class Row(gr.hier_block2):
    """Two blocks of GNU Radio, one behind the other."""

    def __init__(self, taken: int, given: int, first: Any, second: Any) -> None:
        gr.hier_block2.__init__(self, "row", gr.io_signature(1, 1, taken), gr.io_signature(1, 1, given))
        self.connect(self, first, second, self)


def encoder() -> None:
    """encoder_xx is state_machine, between converters. One with blocks of items goes on from one to the next all the
    same."""

    def trial(chance: random.Random) -> None:
        for letters in ("bb", "bs", "bi", "ss", "si", "ii"):
            made, length = machine(chance, 9, 256), chance.randint(1, 20)
            start = chance.randrange(made.states)
            taken, given = (TYPES[it] for it in letters)
            fed = Stream(
                taken, [chance.randrange(made.symbols) for _ in range(length * chance.randint(1, 9))], [(0, "mark", 7)]
            )
            keys = {"type": letters, "fsm_args": words(made), "init_state": start}
            own = getattr(trellis, "encoder_" + letters)
            for words_of in ([], [length]):
                graph = drawn("trellis_encoder_xx", keys, [fed], [Port(given)])
                compare(own(trellis.fsm(*made), start, *words_of), graph, [fed], [Port(given)])

    each(trial)


def code() -> None:
    """`magbelu.convolutional` has the tables of a trellis.fsm of polynomials, and with the other order those of a
    cc_encoder, whose bits unpack_k_bits gives. A drawing has the polynomials themselves."""

    def trial(chance: random.Random) -> None:
        length, count = chance.randint(2, 8), chance.randint(1, 4)
        polynomials = [chance.randint(1, 2**length - 1) for _ in range(count)]
        fsm, made = trellis.fsm(1, count, polynomials), magbelu.convolutional(*polynomials)
        assert (fsm.I(), list(fsm.NS()), fsm.O(), list(fsm.OS())) == made[:4], polynomials
        assert made.metrics == [[bin(it ^ word).count("1") for it in range(2**count)] for word in range(2**count)]
        bits = Stream("byte", [chance.randint(0, 1) for _ in range(200)])
        keys = {"type": "bb", "fsm_args": "1, %d, %s" % (count, polynomials)}
        compare(
            trellis.encoder_bb(fsm, 0), drawn("trellis_encoder_xx", keys, [bits], [Port("byte")]), [bits],
            [Port("byte")],
        )
        odd = [1 + 2 * chance.randrange(2 ** (length - 1)) for _ in range(chance.randint(2, 6))] + [
            2 ** (length - 1) + 1
        ]
        made = magbelu.convolutional(*odd, order="lsb_first")
        coded = [
            Kind("state_machine", {"symbols": 2, "next": made.next, "output": made.output, "init": 0}),
            Kind("unpack_k_bits", {"k": len(odd)}),
        ]
        own = fec.encoder(fec.cc_encoder.make(8, length, len(odd), odd, 0, fec.CC_STREAMING), 1, 1)
        compare(own, row(coded, bits, Port("byte")), [bits], [Port("byte")], tags=False)

    each(trial, TRIALS)


def path(chance: random.Random, made: Machine, most: int) -> dict[str, Any]:
    """The parameters of a decoder's blocks: where no path leads to the end, GNU Radio's gives what it has left of
    others."""
    steps, start = chance.randint(1, most), chance.choice([-1, chance.randrange(made.states)])
    end = chance.choice([-1, chance.choice(made.reached(start, steps))])
    return {"fsm_args": words(made), "block_size": steps, "init_state": start, "final_state": end}


class Points(NamedTuple):
    """Points of outputs, and items near them: in floats the sums of squares are exact up to 2^24."""

    dimensions: int
    table: list[int]
    fed: Stream

    @classmethod
    def drawn(cls, chance: random.Random, type: str, outputs: int, steps: int) -> Points:
        dimensions, most = chance.randint(1, 3), chance.choice([1, 2, 50])
        table = [chance.randint(-most, most) for _ in range(outputs * dimensions)]
        items = [chance.randint(-2 * most, 2 * most) for _ in range(dimensions * steps * chance.randint(1, 4))]
        return cls(dimensions, table, Stream(type, items))

    def keys(self) -> dict[str, Any]:
        return {"dim": self.dimensions, "table": self.table, "metric_type": "digital.TRELLIS_EUCLIDEAN"}


def viterbi_combined() -> None:
    """viterbi_combined_xx is viterbi behind a multiply_const and an add_const for each output, and where there are
    dimensions deinterleave and add."""

    def trial(chance: random.Random) -> None:
        for letters in ("ib", "is", "ii", "sb", "ss", "si"):
            made = machine(chance)
            keys, out = path(chance, made, 20), Port(TYPES[letters[1]])
            points = Points.drawn(chance, TYPES[letters[0]], made.outputs, keys["block_size"])
            graph = drawn(
                "trellis_viterbi_combined_xx", {"type": letters[0], "out_type": letters[1], **keys, **points.keys()},
                [points.fed], [out],
            )
            own = getattr(trellis, "viterbi_combined_" + letters)(
                trellis.fsm(*made), *list(keys.values())[1:], points.dimensions, points.table, digital.TRELLIS_EUCLIDEAN
            )
            compare(own, graph, [points.fed], [out], tags=False)

    each(trial, TRIALS)


def viterbi() -> None:
    """metrics_x and viterbi_x, which GNU Radio has floats between, are the same."""

    def trial(chance: random.Random) -> None:
        for letters in ("ib", "is", "ii", "sb", "ss", "si"):
            made = machine(chance)
            keys, out = path(chance, made, 20), Port(TYPES[letters[1]])
            points = Points.drawn(chance, TYPES[letters[0]], made.outputs, keys["block_size"])
            first = Kind("trellis_metrics_x", {"type": letters[0], "card": made.outputs, **points.keys()})
            graph = drawn_row([first, Kind("trellis_viterbi_x", {"type": letters[1], **keys})], [points.fed], [out])
            own = Row(
                SIZES[points.fed.type],
                SIZES[out.type],
                getattr(trellis, "metrics_" + letters[0])(
                    made.outputs, points.dimensions, points.table, digital.TRELLIS_EUCLIDEAN
                ),
                getattr(trellis, "viterbi_" + letters[1])(trellis.fsm(*made), *list(keys.values())[1:]),
            )
            compare(own, graph, [points.fed], [out], tags=False)

    each(trial, TRIALS)


def far() -> None:
    """Metrics are exact where those in floats are rounded, and less than 10^9, which is infinite there: of two points
    that lie far apart the nearer is found."""

    def trial(chance: random.Random) -> None:
        table = [chance.randint(-9000, -4000), chance.randint(4000, 9000)]
        middle = sum(table) // 2
        fed = Stream("short", [it for it in (chance.randint(-9000, 9000) for _ in range(100)) if abs(it - middle) > 10])
        keys = {
            "fsm_args": "2, 1, 2, [0, 0], [0, 1]", "block_size": 4, "type": "s", "out_type": "b", "dim": 1,
            "table": table,
        }
        own = trellis.viterbi_combined_sb(
            trellis.fsm(2, 1, 2, [0, 0], [0, 1]), 4, 0, -1, 1, table, digital.TRELLIS_EUCLIDEAN
        )
        compare(
            own, drawn("trellis_viterbi_combined_xx", keys, [fed], [Port("byte")]), [fed], [Port("byte")], tags=False
        )

    each(trial)


if __name__ == "__main__":
    try_named(globals())
