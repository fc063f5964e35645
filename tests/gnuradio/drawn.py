"""Graphs that are drawn by chance, of all kinds but null_sink, with what their sources are fed."""

from __future__ import annotations

import random
from typing import Any, Callable, NamedTuple

RANGES = {"byte": (0, 255), "short": (-(2**15), 2**15 - 1), "int": (-(2**31), 2**31 - 1)}
TYPES = list(RANGES)


class Fed(NamedTuple):
    """What a source is fed: its type, its items, and tags as (offset, key, value)."""

    type: str
    items: list[int]
    tags: list[tuple[int, str, int]]


class Drawn(NamedTuple):
    """The text of a graph file without feeds, what its sources are fed in the order of the file, and its sinks with
    their types."""

    text: str
    feeds: dict[str, Fed]
    sinks: dict[str, str]

    def fed_text(self) -> str:
        """The file with the feeds."""
        rows = []
        for name, fed in self.feeds.items():
            tags = ", ".join('{ at = %d, key = "%s", value = %d }' % tag for tag in fed.tags)
            rows.append('{ source = "%s", items = %s, tags = [%s] }' % (name, fed.items, tags))
        return "%s\nfeed = [%s]\n" % (self.text, ", ".join(rows))


class Pen:
    """Draws one graph: each block takes outputs that are there, and each output that nothing takes gets a sink."""

    def __init__(self, seed: int) -> None:
        self.chance = random.Random(seed)
        self.blocks: list[str] = []
        self.connects: list[str] = []
        # Of each output its block, its port, its type, and how many items come out of it for each item of a source, at
        # most.
        self.outputs: list[tuple[str, int, str, int]] = []
        self.read: set[tuple[str, int]] = set()

    def block(self, kind: str, inputs: list[Any], gives: list[str], gain: int = 1, **keys: Any) -> None:
        name = "%s%d" % (kind, len(self.blocks))
        words = ["%s = %s" % (key, '"%s"' % value if isinstance(value, str) else value) for key, value in keys.items()]
        if inputs and gives and self.chance.random() < 0.2:
            words.append('tags = "%s"' % ("none" if len(inputs) != len(gives) or self.chance.random() < 0.5 else "one"))
        if gives and self.chance.random() < 0.3:
            words.append("capacity = %d" % self.chance.choice([1, 3, 50, 700]))
        self.blocks.append("{ %s }" % ", ".join(['name = "%s"' % name, 'kind = "%s"' % kind, *words]))
        for port, (source, at, _, _) in enumerate(inputs):
            self.connects.append('{ from = "%s", from_port = %d, to = "%s", to_port = %d }' % (source, at, name, port))
            self.read.add((source, at))
        gain *= max([it[3] for it in inputs], default=1)
        self.outputs += [(name, port, it, gain) for port, it in enumerate(gives)]

    def pick(self, type: str) -> Any:
        """An output of this type, rather one that nothing takes yet."""
        fitting = [it for it in self.outputs if it[2] == type and it[3] <= 64]
        free = [it for it in fitting if (it[0], it[1]) not in self.read]
        return self.chance.choice(free if free and self.chance.random() < 0.8 else fitting) if fitting else None

    def taken(self, type: str, count: int) -> list[Any]:
        return [it for it in (self.pick(type) for _ in range(count)) if it is not None]

    def item(self, type: str) -> int:
        return self.chance.randint(*RANGES[type])

    def add(self) -> None:
        """A block of some kind, where outputs of its type are there."""
        chance, type = self.chance, self.chance.choice(TYPES)
        kind = chance.choice(
            [
                *SINGLE, *BYTES, *FILTERS, "many", "sample_and_hold", "convert", "interleave", "deinterleave",
                "stream_mux", "viterbi",
            ]
        )
        if kind in BYTES or kind in FILTERS:
            type = "byte" if kind in BYTES else chance.choice(["short", "int"])
        ports = (
            chance.randint(1, 3)
            if kind in ("many", "interleave", "stream_mux")
            else 2
            if kind == "sample_and_hold"
            else 1
        )
        inputs = self.taken(type, ports)
        if not inputs:
            return
        ports = len(inputs)
        if kind == "many":
            self.block(chance.choice(["add", "and", "or", "xor"]), inputs, [type], type=type)
        elif kind == "sample_and_hold":
            self.block(kind, inputs, [type], type=type)
        elif kind == "convert":
            to = chance.choice(TYPES)
            self.block(kind, inputs, [to], type=type, to=to)
        elif kind == "viterbi":
            self.block(kind, inputs, ["byte"], type=type, **trellis(self, type))
        elif kind == "interleave":
            self.block(kind, inputs, [type], ports, type=type, ports=ports)
        elif kind == "deinterleave":
            count = chance.randint(1, 3)
            self.block(kind, inputs, [type] * count, type=type, ports=count)
        elif kind == "stream_mux":
            self.block(kind, inputs, [type], 4 * ports, type=type, lengths=[chance.randint(1, 4) for _ in inputs])
        else:
            keys = {**SINGLE, **BYTES, **FILTERS}[kind](self, type)
            gain = max(
                keys.get("n", 1) if kind == "repeat" else 1, keys.get("interpolation", 1),
                keys.get("k", 1) if kind == "unpack_k_bits" else 1, 5 if kind == "crc_append" else 1,
            )
            self.block(kind, inputs, [type], gain, **({} if kind in BYTES else {"type": type}), **keys)


def register(pen: Pen, type: str) -> dict[str, Any]:
    bits = pen.chance.randint(2, 20)
    return {"bits": bits, "mask": pen.chance.randint(1, 2**bits - 1), "init": pen.chance.randint(0, 2**bits - 1)}


def checksum(pen: Pen, type: str) -> dict[str, Any]:
    bits = pen.chance.randint(8, 32)
    numbers = {key: pen.chance.randint(0, 2**bits - 1) for key in ("polynomial", "init", "final_xor")}
    return {
        "order": pen.chance.choice(["msb_first", "lsb_first"]), "bits": bits, **numbers, "n": pen.chance.randint(1, 20),
    }


def machine(pen: Pen, type: str) -> dict[str, Any]:
    symbols, states = pen.chance.randint(1, 5), pen.chance.randint(1, 20)
    places = range(symbols * states)
    return {
        "symbols": symbols,
        "next": [pen.chance.randrange(states) for _ in places],
        "output": [pen.item("byte") for _ in places],
        "init": pen.chance.randrange(states),
    }


def trellis(pen: Pen, type: str) -> dict[str, Any]:
    symbols, states, outputs = pen.chance.randint(1, 5), pen.chance.randint(1, 20), pen.chance.randint(1, 8)
    places = range(symbols * states)
    return {
        "symbols": symbols,
        "next": [pen.chance.randrange(states) for _ in places],
        "outputs": outputs,
        "output": [pen.chance.randrange(outputs) for _ in places],
        "steps": pen.chance.randint(1, 30),
        "start": pen.chance.randrange(-1, states),
        "end": pen.chance.randrange(-1, states),
    }


def taps(pen: Pen) -> list[int]:
    return [pen.item("short") for _ in range(pen.chance.randint(1, 12))]


Keys = Callable[[Pen, str], dict[str, Any]]
# Kinds with one input and one output, and their parameters.
SINGLE: dict[str, Keys] = {
    "add_const": lambda pen, type: {"value": pen.item(type)},
    "multiply_const": lambda pen, type: {"value": pen.item(type)},
    "divide_const": lambda pen, type: {"value": pen.item(type)},
    "scale": lambda pen, type: {"factor": pen.item("short"), "shift": pen.chance.randint(0, 31)},
    "not": lambda pen, type: {},
    "moving_sum": lambda pen, type: {"length": pen.chance.randint(1, 20)},
    "keep_one_in_n": lambda pen, type: {"n": pen.chance.randint(1, 5)},
    "integrate": lambda pen, type: {"n": pen.chance.randint(1, 5)},
    "frame_minimum": lambda pen, type: {"n": pen.chance.randint(1, 5)},
    "frame_maximum": lambda pen, type: {"n": pen.chance.randint(1, 5)},
    "argmax": lambda pen, type: {"n": pen.chance.randint(1, 5)},
    "pattern": lambda pen, type: {"values": [pen.item(type) for _ in range(pen.chance.randint(1, 40))]},
    "counter": lambda pen, type: {"n": pen.chance.choice([1, 3, 1000])},
    "repeat": lambda pen, type: {"n": pen.chance.randint(1, 5)},
    "head": lambda pen, type: {"n": pen.chance.choice([0, 10, 1000, 100000])},
    "skiphead": lambda pen, type: {"n": pen.chance.choice([0, 10, 1000, 100000])},
    "delay": lambda pen, type: {"n": pen.chance.choice([0, 7, 3000])},
}
BYTES: dict[str, Keys] = {
    "map_bb": lambda pen, type: {"map": [pen.item("byte") for _ in range(pen.chance.randint(0, 256))]},
    "pack_k_bits": lambda pen, type: {"k": pen.chance.randint(1, 8)},
    "unpack_k_bits": lambda pen, type: {"k": pen.chance.randint(1, 8)},
    "diff_encoder": lambda pen, type: {"modulus": pen.chance.randint(2, 256)},
    "diff_decoder": lambda pen, type: {"modulus": pen.chance.randint(2, 256)},
    "scrambler": register,
    "descrambler": register,
    "additive_scrambler": register,
    "crc_append": checksum,
    "crc_check": checksum,
    "state_machine": machine,
}
FILTERS: dict[str, Keys] = {
    "fir": lambda pen, type: {
        "taps": taps(pen), "decimation": pen.chance.randint(1, 4), "shift": pen.chance.randint(0, 31),
    },
    "interp_fir": lambda pen, type: {
        "taps": taps(pen), "interpolation": pen.chance.randint(1, 4), "shift": pen.chance.randint(0, 31),
    },
}


def draw(seed: int) -> Drawn:
    """The graph of this number."""
    pen, feeds, sinks = Pen(seed), {}, {}
    for _ in range(pen.chance.randint(1, 3)):
        type = pen.chance.choice(TYPES)
        pen.block("vector_source", [], [type], type=type)
        count = pen.chance.choice([0, 5, 300, 9000])
        places = sorted(pen.chance.randrange(count) for _ in range(pen.chance.randint(0, 9) if count else 0))
        tags = [
            (at, pen.chance.choice(["burst", "mark", "a.b-c_9"]), pen.chance.randint(-(2**63), 2**63 - 1))
            for at in places
        ]
        feeds[pen.outputs[-1][0]] = Fed(type, [pen.item(type) for _ in range(count)], tags)
    for _ in range(pen.chance.randint(1, 12)):
        pen.add()
    for output in list(pen.outputs):
        if (output[0], output[1]) not in pen.read:
            sinks["vector_sink%d" % len(pen.blocks)] = output[2]
            pen.block("vector_sink", [output], [], type=output[2])
    return Drawn(
        "block = [\n%s\n]\nconnect = [\n%s\n]" % (",\n".join(pen.blocks), ",\n".join(pen.connects)), feeds, sinks
    )
