"""Graphs that are drawn by chance, of all kinds whose items rest on no input from long ago, and whose rates balance:
each can be cut. Sources have rates of their own, with tags close together, and outputs hold few items."""

import random
from fractions import Fraction
from math import lcm

from drawn import RANGES, TYPES, Drawn, Fed, trellis

BITS = {"byte": 8, "short": 16, "int": 32}
# How many items of the slowest source a graph is fed.
LENGTHS = [0, 1, 30, 200, 500]
# How many of them a stream may have for each such item, at most, and how few.
FASTEST = 24


class Pen:
    """Draws one graph: each block takes outputs that are there, and each output that nothing takes gets a sink."""

    def __init__(self, seed):
        self.chance = random.Random(seed)
        self.blocks, self.connects = [], []
        # Of each output its block, its port, its type, and its pace: how many items it has for each item of the slowest
        # source.
        self.outputs = []
        self.read = set()

    def block(self, kind, inputs, gives, **keys):
        """A block that takes these outputs, and gives outputs of these types and paces."""
        chance, name = self.chance, "%s%d" % (kind, len(self.blocks))
        words = ["%s = %s" % (key, '"%s"' % value if isinstance(value, str) else value) for key, value in keys.items()]
        if inputs and gives and chance.random() < 0.2:
            words.append('tags = "%s"' % ("none" if len(inputs) != len(gives) or chance.random() < 0.5 else "one"))
        # (these fire once at a time)
        if inputs and gives and kind not in ("head", "skiphead", "delay") and chance.random() < 0.2:
            words.append("multiple = %d" % chance.randint(2, 3))
        if gives and chance.random() < 0.5:
            words.append("capacity = %d" % chance.choice([1, 2, 3, 50]))
        self.blocks.append("{ %s }" % ", ".join(['name = "%s"' % name, 'kind = "%s"' % kind, *words]))
        for port, (source, at, _, _) in enumerate(inputs):
            # (most of a short run's time is that of its text)
            ends = [
                'from = "%s"' % source, "from_port = %d" % at if at else "", 'to = "%s"' % name,
                "to_port = %d" % port if port else "",
            ]
            self.connects.append("{ %s }" % ", ".join(filter(None, ends)))
            self.read.add((source, at))
        self.outputs += [(name, port, type, pace) for port, (type, pace) in enumerate(gives)]
        return name

    def pick(self, is_fit):
        """An output that is fit, rather one that nothing takes yet."""
        fitting = [it for it in self.outputs if is_fit(it)]
        free = [it for it in fitting if (it[0], it[1]) not in self.read]
        return self.chance.choice(free if free and self.chance.random() < 0.8 else fitting) if fitting else None

    def item(self, type):
        return self.chance.choice([self.chance.randint(*RANGES[type]), self.chance.randint(0, 9)])

    def add(self):
        """A block of some kind, where an output of its type is there."""
        kind = self.chance.choice(KINDS)
        type = "byte" if kind in BYTES else self.chance.choice(["short", "int"] if kind in FILTERS else TYPES)
        first = self.pick(lambda it: it[2] == type)
        if first is None:
            return
        if kind in JOINS or kind == "stream_mux":
            self.join(kind, first)
        elif kind == "deinterleave":
            ports = self.chance.randint(1, 3)
            self.block(kind, [first], [(type, first[3] / ports)] * ports, type=type, ports=ports)
        else:
            keys, taken, given = ONE[kind](self, type)
            pace = first[3] * Fraction(given, taken)
            if Fraction(1, FASTEST) <= pace <= FASTEST:
                own = {} if kind in BYTES else {"type": type}
                self.block(kind, [first], [(GIVES.get(kind) or keys.get("to", type), pace)], **own, **keys)

    def join(self, kind, first):
        """A block of several inputs, of which all but a `stream_mux` take as many items of each."""
        inputs = [first]
        for _ in range(self.chance.randint(0, 2)):
            more = self.pick(lambda it: it[2] == first[2] and (kind == "stream_mux" or it[3] == first[3]))
            inputs += [] if more is None else [more]
        paces = [it[3] for it in inputs]
        if kind != "stream_mux":
            given = first[3] * (len(inputs) if kind == "interleave" else 1)
            keys = {"ports": len(inputs)} if kind == "interleave" else {}
            self.block(kind, inputs, [(first[2], given)], type=first[2], **keys)
            return
        scale = lcm(*(pace.denominator for pace in paces))
        lengths = [int(pace * scale) for pace in paces]
        if sum(lengths) <= 2 * FASTEST and sum(paces) <= FASTEST:
            self.block(kind, inputs, [(first[2], sum(paces))], type=first[2], lengths=lengths)


def value(pen, type):
    return {"value": pen.item(type)}, 1, 1


def nothing(pen, type):
    return {}, 1, 1


def in_frames(pen, type):
    n = pen.chance.randint(1, 5)
    return {"n": n}, n, 1


def clip(pen, type):
    low, high = sorted((pen.item(type), pen.item(type)))
    return {"low": low, "high": high}, 1, 1


def table(pen, type):
    to = pen.chance.choice(TYPES)
    return {"to": to, "values": [pen.item(to) for _ in range(pen.chance.choice([1, 2, 9, 40]))]}, 1, 1


def keep_m_in_n(pen, type):
    n = pen.chance.randint(1, 6)
    m = pen.chance.randint(1, n)
    return {"m": m, "n": n, "offset": pen.chance.randint(0, n - m)}, n, m


def insert(pen, type):
    values = [pen.item(type) for _ in range(pen.chance.randint(1, 3))]
    own = pen.chance.randint(1, 5)
    return {"values": values, "period": own + len(values), "offset": pen.chance.randint(0, own)}, own, own + len(values)


def permute(pen, type):
    n = pen.chance.randint(1, 6)
    return {"order": pen.chance.sample(range(n), n)}, n, n


def order(pen):
    return pen.chance.choice(["msb_first", "lsb_first"])


def repack_bits(pen, type):
    k, l = pen.chance.randint(1, 8), pen.chance.randint(1, 8)
    return {"order": order(pen), "k": k, "l": l}, l, k


def chunks(pen, type):
    """So many bits of an item at a time, of which as few items as have whole ones are taken."""
    bits = pen.chance.randint(1, min(12, BITS[type]))
    return {"order": order(pen), "bits": bits}, bits, BITS[type]


def packed(pen, type):
    keys, taken, given = chunks(pen, type)
    return keys, given, taken


def register(pen, type):
    bits = pen.chance.choice([2, 3, 17, 31, 32])
    return {"bits": bits, "mask": pen.chance.randint(1, 2**bits - 1), "init": pen.chance.randint(0, 2**bits - 1)}, 1, 1


def code(pen, type):
    digits = "".join(pen.chance.choice("01") for _ in range(pen.chance.choice([1, 2, 9, 64])))
    return {"code": digits, "threshold": pen.chance.randint(0, len(digits))}, 1, 1


def checksum(pen, type):
    bits, n = pen.chance.randint(8, 32), pen.chance.randint(1, 12)
    numbers = {key: pen.chance.randint(0, 2**bits - 1) for key in ("polynomial", "init", "final_xor")}
    return {"order": order(pen), "bits": bits, **numbers, "n": n}, n, n + (bits + 7) // 8


def checked(pen, type):
    keys, _, frame = checksum(pen, type)
    return keys, frame, 1


def decoded(pen, type):
    keys = {**trellis(pen, type), "steps": pen.chance.randint(1, 9)}
    return keys, keys["steps"] * keys["outputs"], keys["steps"]


def filtered(pen, type):
    return {
        "taps": [pen.chance.randint(-200, 200) for _ in range(pen.chance.randint(1, 20))],
        "shift": pen.chance.randint(0, 9),
    }


def fir(pen, type):
    decimation = pen.chance.randint(1, 4)
    return {**filtered(pen, type), "decimation": decimation}, decimation, 1


def interp_fir(pen, type):
    interpolation = pen.chance.randint(1, 4)
    return {**filtered(pen, type), "interpolation": interpolation}, 1, interpolation


def repeat(pen, type):
    n = pen.chance.randint(1, 5)
    return {"n": n}, 1, n


def bits_packed(pen, type):
    k = pen.chance.randint(1, 8)
    return {"k": k}, k, 1


def bits_unpacked(pen, type):
    k = pen.chance.randint(1, 8)
    return {"k": k}, 1, k


BYTES = {
    "map_bb": lambda pen, type: ({"map": [pen.item("byte") for _ in range(pen.chance.choice([0, 2, 9, 40]))]}, 1, 1),
    "table": table,
    "pack_k_bits": bits_packed,
    "unpack_k_bits": bits_unpacked,
    "repack_bits": repack_bits,
    "diff_decoder": lambda pen, type: ({"modulus": pen.chance.randint(2, 256)}, 1, 1),
    "descrambler": register,
    "additive_scrambler": register,
    "correlate_access_code": code,
    "crc_append": checksum,
    "crc_check": checked,
}
FILTERS = {"fir": fir, "interp_fir": interp_fir}
# Of each kind with one input and one output its parameters, and how many items a firing takes and gives, or numbers
# that are in this ratio.
ONE = {
    **{kind: value for kind in ("add_const", "multiply_const", "divide_const", "and_const", "or_const", "xor_const")},
    "scale": lambda pen, type: ({"factor": pen.item("short"), "shift": pen.chance.randint(0, 31)}, 1, 1),
    "clip": clip,
    **{kind: nothing for kind in ("abs", "not", "ulaw_encode", "alaw_encode")},
    "mute": lambda pen, type: ({"on": pen.chance.randint(0, 1)}, 1, 1),
    "convert": lambda pen, type: ({"to": pen.chance.choice(TYPES)}, 1, 1),
    "binary_slicer": lambda pen, type: ({"threshold": pen.item(type)}, 1, 1),
    "moving_sum": lambda pen, type: ({"length": pen.chance.randint(1, 40)}, 1, 1),
    **{kind: in_frames for kind in ("keep_one_in_n", "integrate", "frame_minimum", "frame_maximum", "argmax")},
    "keep_m_in_n": keep_m_in_n,
    "repeat": repeat,
    "insert": insert,
    "permute": permute,
    "head": lambda pen, type: ({"n": pen.chance.choice([0, 10, 100, 1000])}, 1, 1),
    "skiphead": lambda pen, type: ({"n": pen.chance.choice([0, 1, 7, 90])}, 1, 1),
    "delay": lambda pen, type: ({"n": pen.chance.choice([0, 1, 7, 90])}, 1, 1),
    "packed_to_unpacked": chunks,
    "unpacked_to_packed": packed,
    "viterbi": decoded,
    **FILTERS,
    **BYTES,
}
JOINS = ["add", "sub", "multiply", "divide", "minimum", "maximum", "and", "or", "xor", "interleave"]
# What kinds give that say nothing of it.
GIVES = {kind: "byte" for kind in ("binary_slicer", "ulaw_encode", "alaw_encode", "viterbi")}
KINDS = [*ONE, *JOINS, "stream_mux", "deinterleave"]


def draw(seed):
    """The graph of this number."""
    pen, feeds, sinks = Pen(seed), {}, {}
    length = pen.chance.choice(LENGTHS)
    for _ in range(pen.chance.choice([1, 1, 1, 2, 3])):
        type, pace = pen.chance.choice([*TYPES, "byte"]), pen.chance.choice(
            [Fraction(1), Fraction(1), Fraction(2), Fraction(3), Fraction(3, 2)]
        )
        name = pen.block("vector_source", [], [(type, pace)], type=type)
        items = [pen.item(type) for _ in range(int(length * pace))]
        tags = [
            (at, pen.chance.choice(["burst", "mark"]), pen.chance.randint(-9, 9))
            for at in range(len(items))
            if pen.chance.random() < 0.2
        ]
        feeds[name] = Fed(type, items, tags)
    for _ in range(pen.chance.randint(1, 5)):
        pen.add()
    for output in list(pen.outputs):
        if (output[0], output[1]) not in pen.read:
            sinks[pen.block("vector_sink", [output], [], type=output[2])] = output[2]
    if pen.chance.random() < 0.2:
        output = pen.pick(lambda it: True)
        pen.block("null_sink", [output], [], type=output[2])
    return Drawn(
        "block = [\n%s\n]\nconnect = [\n%s\n]" % (",\n".join(pen.blocks), ",\n".join(pen.connects)), feeds, sinks
    )
