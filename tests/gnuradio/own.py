"""What stands for blocks of GNU Radio gives what these give: `own.py NAME FLOW..` tries the function of this name, with
the words that start flow. Parameters, items and tags are drawn by chance, and what is wanted comes out of GNU Radio's
own block."""

from __future__ import annotations

import os
import random
import subprocess
import sys
import tempfile
import traceback
from typing import Any, Callable, NamedTuple, Optional, Sequence

import pmt
from gnuradio import blocks, digital, fec, gr, trellis, vocoder

from flow_from_grc.convert import graph_of
from flow_from_grc.drawing import read_drawing
from flow_from_grc.faults import Report
from flow_from_grc.graph import Block, Connection, Feed, Graph
from joining import SINKS, SOURCES, equal, tag, tags_of, waited

SIZES = {"byte": 1, "short": 2, "int": 4}
LETTERS = {"byte": "b", "short": "s", "int": "i"}
RANGES = {"byte": (0, 255), "short": (-(2**15), 2**15 - 1), "int": (-(2**31), 2**31 - 1)}
TRIALS = 5
# How many blocks run as one graph, so that the program need not start for each.
TOGETHER = 40


class Stream(NamedTuple):
    """Items, which are vectors of so many in GNU Radio, with tags of (offset, key, value) on the vectors."""

    type: str
    items: list[int]
    tags: list[tuple[int, str, int]] = []
    vector: int = 1


class Port(NamedTuple):
    """An output: the type of its items, and how many of them a vector has in GNU Radio."""

    type: str
    vector: int = 1


class Given(NamedTuple):
    """What came out of an output."""

    items: list[int]
    tags: list[tuple[int, str, int]]


class Trial(NamedTuple):
    """A graph whose sources are called in0, in1 and so on, what they are fed, and what its sinks out0, out1 and so on
    have to hold."""

    graph: Graph
    inputs: Sequence[Stream]
    wanted: Sequence[Given]
    has_tags: bool


class Kind(NamedTuple):
    """A block of a graph file without its name."""

    kind: str
    keys: dict[str, Any]


TRIED: list[Trial] = []


def stream(chance: random.Random, type: str, count: int, vector: int = 1) -> Stream:
    """Items by chance, with some tags."""
    items = [chance.randint(*RANGES[type]) for _ in range(count * vector)]
    places = sorted(chance.sample(range(count), min(count, 6)))
    return Stream(type, items, [(at, "mark", chance.randint(-(2**40), 2**40)) for at in places], vector)


def in_gnu_radio(block: Any, inputs: Sequence[Stream], outputs: Sequence[Port]) -> list[Given]:
    """What GNU Radio's own block gives, where a tag on a vector lies on its first item."""
    top, sinks = gr.top_block(), []
    for port, it in enumerate(inputs):
        top.connect(SOURCES[it.type](it.items, False, it.vector, [tag(*mark) for mark in it.tags]), (block, port))
    for number, out in enumerate(outputs):
        sinks.append(SINKS[out.type](out.vector))
        top.connect((block, number), sinks[-1])
    top.start()
    waited(top)
    return [
        Given(list(it.data()), [(at * out.vector, key, value) for at, key, value in tags_of(it)])
        for out, it in zip(outputs, sinks)
    ]


def in_flow(flow: Sequence[str], trials: Sequence[Trial]) -> list[list[Given]]:
    """What the graphs give, which run as one: the names of each begin with its number. A tag on a vector lies on its
    first item."""
    whole = Graph()
    for number, (graph, inputs, _, _) in enumerate(trials):
        whole.blocks += [Block("%d.%s" % (number, it.name), it.kind, it.settings) for it in graph.blocks]
        for it in graph.connections:
            whole.connections.append(
                Connection("%d.%s" % (number, it.source), it.source_port, "%d.%s" % (number, it.sink), it.sink_port)
            )
        for port, fed in enumerate(inputs):
            whole.feeds.append(
                Feed(
                    "%d.in%d" % (number, port), fed.items,
                    [(at * fed.vector, key, value) for at, key, value in fed.tags],
                )
            )
    with tempfile.NamedTemporaryFile("w", suffix=".toml") as file:
        file.write(whole.toml([]))
        file.flush()
        answer = subprocess.run([*flow, "run", "--one-thread", file.name], capture_output=True, text=True)
    lines = [it.split() for it in answer.stdout.splitlines()]
    assert lines and lines[-1] in (["done"], ["stalled"]), answer.stdout + answer.stderr
    sinks = {it[1]: it[3:] for it in lines if it[0] == "sink"}
    return [
        [given(sinks["%d.out%d" % (number, port)]) for port in range(len(it.wanted))]
        for number, it in enumerate(trials)
    ]


def given(words: Sequence[str]) -> Given:
    """The items and tags of a line of a report."""
    tags = []
    for it in words:
        if it.startswith("@"):
            offset, _, rest = it[1:].partition(":")
            key, _, value = rest.rpartition("/")[0].partition("=")
            tags.append((int(offset), key, int(value)))
    return Given([int(it) for it in words if not it.startswith("@")], sorted(tags))


def drawn(kind: str, parameters: dict[str, Any], inputs: Sequence[Stream], outputs: Sequence[Port]) -> Graph:
    """The graph that flow-from-grc makes of a drawing with a block of this id between sources and sinks."""
    return drawn_row([Kind(kind, parameters)], inputs, outputs)


def drawn_row(kinds: Sequence[Kind], inputs: Sequence[Stream], outputs: Sequence[Port]) -> Graph:
    """The same of several blocks in a row, each by its id."""
    rows, ends, names = ["blocks:"], ["connections:"], ["tried%d" % at for at in range(len(kinds))]
    for name, block, keys in [
        *(
            ("in%d" % at, "blocks_file_source", {"type": it.type, "file": "x", "repeat": False})
            for at, it in enumerate(inputs)
        ),
        *((name, it.kind, it.keys) for name, it in zip(names, kinds)),
        *(("out%d" % at, "blocks_vector_sink_x", {"type": it.type}) for at, it in enumerate(outputs)),
    ]:
        rows += ["- name: " + name, "  id: " + block, "  parameters:" + ("" if keys else " {}")]
        rows += ["    %s: '%s'" % it for it in keys.items()]
    ends += ["- [in%d, '0', %s, '%d']" % (at, names[0], at) for at in range(len(inputs))]
    ends += ["- [%s, '0', %s, '0']" % it for it in zip(names, names[1:])]
    ends += ["- [%s, '%d', out%d, '0']" % (names[-1], at, at) for at in range(len(outputs))]
    report = Report()
    graph = graph_of(read_drawing("\n".join([*rows, *ends, "metadata:", "  file_format: 1"]).encode(), report), report)
    assert not report.faults, report.faults
    return graph


def written(
    kinds: dict[str, Kind], connects: Sequence[str], inputs: Sequence[Stream], outputs: Sequence[Port]
) -> Graph:
    """A graph of blocks by their names and connections, `NAME.PORT NAME.PORT`, between sources and sinks."""
    graph = Graph()
    graph.blocks += [Block("in%d" % at, "vector_source", {"type": it.type}) for at, it in enumerate(inputs)]
    graph.blocks += [Block(name, it.kind, it.keys) for name, it in kinds.items()]
    graph.blocks += [Block("out%d" % at, "vector_sink", {"type": it.type}) for at, it in enumerate(outputs)]
    for it in connects:
        (source, _, source_port), (sink, _, sink_port) = (end.partition(".") for end in it.split())
        graph.connections.append(Connection(source, int(source_port or 0), sink, int(sink_port or 0)))
    return graph


def row(kinds: Sequence[Kind], fed: Stream, out: Port) -> Graph:
    """Blocks in a row, between a source and a sink."""
    names = ["in0", *("it%d" % at for at in range(len(kinds))), "out0"]
    return written(dict(zip(names[1:], kinds)), [" ".join(it) for it in zip(names, names[1:])], [fed], [out])


def compare(
    own: Any,
    graph: Graph,
    inputs: Sequence[Stream],
    outputs: Sequence[Port],
    counts: Optional[Sequence[int]] = None,
    tags: bool = True,
) -> None:
    """Has a graph give what GNU Radio's block gives: of each output all items, or only so many where there are counts,
    and all tags unless these differ."""
    wanted = in_gnu_radio(own, inputs, outputs)
    for port, count in enumerate(counts or []):
        items, marks = wanted[port]
        assert len(items) >= count, "GNU Radio gives %d items, and not %d" % (len(items), count)
        wanted[port] = Given(items[:count], [it for it in marks if it[0] < count])
    TRIED.append(Trial(graph, inputs, wanted, tags))


def try_all(flow: Sequence[str]) -> None:
    """Runs the graphs, some at once, and holds what each gives against what is wanted."""
    assert sum(len(it.items) for trial in TRIED for it in trial.wanted) > 0, "nothing is compared"
    while TRIED:
        count, sizes = 1, len(TRIED[0].graph.blocks)
        while count < len(TRIED) and sizes + len(TRIED[count].graph.blocks) <= TOGETHER:
            sizes += len(TRIED[count].graph.blocks)
            count += 1
        trials, TRIED[:count] = TRIED[:count], []
        for trial, found in zip(trials, in_flow(flow, trials)):
            for port, (own, here) in enumerate(zip(trial.wanted, found)):
                what = "output %d of\n%s" % (port, trial.graph.toml([]))
                equal(here.items, own.items, "the items of " + what)
                if trial.has_tags:
                    equal(here.tags, own.tags, "the tags of " + what)


def each(trial: Callable[[random.Random], None], count: int = TRIALS) -> None:
    """Tries so many times with other parameters."""
    for seed in range(count):
        trial(random.Random(seed))


def typed(chance: random.Random) -> str:
    return chance.choice(list(SIZES))


def order_of(chance: random.Random, count: int) -> list[int]:
    return chance.sample(range(count), count)


def block_interleaver() -> None:
    """blockinterleaver_xx is permute, in both directions, and of the bits of packed bytes between unpack_k_bits and
    pack_k_bits."""

    def trial(chance: random.Random) -> None:
        type, there, packed = typed(chance), chance.random() < 0.5, chance.random() < 0.5
        packed &= type == "byte"
        order = order_of(chance, 8 * chance.randint(1, 32) if packed else chance.randint(1, 256))
        fed = stream(chance, type, chance.randint(0, 300))
        keys = {
            "type": type, "interleaver_indices": order, "interleaver_mode": "interleave" if there else "deinterleave",
            "is_packed": packed,
        }
        own = getattr(blocks, "blockinterleaver_%s" % (LETTERS[type] * 2))(order, there, packed)
        compare(own, drawn("blocks_blockinterleaver_xx", keys, [fed], [Port(type)]), [fed], [Port(type)])

    each(trial)


def matrix_interleaver() -> None:
    """matrix_interleaver is permute; its tags differ."""

    def trial(chance: random.Random) -> None:
        type, back = typed(chance), chance.random() < 0.5
        rows = chance.randint(1, 16)
        columns = chance.randint(1, 256 // rows)
        fed = stream(chance, type, chance.randint(0, 400))
        keys = {"type": type, "rows": rows, "cols": columns, "deint": back}
        own = blocks.matrix_interleaver(SIZES[type], rows, columns, back)
        compare(own, drawn("blocks_matrix_interleaver", keys, [fed], [Port(type)]), [fed], [Port(type)], tags=False)

    each(trial)


def permutation() -> None:
    """trellis.permutation is permute."""

    def trial(chance: random.Random) -> None:
        type, count = typed(chance), chance.randint(1, 40)
        size, order = chance.randint(1, 256 // count), order_of(chance, count)
        fed = stream(chance, type, chance.randint(0, 300))
        keys = {"type": type, "interleaver_size": count, "table": order, "syms_per_block": size}
        own = trellis.permutation(count, order, size, SIZES[type])
        compare(own, drawn("trellis_permutation", keys, [fed], [Port(type)]), [fed], [Port(type)])

    each(trial)


def patterned_interleaver() -> None:
    """patterned_interleaver is stream_mux and then permute; its tags differ."""

    def trial(chance: random.Random) -> None:
        type, ports = typed(chance), chance.randint(1, 5)
        pattern = [*range(ports), *(chance.randrange(ports) for _ in range(chance.randint(0, 30)))]
        chance.shuffle(pattern)
        fed = [stream(chance, type, chance.randint(0, 200)) for _ in range(ports)]
        own = blocks.patterned_interleaver(SIZES[type], pattern)
        graph = drawn("blocks_patterned_interleaver", {"type": type, "pattern": pattern}, fed, [Port(type)])
        compare(own, graph, fed, [Port(type)], tags=False)

    each(trial)


def stream_demux() -> None:
    """stream_demux is a keep_m_in_n for each output, whole rounds only; its tags differ."""

    def trial(chance: random.Random) -> None:
        type, lengths = typed(chance), [chance.randint(1, 40) for _ in range(chance.randint(1, 16))]
        fed = stream(chance, type, chance.randint(0, 300))
        outputs, rounds = [Port(type)] * len(lengths), len(fed.items) // sum(lengths)
        graph = drawn(
            "blocks_stream_demux", {"type": type, "lengths": lengths, "num_outputs": len(lengths)}, [fed], outputs
        )
        compare(
            blocks.stream_demux(SIZES[type], lengths), graph, [fed], outputs, [rounds * it for it in lengths],
            tags=False,
        )

    each(trial)


def deinterleave() -> None:
    """deinterleave of blocks of items is a keep_m_in_n for each output."""

    def trial(chance: random.Random) -> None:
        type, ports = typed(chance), chance.randint(1, 16)
        size, fed = chance.randint(1, 1024 // ports), stream(chance, type, chance.randint(0, 300))
        outputs = [Port(type)] * ports
        graph = drawn("blocks_deinterleave", {"type": type, "num_streams": ports, "blocksize": size}, [fed], outputs)
        compare(blocks.deinterleave(SIZES[type], size), graph, [fed], outputs)

    each(trial)


def pattern_of(chance: random.Random) -> tuple[int, int, int]:
    """The size, the pattern and the delay of a block that leaves items out: one stays at least."""
    size = chance.randint(1, 31)
    return size, chance.choice([chance.randint(1, 2**size - 1), 2**size - 1]), chance.randint(-3, 40)


def puncture() -> None:
    """puncture_bb is permute and then keep_m_in_n."""

    def trial(chance: random.Random) -> None:
        size, pattern, delay = pattern_of(chance)
        fed = stream(chance, "byte", chance.randint(0, 300))
        graph = drawn("fec_puncture_xx", {"puncsize": size, "puncpat": pattern, "delay": delay}, [fed], [Port("byte")])
        compare(fec.puncture_bb(size, pattern, delay), graph, [fed], [Port("byte")])

    each(trial)


def depuncture() -> None:
    """depuncture_bb is insert and then permute."""

    def trial(chance: random.Random) -> None:
        size, pattern, delay = pattern_of(chance)
        symbol, fed = chance.randint(0, 255), stream(chance, "byte", chance.randint(0, 300))
        graph = drawn(
            "fec_depuncture_bb", {"puncsize": size, "puncpat": pattern, "delay": delay, "sym": symbol}, [fed],
            [Port("byte")],
        )
        compare(fec.depuncture_bb(size, pattern, delay, symbol), graph, [fed], [Port("byte")])

    each(trial)


def endian_swap() -> None:
    """endian_swap is packed_to_unpacked to bytes, permute, and unpacked_to_packed."""

    def trial(chance: random.Random) -> None:
        type = chance.choice(["short", "int"])
        fed = stream(chance, type, chance.randint(0, 300))
        graph = drawn("blocks_endian_swap", {"type": "s%d" % (8 * SIZES[type])}, [fed], [Port(type)])
        compare(blocks.endian_swap(SIZES[type]), graph, [fed], [Port(type)])

    each(trial)


def short_to_char() -> None:
    """short_to_char is and_const, scale and convert, for shorts of each highest byte."""
    fed = Stream("short", [it + low for it in range(-(2**15), 2**15, 256) for low in (0, 255)], [(100, "mark", 1)])
    compare(blocks.short_to_char(), drawn("blocks_short_to_char", {}, [fed], [Port("byte")]), [fed], [Port("byte")])


def companding() -> None:
    """The decoders of mu-law and A-law are tables."""
    fed = Stream("byte", list(range(256)), [(7, "mark", -1)])
    for name in ("ulaw", "alaw"):
        own = getattr(vocoder, name + "_decode_bs")()
        compare(own, drawn("vocoder_%s_decode_bs" % name, {}, [fed], [Port("short")]), [fed], [Port("short")])


class Chunks(gr.hier_block2):
    """GNU Radio's table, whose values are floats, and ints of them."""

    def __init__(self, type: str, values: Sequence[int]) -> None:
        super().__init__("chunks", gr.io_signature(1, 1, SIZES[type]), gr.io_signature(1, 1, SIZES["int"]))
        self.connect(self, getattr(digital, "chunks_to_symbols_%sf" % LETTERS[type])(values, 1),
            blocks.float_to_int(1, 1), self)


def chunks() -> None:
    """chunks_to_symbols is table, behind a convert to bytes where it takes shorts or ints."""

    def trial(chance: random.Random) -> None:
        type, values = typed(chance), [chance.randint(-(2**23), 2**23) for _ in range(chance.randint(1, 256))]
        fed = Stream(type, [chance.randrange(len(values)) for _ in range(chance.randint(1, 300))])
        kinds = [] if type == "byte" else [Kind("convert", {"type": type, "to": "byte"})]
        kinds.append(Kind("table", {"to": "int", "values": values}))
        compare(Chunks(type, values), row(kinds, fed, Port("int")), [fed], [Port("int")])

    each(trial)


def encoding() -> None:
    """The encoders of mu-law and A-law give the bytes of all shorts, but for those from -7 to -1 by the A-law, which
    have another byte there."""
    for name, left_out in (("ulaw", range(0)), ("alaw", range(-7, 0))):
        fed = Stream("short", [it for it in range(-(2**15), 2**15) if it not in left_out], [(7, "mark", -1)])
        own = getattr(vocoder, name + "_encode_sb")()
        compare(own, drawn("vocoder_%s_encode_sb" % name, {}, [fed], [Port("byte")]), [fed], [Port("byte")])


def selector() -> None:
    """selector is a mute for each input and add: it ends with the shortest input, and an output that is not chosen has
    no items."""

    def trial(chance: random.Random) -> None:
        type, ins, outs = typed(chance), chance.randint(1, 16), chance.randint(1, 4)
        chosen, to, on = chance.randrange(ins), chance.randrange(outs), chance.random() < 0.8
        fed = [stream(chance, type, chance.randint(10, 30)) for _ in range(ins)]
        keys = {
            "type": type, "num_inputs": ins, "num_outputs": outs, "input_index": chosen, "output_index": to,
            "enabled": on,
        }
        own, outputs = blocks.selector(SIZES[type], chosen, to), [Port(type)] * outs
        own.set_enabled(on)
        counts = [min(len(it.items) for it in fed) if on and at == to else 0 for at in range(outs)]
        compare(own, drawn("blocks_selector", keys, fed, outputs), fed, outputs, counts)

    each(trial)


def sample_and_hold() -> None:
    """sample_and_hold is the kind of its name, with bytes at the second input converted to the type of the first."""

    def trial(chance: random.Random) -> None:
        type, asked = typed(chance), stream(chance, "byte", chance.randint(0, 100))
        fed = [
            stream(chance, type, chance.randint(0, 100)),
            asked._replace(items=[it if it < 60 else 0 for it in asked.items]),
        ]
        count = min(len(it.items) for it in fed)
        own = getattr(blocks, "sample_and_hold_" + 2 * LETTERS[type])()
        compare(own, drawn("blocks_sample_and_hold_xx", {"type": type}, fed, [Port(type)]), fed, [Port(type)], [count])

    each(trial)


def tag_share() -> None:
    """tag_share is a mute of the second input, converted to the type of the first, and add."""

    def trial(chance: random.Random) -> None:
        type, shared = typed(chance), typed(chance)
        fed = [stream(chance, type, chance.randint(0, 100)), stream(chance, shared, chance.randint(0, 100))]
        count = min(len(it.items) for it in fed)
        graph = drawn("blocks_tag_share", {"io_type": type, "share_type": shared}, fed, [Port(type)])
        compare(blocks.tag_share(SIZES[type], SIZES[shared]), graph, fed, [Port(type)], [count])

    each(trial)


def tag_gate() -> None:
    """tag_gate that is shut is add_const of 0 with tags = "none"; one that is open is a connection."""

    def trial(chance: random.Random) -> None:
        type, is_open = typed(chance), chance.random() < 0.5
        fed = stream(chance, type, chance.randint(0, 100))
        graph = drawn("blocks_tag_gate", {"type": type, "propagate_tags": is_open}, [fed], [Port(type)])
        compare(blocks.tag_gate(SIZES[type], is_open), graph, [fed], [Port(type)])

    each(trial)


def delay() -> None:
    """delay gives its zeros and then all of its input, as GNU Radio's does, whatever is longer."""

    def trial(chance: random.Random) -> None:
        type, count = typed(chance), chance.choice([0, 1, 7, 100, 500])
        fed = stream(chance, type, chance.randint(0, 200))
        graph = drawn("blocks_delay", {"type": type, "delay": count}, [fed], [Port(type)])
        compare(blocks.delay(SIZES[type], count), graph, [fed], [Port(type)], [count + len(fed.items)])

    each(trial)


def probe_signal() -> None:
    """The level of a probe_signal_x is the last item of a vector_sink, and that of a probe_signal_vx its last so
    many."""

    def trial(chance: random.Random) -> None:
        type, vector = typed(chance), chance.randint(2, 9)
        fed = stream(chance, type, chance.randint(1, 200), vector)
        for name, vlen in (("probe_signal_v", vector), ("probe_signal_", 1)):
            own, top = getattr(blocks, name + LETTERS[type])(*([vlen] if vlen > 1 else [])), gr.top_block()
            top.connect(SOURCES[type](fed.items, False, vlen, []), own)
            top.run()
            last = Stream(type, fed.items[-vlen:])
            level = list(own.level()) if vlen > 1 else [own.level()]
            graph = drawn("blocks_probe_signal_x", {"type": type}, [last], [])
            graph.blocks[1:] = [Block("out0", it.kind, it.settings) for it in graph.blocks[1:]]
            graph.connections = [Connection("in0", 0, "out0", 0)]
            TRIED.append(Trial(graph, [last], [Given(level, [])], True))

    each(trial)


def coded(polynomials: Sequence[int], fed: Stream, first: Sequence[Kind] = ()) -> Graph:
    """A graph of a convolutional code: what comes first, a descrambler for each polynomial, whose bit j is that of the
    item j before, with bit 0 set, and interleave. One of the descramblers passes tags."""
    kinds = {"it%d" % at: it for at, it in enumerate(first)}
    names = ["in0", *kinds]
    connects = [" ".join(it) for it in zip(names, names[1:])]
    for at, it in enumerate(polynomials):
        keys = {"bits": 14 if not first else 6, "mask": it >> 1, "init": 0}
        kinds["code%d" % at] = Kind("descrambler", {**keys, "tags": "none"} if at else keys)
        connects += ["%s code%d" % (names[-1], at), "code%d turns.%d" % (at, at)]
    kinds["turns"] = Kind("interleave", {"type": "byte", "ports": len(polynomials)})
    return written(kinds, [*connects, "turns out0"], [fed], [Port("byte")])


def ccsds_encoder() -> None:
    """encode_ccsds_27_bb is unpack_k_bits, two descramblers and interleave."""

    def trial(chance: random.Random) -> None:
        fed = stream(chance, "byte", chance.randint(0, 300))
        compare(
            fec.encode_ccsds_27_bb(), coded([109, 79], fed, [Kind("unpack_k_bits", {"k": 8})]), [fed], [Port("byte")]
        )

    each(trial)


def encoders() -> None:
    """Of fec.encoder a streaming cc_encoder is a descrambler for each polynomial and interleave, a repetition_encoder
    is repeat, and a dummy_encoder nothing."""

    def trial(chance: random.Random) -> None:
        frame, frames, rate = 8 * chance.randint(1, 10), chance.randint(0, 20), chance.randint(2, 6)
        length = chance.randint(3, 15)
        polynomials = [chance.randrange(3, 2**length, 2) for _ in range(rate)]
        fed, out = Stream("byte", [chance.randint(0, 1) for _ in range(frame * frames)]), Port("byte")
        own = fec.encoder(fec.cc_encoder.make(frame, length, rate, polynomials, 0, fec.CC_STREAMING), 1, 1)
        compare(own, coded(polynomials, fed), [fed], [out])
        own = fec.encoder(fec.repetition_encoder.make(frame, rate), 1, 1)
        compare(own, row([Kind("repeat", {"type": "byte", "n": rate})], fed, out), [fed], [out])
        compare(fec.encoder(fec.dummy_encoder.make(frame), 1, 1), row([], fed, out), [fed], [out])

    each(trial)


def bit_orders() -> None:
    """`order` is of both sides of repack_bits, and of the packed side alone of packed_to_unpacked and
    unpacked_to_packed; here whole rounds."""

    def trial(chance: random.Random) -> None:
        type, endianness = typed(chance), chance.choice(["MSB", "LSB"])
        order, wide = getattr(gr, "GR_%s_FIRST" % endianness), 8 * SIZES[type]
        bits, k, l = chance.randint(1, wide), chance.randint(1, 8), chance.randint(1, 8)
        fed, low = stream(chance, type, bits * wide), stream(chance, "byte", 20 * l)
        keys = {"type": type, "bits_per_chunk": bits, "endianness": "gr.GR_%s_FIRST" % endianness}
        for name in ("packed_to_unpacked", "unpacked_to_packed"):
            own = getattr(blocks, "%s_%s" % (name, LETTERS[type] * 2))(bits, order)
            compare(own, drawn("blocks_%s_xx" % name, keys, [fed], [Port(type)]), [fed], [Port(type)], tags=False)
        graph = drawn(
            "blocks_repack_bits_bb", {"k": k, "l": l, "endianness": keys["endianness"]}, [low], [Port("byte")]
        )
        compare(blocks.repack_bits_bb(k, l, "", False, order), graph, [low], [Port("byte")], tags=False)

    each(trial)


def additive_scrambler() -> None:
    """additive_scrambler_bb that begins anew each so many items is a list and xor; one that goes on and takes several
    bits of a byte is xor with what a register gives, packed."""

    def trial(chance: random.Random) -> None:
        width = chance.randint(1, 8)
        count = chance.choice([0, chance.randint(1, 4), chance.randint(5, 256), chance.randint(257, 600), 4096])
        length = chance.randint(1, 63 if count else 31)
        # (a register that goes on comes to each seed if it reads its lowest bit)
        mask = chance.getrandbits(length + 1) | (1 if not count else 1 << chance.randint(0, length))
        seed = chance.getrandbits(length + 1)
        fed = stream(chance, "byte", chance.randint(1, 300) + chance.randint(0, 1) * count)
        if not count and width == 1:
            fed = fed._replace(items=[it & 1 for it in fed.items])
        keys = {"mask": mask, "seed": seed, "len": length, "count": count, "bits_per_byte": width}
        own = digital.additive_scrambler_bb(mask, seed, length, count, width)
        compare(own, drawn("digital_additive_scrambler_bb", keys, [fed], [Port("byte")]), [fed], [Port("byte")])

    each(trial, 16)


def access_code() -> None:
    """correlate_access_code gives its flags as GNU Radio's block, also for the zeros before the first item."""

    def trial(chance: random.Random) -> None:
        code = "".join(chance.choice("0001") for _ in range(chance.choice([1, 2, 3, 5, 64])))
        threshold = chance.randint(0, min(len(code), 2))
        fed = stream(chance, "byte", chance.randint(1, 300))
        graph = row([Kind("correlate_access_code", {"code": code, "threshold": threshold})], fed, Port("byte"))
        compare(digital.correlate_access_code_bb(code, threshold), graph, [fed], [Port("byte")])

    each(trial)


class Vectors:
    """Trials of blocks of vectors, each vector as many items in a row. Tags are not looked at, since a rate puts them
    on items and not on vectors."""

    def __init__(self, chance: random.Random) -> None:
        self.chance, self.type, self.wide = chance, typed(chance), chance.choice(["short", "int"])
        self.size, self.n = chance.randint(2, 6), chance.randint(2, 5)

    def fed(self, type: str, count: int) -> list[Stream]:
        """So many streams of vectors, of one length."""
        length = self.n * self.chance.randint(1, 4)
        return [stream(self.chance, type, length, self.size) for _ in range(count)]

    def kind(self, name: str, **keys: Any) -> Kind:
        return Kind(name, {"type": self.type, **keys})

    def in_a_row(self) -> None:
        """Rates, delays and orders: as many items instead of one."""
        size, n, fed, out = self.size, self.n, self.fed(self.type, 1), Port(self.type, self.size)
        offset, own_size = self.chance.randrange(n), SIZES[self.type] * size
        last = self.kind("keep_m_in_n", m=size, n=n * size, offset=n * size - size)
        turned = self.kind("permute", order=[at % size * n + at // size for at in range(n * size)])
        for own, kinds in (
            (blocks.keep_one_in_n(own_size, n), [last]),
            (
                blocks.keep_m_in_n(own_size, 1, n, offset),
                [self.kind("keep_m_in_n", m=size, n=n * size, offset=offset * size)],
            ),
            (blocks.repeat(own_size, n), [self.kind("repeat", n=n), turned]),
            (blocks.head(own_size, n), [self.kind("head", n=n * size)]),
            (blocks.skiphead(own_size, n), [self.kind("skiphead", n=n * size)]),
            (blocks.delay(own_size, n), [self.kind("delay", n=n * size)]),
            (
                trellis.permutation(2, [1, 0], n, own_size),
                [self.kind("permute", order=[*range(n * size, 2 * n * size), *range(n * size)])],
            ),
        ):
            compare(own, row(kinds, fed[0], out), fed, [out], tags=False)
        flat = fed[0]._replace(vector=1, tags=[])
        compare(blocks.stream_to_vector(SIZES[self.type], size), row([], flat, out), [flat], [out])
        compare(
            blocks.vector_to_stream(SIZES[self.type], size), row([], fed[0], Port(self.type)), fed, [Port(self.type)],
            tags=False,
        )
        compare(
            blocks.stream_to_vector_decimator(SIZES[self.type], n * size, 1, size), row([last], flat, out), [flat],
            [out],
        )

    def between_streams(self) -> None:
        """Several streams become one by stream_mux, and one several by a keep_m_in_n for each."""
        size, n, own_size = self.size, self.n, SIZES[self.type] * self.size
        for own, length, out in (
            (blocks.streams_to_stream(own_size, 3), size, Port(self.type, size)),
            (blocks.streams_to_vector(own_size, 3), size, Port(self.type, 3 * size)),
            (blocks.interleave(own_size, n), n * size, Port(self.type, size)),
            (blocks.stream_mux(own_size, [n] * 3), n * size, Port(self.type, size)),
        ):
            fed = self.fed(self.type, 3)
            mux = {"it": self.kind("stream_mux", lengths=[length] * 3)}
            compare(
                own, written(mux, ["in0 it.0", "in1 it.1", "in2 it.2", "it out0"], fed, [out]), fed, [out], tags=False
            )
        for own, length, vector in (
            (blocks.stream_to_streams(own_size, 3), size, size),
            (blocks.vector_to_streams(own_size, 3), size, 3 * size),
            (blocks.deinterleave(own_size, n), n * size, size),
            (blocks.stream_demux(own_size, [n] * 3), n * size, size),
        ):
            fed, outs = [stream(self.chance, self.type, 3 * n * self.chance.randint(1, 5), vector)], [
                Port(self.type, size)
            ] * 3
            kept = {
                "it%d" % at: self.kind("keep_m_in_n", m=length, n=3 * length, offset=at * length) for at in range(3)
            }
            compare(
                own,
                written(
                    kept, [*("in0 " + it for it in kept), *("it%d out%d" % (at, at) for at in range(3))], fed, outs
                ),
                fed,
                outs,
                tags=False,
            )

    def places(self) -> None:
        """A block for each place of a vector, between deinterleave and interleave."""
        values, letter = [self.chance.randint(0, 255) for _ in range(self.size)], LETTERS[self.wide] * 2
        for own, type, kinds in (
            (
                getattr(blocks, "add_const_v" + LETTERS[self.type] * 2)(values), self.type,
                [("add_const", {"value": it}) for it in values],
            ),
            (
                getattr(blocks, "multiply_const_v" + letter)(values), self.wide,
                [("multiply_const", {"value": it}) for it in values],
            ),
            (
                getattr(blocks, "integrate_" + letter)(self.n, self.size), self.wide,
                [("integrate", {"n": self.n})] * self.size,
            ),
            (
                getattr(blocks, "moving_average_" + letter)(self.n, 1, 4000, self.size), self.wide,
                [("moving_sum", {"length": self.n})] * self.size,
            ),
        ):
            fed, out = self.fed(type, 1), Port(type, self.size)
            blocks_of = {"it%d" % at: Kind(kind, {"type": type, **keys}) for at, (kind, keys) in enumerate(kinds)}
            connects = [
                "in0 split", "turns out0", *("split.%d it%d" % (at, at) for at in range(self.size)),
                *("it%d turns.%d" % (at, at) for at in range(self.size)),
            ]
            for name, kind in (("split", "deinterleave"), ("turns", "interleave")):
                blocks_of[name] = Kind(kind, {"type": type, "ports": self.size})
            compare(own, written(blocks_of, connects, fed, [out]), fed, [out], tags=False)

    def extremes(self) -> None:
        """The greatest and the least of a vector's items: frame_maximum and frame_minimum."""
        (fed,), out = self.fed(self.wide, 1), Port(self.wide)
        for name, kind in (("max", "frame_maximum"), ("min", "frame_minimum")):
            own = getattr(blocks, "%s_%s" % (name, LETTERS[self.wide] * 2))(self.size, 1)
            compare(own, row([Kind(kind, {"type": self.wide, "n": self.size})], fed, out), [fed], [out], tags=False)

    def map(self) -> None:
        """vector_map of each item once: stream_mux, permute, and a keep_m_in_n for each output."""
        size, fed = self.size, self.fed(self.type, 2)
        taken, count = order_of(self.chance, 2 * size), self.chance.randint(1, 2 * size - 1)
        mapping = [[[at // size, at % size] for at in part] for part in (taken[:count], taken[count:])]
        kinds = {"mux": self.kind("stream_mux", lengths=[size, size]), "order": self.kind("permute", order=taken)}
        outs = [Port(self.type, count), Port(self.type, 2 * size - count)]
        for at, (first, out) in enumerate(zip((0, count), outs)):
            kinds["it%d" % at] = self.kind("keep_m_in_n", m=out.vector, n=2 * size, offset=first)
        connects = ["in0 mux.0", "in1 mux.1", "mux order", "order it0", "order it1", "it0 out0", "it1 out1"]
        compare(
            blocks.vector_map(SIZES[self.type], [size, size], mapping), written(kinds, connects, fed, outs), fed, outs,
            tags=False,
        )


def vectors() -> None:
    """What stands for blocks of vectors."""

    def trial(chance: random.Random) -> None:
        of = Vectors(chance)
        for tried in (of.in_a_row, of.between_streams, of.places, of.extremes, of.map):
            tried()

    each(trial, 2)


def try_named(functions: dict[str, Any]) -> None:
    """Tries the function that the first word names, with the words behind it that start flow."""
    try:
        functions[sys.argv[1]]()
        try_all(sys.argv[2:])
    except BaseException:
        traceback.print_exc()
        # (a run that did not end would hold it, or end it in its own way)
        os._exit(1)


if __name__ == "__main__":
    try_named(globals())
