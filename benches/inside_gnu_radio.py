#!/usr/bin/python3
"""How many million items a second a graph file passes as a block inside GNU Radio, beside GNU Radio's own blocks; what
memory it takes; and how long a call from Python takes.

usage: inside_gnu_radio.py [SECONDS] [MEMORY]

Each row is the best of five runs of about so many seconds, 1 if none is given, of both in turn: a null source, a head,
the blocks, a null sink, with GNU Radio's own threads and buffers; and the nanoseconds that all processors work on an
item, the least of them. Behind them stands the greatest part of memory that this process held after ten million bytes
through an adder, and after MEMORY of them, if that is given; and the least time in which a stream of Python is fed a
thousand items, settles and is drained."""

import os
import resource
import sys
import time

sys.path.insert(0, os.path.join(os.path.dirname(os.path.realpath(__file__)), "..", "python"))

import numpy
from gnuradio import blocks, filter, gr

import magbelu
from magbelu.gnuradio import Flowgraph

FEW = 10_000_000
TAPS = [(it * 37) % 200 - 100 for it in range(64)]


def chain(item, kinds):
    """Returns the text of a graph of these kinds with their parameters in a row."""
    names = ["src", *("block%d" % it for it in range(len(kinds))), "out"]
    words = ['kind = "vector_source"', *kinds, 'kind = "vector_sink"']
    rows = ['{ name = "%s", type = "%s", %s }' % (name, item, it) for name, it in zip(names, words)]
    connects = ['{ from = "%s", to = "%s" }' % pair for pair in zip(names, names[1:])]
    return "block = [%s]\nconnect = [%s]" % (", ".join(rows), ", ".join(connects))


def adders(item, count):
    """Returns the text of so many adders."""
    return chain(item, ['kind = "add_const", value = 1'] * count)


def filters(count):
    """Returns the text of so many filters of 64 taps, which divide by 2^12."""
    return chain("short", ['kind = "fir", taps = %s, shift = 12' % TAPS] * count)


def float_filter():
    """Returns GNU Radio's filter of shorts: one of floats between converters."""
    return [
        blocks.short_to_float(1, 1), filter.fir_filter_fff(1, [it / 4096 for it in TAPS]), blocks.float_to_short(1, 1),
    ]


ROWS = [
    *[
        ("bytes %2d adders" % it, 1, lambda it=it: [blocks.add_const_bb(1) for _ in range(it)], adders("byte", it))
        for it in (1, 4, 16)
    ],
    *[
        ("ints  %2d adders" % it, 4, lambda it=it: [blocks.add_const_ii(1) for _ in range(it)], adders("int", it))
        for it in (1, 4, 16)
    ],
    ("shorts 64 taps", 2, float_filter, filters(1)),
]


def seconds_of(size, made, count):
    """Returns the seconds that a run of so many items takes, and those that all processors work in it."""
    top = gr.top_block()
    top.connect(blocks.null_source(size), blocks.head(size, count), *made, blocks.null_sink(size))
    begun, worked = time.perf_counter(), time.process_time()
    top.run()
    return time.perf_counter() - begun, time.process_time() - worked


def rates(size, own, text, seconds):
    """Returns the best rates of both, each with its least nanoseconds an item of all processors."""
    makers = [own, lambda: [Flowgraph(text=text)]]
    counts = [max(FEW, int(FEW * seconds / seconds_of(size, make(), FEW)[0])) for make in makers]
    best = [(0.0, float("inf"))] * 2
    for _ in range(5):
        for at, (make, count) in enumerate(zip(makers, counts)):
            passed, worked = seconds_of(size, make(), count)
            best[at] = max(best[at][0], count / passed / 1e6), min(best[at][1], worked / count * 1e9)
    return best[0] + best[1]


def held(count):
    """Returns the KiB that this process held at most when so many bytes have gone through an adder."""
    seconds_of(1, [Flowgraph(text=adders("byte", 1))], count)
    return resource.getrusage(resource.RUSAGE_SELF).ru_maxrss


def call(text, dtype):
    """Returns the least microseconds in which a stream is fed a thousand items, settles and is drained."""
    stream, items, room, least = magbelu.Stream(text), numpy.zeros(1000, dtype), numpy.zeros(1001, dtype), 1.0
    for _ in range(5000):
        begun = time.perf_counter()
        stream.feed("src", items)
        stream.settle()
        stream.drain_into("out", room)
        least = min(least, time.perf_counter() - begun)
    return least * 1e6


def main():
    seconds = float(sys.argv[1]) if len(sys.argv) > 1 else 1.0
    print("GNU Radio %s, the library's calls %d" % (gr.version(), magbelu.version()))
    for name, size, own, text in ROWS:
        print(
            "%-15s GNU Radio %7.0f, %5.1f ns  a graph file inside %7.0f, %5.1f ns"
            % (name, *rates(size, own, text, seconds)),
            flush=True,
        )
    print("KiB held after %d bytes: %d" % (FEW, held(FEW)))
    if len(sys.argv) > 2:
        print("KiB held after %d bytes: %d" % (int(float(sys.argv[2])), held(int(float(sys.argv[2])))))
    for name, text, dtype in (
        ("1 adder of bytes", adders("byte", 1), "uint8"), ("4 adders of ints", adders("int", 4), "int32"),
        ("64 taps of shorts", filters(1), "int16"),
    ):
        print("a call of 1,000 items, %s: %.1f us" % (name, call(text, dtype)))


if __name__ == "__main__":
    main()
