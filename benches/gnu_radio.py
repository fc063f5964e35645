#!/usr/bin/python3
"""How many million items a second GNU Radio passes from a null source through a head and adders to a sink.

usage: gnu_radio.py [SECONDS]

Each row is the best of three runs of about so many seconds, 1 if none is given; a kept row is ten million items into a
vector sink. Threads, buffers and scheduling are GNU Radio's own."""

import sys
import time

from gnuradio import blocks, gr

ITEMS = {
    "bytes": (gr.sizeof_char, blocks.add_const_bb, blocks.vector_sink_b),
    "ints": (gr.sizeof_int, blocks.add_const_ii, blocks.vector_sink_i),
}
FEW = 10_000_000


def seconds_of(item, adders, chains, is_kept, count):
    """Returns the seconds that a run of so many items takes, from its start to its end."""
    size, adder, keeping_sink = ITEMS[item]
    top = gr.top_block()
    head = blocks.head(size, count)
    top.connect(blocks.null_source(size), head)
    for _ in range(chains):
        sink = keeping_sink() if is_kept else blocks.null_sink(size)
        top.connect(head, *(adder(1) for _ in range(adders)), sink)
    begun = time.perf_counter()
    top.run()
    return time.perf_counter() - begun


def best_rate(item, adders, chains, is_kept, seconds):
    """Returns the best rate of three runs, in million items a second."""
    count = FEW
    if not is_kept:
        count = max(FEW, int(FEW * seconds / seconds_of(item, adders, chains, is_kept, FEW)))
    return max(count / seconds_of(item, adders, chains, is_kept, count) for _ in range(3)) / 1e6


def main():
    seconds = float(sys.argv[1]) if len(sys.argv) > 1 else 1.0
    print(f"GNU Radio {gr.version()}")
    for item in ITEMS:
        rows = [(adders, 1, is_kept) for is_kept in (False, True) for adders in (1, 4, 16)]
        for adders, chains, is_kept in [*rows, (1, 8, False)]:
            rate = best_rate(item, adders, chains, is_kept, seconds)
            print(
                f"{item:5} {adders:3} adders {chains:2} chains {'kept' if is_kept else 'null'} {rate:7,.0f}", flush=True
            )


if __name__ == "__main__":
    main()
