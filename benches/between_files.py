#!/usr/bin/python3
"""How many seconds GNU Radio takes for shorts from a file through a chain of blocks to a file.

usage: between_files.py INPUT OUTPUT BLOCK..

A BLOCK is `adder`, or `fir` with how many taps it has: a filter of floats, between converters, since GNU Radio has none
of shorts to shorts. Threads, buffers and scheduling are GNU Radio's own. It prints the seconds from the start of the
run to its end."""

import sys
import time

from gnuradio import blocks, filter as filters, gr


def made(word):
    if word == "adder":
        return [blocks.add_const_ss(1)]
    taps = int(word.removeprefix("fir"))
    return [blocks.short_to_float(), filters.fir_filter_fff(1, [1 / taps] * taps), blocks.float_to_short()]


def main():
    top = gr.top_block()
    chain = [blocks.file_source(gr.sizeof_short, sys.argv[1], False)]
    for word in sys.argv[3:]:
        chain += made(word)
    top.connect(*chain, blocks.file_sink(gr.sizeof_short, sys.argv[2]))
    begun = time.perf_counter()
    top.run()
    print(time.perf_counter() - begun)


if __name__ == "__main__":
    main()
