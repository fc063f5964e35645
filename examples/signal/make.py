#!/usr/bin/env python3
"""Makes the files of this example.

make.py recording FILE   writes 100,000 raw shorts: a slow sine, a whistle of a quarter of the sample rate, and noise
make.py filtered FILE    writes what the filter of graph.toml gives for them, computed from its equation alone
"""
import math
import struct
import sys

LEAD = [0] * 20
TAPS = list(range(1, 17)) + list(range(16, 0, -1))
DECIMATION = 10
SHIFT = 8


def recording():
    samples = []
    noise = 1
    for n in range(100_000):
        noise = (noise * 1_103_515_245 + 12_345) % 2**31
        slow = round(8000 * math.sin(2 * math.pi * n / 4800))
        whistle = [0, 4000, 0, -4000][n % 4]
        samples.append(slow + whistle + (noise >> 16) % 201 - 100)
    return samples


def filtered():
    items = LEAD + recording()
    results = []
    for k in range(len(items) // DECIMATION):
        last = k * DECIMATION
        total = sum(tap * items[last - j] for j, tap in enumerate(TAPS) if last >= j)
        # to the nearest whole number, ties up, and within a short
        nearest = (total + 2 ** (SHIFT - 1)) // 2**SHIFT
        results.append(max(-32768, min(32767, nearest)))
    return results


def main():
    makers = {"recording": recording, "filtered": filtered}
    if len(sys.argv) != 3 or sys.argv[1] not in makers:
        sys.exit(__doc__)
    samples = makers[sys.argv[1]]()
    with open(sys.argv[2], "wb") as file:
        file.write(struct.pack(f"<{len(samples)}h", *samples))


main()
