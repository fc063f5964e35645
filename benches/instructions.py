#!/usr/bin/env python3
"""How many instructions a step of an adder in a chain takes, and each of its items, by function, under callgrind.

usage: instructions.py GRAPH_BENCH

GRAPH_BENCH is the built program. It runs with 4 and with 16 adders, on two lengths, with buffers of 4 and of 64 KiB.
The difference of the chains is that of twelve adders. That of the lengths leaves out what does not grow with them. That
of the buffers parts what a step takes from what an item takes. What the compiler has put into another function counts
there. A copy counts for the function that makes it, in vectors: callgrind would count each byte of the instruction that
copies more than 4 KiB."""

import os
import re
import subprocess
import sys
import tempfile
from collections import Counter
from pathlib import Path

SIZES = {"byte": 1, "short": 2, "int": 4}
# Chains of so many adders, lengths of so many buffers, and buffers of so many bytes.
CHAINS, LENGTHS, BUFFERS = (4, 16), (4, 8), (1 << 12, 1 << 16)
COPIES = "memcpy|memmove|memset"
TUNED = {**os.environ, "GLIBC_TUNABLES": "glibc.cpu.x86_rep_movsb_threshold=0x10000000"}


def counted(path):
    """The instructions of each function by what callgrind wrote, where a copy is named for its caller."""
    names, own, copies = {}, Counter(), Counter()

    def named(text):
        number, _, name = text.partition(" ")
        return names.setdefault(number, name)

    within, called, is_call = None, None, False
    for line in path.read_text().splitlines():
        if line.startswith("fn="):
            within = named(line[3:])
        elif line.startswith("cfn="):
            called = named(line[4:])
        elif line.startswith("calls="):
            is_call = True
        elif re.match(r"[+*\-\d]", line):
            count = int(line.split()[1])
            if not is_call:
                own[within] += count
            elif re.search(COPIES, called):
                copies["copy by " + within] += count
            is_call = False
    for name in [it for it in own if re.search(COPIES, it)]:
        del own[name]
    return own + copies


def run(program, item, adders, capacity, items):
    with tempfile.TemporaryDirectory() as room:
        out = Path(room, "out")
        words = [program, "once", item, str(adders), "null", str(capacity), str(capacity), str(items)]
        how = ["valgrind", "--tool=callgrind", f"--callgrind-out-file={out}"]
        subprocess.run(how + words, check=True, env=TUNED, stderr=subprocess.DEVNULL)
        return counted(out)


def of_a_step(program, item, capacity):
    """The instructions of each function in a step of one adder that takes a whole buffer."""
    total = Counter()
    for adders, times in zip(CHAINS, (-1, 1)):
        for length, sign in zip(LENGTHS, (-1, 1)):
            for name, count in run(program, item, adders, capacity, length * capacity).items():
                total[name] += times * sign * count
    steps = (CHAINS[1] - CHAINS[0]) * (LENGTHS[1] - LENGTHS[0])
    return Counter({name: count / steps for name, count in total.items()})


def parted(program, item):
    """What a step takes, and what an item takes, by function."""
    few, many = (size // SIZES[item] for size in BUFFERS)
    of_few, of_many = of_a_step(program, item, few), of_a_step(program, item, many)
    each = {name: (of_many[name] - of_few[name]) / (many - few) for name in {*of_few, *of_many}}
    return {name: (of_few[name] - few * cost, cost) for name, cost in each.items()}


def main():
    if len(sys.argv) != 2:
        sys.exit("usage: instructions.py GRAPH_BENCH")
    table = {item: parted(sys.argv[1], item) for item in SIZES}
    print("| function |" + "".join(f" a step, {it}s | an item |" for it in SIZES))
    print("|---|" + "---:|---:|" * len(SIZES))
    rows = {name: [costs.get(name, (0, 0)) for costs in table.values()] for costs in table.values() for name in costs}
    rows["all"] = [tuple(map(sum, zip(*costs.values()))) for costs in table.values()]
    for name, cells in sorted(rows.items(), key=lambda it: -sum(step for step, _ in it[1])):
        if any(abs(step) >= 0.5 or abs(each) >= 0.0005 for step, each in cells):
            print(f"| `{name}` |" + "".join(f" {step:.0f} | {each:.3f} |" for step, each in cells))


if __name__ == "__main__":
    main()
