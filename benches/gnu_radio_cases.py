#!/usr/bin/python3
"""Blocks of Magbelu beside GNU Radio's own: random cases of each kind, with the items that both give.

usage: gnu_radio_cases.py [--flow COMMAND] [--cases N] [--write FOLDER] [KIND..]

COMMAND runs a graph file, `./flow` if none is said; N is 100 if none is said. With --write the first two cases of each
kind are put into FOLDER as cases of tests/cases, with the items that GNU Radio gave. It ends with status 1 where an
item differs."""

import argparse
import random
import subprocess
import sys
import tempfile
from math import gcd
from pathlib import Path
from typing import Any, Callable, Dict, List, NamedTuple, Tuple

from gnuradio import blocks, digital, gr, trellis, vocoder

TOP = Path(__file__).resolve().parent.parent
RANGES = {"byte": (0, 255), "short": (-32768, 32767), "int": (-(2**31), 2**31 - 1)}
LETTERS = {"byte": "b", "short": "s", "int": "i"}
SIZES = {"byte": gr.sizeof_char, "short": gr.sizeof_short, "int": gr.sizeof_int}
# How many cases run as one graph, so that the program need not start for each. A graph has 256 blocks, and a case has
# up to 7.
TOGETHER = 36


class Case(NamedTuple):
    """A block with its inputs, and GNU Radio's block of the same parameters."""

    kind: str
    item: str
    keys: str
    inputs: List[List[int]]
    make: Callable[[], Any]
    # The type of the output, of GNU Radio's too.
    to: str = ""
    # Whether GNU Radio's block gives floats.
    is_float: bool = False


Draw = random.Random

# (it tells of each machine that has states which nothing leads to)
gr.logging().set_default_level(gr.log_levels.off)


def items(draw: Draw, item: str, most: int = 300) -> List[int]:
    """Some items, of which the ends of the type's range are as likely as others."""
    low, high = RANGES[item]
    return [
        draw.choice([low, high, 0, 1, draw.randint(low, high), draw.randint(max(low, -9), 9)])
        for _ in range(draw.randint(1, most))
    ]


def rounds(draw: Draw, item: str, taken: int) -> List[int]:
    """Items for whole rounds, each of so many: of a round that is not whole GNU Radio's block gives a part, and
    Magbelu's nothing."""
    tape: List[int] = []
    while len(tape) < taken:
        tape += items(draw, item)
    return tape[: len(tape) // taken * taken]


def typed(name: str, item: str) -> Callable[..., Any]:
    """The block of GNU Radio for items of this type."""
    return getattr(blocks, f"{name}_{LETTERS[item] * 2}")


def joined(name: str, theirs: str, least: int, *words: int) -> Callable[[Draw, str], Case]:
    """A block that makes one item of those of its inputs, at least so many."""

    def case(draw: Draw, item: str) -> Case:
        inputs = [items(draw, item) for _ in range(draw.randint(least, 5))]
        return Case(name, item, "", inputs, lambda: typed(theirs, item)(*words))

    return case


def and_const(draw: Draw, item: str) -> Case:
    value = draw.randint(*RANGES[item])
    return Case("and_const", item, f"value = {value}", [items(draw, item)], lambda: typed("and_const", item)(value))


def absolute(draw: Draw, item: str) -> Case:
    return Case("abs", item, "", [items(draw, item)], typed("abs", item))


def mute(draw: Draw, item: str) -> Case:
    on = draw.randint(0, 1)
    return Case("mute", item, f"on = {on}", [items(draw, item)], lambda: typed("mute", item)(on == 1))


def table(draw: Draw, item: str) -> Case:
    values = [draw.randint(-(2**23), 2**23) for _ in range(draw.randint(1, 256))]
    tape = [draw.randrange(len(values)) for _ in range(draw.randint(1, 300))]
    return Case(
        "table", "", f'to = "int"\nvalues = {values}', [tape], lambda: digital.chunks_to_symbols_bf(values, 1), "int",
        True,
    )


def correlate_access_code(draw: Draw, item: str) -> Case:
    length = draw.randint(1, 64)
    code = "".join(draw.choice("01") for _ in range(length))
    threshold = draw.randint(0, max(0, length // 3))
    tape = []
    while len(tape) < 300:
        sent = [int(bit) ^ (draw.random() < 0.05) for bit in code]
        tape += [draw.randint(0, 255) for _ in range(draw.randint(0, 90))] + [
            bit | 2 * draw.randint(0, 1) for bit in sent
        ]
    keys = f'code = "{code}"\nthreshold = {threshold}'
    return Case("correlate_access_code", "", keys, [tape], lambda: digital.correlate_access_code_bb(code, threshold))


ORDERS = {"msb_first": gr.GR_MSB_FIRST, "lsb_first": gr.GR_LSB_FIRST}


def repacked(name: str) -> Callable[[Draw, str], Case]:
    """A block that gives the bits of items in items of another number of bits."""

    def case(draw: Draw, item: str) -> Case:
        bits = draw.randint(1, {"byte": 8, "short": 16, "int": 32}[item])
        order = draw.choice(sorted(ORDERS))
        keys = f'bits = {bits}\norder = "{order}"'
        width = 8 * SIZES[item]
        taken = (bits if name == "packed_to_unpacked" else width) // gcd(bits, width)
        return Case(name, item, keys, [rounds(draw, item, taken)], lambda: typed(name, item)(bits, ORDERS[order]))

    return case


def repack_bits(draw: Draw, item: str) -> Case:
    k, l, order = draw.randint(1, 8), draw.randint(1, 8), draw.choice(sorted(ORDERS))
    keys = f'k = {k}\nl = {l}\norder = "{order}"'
    tape = rounds(draw, "byte", l // gcd(k, l))
    return Case("repack_bits", "", keys, [tape], lambda: blocks.repack_bits_bb(k, l, "", False, ORDERS[order]))


def keep_m_in_n(draw: Draw, item: str) -> Case:
    n = draw.randint(1, 40)
    m = draw.randint(1, n)
    offset = draw.randint(0, n - m)
    return Case(
        "keep_m_in_n", item, f"m = {m}\nn = {n}\noffset = {offset}", [items(draw, item)],
        lambda: blocks.keep_m_in_n(SIZES[item], m, n, offset),
    )


def insert(draw: Draw, item: str) -> Case:
    values = items(draw, item, 20)
    period = len(values) + draw.randint(1, 30)
    # (behind the last item GNU Radio's block gives no values)
    offset = draw.randint(0, period - len(values) - 1)
    keys = f"values = {values}\nperiod = {period}\noffset = {offset}"
    theirs = getattr(blocks, f"vector_insert_{LETTERS[item]}")
    # (there the offset says where in a period, which has the values first, the output begins)
    return Case(
        "insert", item, keys, [rounds(draw, item, period - len(values))],
        lambda: theirs(values, period, (period - offset) % period),
    )


class Row(gr.hier_block2):
    """Blocks of GNU Radio in a row, of which the last may have outputs that nobody reads."""

    def __init__(self, taken: int, given: int, row: List[Any], unread: List[int]) -> None:
        gr.hier_block2.__init__(self, "row", gr.io_signature(1, 1, taken), gr.io_signature(1, 1, given))
        self.connect(self, *row, self)
        for port, size in enumerate(unread, 1):
            self.connect((row[-1], port), blocks.null_sink(size))


class Clocked(gr.hier_block2):
    """A source that ends after so many items, whatever comes."""

    def __init__(self, size: int, source: Any, count: int) -> None:
        gr.hier_block2.__init__(self, "clocked", gr.io_signature(1, 1, size), gr.io_signature(1, 1, size))
        self.connect(self, blocks.null_sink(size))
        self.connect(source, blocks.head(size, count), self)


def divide(draw: Draw, item: str) -> Case:
    # (what is divided by 0, and the least int over -1, end GNU Radio's program)
    inputs = [
        items(draw, item),
        *([it if it not in (0, -1) else 3 for it in items(draw, item)] for _ in range(draw.randint(1, 4))),
    ]
    return Case("divide", item, "", inputs, lambda: typed("divide", item)())


def sample_and_hold(draw: Draw, item: str) -> Case:
    # (where the second input has other items than bytes, tests/gnuradio/own.py has cases)
    asked = [it if draw.random() < 0.3 else 0 for it in items(draw, item)]
    return Case("sample_and_hold", item, "", [items(draw, item), asked], typed("sample_and_hold", item))


def binary_slicer(draw: Draw, item: str) -> Case:
    def make() -> Any:
        return Row(SIZES[item], 1, [getattr(blocks, f"{item}_to_float")(), digital.binary_slicer_fb()], [])

    return Case("binary_slicer", item, "threshold = 0", [items(draw, item)], make, "byte")


def ulaw_encode(draw: Draw, item: str) -> Case:
    return Case("ulaw_encode", item, "", [items(draw, item)], vocoder.ulaw_encode_sb, "byte")


def alaw_encode(draw: Draw, item: str) -> Case:
    # (from -7 to -1 the byte is another in GNU Radio)
    return Case(
        "alaw_encode", item, "", [[it if not -8 < it < 0 else 0 for it in items(draw, item)]], vocoder.alaw_encode_sb,
        "byte",
    )


def framed(name: str, theirs: str, unread: List[int], *words: int) -> Callable[[Draw, str], Case]:
    """A block that makes one item of each frame, which is a vector in GNU Radio."""

    def case(draw: Draw, item: str) -> Case:
        n = draw.randint(1, 40)

        def make() -> Any:
            return Row(
                SIZES[item], SIZES[item], [blocks.stream_to_vector(SIZES[item], n), typed(theirs, item)(n, *words)],
                unread,
            )

        return Case(name, item, f"n = {n}", [items(draw, item)], make)

    return case


def pattern(draw: Draw, item: str) -> Case:
    values, clock = items(draw, item, 256), items(draw, item)
    source = getattr(blocks, f"vector_source_{LETTERS[item]}")
    return Case(
        "pattern", item, f"values = {values}", [clock], lambda: Clocked(SIZES[item], source(values, True), len(clock))
    )


def counter(draw: Draw, item: str) -> Case:
    n, clock = draw.randint(1, 200), items(draw, item)
    source = getattr(blocks, f"vector_source_{LETTERS[item]}")
    return Case(
        "counter", item, f"n = {n}", [clock], lambda: Clocked(SIZES[item], source(list(range(n)), True), len(clock))
    )


FLOATS = {"byte": blocks.uchar_to_float, "short": blocks.short_to_float, "int": blocks.int_to_float}


def viterbi(draw: Draw, item: str) -> Case:
    symbols, states, outputs = draw.randint(2, 4), draw.randint(1, 16), draw.randint(2, 8)
    rows = range(symbols * states)
    following = [draw.randrange(states) for _ in rows]
    given = [draw.randrange(outputs) for _ in rows]
    steps, start = draw.randint(1, 40), draw.choice([-1, draw.randrange(states)])
    # (where no path leads from the start to the end, GNU Radio's block gives what it has left of others)
    ends = {start} if start >= 0 else set(range(states))
    for _ in range(steps):
        ends = {following[symbols * state + symbol] for state in ends for symbol in range(symbols)}
    end = draw.choice([-1, draw.choice(sorted(ends))])
    # Of few metrics many paths have one sum. (Their sums are floats there, which are exact up to 2^24.)
    most = draw.choice([1, 3, 200, min(RANGES[item][1], 2**18)])
    least = max(RANGES[item][0], -draw.choice([0, most]))
    tape = [draw.randint(least, most) for _ in range(steps * outputs * draw.randint(1, 5))]
    keys = (f"symbols = {symbols}\nnext = {following}\noutputs = {outputs}\noutput = {given}\n"
        f"steps = {steps}\nstart = {start}\nend = {end}")

    def make() -> Any:
        machine = trellis.fsm(symbols, states, outputs, following, given)
        return Row(SIZES[item], 1, [FLOATS[item](), trellis.viterbi_b(machine, steps, start, end)], [])

    return Case("viterbi", item, keys, [tape], make, "byte")


ALL = ("byte", "short", "int")
WIDE = ("short", "int")
# Of each kind how a case of it is drawn, and the types that GNU Radio's block has, with the same meaning.
KINDS: Dict[str, Tuple[Callable[[Draw, str], Case], Tuple[str, ...]]] = {
    "and_const": (and_const, ALL),
    "abs": (absolute, WIDE),
    "mute": (mute, WIDE),
    # (of one input it gives the items themselves, for which there is no case)
    "sub": (joined("sub", "sub", 2), WIDE),
    "multiply": (joined("multiply", "multiply", 1), WIDE),
    "divide": (divide, WIDE),
    "minimum": (joined("minimum", "min", 1, 1), WIDE),
    "maximum": (joined("maximum", "max", 1, 1), WIDE),
    "sample_and_hold": (sample_and_hold, ("byte",)),
    "table": (table, ("byte",)),
    "binary_slicer": (binary_slicer, WIDE),
    "ulaw_encode": (ulaw_encode, ("short",)),
    "alaw_encode": (alaw_encode, ("short",)),
    "keep_m_in_n": (keep_m_in_n, ALL),
    "frame_minimum": (framed("frame_minimum", "min", [], 1), WIDE),
    "frame_maximum": (framed("frame_maximum", "max", [], 1), WIDE),
    # (of ints it gives shorts there)
    "argmax": (framed("argmax", "argmax", [2]), ("short",)),
    # (a source that repeats stands for them there)
    "pattern": (pattern, ALL),
    "counter": (counter, ALL),
    "insert": (insert, ALL),
    "repack_bits": (repack_bits, ("byte",)),
    "packed_to_unpacked": (repacked("packed_to_unpacked"), ALL),
    "unpacked_to_packed": (repacked("unpacked_to_packed"), ALL),
    "correlate_access_code": (correlate_access_code, ("byte",)),
    # (its metrics are floats there)
    "viterbi": (viterbi, ALL),
}


def graph_of(case: Case, front: str = "") -> str:
    """The graph file of a case, fed, where all names have this in front of them."""
    item = case.item or "byte"
    item, keys = f'type = "{case.item}"\n' if case.item else "", case.keys + "\n" if case.keys else ""
    kind = f'[[block]]\nname = "{front}f"\nkind = "{case.kind}"\n' + item + keys
    text = [kind, f'[[block]]\nname = "{front}out"\nkind = "vector_sink"\ntype = "{case.to or item}"\n']
    for port, tape in enumerate(case.inputs):
        text.append(f'[[block]]\nname = "{front}s{port}"\nkind = "vector_source"\ntype = "{item}"\n')
        text.append(f'[[feed]]\nsource = "{front}s{port}"\nitems = {tape}\n')
        text.append(f'[[connect]]\nfrom = "{front}s{port}"\nto = "{front}f"\nto_port = {port}\n')
    text.append(f'[[connect]]\nfrom = "{front}f"\nto = "{front}out"\n')
    return "\n".join(text)


def theirs_of(case: Case) -> List[int]:
    """What GNU Radio's block gives."""
    letter = LETTERS[case.item or "byte"]
    top, block = gr.top_block(), case.make()
    sink = (
        blocks.vector_sink_f()
        if case.is_float
        else getattr(blocks, f"vector_sink_{LETTERS[case.to or case.item or 'byte']}")()
    )
    for port, tape in enumerate(case.inputs):
        top.connect(getattr(blocks, f"vector_source_{letter}")(tape), (block, port))
    top.connect(block, sink)
    top.run()
    return [int(number) for number in sink.data()]


def ours_of(cases: List[Case], flow: List[str], room: Path) -> List[List[int]]:
    """What Magbelu gives, which runs them as one graph: the names of each begin with its number."""
    path = room / "graph.toml"
    path.write_text("\n".join(graph_of(it, f"{at}.") for at, it in enumerate(cases)))
    said = subprocess.run([*flow, "run", "-q", str(path)], capture_output=True, text=True, check=False)
    lines = [line.split() for line in said.stdout.splitlines()]
    sinks = {words[1]: [int(word) for word in words[3:] if not word.startswith("@")] for words in lines
        if words[:1] == ["sink"]}
    if len(sinks) < len(cases):
        raise SystemExit(f"{cases[0].kind}: {said.stdout}{said.stderr}")
    return [sinks[f"{at}.out"] for at in range(len(cases))]


def write(folder: Path, number: int, case: Case, gives: List[int]) -> None:
    """Keeps a case, with what GNU Radio gave."""
    own = folder / f"{case.kind}_{number}"
    own.mkdir(parents=True, exist_ok=True)
    (own / "args").write_text("run\n-q\ngraph.toml\n")
    (own / "graph.toml").write_text(graph_of(case))
    items_text = "".join(f" {number}" for number in gives)
    (own / "stdout").write_text(f"sink out {len(gives)}{items_text}\ndone\n")


def main() -> int:
    parser = argparse.ArgumentParser()
    parser.add_argument("--flow", default=str(TOP / "flow"))
    parser.add_argument("--cases", type=int, default=100)
    parser.add_argument("--write", type=Path)
    parser.add_argument("kinds", nargs="*")
    words = parser.parse_args()
    differ = 0
    with tempfile.TemporaryDirectory() as room:
        for kind in words.kinds or KINDS:
            draw_case, types = KINDS[kind]
            draw = random.Random(kind)
            cases = [draw_case(draw, types[number % len(types)]) for number in range(words.cases)]
            given = [it for first in range(0, len(cases), TOGETHER)
                for it in ours_of(cases[first : first + TOGETHER], words.flow.split(), Path(room))]
            equal = 0
            for number, (case, ours) in enumerate(zip(cases, given)):
                theirs = theirs_of(case)
                if ours == theirs:
                    equal += 1
                elif words.cases - equal < 4 or equal == number:
                    print(
                        f"{kind} {number}: GNU Radio gives {theirs[:20]}.., {len(theirs)} items; Magbelu "
                        f"{ours[:20]}.., {len(ours)}\n{graph_of(case)[:600]}"
                    )
                if words.write and number < 2:
                    write(words.write, number, case, theirs)
            differ += words.cases - equal
            print(f"{kind}: {equal} of {words.cases} equal", flush=True)
    return 1 if differ else 0


if __name__ == "__main__":
    sys.exit(main())
