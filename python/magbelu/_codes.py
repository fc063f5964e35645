"""The tables of convolutional codes."""

from __future__ import annotations

from typing import NamedTuple, SupportsIndex

from ._arguments import index
from ._kinds import Order

# A `state_machine` has two numbers for each of at most 2^11 states, and a `table` one for each of at most 2^8 words.
MOST_LENGTH, MOST_POLYNOMIALS = 12, 8


class Code(NamedTuple):
    """The tables of a code: `symbols`, `next` and `output` of a `state_machine` that gives its words, and with
    `outputs` of a `viterbi` that takes metrics of them. For words of bits that were decided, `metrics` has the `values`
    of a `table` for each output."""

    symbols: int
    next: list[int]
    outputs: int
    output: list[int]
    metrics: list[list[int]]


def convolutional(*polynomials: SupportsIndex, order: Order = "msb_first") -> Code:
    """The tables of the convolutional code that gives a word for each bit, with a bit of each polynomial, that of the
    first the highest. The highest bit of the greatest polynomial is for the newest bit that came, as in the usual octal
    numbers and GNU Radio's `trellis.fsm(1, n, polynomials)`; with the order "lsb_first" it is bit 0, as in its
    `cc_encoder`. The state is the bits before the newest; the last of them to come is the highest.

    >>> code = magbelu.convolutional(0o7, 0o5)
    >>> code.next, code.output
    ([0, 2, 0, 2, 1, 3, 1, 3], [0, 3, 3, 0, 2, 1, 1, 2])
    >>> code.metrics
    [[0, 1, 1, 2], [1, 0, 2, 1], [1, 2, 0, 1], [2, 1, 1, 0]]

    A decoder in blocks of ten bits, each from state 0 to state 0, gives seven bits and the three zeros behind them
    though two bits of a word came wrong:

    >>> builder = magbelu.Builder()
    >>> for name, kind in (("src", "vector_source"), ("out", "vector_sink")):
    ...     _ = builder.block(name, kind, type="byte")
    >>> _ = builder.block("coder", "state_machine", symbols=code.symbols, next=code.next, output=code.output, init=0)
    >>> _ = builder.block("wrong", "xor", type="byte")
    >>> _ = builder.block("errors", "vector_source", type="byte")
    >>> _ = builder.block("row", "interleave", type="byte", ports=code.outputs)
    >>> _ = builder.block(
    ...     "decoder", "viterbi", type="byte", symbols=code.symbols, next=code.next, outputs=code.outputs,
    ...     output=code.output, steps=10, start=0, end=0
    ... )
    >>> for number, values in enumerate(code.metrics):
    ...     _ = builder.block("far%d" % number, "table", to="byte", values=values)
    ...     builder.connect("wrong", "far%d" % number)
    ...     builder.connect("far%d" % number, ("row", number))
    >>> for ends in (("src", "coder"), ("coder", "wrong"), ("errors", ("wrong", 1)), ("row", "decoder")):
    ...     builder.connect(*ends)
    >>> builder.connect("decoder", "out")
    >>> graph = builder.graph()
    >>> _ = graph.feed("src", [1, 0, 1, 1, 0, 0, 1, 0, 0, 0]), graph.feed("errors", [0, 0, 3, 0, 0, 0, 0, 0, 0, 0])
    >>> graph.settle(), graph.read("out")[0].tolist()
    (False, [1, 0, 1, 1, 0, 0, 1, 0, 0, 0])
    """
    numbers = [index(it, "a polynomial") for it in polynomials]
    if not 1 <= len(numbers) <= MOST_POLYNOMIALS:
        raise ValueError("a code has 1 to %d polynomials: %d" % (MOST_POLYNOMIALS, len(numbers)))
    for number in numbers:
        if not 1 <= number < 2**MOST_LENGTH:
            raise ValueError("a polynomial is from 1 to %d: %d" % (2**MOST_LENGTH - 1, number))
    if order not in ("msb_first", "lsb_first"):
        raise ValueError("the order is 'msb_first' or 'lsb_first', and not %r" % (order,))
    length = max(numbers).bit_length()
    if order == "lsb_first":
        numbers = [int("{:0{}b}".format(it, length)[::-1], 2) for it in numbers]
    states, words = 2 ** (length - 1), range(2 ** len(numbers))
    # The bits that a polynomial meets: the newest, and behind it the state.
    rows = [bit * states + state for state in range(states) for bit in range(2)]
    output = [int("".join(str(ones(row & it) % 2) for it in numbers), 2) for row in rows]
    return Code(
        2, [row // 2 for row in rows], len(words), output, [[ones(word ^ it) for it in words] for word in words]
    )


def ones(number: int) -> int:
    """How many bits of a number are 1."""
    return bin(number).count("1")
