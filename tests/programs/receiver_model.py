"""The sender and the steps of examples/receiver in numpy: the items that the equations of the kinds give, in whole
numbers, and the tables from what they stand for."""

import tomllib
import zlib
from pathlib import Path
from typing import Dict, List, Tuple

import numpy
from numpy.typing import NDArray

Items = NDArray[numpy.int64]
Block = Dict[str, object]

# A line, and how many bits the encoder gets of it: with the checksum, and zeros that take it back to state 0.
TEXT, STEPS = 27, 255
# The access code that GNU Radio's packets have if they name none.
CODE = [int(digit) for digit in f"{0xACDDA4E2F28C20FC:064b}"]
# The polynomials of the code; bit 6 is that of the newest of 7 bits.
POLYNOMIALS = (0o171, 0o133)
# Where the first frame begins in the levels, behind its access code, and how far it is to the next.
FIRST, PERIOD = 224, len(CODE) + 2 * STEPS
# The order in which the bits of half a frame are sent. It undoes itself.
ORDER = 16 * numpy.arange(STEPS) % STEPS


def blocks_of(graph: Path) -> Dict[str, Block]:
    """The blocks of a graph file, by their names."""
    return {str(block["name"]): block for block in tomllib.loads(graph.read_text())["block"]}


def nearest(items: Items, shift: int) -> Items:
    """Over 2^shift, to the nearest whole number; ties round up."""
    return (items + (1 << shift >> 1)) >> shift


def within(items: Items, bits: int) -> Items:
    """The items, none of which is outside of the type: nothing here wraps or saturates."""
    if len(items) and not -(1 << bits - 1) <= items.min() <= items.max() < 1 << bits - 1:
        raise ValueError(f"an item leaves {bits} bits")
    return items


def before(items: Items, count: int) -> Items:
    """The items behind so many zeros."""
    return numpy.concatenate([numpy.zeros(count, numpy.int64), items])


def last_sums(items: Items, length: int) -> Items:
    """The sum of the last `length` items at each item."""
    sums = before(numpy.cumsum(items), length)
    return sums[length:] - sums[: len(items)]


def filtered(items: Items, block: Block) -> Items:
    """What a `fir` gives."""
    taps = numpy.array(block["taps"], numpy.int64)
    every = int(str(block.get("decimation", 1)))
    sums = numpy.convolve(items, taps)[: len(items)]
    return nearest(sums[: len(items) // every * every : every], int(str(block.get("shift", 0))))


def channel(recording: NDArray[numpy.uint8], blocks: Dict[str, Block]) -> Tuple[Items, Items]:
    """Step 1: I and Q."""
    pairs = recording[: len(recording) // 2 * 2].astype(numpy.int64).reshape(-1, 2) - 128
    return within(filtered(pairs[:, 0], blocks["low_i"]), 16), within(filtered(pairs[:, 1], blocks["low_q"]), 16)


def frequency(i: Items, q: Items) -> Items:
    """Step 2."""
    return within(nearest(within(q * before(i, 1)[:-1] - i * before(q, 1)[:-1], 32), 8), 32)


def levels(turns: Items) -> Items:
    """Step 3, its levels."""
    return within(last_sums(turns, 8) - nearest(within(last_sums(turns, 1024), 32), 7), 32)


def phases(sums: Items, blocks: Dict[str, Block]) -> Items:
    """Step 3, at which of 8 items a level is the farthest from 0."""
    sizes = within(filtered(numpy.abs(sums), blocks["comb"]), 32)
    return sizes[: len(sizes) // 8 * 8].reshape(-1, 8).argmax(axis=1)


def soft(sums: Items, blocks: Dict[str, Block]) -> Items:
    """Step 4, one of 8 levels."""
    return sums[int(str(blocks["keep"]["offset"])) :: 8][: len(sums) // 8]


def sliced(sums: Items, blocks: Dict[str, Block]) -> Items:
    """Step 4, its bits."""
    return (soft(sums, blocks) >= 0).astype(numpy.int64)


def marked(sums: Items, blocks: Dict[str, Block]) -> Items:
    """Step 4: the bits, 64 later, and 2 more behind an access code."""
    bits = sliced(sums, blocks)
    code = numpy.array([int(digit) for digit in str(blocks["code"]["code"])])
    # item n of the output is item n + 64 of these, and the code stands before it
    late = before(bits, 128)[: len(bits) + 64]
    wrong = numpy.array([numpy.count_nonzero(late[n : n + 64] != code) for n in range(len(bits))])
    flags = (wrong <= int(str(blocks["code"]["threshold"]))) & (numpy.arange(len(bits)) >= 64)
    return late[64:] + 2 * flags


def sequence() -> Items:
    """The bits of the scrambler: those of the CCSDS, whose first eight are 1."""
    bits = [1] * 8
    while len(bits) < STEPS:
        bits.append(bits[-1] ^ bits[-3] ^ bits[-5] ^ bits[-8])
    return numpy.array(bits)


def frame_of(line: bytes) -> List[int]:
    """The bits that are sent for a line."""
    data = line + zlib.crc32(line).to_bytes(4, "little")
    bits = [byte >> place & 1 for byte in data for place in range(7, -1, -1)]
    register, coded = 0, []
    for bit in bits + [0] * (STEPS - len(bits)):
        register = register >> 1 | bit << 6
        coded += [(register & polynomial).bit_count() % 2 for polynomial in POLYNOMIALS]
    halves = numpy.array(coded).reshape(2, STEPS)[:, ORDER] ^ sequence()
    return CODE + halves.ravel().tolist()


def sent(text: bytes) -> Items:
    """The bits that are sent for lines, each of which ends in a line feed."""
    lines = [text[at : at + TEXT] for at in range(0, len(text) - TEXT, TEXT + 1)]
    return numpy.array([bit for line in lines for bit in frame_of(line)])


def coded(levels_of_bits: Items) -> Items:
    """Step 5: the levels of whole frames, without the signs of the scrambler, in the order of the encoder."""
    count = (len(levels_of_bits) - FIRST + len(CODE)) // PERIOD
    starts = FIRST + PERIOD * numpy.arange(count)
    frames = levels_of_bits[starts[:, None] + numpy.arange(2 * STEPS)]
    return (frames.reshape(-1, STEPS) * (1 - 2 * sequence()))[:, ORDER].ravel()


def decoded(levels_of_bits: Items) -> Items:
    """Step 6, its decoder: of each frame the bits of the path from state 0 to state 0 whose outputs have the greatest
    sum of levels, where an output of 0 counts as less."""
    pairs = levels_of_bits.reshape(-1, STEPS, 2)
    # (state s has the last six bits, the newest at bit 5: it comes of two states, by the bit that it has there)
    states = numpy.arange(64)
    registers = numpy.stack([2 * states, 2 * states + 1])
    signs = [
        2 * numpy.array([[int(it & polynomial).bit_count() % 2 for it in row] for row in registers]) - 1
        for polynomial in POLYNOMIALS
    ]
    sums = numpy.full((len(pairs), 64), -(1 << 60))
    sums[:, 0] = 0
    choices = []
    for step in range(STEPS):
        levels_here = [pairs[:, step, port, None, None] * signs[port] for port in (0, 1)]
        ways = sums[:, registers & 63] + levels_here[0] + levels_here[1]
        # (of two with one sum the lower row)
        choices.append(ways[:, 1] > ways[:, 0])
        sums = ways.max(axis=1)
    state, bits = numpy.zeros(len(pairs), int), []
    for step in range(STEPS - 1, -1, -1):
        bits.append(state >> 5)
        state = registers[choices[step][numpy.arange(len(pairs)), state].astype(int), state] & 63
    return numpy.stack(bits[::-1], axis=1)


def shown(bits: Items) -> bytes:
    """Step 6, its lines."""
    lines = b""
    for frame in numpy.packbits(bits[:, : 8 * TEXT + 32].astype(numpy.uint8), axis=1):
        text, checksum = frame[:TEXT].tobytes(), frame[TEXT:].tobytes()
        lines += (b"+" if zlib.crc32(text).to_bytes(4, "little") == checksum else b"-") + text + b"\n"
    return lines
