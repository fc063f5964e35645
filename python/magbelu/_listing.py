"""What the library tells of a graph that it holds: blocks, connections, settings, rates, and the drawing."""

from __future__ import annotations

import ctypes
import shutil
import subprocess
from typing import Any, NamedTuple, Optional, Union

from ._errors import refused
from ._library import Link, Room

# By the numbers of c/magbelu.h.
TYPES, ROLES, FORMATS = ("byte", "short", "int"), ("work", "source", "sink", "null_sink"), ("dot", "mermaid")
SHIFTS, NUMBER, TAPS, BALANCED = (None, "skips", "delays"), 1, 2, 0
# The least and the greatest tap.
LEAST_TAP, MOST_TAP = -(2**15), 2**15 - 1
# What numpy calls the types, and how many bytes an item has.
DTYPES = {"byte": "uint8", "short": "int16", "int": "int32"}
SIZES = {"byte": 1, "short": 2, "int": 4}


class Port(NamedTuple):
    """A source or a sink, with the type of its items: "byte", "short" or "int", as GNU Radio Companion calls them
    too."""

    name: str
    type: str

    @property
    def dtype(self) -> str:
        """The type as numpy calls it.

        >>> Port("src", "byte").dtype
        'uint8'
        """
        return DTYPES[self.type]

    @property
    def size(self) -> int:
        """How many bytes an item has."""
        return SIZES[self.type]


class Block(NamedTuple):
    """A block of a graph: what it does with streams ("source", "work", "sink" where it keeps its items, "null_sink"),
    how many of its inputs and outputs are connected, and the types of the items there. Where it has no ports on a side
    there is no type."""

    name: str
    kind: str
    role: str
    inputs: int
    input_type: Optional[str]
    outputs: int
    output_type: Optional[str]


class Connection(NamedTuple):
    """A connection, from an output of a block to an input of another."""

    writer: str
    out_port: int
    reader: str
    in_port: int


#: What a block waits for, by the number that the library tells.
WAITS = {0: "ready", 1: "done", 2: "items", 3: "room", 5: "feed"}


class Need(NamedTuple):
    """What a block waits for: it may act ("ready"), is "done", or waits for "items" at an input or "room" at an output,
    which is the port; or it is a source that is to be fed or closed ("feed").

    >>> Need("items", 0).port
    0
    """

    what: str
    port: Optional[int]


class Setting(NamedTuple):
    """What of a block may be set: a number, or as many taps as its own. Each lies between the least and the most.
    `value` is the block's own, which is in force until another is set.

    >>> Setting(0, 255, 10).most
    255
    """

    least: int
    most: int
    value: Union[int, list[int]]


class Rates(NamedTuple):
    """How many items a firing of a block takes of each connected input, and gives on each output. Where it shifts its
    stream, its first firings are others, so many as `shifted` says: they give nothing ("skips"), or take nothing
    ("delays").

    >>> Rates([1, 1], 1, None, 0).takes
    [1, 1]
    """

    takes: list[int]
    gives: int
    shift: Optional[str]
    shifted: int


def told(answer: Any) -> Any:
    """An answer of a call that names no block."""
    if answer.number:
        raise refused(answer.number, "", answer.status == 4)
    return answer


def block_of(calls: Any, plant: Any, number: int) -> Block:
    """The block of a number."""
    room = 256
    while True:
        name, kind = Room(room), Room(room)
        listed = told(calls.magbelu_bytes_block(plant, number, name.at, name.size, kind.at, kind.size))
        if max(listed.name_len, listed.kind_len) <= room:
            break
        room = max(listed.name_len, listed.kind_len)
    role = ROLES[listed.role]
    return Block(
        name.part(0, listed.name_len).decode(),
        kind.part(0, listed.kind_len).decode(),
        role,
        listed.input_count,
        None if role == "source" else TYPES[listed.input_type],
        listed.output_count,
        None if role in ("sink", "null_sink") else TYPES[listed.output_type],
    )


def blocks_of(calls: Any, plant: Any) -> list[Block]:
    """The blocks, in the order of the file."""
    return [block_of(calls, plant, number) for number in range(told(calls.magbelu_bytes_block_count(plant)).value)]


def connections_of(calls: Any, plant: Any, blocks: list[Block]) -> list[Connection]:
    """The connections between these blocks, in the order of the file."""
    room = 0
    while True:
        rows = (Link * max(room, 1))()
        count = told(calls.magbelu_bytes_connections(plant, ctypes.addressof(rows), room)).value
        if count <= room:
            return [
                Connection(blocks[it.writer].name, it.out_port, blocks[it.reader].name, it.in_port)
                for it in rows[:count]
            ]
        room = count


def rooms_of(calls: Any, plant: Any, count: int) -> list[int]:
    """How many items the buffers behind so many connections have room for."""
    rows = (ctypes.c_uint64 * max(count, 1))()
    told(calls.magbelu_bytes_rooms(plant, ctypes.addressof(rows), count))
    return list(rows[:count])


def setting_of(calls: Any, plant: Any, number: int, tested: Any) -> Optional[Setting]:
    """What of the block of a number may be set. The answer is `tested`."""
    room = 256
    while True:
        taps = (ctypes.c_int16 * room)()
        it = tested(calls.magbelu_bytes_setting(plant, number, ctypes.addressof(taps), room))
        if it.count <= room:
            break
        room = it.count
    if it.what == TAPS:
        return Setting(LEAST_TAP, MOST_TAP, list(taps[: it.count]))
    return Setting(it.least, it.most, it.value) if it.what == NUMBER else None


def rates_of(calls: Any, plant: Any, number: int, inputs: int, tested: Any) -> Rates:
    """What a firing of the block of a number, which has so many inputs, takes and gives. The answer is `tested`."""
    takes = (ctypes.c_uint64 * max(inputs, 1))()
    it = tested(calls.magbelu_bytes_rates(plant, number, ctypes.addressof(takes), inputs))
    return Rates(list(takes[:inputs]), it.gives, SHIFTS[it.shift], it.shifted)


def firings_of(calls: Any, plant: Any, blocks: list[Block]) -> Optional[dict[str, int]]:
    """How often each of these blocks fires in an iteration, if the rates have a balance."""
    rows = (ctypes.c_uint32 * max(len(blocks), 1))()
    what = told(calls.magbelu_bytes_firings(plant, ctypes.addressof(rows), len(blocks))).what
    return {it.name: count for it, count in zip(blocks, rows)} if what == BALANCED else None


def drawing_of(calls: Any, plant: Any, format: str) -> str:
    """The drawing as text in a format."""
    room = 65536
    while True:
        output = Room(room)
        answer = told(calls.magbelu_bytes_draw(plant, FORMATS.index(format), output.at, output.size))
        if answer.output_len <= room:
            return output.part(0, answer.output_len).decode()
        room = answer.output_len


def svg_of(dot: str) -> Optional[str]:
    """The picture that Graphviz's `dot` makes of its text, as SVG, or nothing where there is no `dot`."""
    program = shutil.which("dot")
    if program is None:
        return None
    return subprocess.run([program, "-Tsvg"], input=dot.encode(), stdout=subprocess.PIPE, check=True).stdout.decode()
