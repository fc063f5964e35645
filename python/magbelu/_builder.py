"""Graphs that are built by calls."""

from __future__ import annotations

import json
import re
from typing import Iterable, Mapping, Union

from ._arguments import index
from ._errors import Refused, refused
from ._graph import Graph
from ._kinds import KindBlocks
from ._runs import texts
from ._stream import Stream

# The refusals of a graph as a whole, which no single block and no single connection can be tested for.
WHOLE = (5, 7, 8, 11, 12)
# The numbers of the refusals of names.
DUPLICATE_NAME, UNKNOWN_BLOCK = 1, 2
#: An end of a connection: a block, for its port 0, or a block with a port.
End = Union[str, tuple[str, int]]


def text_of(text: object, what: str) -> str:
    if not isinstance(text, str):
        raise TypeError("%s is a str, and no %r" % (what, type(text).__name__))
    return text


def quoted(text: str) -> str:
    """A text as a string of TOML."""
    return json.dumps(text, ensure_ascii=False).replace("\x7f", "\\u007f")


def value_of(value: object, what: str) -> str:
    """A value of a table as TOML: a text, an integer, or a row of integers."""
    if isinstance(value, str):
        return quoted(value)
    if isinstance(value, Iterable) and not isinstance(value, (Mapping, set, frozenset)):
        return "[%s]" % ", ".join(str(index(it, "a number of " + what)) for it in value)
    return str(index(value, what))


def table_of(values: Mapping[str, object]) -> str:
    """A table of TOML in a line."""
    keys = (key if re.fullmatch(r"[A-Za-z0-9_-]+", key) else quoted(key) for key in values)
    return "{ %s }" % ", ".join("%s = %s" % (key, value_of(it, name)) for key, (name, it) in zip(keys, values.items()))


def array_of(name: str, rows: Iterable[str]) -> str:
    """An array of tables, a line each."""
    return "%s = [\n%s]\n" % (name, "".join("    %s,\n" % row for row in rows))


def end_of(end: End) -> tuple[str, int]:
    """The block and the port of an end."""
    name, port = (end, 0) if isinstance(end, str) else end
    return text_of(name, "a block at an end of a connection"), index(port, "a port")


def port_of(key: str, port: int) -> dict[str, int]:
    """A port under its key. A file need not name the first."""
    return {key: port} if port else {}


def test(text: str, what: str, number: int = 0) -> None:
    """Refuses a piece of a graph file, as the library does. Its first block has this number in the whole."""
    try:
        texts("check", text, path=what)
    except Refused as refusal:
        if refusal.number not in WHOLE:
            raise Refused(
                str(refusal.args[0]).replace("block 0", "block %d" % number, 1), place=refusal.place
            ) from None


class Builder(KindBlocks):
    """A graph that is built by calls: blocks, each with the keys that its kind has in a graph file, and connections.
    The library tests each call, and refuses it where it would refuse a file that says the same. What only a whole graph
    can be refused for is told by `graph` and `stream`.

    >>> builder = Builder()
    >>> builder.block("src", "vector_source", type="short"), builder.block("out", "vector_sink", type="short")
    ('src', 'out')
    >>> builder.block("fir", "fir", type="short", taps=[1, 2, 3])
    'fir'
    >>> builder.connect("src", "fir")
    >>> builder.connect("fir", "out")
    >>> graph = builder.graph()
    >>> graph.feed("src", [1, 0, 0, 4]), graph.settle(), graph.read("out")[0].tolist()
    (4, False, [1, 2, 3, 4])
    >>> builder.block("more", "fir", type="short", tabs=[1])  # doctest: +ELLIPSIS
    Traceback (most recent call last):
    magbelu._errors.Refused: 41 UnknownKey block 3
     --> the block more:1:57
      |
    1 | block = [{ name = "more", kind = "fir", type = "short", tabs = [1] }]
      |                                                         ^ a block of the kind fir has no key `tabs`; it has: name, ...
    """

    def __init__(self) -> None:
        self._blocks: dict[str, str] = {}
        self._connections: list[str] = []
        # What enters each input that is connected: the block, and the connection.
        self._inputs: dict[tuple[str, int], tuple[str, str]] = {}

    def _add(self, name: str, kind: str, keys: Mapping[str, object]) -> str:
        name = text_of(name, "the name of a block")
        row = table_of({"name": name, "kind": text_of(kind, "a kind"), **keys})
        if name in self._blocks:
            raise refused(DUPLICATE_NAME, name)
        test("block = [%s]" % row, "the block " + name, len(self._blocks))
        self._blocks[name] = row
        return name

    def connect(self, writer: End, reader: End) -> None:
        """Connects an output to an input. An end is the name of a block, for its port 0, or a pair of the name and a
        port.

        >>> builder = Builder()
        >>> for name in ("one", "two"):
        ...     _ = builder.block(name, "vector_source", type="int")
        >>> _ = builder.block("sum", "add", type="int")
        >>> builder.connect("one", "sum")
        >>> builder.connect("two", ("sum", 1))
        >>> builder.connect("sum", "out")
        Traceback (most recent call last):
        magbelu._errors.Refused: 2 UnknownBlock out: there is no such block; there are: one, two, sum
        """
        ends = end_of(writer), end_of(reader)
        for name, _ in ends:
            if name not in self._blocks:
                raise refused(
                    UNKNOWN_BLOCK, name, reason="there is no such block; there are: " + ", ".join(self._blocks)
                )
        (writer_name, out_port), (reader_name, in_port) = ends
        row = table_of(
            {"from": writer_name, **port_of("from_port", out_port), "to": reader_name, **port_of("to_port", in_port)}
        )
        # (an input that is taken is refused, where the connection that takes it stands before)
        before = self._inputs.get((reader_name, in_port))
        names = dict.fromkeys([writer_name, reader_name] + ([before[0]] if before else []))
        rows = ([before[1]] if before else []) + [row]
        test(
            "block = [%s]\nconnect = [%s]" % (", ".join(self._blocks[it] for it in names), ", ".join(rows)),
            "the connection",
        )
        self._inputs[reader_name, in_port] = writer_name, row
        self._connections.append(row)

    def to_toml(self) -> str:
        """The text of a graph file that says the same.

        >>> builder = Builder()
        >>> _ = builder.block("src", "vector_source", type="byte"), builder.block("out", "null_sink", type="byte")
        >>> builder.connect("src", "out")
        >>> print(builder.to_toml(), end="")
        block = [
            { name = "src", kind = "vector_source", type = "byte" },
            { name = "out", kind = "null_sink", type = "byte" },
        ]
        connect = [
            { from = "src", to = "out" },
        ]
        """
        return array_of("block", self._blocks.values()) + array_of("connect", self._connections)

    def graph(self) -> Graph:
        """The graph that was built so far."""
        return Graph(self.to_toml())

    def stream(self) -> Stream:
        """The same, as one that streams."""
        return Stream(self.to_toml())
