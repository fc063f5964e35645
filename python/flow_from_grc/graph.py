"""The graph file of `flow`, and the words that run it."""

from __future__ import annotations

import enum
import shlex
from dataclasses import dataclass, field
from typing import List, Mapping, Optional, Sequence, Tuple, Union

MOST_BLOCKS = 256
MOST_CONNECTIONS = 1024
MOST_NAME = 32
MOST_TAPE = 1 << 32

# How long a line of the file may be before the items of a feed stand in lines of their own, and how many in each.
_MOST_LINE = 120
_ITEMS_A_LINE = 20


class ItemType(enum.Enum):
    """The types of items, with their least and greatest values."""

    BYTE = ("byte", 0, 255)
    SHORT = ("short", -(1 << 15), (1 << 15) - 1)
    INT = ("int", -(1 << 31), (1 << 31) - 1)

    @property
    def least(self) -> int:
        """The least item."""
        return self.value[1]

    @property
    def most(self) -> int:
        """The greatest item."""
        return self.value[2]

    @property
    def bits(self) -> int:
        """How many bits an item has."""
        return (self.most - self.least).bit_length()

    def __str__(self) -> str:
        return self.value[0]


Setting = Union[int, str, Sequence[int]]


@dataclass(frozen=True)
class Block:
    """A block of the file: its settings are the parameters of its kind and the keys that each block may have."""

    name: str
    kind: str
    settings: Mapping[str, Setting]


@dataclass(frozen=True)
class Connection:
    """A connection from an output to an input."""

    source: str
    source_port: int
    sink: str
    sink_port: int


@dataclass(frozen=True)
class Feed:
    """The items of a source, with tags of (offset, key, value)."""

    source: str
    items: Sequence[int]
    tags: Sequence[Tuple[int, str, int]]


@dataclass
class Graph:
    """A graph file: what stands in it, and which raw files its sources read and its sinks write."""

    blocks: List[Block] = field(default_factory=list)
    connections: List[Connection] = field(default_factory=list)
    feeds: List[Feed] = field(default_factory=list)
    inputs: List[Tuple[str, str]] = field(default_factory=list)
    outputs: List[Tuple[str, str]] = field(default_factory=list)

    def command(self, path: Optional[str]) -> str:
        """The words that run the graph, where it stands at this path."""
        words = ["flow", "run"]
        for flag, files in (("-i", self.inputs), ("-o", self.outputs)):
            for name, file in files:
                # (The path - would be a standard stream.)
                words += [flag, "%s=%s" % (name, "./-" if file == "-" else file)]
        path = path or "graph.toml"
        return " ".join(shlex.quote(it) for it in [*words, "./" + path if path.startswith("-") else path])

    def toml(self, heading: Sequence[str]) -> str:
        """The text of the file, with lines of comment at its head."""
        lines = ["# " + it for it in heading]
        for key, tables in (
            ("block", [_block_text(it) for it in self.blocks]),
            ("connect", [_connection_text(it) for it in self.connections]),
            ("feed", [_feed_text(it) for it in self.feeds]),
        ):
            if tables:
                lines += ["%s = [" % key, *("    %s," % it for it in tables), "]"]
        return "\n".join(lines) + "\n"


def _table(pairs: Sequence[Tuple[str, Setting]]) -> str:
    return "{ %s }" % ", ".join("%s = %s" % (key, _value(value)) for key, value in pairs)


def _value(value: Setting) -> str:
    if isinstance(value, str):
        return '"%s"' % value
    if isinstance(value, int):
        return str(value)
    return "[%s]" % ", ".join(map(str, value))


def _block_text(block: Block) -> str:
    return _table([("name", block.name), ("kind", block.kind), *block.settings.items()])


def _connection_text(it: Connection) -> str:
    pairs: List[Tuple[str, Setting]] = [("from", it.source)]
    if it.source_port:
        pairs.append(("from_port", it.source_port))
    pairs.append(("to", it.sink))
    if it.sink_port:
        pairs.append(("to_port", it.sink_port))
    return _table(pairs)


def _feed_text(feed: Feed) -> str:
    items = "[%s]" % ", ".join(map(str, feed.items))
    if len(items) > _MOST_LINE:
        rows = [feed.items[at:at + _ITEMS_A_LINE] for at in range(0, len(feed.items), _ITEMS_A_LINE)]
        items = "[\n%s    ]" % "".join("        %s,\n" % ", ".join(map(str, row)) for row in rows)
    tags = ", ".join(_table([("at", at), ("key", key), ("value", value)]) for at, key, value in feed.tags)
    return '{ source = "%s", items = %s%s }' % (feed.source, items, ", tags = [%s]" % tags if tags else "")
