"""What a block of the drawing becomes: blocks of the graph in a row, or a wire."""

from __future__ import annotations

import enum
from dataclasses import dataclass, field
from typing import Dict, List, Optional, Sequence, Tuple, Union

from .drawing import DrawnBlock
from .graph import Block, Connection, Feed, ItemType, Setting


class Floats(enum.Enum):
    """Streams of floats that hold whole numbers, between blocks that convert shorts and filters of floats, and between
    metrics and what decodes them."""

    SHORTS = "float, of Short To Float"
    SUMS = "float, of a filter"
    METRICS = "float, of Trellis Metrics"

    def __str__(self) -> str:
        return self.value


# The type of a port: None is the type of whatever comes to the wire that has the port.
Port = Union[ItemType, Floats, None]


@dataclass
class Part:
    """A block of the graph without its name."""

    kind: str
    settings: Dict[str, Setting]


@dataclass(frozen=True)
class End:
    """A port of a part, which has a number among the parts of its block."""

    part: int
    port: int = 0


@dataclass
class Node:
    """A block of the drawing as the graph has it. One without parts is a wire: its output is its input, divided by
    2^shift. Parts are in a row, the inputs those of the first and the outputs those of the last, unless it is said what
    goes where."""

    block: DrawnBlock
    inputs: Sequence[Port]
    outputs: Sequence[Port]
    parts: List[Part] = field(default_factory=list)
    # Where the items of each input go, where those of each output come from, and the connections between the parts.
    takes: Optional[Sequence[Sequence[End]]] = None
    gives: Optional[Sequence[End]] = None
    inner: Optional[Sequence[Tuple[End, End]]] = None
    items: Optional[Sequence[int]] = None
    tags: Sequence[Tuple[int, str, int]] = ()
    input_path: Optional[str] = None
    output_path: Optional[str] = None
    shift: int = 0

    def readers(self, port: int) -> List[Tuple[str, int]]:
        """The blocks that take the items of an input, each with its port."""
        return [self._named(it) for it in (self.takes[port] if self.takes else [End(0, port)])]

    def writer(self, port: int) -> Tuple[str, int]:
        """The block that gives the items of an output, with its port."""
        return self._named(self.gives[port] if self.gives else End(len(self.parts) - 1, port))

    def givers(self) -> List[Part]:
        """The parts that have the outputs."""
        ends = self.gives or [End(len(self.parts) - 1)] * len(self.outputs)
        return [self.parts[it.part] for it in ends]

    def _named(self, end: End) -> Tuple[str, int]:
        return self.names()[end.part], end.port

    def names(self) -> List[str]:
        """The names of the parts: the drawing's, and behind it that with the number of the part."""
        return [self.block.name + (".%d" % at if at else "") for at in range(len(self.parts))]

    def blocks(self) -> List[Block]:
        """The parts, each with its name."""
        return [Block(name, part.kind, part.settings) for name, part in zip(self.names(), self.parts)]

    def inner_connections(self) -> List[Connection]:
        """The connections between the parts."""
        inner = self.inner
        if inner is None:
            inner = [(End(at), End(at + 1)) for at in range(len(self.parts) - 1)]
        return [Connection(*self._named(source), *self._named(sink)) for source, sink in inner]

    def feed(self) -> Optional[Feed]:
        """What the block feeds itself, where it is a source that has its items."""
        return None if self.items is None else Feed(self.block.name, self.items, self.tags)
