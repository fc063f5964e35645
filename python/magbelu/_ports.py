"""Which ports the block of a graph file has in GNU Radio."""

from __future__ import annotations

import os
from typing import NamedTuple, Union

from ._held import Held
from ._listing import Port
from ._stream import Stream

Path = Union[str, "os.PathLike[str]"]


class Ports(NamedTuple):
    """The input ports of a graph, which are its sources, and its output ports, which are its vector sinks, in the order
    of the file."""

    inputs: list[Port]
    outputs: list[Port]


def ports_of(held: Held) -> Ports:
    """The ports of a graph that is held."""
    return Ports(held.sources, held.sinks)


def ports(path: Path) -> Ports:
    """The ports that the block of a graph file has. It needs no GNU Radio.

    >>> ports("examples/echo/graph.toml").outputs
    [Port(name='out', type='byte'), Port(name='dry', type='byte')]
    """
    with Stream.from_file(path) as stream:
        return ports_of(stream)
