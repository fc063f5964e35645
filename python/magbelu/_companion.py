"""What the block of GNU Radio Companion asks of a graph file while it is drawn: share/gnuradio/grc/blocks has its
description."""

from __future__ import annotations

import functools
import os

from ._errors import Refused
from ._listing import Port
from ._ports import Path, Ports, ports


@functools.lru_cache(maxsize=64)
def _ports_at(path: str, _time: int, _size: int) -> Ports:
    try:
        return ports(path)
    except Refused:
        return Ports([], [])


def _ports(path: Path) -> dict[str, list[Port]]:
    """The "inputs" and "outputs" of a file, or none where it is refused, or no file that can be read: they are asked
    for each port, and while a path is being typed."""
    try:
        # (to read a pipe would wait, and a path may be none)
        if os.path.isfile(path):
            found = os.stat(path)
            return _ports_at(os.fspath(path), found.st_mtime_ns, found.st_size)._asdict()
    except OSError:
        pass
    return Ports([], [])._asdict()


def has_ports(path: Path) -> bool:
    """Whether a file has the ports of a block, of which one at least is an output.

    >>> has_ports("no/such/file"), has_ports("examples/echo/graph.toml")
    (False, True)
    """
    return bool(_ports(path)["outputs"])


def has_port(path: Path, side: str, number: int) -> bool:
    """Whether a file has this port of its "inputs" or "outputs".

    >>> has_port("examples/echo/graph.toml", "outputs", 1), has_port("examples/echo/graph.toml", "outputs", 2)
    (True, False)
    """
    return number < len(_ports(path)[side])


def type_of(path: Path, side: str, number: int) -> str:
    """The type of a port, as Companion calls it, and any where there is no such port.

    >>> type_of("examples/filter/graph.toml", "inputs", 0)
    'short'
    """
    return _ports(path)[side][number].type if has_port(path, side, number) else "byte"
