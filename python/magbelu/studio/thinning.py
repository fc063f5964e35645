"""The least and the greatest of each so many items: by numpy where that is installed, and else by the library's own
blocks, which hold up no other thread."""

from __future__ import annotations

import array
import functools
import threading
from typing import Iterable

from .._arguments import numpy
from .._stream import Stream
from . import edit

TYPES = {"B": "byte", "h": "short", "i": "int"}
# How many items such a block takes for one, at most.
MOST = 1024


class Thinner:
    """A graph that gives the least and the greatest of each `step` items, which is a power of two, of a type. It is at
    rest between two calls."""

    def __init__(self, item_type: str, step: int) -> None:
        self._text = edit.with_table("", "block", {"name": "in", "kind": "vector_source", "type": item_type})
        for sink, kind in (("least", "frame_minimum"), ("greatest", "frame_maximum")):
            before, rest = "in", step
            while rest > 1:
                count = min(rest, MOST)
                before, rest = (
                    self._behind(before, {"name": "%s%d" % (sink, rest), "kind": kind, "type": item_type, "n": count}),
                    rest // count,
                )
            self._behind(before, {"name": sink, "kind": "vector_sink", "type": item_type})
        self._stream, self._lock = Stream(self._text), threading.Lock()

    def _behind(self, before: str, table: dict[str, edit.Value]) -> str:
        """Puts a block behind another one, and gives its name."""
        name = str(table["name"])
        self._text = edit.with_table(
            edit.with_table(self._text, "block", table), "connect", edit.connect_of(before, 0, name, 0)
        )
        return name

    def extremes(self, items: array.array[int]) -> Iterable[tuple[int, int]]:
        with self._lock:
            self._stream.feed("in", items)
            self._stream.settle()
            least, greatest = (self._stream.drain(it)[0] for it in ("least", "greatest"))
        return zip(least, greatest)


@functools.lru_cache(maxsize=64)
def thinner(item_type: str, step: int) -> Thinner:
    return Thinner(item_type, step)


def extremes(items: array.array[int], step: int) -> Iterable[tuple[int, int]]:
    """The least and the greatest of each `step` items: a power of two, or all of them."""
    if numpy is not None:
        table = numpy.frombuffer(items, dtype=items.typecode).reshape(-1, step)
        return zip(table.min(axis=1).tolist(), table.max(axis=1).tolist())
    if len(items) == step:
        return [(min(items), max(items))]
    return thinner(TYPES[items.typecode], step).extremes(items)
