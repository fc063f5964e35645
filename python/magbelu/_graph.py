"""A graph that the library holds."""

from __future__ import annotations

import ctypes
from typing import Any, Optional, SupportsIndex

from ._arguments import MOST, Text, bytes_of, count_of, flag, index
from ._held import Array, Held, Tag, array_of, tags_of, tested
from ._library import Room, lent_name
from ._plot import plot


class Graph(Held):
    """A graph that the library holds: its tapes, its buffers, and how far it is. `path` is only what the text is called
    where it is refused. Where it is no longer needed it is freed, at the end of a `with` or when it goes.

    >>> with Graph(magbelu.EXAMPLE) as graph:
    ...     graph.feed("src", [250, 1])
    ...     graph.settle()
    ...     graph.read("out")[0].tolist()
    2
    False
    [4, 11]
    >>> graph.settle()
    Traceback (most recent call last):
    magbelu._errors.Refused: 55 NotOpen: no plant is held, or it was freed
    """

    _opens = "open"

    def read(
        self, sink: Text, start: SupportsIndex = 0, count: Optional[SupportsIndex] = None
    ) -> tuple[Array, list[Tag]]:
        """What a sink holds now: its items from `start` on, at most `count`, and the tags on them.

        >>> graph = Graph(magbelu.EXAMPLE)
        >>> graph.feed("src", [250, 1, 2, 3], tags=[(1, "burst", 7)]), graph.settle()
        (4, False)
        >>> items, tags = graph.read("out", 1, 2)
        >>> items.tolist(), tags
        ([11, 12], [Tag(offset=1, key='burst', value=7, source=0)])
        """
        name = lent_name(bytes_of(sink))
        first = count_of(start, "the start of a read", MOST)
        most = MOST if count is None else count_of(count, "a count of items", MOST)
        room, tags_room = 65536, 4096
        with self._lock:
            while True:
                data, lines = Room(room), Room(tags_room)
                piece = self._calls.magbelu_bytes_read(
                    ctypes.byref(self._plant), name.at, name.len, first, most, 0, data.at, data.size, lines.at,
                    lines.size,
                )
                if piece.bytes_len <= room and piece.tags_len <= tags_room:
                    break
                room, tags_room = max(room, piece.bytes_len), max(tags_room, piece.tags_len)
        tested(piece, sink)
        tags = tags_of(lines.part(0, piece.tags_len).decode().split())
        return array_of(piece.item_size, data.items(piece.bytes_len)), tags

    def plot(
        self,
        sink: Text,
        start: SupportsIndex = 0,
        count: Optional[SupportsIndex] = None,
        spectrum: bool = False,
        axes: Any = None,
    ) -> Any:
        """Plots what `read` gives, by matplotlib: items over their numbers, with the tags as marks, or their spectrum.
        It draws on `axes`, or on new ones of pyplot, and gives them.

        >>> graph = Graph(magbelu.EXAMPLE)
        >>> graph.feed("src", [250, 1, 2, 3], tags=[(1, "burst", 7)]), graph.settle()
        (4, False)
        >>> axes = graph.plot("out")
        >>> axes.get_title(), axes.lines[0].get_ydata().tolist()
        ('out', [4, 11, 12, 13])
        """
        items, tags = self.read(sink, start, count)
        return plot(
            bytes_of(sink).decode(), index(start, "the start of a plot"), items, tags, flag(spectrum, "spectrum"), axes
        )
