"""What a page shows of a sink, and the frames that it gets of it."""

from __future__ import annotations

import array
import json
import struct
from dataclasses import dataclass
from typing import Any, Optional

from .._arguments import numpy
from .._held import Tag
from .trace import Trace

#: The least and the greatest width of a view in columns, and how many tags a frame has at most.
WIDTHS, MOST_TAGS = (1, 4096), 200
# How many items a frame has at most where it has each of them.
MOST_ITEMS = 8192


class BadView(ValueError):
    """A page asked for what no view is."""


def number(asked: dict[str, Any], key: str, low: int, high: int) -> int:
    """A whole number that a page asked for."""
    value = asked.get(key)
    if isinstance(value, bool) or not isinstance(value, int) or not low <= value <= high:
        raise BadView("%s is a whole number from %d to %d" % (key, low, high))
    return value


@dataclass
class View:
    """What is shown of a sink: `span` items in so many columns, from an item on, or up to the last one, or about the
    last tag with a key. Where `is_whole` is said, each item is wanted, and not the least and the greatest of a column;
    and behind them, where there is an `other` sink, its items of the same numbers."""

    sink: str
    span: int
    width: int
    start: Optional[int] = None
    key: Optional[str] = None
    is_whole: bool = False
    other: Optional[str] = None
    #: The end of what was shown last, if anything was, and how many items went by since then that were never shown.
    shown: Optional[int] = None
    missed: int = 0

    @classmethod
    def of(cls, asked: dict[str, Any]) -> View:
        start = None if asked.get("start") is None else number(asked, "start", 0, 2**62)
        key, other = asked.get("key"), asked.get("other")
        if not all(it is None or isinstance(it, str) for it in (key, other)):
            raise BadView("key and other are texts")
        is_whole = asked.get("whole") is True or other is not None
        return cls(
            str(asked.get("sink")), number(asked, "span", 1, 2**31), number(asked, "width", *WIDTHS), start, key,
            is_whole, other,
        )

    def window(self, trace: Trace, low: int, end: int) -> tuple[int, int]:
        """The items that are shown now, of those from `low` to `end`."""
        if self.start is not None:
            start = self.start
        else:
            # (a tag stands a quarter behind the left side, once what is right of it is there)
            tag = trace.last_tag(self.key, end - self.span * 3 // 4 + 1) if self.key is not None else None
            start = tag.offset - self.span // 4 if tag else end - self.span
        start = min(max(start, low), end)
        return start, min(start + self.span, end)

    def frame(self, name: str, traces: dict[str, Trace]) -> Optional[bytes]:
        """What is shown now, or None where a sink is not there, or its items were written over meanwhile."""
        shown = [traces.get(it) for it in (self.sink, self.other) if it is not None]
        both = [it for it in shown if it is not None]
        if len(both) < len(shown):
            return None
        trace = both[0]
        low, held = max(it.start for it in both), min(it.end for it in both)
        start, end = self.window(trace, low, held)
        head: dict[str, Any] = {"view": name, "sink": self.sink, "low": low, "held": held}
        if self.is_whole or end - start <= max(2 * self.width, 64):
            start, end = self._cut(start, end)
            items = [it.items(start, end) for it in both]
            if None in items:
                return None
            head["first"] = start
            payload = b"".join(words_of(it) for it in items if it is not None)
        else:
            columns = trace.columns(start, end, self.width)
            if columns is None:
                return None
            head.update(first=columns.start, step=columns.step)
            start = max(start, columns.start)
            payload = array.array("i", columns.least + columns.greatest).tobytes()
        self._count(start, end)
        tags = trace.tags(start, end)
        head.update(start=start, end=end, missed=self.missed, keys=trace.keys())
        head.update(tags=[shown_tag(it) for it in tags[-MOST_TAGS:]], tags_more=max(0, len(tags) - MOST_TAGS))
        return packed(head, payload)

    def _cut(self, start: int, end: int) -> tuple[int, int]:
        """As many of the items as a frame may have: the first, or where the view follows the stream the last."""
        if self.start is None and self.key is None:
            return max(start, end - MOST_ITEMS), end
        return start, min(end, start + MOST_ITEMS)

    def _count(self, start: int, end: int) -> None:
        """Counts the items that went by between the last frame and this one, where the view follows the stream."""
        if self.start is None and self.key is None and self.shown is not None:
            self.missed += max(0, start - self.shown)
        self.shown = max(self.shown or 0, end)


def shown_tag(tag: Tag) -> list[Any]:
    """A tag as the page takes it. (A number of 64 bits is no number of JavaScript's.)"""
    return [tag.offset, tag.key, str(tag.value), tag.source]


def words_of(items: array.array[int]) -> bytes:
    """Items as numbers of 32 bits."""
    if numpy is None:
        return array.array("i", items).tobytes()
    return bytes(numpy.frombuffer(items, dtype=items.typecode).astype("i4").tobytes())


def packed(head: dict[str, Any], payload: bytes) -> bytes:
    """A frame: the length of its head, the head as JSON, filled with spaces to whole words, and numbers of 32 bits."""
    text = json.dumps(head).encode()
    text += b" " * (-len(text) % 4)
    return struct.pack("<I", len(text)) + text + payload
