"""The last items and tags that a sink took. They come in pieces of at most as many items as a stream drains at a
time."""

from __future__ import annotations

import array
import collections
import itertools
from typing import Iterable, NamedTuple, Optional

from .._held import CODES, Tag
from .._stream import PIECE
from .thinning import extremes

# How many bytes the traces of all sinks have together, and how many items one has at most.
ALL_BYTES, MOST_ITEMS = 64 << 20, 1 << 22
# How many tags of a sink are kept, and of how many columns the least and the greatest item.
MOST_TAGS, MOST_COLUMNS = 4096, 1 << 14


class Columns(NamedTuple):
    """The least and the greatest of each `step` items, from item `start` on, which is a multiple of it."""

    start: int
    step: int
    least: list[int]
    greatest: list[int]


def room_of(sinks: int, item_size: int) -> int:
    """How many items a trace has room for, where there are so many of them."""
    most = min(MOST_ITEMS, ALL_BYTES // max(sinks, 1) // item_size)
    return max(4, most // PIECE) * PIECE


class Trace:
    """A ring that one thread writes and others read. A reader is never waited for: what was written over while it read
    is not given."""

    def __init__(self, item_size: int, room: int) -> None:
        self.item_size, self.room = item_size, room
        #: How many items the sink has given ever, and how many tags.
        self.end, self.tags_ever = 0, 0
        self._items = array.array(CODES[item_size], bytes(item_size)) * room
        self._view = memoryview(self._items)
        self._tags: collections.deque[Tag] = collections.deque(maxlen=MOST_TAGS)
        # The least and the greatest of columns, by how many items these have and by their numbers.
        self._known: dict[tuple[int, int], tuple[int, int]] = {}

    @property
    def start(self) -> int:
        """The first item that can be read. (The piece behind the end may be being written.)"""
        return max(0, self.end + PIECE - self.room)

    def next_piece(self) -> memoryview:
        """Where the next items are written, a piece at most."""
        at = self.end % self.room
        return self._view[at : min(at + PIECE, self.room)]

    def take(self, count: int, tags: list[Tag]) -> None:
        """Takes in what was written there."""
        self._tags.extend(tags)
        self.tags_ever += len(tags)
        self.end += count

    def items(self, start: int, end: int) -> Optional[array.array[int]]:
        """The items from `start` to `end`, or None where they are not all there."""
        if not self.start <= start <= end <= self.end:
            return None
        given = self._copied(start, end)
        return given if self.start <= start else None

    def _copied(self, start: int, end: int) -> array.array[int]:
        first, last = start % self.room, start % self.room + end - start
        items = self._items[first : min(last, self.room)]
        if last > self.room:
            items += self._items[: last - self.room]
        return items

    def columns(self, start: int, end: int, width: int) -> Optional[Columns]:
        """The items from `start` to `end` in at most so many columns and one more. Every item is in one of them, but
        for those at the start that are written over before they are read; None where those are all."""
        step = 1 << ((max(end - start, 1) - 1) // max(width, 1)).bit_length()
        first, last = start // step, -(-end // step)
        self._thin(step, max(first, -(-self.start // step)), end // step)
        pairs: list[tuple[int, int]] = []
        for it in range(first, last):
            pair = self._column(it * step, min((it + 1) * step, end), step)
            if pair is None:
                pairs, first = [], it + 1
            else:
                pairs.append(pair)
        return Columns(first * step, step, [it[0] for it in pairs], [it[1] for it in pairs]) if pairs else None

    def _thin(self, step: int, first: int, last: int) -> None:
        """Notes the least and the greatest of each of these columns, which are whole, for this frame and the next
        ones."""
        lacking = [it for it in range(first, last) if (step, it) not in self._known]
        if not lacking:
            return
        # (where a view moves along they stand in a row)
        first, last = lacking[0], lacking[-1] + 1
        pairs = list(extremes(self._copied(first * step, last * step), step))
        if len(self._known) + len(pairs) > MOST_COLUMNS:
            self._known = {}
        # (what was copied of those before may be of two times)
        self._known.update(((step, it), pair) for it, pair in enumerate(pairs, first) if it * step >= self.start)

    def _column(self, start: int, end: int, step: int) -> Optional[tuple[int, int]]:
        """The least and the greatest of these items, or None where they are not all there."""
        known = self._known.get((step, start // step))
        if known is not None and end - start == step:
            return known
        low = max(start, self.start)
        if low >= end:
            return None
        (found,) = extremes(self._copied(low, end), end - low)
        return found if low >= self.start else None

    def tags(self, start: int, end: int) -> list[Tag]:
        """The tags on these items, of those that are kept."""
        return [it for it in self._all_tags() if start <= it.offset < end]

    def last_tag(self, key: str, end: int) -> Optional[Tag]:
        """The last tag with this key before an item."""
        return next((it for it in reversed(list(self._all_tags())) if it.key == key and it.offset < end), None)

    def keys(self) -> list[str]:
        """The keys of the tags that are kept."""
        return sorted({it.key for it in self._all_tags()})

    def _all_tags(self) -> Iterable[Tag]:
        # (the other thread may add some while these are copied)
        for _ in itertools.repeat(None, 8):
            try:
                return list(self._tags)
            except RuntimeError:
                continue
        return []
