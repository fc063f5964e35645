"""A graph that streams."""

from __future__ import annotations

import array
import asyncio
import ctypes
from typing import Any, AsyncIterable, AsyncIterator, Iterable, Iterator, NamedTuple, Optional, SupportsIndex, Union

from ._arguments import MOST, Text, bytes_of, count_of, flag, numpy, unmasked
from ._held import CODES, Array, Held, Items, Tag, array_of, tags_of, tested
from ._library import Lent, Room, lent_name
from ._plot import plot
from ._runs import NO_PATH

# How many items of a sink are drained at a time, at most.
PIECE = 65536
# What comes behind the last piece of a source. (None would be a wrong piece.)
END = object()


def pieces_of(source: str, pieces: Any) -> Iterator[Items]:
    """The pieces that a source gets one by one. An array of items is a single piece, and has none in it."""
    is_array = isinstance(pieces, array.array) or (
        numpy is not None and isinstance(pieces, numpy.ndarray) and pieces.ndim < 2
    )
    is_row = isinstance(pieces, (list, tuple, range)) and len(pieces) and hasattr(pieces[0], "__index__")
    if is_array or is_row or isinstance(pieces, (str, bytes, bytearray, memoryview)):
        raise TypeError(
            "the source %r gets an iterable of pieces, and not one piece: through(%s=[items])" % (source, source)
        )
    try:
        return iter(pieces)
    except TypeError:
        raise TypeError(
            "the source %r gets an iterable of pieces, and no %r: through(%s=[items])"
            % (source, type(pieces).__name__, source)
        ) from None


async def next_of(pieces: Union[Iterator[Items], AsyncIterator[Items]]) -> Any:
    """The next piece of a source, or `END`."""
    if isinstance(pieces, Iterator):
        return next(pieces, END)
    try:
        return await pieces.__anext__()
    except StopAsyncIteration:
        return END


class Piece(NamedTuple):
    """What was drained of a sink."""

    sink: str
    items: Array
    tags: list[Tag]


class Levels(NamedTuple):
    """How far a block is: how many items it has taken of its first input, or of its tape; how many it has given on each
    output, or has taken as a sink; and how many have come that it has not taken."""

    taken: int
    given: int
    waiting: int


class Stream(Held):
    """A graph that streams: it forgets what its sources have taken and what was drained of its sinks, and so runs in
    constant memory for as long as it is fed. `path` is only what a refusal calls the text. It is freed at the end of a
    `with`, or when nobody holds it. With `leaves_out` it is one for a slice, as `anew` gives it.

    >>> with Stream(magbelu.EXAMPLE) as stream:
    ...     for number in (1, 2):
    ...         stream.feed("src", [number, 250])
    ...         stream.settle()
    ...         stream.drain("out")[0].tolist()
    2
    False
    [11, 4]
    4
    False
    [12, 4]
    >>> stream.settle()
    Traceback (most recent call last):
    magbelu._errors.Refused: 55 NotOpen: no plant is held, or it was freed
    """

    _opens = "open_stream"

    def __init__(self, text: Text, path: str = NO_PATH, leaves_out: Optional[SupportsIndex] = None) -> None:
        if leaves_out is None:
            super().__init__(text, path)
        else:
            self._hold(text, path, "open_stream_at", count_of(leaves_out, "a count of iterations", MOST))
        # (for the lines of tags, which most drains have few of)
        self._lines = Room(4096)
        self._item_sizes: dict[bytes, int] = {}
        # How many items were drained of each sink.
        self._drained_of: dict[bytes, int] = {}

    def anew(self, leaves_out: Optional[SupportsIndex] = None) -> Stream:
        """A stream of the same graph, at its beginning; or for a slice that leaves out so many iterations of each
        source, as `slice` tells. Then each block goes on where it stands after these, nothing is fed, and items are
        numbered from where the slice begins.

        >>> stream = Stream(magbelu.EXAMPLE.replace("add_const", "head").replace("value = 10", "n = 5"))
        >>> later = stream.anew(3)
        >>> later.feed("src", [4, 5, 6, 7]), later.settle(), later.drain("out")[0].tolist()
        (4, True, [4, 5])
        """
        return type(self)(self._text, self.path, leaves_out)

    def levels(self, block: Text) -> Levels:
        """How far a block is. What is set at items from `taken` on is in force.

        >>> stream = Stream(magbelu.EXAMPLE)
        >>> stream.feed("src", [1, 2, 3]), stream.step("src", 2), stream.levels("src"), stream.levels("add").waiting
        (3, 2, Levels(taken=2, given=2, waiting=1), 2)
        """
        name = lent_name(bytes_of(block))
        told = self._call("levels", block, name.at, name.len)
        return Levels(told.taken, told.given, told.waiting)

    def drain(self, sink: Text, count: Optional[SupportsIndex] = None) -> tuple[Array, list[Tag]]:
        """Takes at most `count` items away of those that a sink has taken and that were not drained yet, and gives them
        with the tags on them. The offset of a tag counts from the first item that the sink ever took.

        >>> stream = Stream(magbelu.EXAMPLE)
        >>> stream.feed("src", [250, 1, 2], tags=[(2, "burst", 7)]), stream.settle()
        (3, False)
        >>> stream.drain("out", 1)[0].tolist()
        [4]
        >>> items, tags = stream.drain("out")
        >>> items.tolist(), tags
        ([11, 12], [Tag(offset=2, key='burst', value=7, source=0)])
        """
        most, room = MOST if count is None else count_of(count, "a count of items", MOST), 4 * PIECE
        with self._lock:
            while True:
                data = Room(room)
                piece, tags = self._drained_to(sink, most, data.at, data.size)
                if piece.bytes_len <= room:
                    break
                room = piece.bytes_len
        return array_of(piece.item_size, data.items(piece.bytes_len)), tags

    def drain_into(self, sink: Text, room: Any) -> tuple[int, list[Tag]]:
        """Does the same with an array of the caller, which gets at most as many items as it has places: one of numpy or
        an `array.array`, of the type that `drain` gives. It tells how many items it got.

        >>> import array
        >>> stream, room = Stream(magbelu.EXAMPLE), array.array("B", [0, 0])
        >>> stream.feed("src", [250, 1, 2]), stream.settle(), stream.drain_into("out", room), room.tolist()
        (3, False, (2, []), [4, 11])
        >>> stream.drain_into("out", room), room.tolist()
        ((1, []), [12, 11])
        """
        view = memoryview(unmasked(room, "what is drained into"))
        with self._lock:
            size = self._item_size(sink)
            if view.format != CODES[size] or view.ndim != 1 or not view.c_contiguous or view.readonly:
                raise TypeError("what %r drains into is an array of type %r that can be written" % (sink, CODES[size]))
            if not view.nbytes:
                return 0, []
            data = Lent(view)
            piece, tags = self._drained_to(sink, len(view), data.at, data.len)
        return piece.bytes_len // size, tags

    def _item_size(self, sink: Text) -> int:
        """How many bytes an item of a sink has."""
        name = bytes_of(sink)
        if name not in self._item_sizes:
            self._item_sizes[name] = self._drained_to(sink, 0, None, 0)[0].item_size
        return self._item_sizes[name]

    def _drained_to(self, sink: Text, most: int, at: Optional[int], size: int) -> tuple[Any, list[Tag]]:
        """Drains into memory of this size. If the items do not fit, nothing is taken away, and there are no tags."""
        name = lent_name(bytes_of(sink))
        while True:
            lines = self._lines
            words = (name.at, name.len, most, 0, at or lines.at, size, lines.at, lines.size)
            piece = tested(self._calls.magbelu_bytes_drain(ctypes.byref(self._plant), *words), sink)
            if piece.bytes_len > size:
                return piece, []
            if piece.tags_len <= lines.size:
                before = self._drained_of.get(bytes_of(sink), 0)
                self._drained_of[bytes_of(sink)] = before + piece.bytes_len // piece.item_size
                return piece, tags_of(lines.part(0, piece.tags_len).decode().split()) if piece.tags_len else []
            self._lines = Room(piece.tags_len)

    def plot(self, sink: Text, count: Optional[SupportsIndex] = None, spectrum: bool = False, axes: Any = None) -> Any:
        """Drains a sink, and plots what that gives, as `Graph.plot` does what is read.

        >>> stream = Stream(magbelu.EXAMPLE)
        >>> stream.feed("src", [250, 1, 2, 3]), stream.settle(), stream.drain("out", 1)[0].tolist()
        (4, False, [4])
        >>> axes = stream.plot("out")
        >>> axes.lines[0].get_xdata().tolist(), axes.lines[0].get_ydata().tolist()
        ([1, 2, 3], [11, 12, 13])
        """
        first = self._drained_of.get(bytes_of(sink), 0)
        items, tags = self.drain(sink, count)
        return plot(bytes_of(sink).decode(), first, items, tags, flag(spectrum, "spectrum"), axes)

    def through(self, /, **pieces: Iterable[Items]) -> Iterator[Piece]:
        """Runs the graph over what comes in, and gives what its sinks give, piece after piece, until all blocks are
        done. `pieces` has an iterable for each source: of arrays of items, or of whatever `feed` takes. The next of
        them is only taken where the graph lacks it, so that no more is in memory than the blocks need; where there is
        none, the source is closed. It ends too where a source is open that is not among them and would have to be fed.

        >>> stream = Stream(magbelu.EXAMPLE)
        >>> for piece in stream.through(src=[[250, 1], [2]]):
        ...     piece.sink, piece.items.tolist()
        ('out', [4, 11])
        ('out', [12])
        """
        for source in pieces:
            self._size(source)
        return self._through({source: pieces_of(source, it) for source, it in pieces.items()})

    def _through(self, pieces: dict[str, Iterator[Items]]) -> Iterator[Piece]:
        sinks = [it.name for it in self.sinks]
        is_over = False
        while not is_over:
            is_over = self.settle()
            for sink in sinks:
                yield from self._drained(sink)
            lacking = [source for source in pieces if self.need(source).what == "feed"]
            for source in lacking:
                self._hand(source, next(pieces[source], END))
            is_over = is_over or not lacking

    def through_async(self, /, **pieces: Union[Iterable[Items], AsyncIterable[Items]]) -> AsyncIterator[Piece]:
        """The same for `async for`; `pieces` may have asynchronous iterables too. A source whose next piece does not
        come holds up only what needs its items. The graph runs in a thread of its own meanwhile, so whoever else has
        the stream may set its blocks.

        >>> import asyncio
        >>> async def show(stream):
        ...     async for piece in stream.through_async(src=[[250, 1], [2]]):
        ...         print(piece.sink, piece.items.tolist())
        >>> asyncio.run(show(Stream(magbelu.EXAMPLE)))
        out [4, 11]
        out [12]
        """
        for source in pieces:
            self._size(source)
        return self._through_async(
            {
                source: it.__aiter__() if isinstance(it, AsyncIterable) else pieces_of(source, it)
                for source, it in pieces.items()
            }
        )

    async def _through_async(
        self, pieces: dict[str, Union[Iterator[Items], AsyncIterator[Items]]]
    ) -> AsyncIterator[Piece]:
        sinks = [it.name for it in self.sinks]
        coming: dict[str, asyncio.Future[Any]] = {}
        is_over = False
        try:
            while not is_over:
                is_over = await asyncio.to_thread(self.settle)
                for sink in sinks:
                    for piece in self._drained(sink):
                        yield piece
                lacking = [source for source in pieces if self.need(source).what == "feed"]
                for source in lacking:
                    if source not in coming:
                        coming[source] = asyncio.ensure_future(next_of(pieces[source]))
                if lacking:
                    await asyncio.wait(coming.values(), return_when=asyncio.FIRST_COMPLETED)
                for source in [it for it, task in coming.items() if task.done()]:
                    self._hand(source, coming.pop(source).result())
                is_over = is_over or not lacking
        finally:
            for task in coming.values():
                task.cancel()

    def _hand(self, source: str, piece: Any) -> None:
        """Feeds a source the piece that came, or closes it where none comes any more."""
        if piece is END:
            self.close(source)
        else:
            self.feed(source, piece)

    def _drained(self, sink: str) -> Iterator[Piece]:
        """All that a sink has, piece after piece."""
        while True:
            items, tags = self.drain(sink, PIECE)
            if not len(items):
                return
            yield Piece(sink, items, tags)
