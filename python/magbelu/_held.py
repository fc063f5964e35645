"""What the library holds for an object, and the calls that graphs and streams have in common."""

from __future__ import annotations

import array
import collections.abc
import ctypes
import functools
import os
import threading
from typing import Any, Iterable, NamedTuple, Optional, SupportsIndex, TypeVar, Union

from ._arguments import (
    Text, bytes_of, count_of, flag, index, is_bytes, marks_of, numbers_of, numpy, place_of, taps_of, unmasked, within,
)
from ._errors import refused
from ._library import Lent, Plant, Room, calls, lent_name
from ._listing import FORMATS, WAITS, Block, Connection, Need, Port, Rates, Setting
from ._listing import blocks_of, connections_of, drawing_of, firings_of, rates_of, rooms_of, setting_of, svg_of
from ._runs import NO_PATH, read_file, refusal
from ._slices import NO_BLOCK, Slice, Slices, plan_of, slice_of

# How arrays of items are called, by how many bytes an item has.
CODES = {1: "B", 2: "h", 4: "i"}

# The number of the refusal of a setting that comes too late: the library tells from which item it could be in force.
LATE = 27

#: What may be fed: integers, or the bytes of items.
Items = Union[Iterable[SupportsIndex], bytes, bytearray, memoryview]
#: What is read: an array of numpy where that is installed, and else an `array.array`.
Array = Any


class Tag(NamedTuple):
    """A tag that a sink took. Its source is the number of the block that was fed with it.

    >>> Tag(1, "burst", 7, 0).key
    'burst'
    """

    offset: int
    key: str
    value: int
    source: int


def array_of(item_size: int, data: bytearray) -> Array:
    """Items as an array, which may be written as any other."""
    code = CODES[item_size]
    if numpy is not None:
        return numpy.frombuffer(data, dtype=code)
    items: array.array[int] = array.array(code)
    items.frombytes(data)
    return items


def tags_of(words: list[str]) -> list[Tag]:
    tags = []
    for word in words:
        offset, _, rest = word[1:].partition(":")
        rest, _, source = rest.rpartition("/")
        key, _, value = rest.rpartition("=")
        tags.append(Tag(int(offset), key, int(value), int(source)))
    return tags


def tested(answer: Any, block: Text) -> Any:
    if answer.number:
        block = block if isinstance(block, str) else bytes(block).decode(errors="backslashreplace")
        raise refused(answer.number, block, answer.status == 4, floor=answer.value if answer.number == LATE else None)
    return answer


Own = TypeVar("Own", bound="Held")


class Held:
    """What is open until it is freed. One call of it is made at a time."""

    #: The call that opens it.
    _opens = ""

    def __init__(self, text: Text, path: str = NO_PATH) -> None:
        self._hold(text, path, self._opens)

    def _hold(self, text: Text, path: str, call: str, *words: int) -> None:
        self._plant = Plant(None, False)
        self._lock = threading.Lock()
        self._text, self.path = bytes_of(text), path
        lent, error = Lent(self._text), Room(4096)
        self._calls = calls()
        # How many bytes an item has of each source that was asked for it.
        self._source_sizes: dict[bytes, int] = {}
        answer = getattr(self._calls, "magbelu_bytes_" + call)(
            ctypes.byref(self._plant), lent.at, lent.len, *words, error.at, error.size
        )
        if answer.error_len:
            raise refusal(answer, error, lent, path)
        # (of a graph that is not cut there is no line)
        tested(answer, "")

    @classmethod
    def from_text(cls: type[Own], text: Text) -> Own:
        """What a graph file's text opens."""
        return cls(text)

    @classmethod
    def from_file(cls: type[Own], path: Union[str, os.PathLike[str]]) -> Own:
        """What a graph file opens."""
        return cls(read_file(path), str(path))

    def _call(self, name: str, block: Text, *words: Any) -> Any:
        with self._lock:
            reply = getattr(self._calls, "magbelu_bytes_" + name)(ctypes.byref(self._plant), *words)
        return tested(reply, block)

    def _size(self, source: Text) -> int:
        name = lent_name(bytes_of(source))
        return int(self._call("item_size", source, name.at, name.len).value)

    def _has_type(self, source: Text, items: Any) -> bool:
        """Whether items stand in memory as those of the source do."""
        if isinstance(items, array.array):
            code = items.typecode
        elif (
            numpy is not None
            and isinstance(items, numpy.ndarray)
            and items.dtype.isnative
            and items.flags.c_contiguous
            and items.ndim == 1
        ):
            code = items.dtype.char
        else:
            return False
        if code not in CODES.values():
            return False
        name = bytes_of(source)
        if name not in self._source_sizes:
            self._source_sizes[name] = self._size(source)
        return CODES[self._source_sizes[name]] == code

    def feed(
        self,
        source: Text,
        items: Items,
        tags: Iterable[tuple[SupportsIndex, Text, SupportsIndex]] = (),
        big_endian: bool = False,
    ) -> int:
        """Appends items to what a source is fed: integers, as a list, an array or whatever gives them one by one, or
        the bytes of items, as `bytes`, a `bytearray` or a `memoryview` of bytes. `tags` are (offset, key, value), at
        offsets on these items, counted from the first that it was ever fed. It gives how many items it was fed.

        >>> graph = magbelu.Graph(magbelu.EXAMPLE)
        >>> graph.feed("src", [250, 1], tags=[(1, "burst", 7)])
        2
        >>> graph.feed("src", range(2, 4))
        4
        >>> graph.feed("src", [256])
        Traceback (most recent call last):
        magbelu._errors.Refused: 24 ItemRange src: an item is outside the range of the source's type
        """
        name, big_endian = lent_name(bytes_of(source)), flag(big_endian, "big_endian")
        unmasked(items, "what is fed")
        marks, kept = marks_of(tags)
        words = [ctypes.addressof(marks), len(kept)]
        is_raw = isinstance(items, (bytes, bytearray)) or (isinstance(items, memoryview) and is_bytes(items))
        if not is_raw and self._has_type(source, items):
            is_raw, big_endian = True, False
        if is_raw:
            data = Lent(items)
            return int(self._call("feed", source, name.at, name.len, big_endian, data.at, data.len, *words).value)
        numbers = numbers_of(items)
        data = Lent(numbers)
        return int(self._call("feed_numbers", source, name.at, name.len, data.at, len(numbers), *words).value)

    def close(self, source: Text) -> int:
        """Closes a source: nothing more comes. It gives how many items it was fed.

        >>> graph = magbelu.Graph(magbelu.EXAMPLE)
        >>> graph.close("src"), graph.settle()
        (0, True)
        """
        name = lent_name(bytes_of(source))
        return int(self._call("close", source, name.at, name.len).value)

    def set(
        self, block: Text, value: Union[SupportsIndex, Iterable[SupportsIndex]], at: Optional[SupportsIndex] = None
    ) -> int:
        """Sets a block's value, a number or taps, from its input item `at` on, or from the first that it has not taken.
        It gives that item.

        >>> graph = magbelu.Graph(magbelu.EXAMPLE)
        >>> graph.set("add", 100, at=2)
        2
        >>> graph.feed("src", [0, 0, 0]), graph.settle(), graph.read("out")[0].tolist()
        (3, False, [10, 10, 100])
        """
        name, place = lent_name(bytes_of(block)), place_of(at)
        unmasked(value, "a setting")
        if isinstance(value, (str, bytes, bytearray, memoryview, collections.abc.Mapping, collections.abc.Set)):
            raise TypeError("a setting is an integer or a list of taps, and no %r" % type(value).__name__)
        try:
            taps = list(value)  # type: ignore[arg-type]
        except TypeError:
            number = within(index(value, "a setting"))
            return int(self._call("set", block, name.at, name.len, place, number).value)
        shorts = taps_of(taps)
        data = Lent(shorts)
        return int(self._call("set_taps", block, name.at, name.len, place, data.at, len(shorts)).value)

    def step(self, block: Text, count: SupportsIndex = 2**32 - 1) -> int:
        """Does at most `count` firings of a block, and no more than 2**32 - 1, and gives how many were done.

        >>> graph = magbelu.Graph(magbelu.EXAMPLE)
        >>> graph.feed("src", [1, 2, 3]), graph.step("src", 2), graph.step("add")
        (3, 2, 2)
        """
        name = lent_name(bytes_of(block))
        reply = self._call("step", block, name.at, name.len, count_of(count, "a count of firings", 2**32 - 1))
        return int(reply.value) if reply.what == 0 else 0

    def settle(self) -> bool:
        """Runs the graph until it comes to rest, and gives whether all blocks are done. Then each sink has taken its
        whole stream. A source that is open is not done while a block reads it."""
        return bool(self._call("settle", "").status == 0)

    def need(self, block: Text) -> Need:
        """What a block waits for.

        >>> graph = magbelu.Graph(magbelu.EXAMPLE)
        >>> graph.need("src").what, graph.need("out")
        ('feed', Need(what='items', port=0))
        """
        name = lent_name(bytes_of(block))
        reply = self._call("need", block, name.at, name.len)
        what = WAITS[reply.what]
        return Need(what, int(reply.value) if what in ("items", "room") else None)

    def slices(self, tags: bool = False) -> Slices:
        """How the runs of the graph are cut into slices of time that give the items of the whole run, and with `tags`
        its tags too. 63 refuses a graph with a block that keeps all that it was given.

        >>> text = magbelu.EXAMPLE.replace("add_const", "moving_sum").replace("value = 10", "length = 4")
        >>> graph = magbelu.Graph(text)
        >>> plan = graph.slices()
        >>> plan.overlap, plan.sources, plan.sinks
        (3, [SourceSlices(source='src', period=1, overlap=3)], [SinkSlices(sink='out', period=1, drop=3)])
        """
        return plan_of(self, tags)

    def slice(self, begins: SupportsIndex, tags: bool = False) -> Slice:
        """The slice that begins at an iteration; 64 refuses one within the first overlap. A stream for it
        (`Stream.anew`) is fed what it does not leave out of its sources. Behind what is dropped, it gives each sink
        what the whole run gives from there on.

        >>> text = magbelu.EXAMPLE.replace("add_const", "moving_sum").replace("value = 10", "length = 4")
        >>> graph = magbelu.Graph(text)
        >>> graph.slice(100)
        Slice(leaves_out=97, parts=[SinkPart(sink='out', drop=3, stands=100)])
        """
        return slice_of(self, begins, tags)

    def free(self) -> None:
        """Frees what the library holds. Each later call is refused."""
        with self._lock:
            self._calls.magbelu_bytes_free(ctypes.byref(self._plant))

    @functools.cached_property
    def blocks(self) -> list[Block]:
        """The blocks, in the order of the file.

        >>> magbelu.Graph(magbelu.EXAMPLE).blocks[1]
        Block(name='add', kind='add_const', role='work', inputs=1, input_type='byte', outputs=1, output_type='byte')
        """
        with self._lock:
            return blocks_of(self._calls, ctypes.byref(self._plant))

    @functools.cached_property
    def connections(self) -> list[Connection]:
        """The connections, in the order of the file.

        >>> magbelu.Graph(magbelu.EXAMPLE).connections[0]
        Connection(writer='src', out_port=0, reader='add', in_port=0)
        """
        blocks = self.blocks
        with self._lock:
            return connections_of(self._calls, ctypes.byref(self._plant), blocks)

    @functools.cached_property
    def rooms(self) -> list[int]:
        """How many items the buffer behind each connection has room for, in the order of `connections`.

        >>> magbelu.Graph(magbelu.EXAMPLE).rooms
        [4096, 4096]
        """
        count = len(self.connections)
        with self._lock:
            return rooms_of(self._calls, ctypes.byref(self._plant), count)

    @functools.cached_property
    def firings(self) -> Optional[dict[str, int]]:
        """How often each block fires in an iteration, after which all buffers are as they were; nothing where no
        numbers of firings are, or the least are too many.

        >>> magbelu.Graph(magbelu.EXAMPLE).firings
        {'src': 1, 'add': 1, 'out': 1}
        """
        blocks = self.blocks
        with self._lock:
            return firings_of(self._calls, ctypes.byref(self._plant), blocks)

    def _number(self, block: Text) -> int:
        """The number of a block, or one that none has."""
        name = bytes_of(block).decode(errors="replace")
        return next((number for number, it in enumerate(self.blocks) if it.name == name), NO_BLOCK)

    def setting(self, block: Text) -> Optional[Setting]:
        """What of a block may be set, in which range, and its own value; or nothing.

        >>> magbelu.Graph(magbelu.EXAMPLE).setting("add")
        Setting(least=0, most=255, value=10)
        """
        number = self._number(block)
        with self._lock:
            return setting_of(self._calls, ctypes.byref(self._plant), number, lambda it: tested(it, block))

    def rates(self, block: Text) -> Rates:
        """What a firing of a block takes of each connected input, and gives on each output.

        >>> magbelu.Graph(magbelu.EXAMPLE).rates("add")
        Rates(takes=[1], gives=1, shift=None, shifted=0)
        """
        number = self._number(block)
        inputs = self.blocks[number].inputs if number != NO_BLOCK else 0
        with self._lock:
            return rates_of(self._calls, ctypes.byref(self._plant), number, inputs, lambda it: tested(it, block))

    @property
    def sources(self) -> list[Port]:
        """The sources, which are fed, with the types of their items.

        >>> magbelu.Graph(magbelu.EXAMPLE).sources
        [Port(name='src', type='byte')]
        """
        return [Port(it.name, it.output_type) for it in self.blocks if it.role == "source" and it.output_type]

    @property
    def sinks(self) -> list[Port]:
        """The sinks that keep what they take, with the types of their items."""
        return [Port(it.name, it.input_type) for it in self.blocks if it.role == "sink" and it.input_type]

    def draw(self, format: str = "dot") -> str:
        """The graph as text for Graphviz's `dot`, or with "mermaid" for Mermaid, as `flow draw` writes it. With "svg"
        it is the picture, if `dot` is installed; a notebook shows a graph so.

        >>> print(magbelu.Graph(magbelu.EXAMPLE).draw(), end="")
        digraph {
          rankdir=LR;
          node [shape=record];
          "src" [label="{src\\nvector_source\\nq 1|{<o0> 0}}"];
          "add" [label="{{<i0> 0}|add\\nadd_const\\nvalue 10\\nq 1|{<o0> 0}}"];
          "out" [label="{{<i0> 0}|out\\nvector_sink\\nq 1}"];
          "src":o0:e -> "add":i0:w [label="byte 4096", color="#9C27B0"];
          "add":o0:e -> "out":i0:w [label="byte 4096", color="#9C27B0"];
        }
        """
        if format not in (*FORMATS, "svg"):
            raise ValueError('a drawing is "dot", "mermaid" or "svg", and not %r' % (format,))
        with self._lock:
            text = drawing_of(self._calls, ctypes.byref(self._plant), format if format in FORMATS else "dot")
        picture = svg_of(text) if format == "svg" else text
        if picture is None:
            raise FileNotFoundError("there is no `dot` in PATH: the package graphviz of Debian has it")
        return picture

    def _repr_svg_(self) -> Optional[str]:
        picture = svg_of(self.draw())
        # (a notebook puts it into its page, in which no declaration may stand)
        return picture and picture[picture.index("<svg") :]

    def __repr__(self) -> str:
        """Its size, and its ends with their types.

        >>> magbelu.Graph(magbelu.EXAMPLE)
        <Graph of <graph>: 3 blocks, 2 connections, sources src (byte), sinks out (byte)>
        """
        if not self.is_open:
            return "<%s of %s, freed>" % (type(self).__name__, self.path)
        ends = (
            "%s %s" % (what, ", ".join("%s (%s)" % it for it in ports))
            for what, ports in (("sources", self.sources), ("sinks", self.sinks))
            if ports
        )
        counts = "%d blocks, %d connections" % (len(self.blocks), len(self.connections))
        return "<%s of %s: %s>" % (type(self).__name__, self.path, ", ".join([counts, *ends]))

    @property
    def is_open(self) -> bool:
        """Whether it is held, and was not freed.

        >>> with magbelu.Graph(magbelu.EXAMPLE) as graph:
        ...     graph.is_open
        True
        >>> graph.is_open
        False
        """
        return bool(self._plant.is_open)

    def __reduce__(self: Own) -> tuple[type[Own], tuple[bytes, str]]:
        """A copy, and what comes out of a pickle, is what the same file opens: at its beginning, with what the file
        itself feeds."""
        return type(self), (self._text, self.path)

    def __enter__(self: Own) -> Own:
        return self

    def __exit__(self, *_: object) -> None:
        self.free()

    def __del__(self) -> None:
        if getattr(self, "_plant", None) is not None and self._plant.is_open:
            self.free()
