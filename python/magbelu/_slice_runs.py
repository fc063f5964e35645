"""Runs between files and arrays in slices of time, on several threads."""

from __future__ import annotations

import array
import collections
import concurrent.futures
import contextlib
import os
import stat
from typing import Any, Iterator, Mapping, NamedTuple, Optional, SupportsIndex, Union

from ._arguments import Text, count_of, is_bytes, numpy, unmasked
from ._errors import refused
from ._held import CODES, Array, array_of
from ._slices import Slices
from ._stream import Stream

# A piece has so many bytes of the widest stream, or less where a thread would have fewer pieces than these. It has ten
# times the overlap at least, and so many bytes at most.
USUAL, PIECES, OVERLAPS, MOST = 1 << 21, 4, 10, 1 << 26
# The length of what has none that is known, as a pipe.
ENDLESS = 1 << 63

#: A file by its path.
Path = Union[str, "os.PathLike[str]"]
#: What a source gets: the items of a file, those of an array of its type, or the bytes of items.
Input = Union[Path, Array, bytes, bytearray, memoryview]


class Memory:
    """Bytes that are read as those of a file."""

    def __init__(self, view: memoryview) -> None:
        self.view, self.at = view, 0

    def read(self, count: int) -> bytes:
        piece = bytes(self.view[self.at : self.at + count])
        self.at += len(piece)
        return piece


class Tape:
    """What a source gets, which is read once, piece after piece."""

    def __init__(self, source: str, item_size: int, reader: Any, length: int) -> None:
        self.source, self.item_size, self.reader, self.length = source, item_size, reader, length
        # How many bytes a piece has of its own, and how many it reads before them; what was read and is not run past,
        # and of that the overlap.
        self.own = self.overlap = self.front = 0
        self.ready = b""
        self.is_cut = False

    def has_piece(self) -> bool:
        """Reads the next piece, and tells whether all of it is there."""
        lacks = self.front + self.own - len(self.ready)
        self.ready += self.reader.read(lacks) if lacks else b""
        return len(self.ready) == self.front + self.own

    def piece(self) -> bytes:
        """The piece that was read, behind its overlap."""
        piece, self.front = self.ready, self.overlap
        self.ready = piece[len(piece) - self.overlap :]
        return piece

    def rest(self) -> Iterator[bytes]:
        """The whole items of what is left, with the overlap before them."""
        kept = self.ready
        while True:
            whole = len(kept) - len(kept) % self.item_size
            if whole:
                yield kept[:whole]
            more = self.reader.read(USUAL)
            if not more:
                self.is_cut = whole < len(kept)
                return
            kept = kept[whole:] + more


class Sheet:
    """What a sink gives, which is written to a file, or kept where there is none."""

    def __init__(self, sink: str, item_size: int, drop: int, file: Any) -> None:
        self.sink, self.item_size, self.drop, self.file = sink, item_size, drop, file
        self.kept: list[memoryview] = []

    def write(self, items: memoryview) -> None:
        if self.file is None:
            self.kept.append(items)
        else:
            self.file.write(items)

    def items(self) -> Array:
        return array_of(self.item_size, bytearray().join(self.kept))


class Team(NamedTuple):
    """A stream at its beginning, its sources and its sinks, how many threads run pieces, and of how many iterations,
    each of which begins so many earlier."""

    stream: Stream
    tapes: list[Tape]
    sheets: list[Sheet]
    jobs: int
    iterations: int
    overlap: int

    def leaves_out(self, count: int) -> Optional[int]:
        """How many iterations are left out behind so many pieces; behind none, a stream begins at its beginning."""
        return count * self.iterations - self.overlap if count else None

    def run_piece(self, pieces: list[bytes], count: int) -> list[memoryview]:
        """What a slice gives on a piece of each source, behind so many."""
        with self.stream.anew(self.leaves_out(count)) as stream:
            for tape, piece in zip(self.tapes, pieces):
                stream.feed(tape.source, piece)
                stream.close(tape.source)
            stream.settle()
            return [memoryview(stream.drain(it.sink)[0])[it.drop if count else 0 :] for it in self.sheets]

    def write(self, given: list[memoryview]) -> None:
        for sheet, items in zip(self.sheets, given):
            sheet.write(items)

    def run_pieces(self) -> int:
        """Runs pieces as long as all of them are whole, and tells how many there were. What they give is written in
        their order."""
        waiting: collections.deque[Any] = collections.deque()
        count = 0
        with concurrent.futures.ThreadPoolExecutor(self.jobs) as pool:
            try:
                while all([tape.has_piece() for tape in self.tapes]):
                    if len(waiting) == 2 * self.jobs:
                        self.write(waiting.popleft().result())
                    waiting.append(pool.submit(self.run_piece, [tape.piece() for tape in self.tapes], count))
                    count += 1
                while waiting:
                    self.write(waiting.popleft().result())
            finally:
                # (after a fault nothing more is begun)
                for piece in waiting:
                    piece.cancel()
        return count

    def run_rest(self, count: int) -> None:
        """Runs what is left of the sources behind so many pieces."""
        sheets = {it.sink: it for it in self.sheets}
        again = {it.sink: it.drop if count else 0 for it in self.sheets}
        with self.stream.anew(self.leaves_out(count)) as stream:
            for piece in stream.through(**{tape.source: tape.rest() for tape in self.tapes}):
                drop = min(again[piece.sink], len(piece.items))
                again[piece.sink] -= drop
                sheets[piece.sink].write(memoryview(piece.items)[drop:])


def iterations_of(plan: Slices, tapes: list[Tape], sheets: list[Sheet], jobs: int, has_head: bool) -> int:
    """How many iterations a piece has; none where the run is not worth pieces."""
    spans = [it.period * tape.item_size for it, tape in zip(plan.sources, tapes)]
    widest = max(spans + [it.period * sheet.item_size for it, sheet in zip(plan.sinks, sheets)], default=0)
    whole = min((tape.length // span for tape, span in zip(tapes, spans)), default=0)
    # (a run that a head may end is no run in pieces where an input may have no end)
    may_be_endless = has_head and any(tape.length == ENDLESS for tape in tapes)
    if jobs == 1 or not whole or may_be_endless:
        return 0
    iterations = max(min(whole // (PIECES * jobs), USUAL // widest), OVERLAPS * plan.overlap, 1)
    return iterations if iterations * widest <= MOST else 0


def is_path(given: Any) -> bool:
    return isinstance(given, (str, os.PathLike))


def view_of(source: str, item_size: int, data: Any) -> memoryview:
    """The bytes of an array that a source gets."""
    unmasked(data, "the input %r" % (source,))
    is_array = (
        is_bytes(data) or isinstance(data, array.array) or (numpy is not None and isinstance(data, numpy.ndarray))
    )
    view = memoryview(data) if is_array else None
    if view is None or view.ndim != 1 or not (is_bytes(data) or view.format == CODES[item_size]):
        raise TypeError(
            "the input %r is a path, bytes, or an array of type %r in one row, and no %r"
            % (source, CODES[item_size], type(data).__name__)
        )
    return view.cast("B") if view.c_contiguous and view.nbytes else memoryview(view.tobytes())


def tape_of(files: contextlib.ExitStack, source: str, item_size: int, given: Any) -> Tape:
    if not is_path(given):
        view = view_of(source, item_size, given)
        return Tape(source, item_size, Memory(view), view.nbytes)
    file = files.enter_context(open(given, "rb"))
    told = os.fstat(file.fileno())
    return Tape(source, item_size, file, told.st_size if stat.S_ISREG(told.st_mode) else ENDLESS)


def test_files(input: Mapping[str, Input], output: Mapping[str, Optional[Path]]) -> None:
    """No file is written that is read, or written for another sink: what it holds would be lost."""
    taken: dict[Any, str] = {}
    for names, is_output in ((input, False), (output, True)):
        for name, given in names.items():
            if not is_path(given):
                continue
            told = os.stat(given) if os.path.exists(given) else None  # type: ignore[arg-type]
            if told is not None and not stat.S_ISREG(told.st_mode):
                continue
            own = os.path.realpath(given) if told is None else (told.st_dev, told.st_ino)  # type: ignore[arg-type]
            if is_output and own in taken:
                raise ValueError("the output %r is the file of %r too" % (name, taken[own]))
            taken[own] = name


def test_ends(stream: Stream, plan: Slices, input: Mapping[str, Input], output: Mapping[str, Optional[Path]]) -> None:
    """What is named is there, no source is fed by the graph file, which each slice would feed to it once more, and each
    sink has an output."""
    for source in input:
        stream._size(source)
    for sink in output:
        stream._item_size(sink)
    for it in plan.sources:
        if stream.need(it.source).what != "feed":
            raise refused(64, it.source, reason="the graph file feeds it")
    for own in plan.sinks:
        if own.sink not in output:
            raise refused(64, own.sink, reason="it has no output: a path, or None for an array that is given back")


def run_slices(
    file: Text,
    input: Mapping[str, Input],
    output: Optional[Mapping[str, Optional[Path]]] = None,
    jobs: Optional[SupportsIndex] = None,
) -> dict[str, Array]:
    """Runs a graph in slices of time, on `jobs` threads, or as many as there are processors: the bytes are those of one
    run. `input` has a path, bytes or an array for each source (one that is not there gets nothing), `output` a path or
    None for each sink, or is None itself. What a sink without a path gives is given back.

    What stands in an output is a beginning of its stream at any time, and stays there where the run fails. Some pieces
    of 2 MiB, or of ten times the overlap, are in memory for each thread, and what is given back. A graph that is not
    cut is refused (63), and so is a source that the graph file feeds, or a sink that `output` has not (64). An input
    that ends within an item ends with the item before, and is refused (53) when all is written.

    The threads run side by side, since a call of the library lets go of the interpreter's lock. Processes would do so
    too, but what goes to one and back is copied.

    >>> magbelu.run_slices(magbelu.EXAMPLE, {"src": bytes([250, 1, 2])}, jobs=2)["out"].tolist()
    [4, 11, 12]
    """
    workers = len(os.sched_getaffinity(0)) if jobs is None else count_of(jobs, "jobs", 4096)
    if workers < 1:
        raise ValueError("jobs are at least 1")
    with Stream(file) as stream, contextlib.ExitStack() as files:
        plan = stream.slices()
        paths = dict.fromkeys((it.sink for it in plan.sinks)) if output is None else output
        test_ends(stream, plan, input, paths)
        test_files(input, paths)
        tapes = [tape_of(files, it.source, stream._size(it.source), input.get(it.source, b"")) for it in plan.sources]
        sheets = []
        for it in plan.sinks:
            path = paths[it.sink]
            opened = None if path is None else files.enter_context(open(path, "wb"))
            sheets.append(Sheet(it.sink, stream._item_size(it.sink), it.drop, opened))
        iterations = iterations_of(plan, tapes, sheets, workers, any(it.kind == "head" for it in stream.blocks))
        for source, tape in zip(plan.sources, tapes):
            tape.own, tape.overlap = iterations * source.period * tape.item_size, source.overlap * tape.item_size
        run_all(Team(stream, tapes, sheets, workers, iterations, plan.overlap))
    return {it.sink: it.items() for it in sheets if it.file is None}


def run_all(team: Team) -> None:
    team.run_rest(team.run_pieces() if team.iterations else 0)
    for tape in team.tapes:
        if tape.is_cut:
            raise refused(53, tape.source)
