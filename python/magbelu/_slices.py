"""How the runs of a graph are cut into slices of time."""

from __future__ import annotations

import ctypes
from typing import Any, NamedTuple, Optional, SupportsIndex

from ._arguments import MOST, count_of, flag
from ._errors import refused
from ._library import CutPart, CutSink, CutSource

# The number of the refusal of a graph that is not cut, and what stands there for no block.
NO_SLICES, NO_BLOCK = 63, 2**32 - 1


class SourceSlices(NamedTuple):
    """How the tape of a source is cut: how many items it gives in an iteration, and how many items before its own a
    slice reads."""

    source: str
    period: int
    overlap: int


class SinkSlices(NamedTuple):
    """How the parts of a sink are joined: how many items it takes in an iteration, and how many each slice but the
    first drops."""

    sink: str
    period: int
    drop: int


class Slices(NamedTuple):
    """How the runs of a graph are cut into slices of time: how many iterations before its own a slice reads, each
    source, each sink, and the first block whose items rest on how many came before, if there is one."""

    overlap: int
    sources: list[SourceSlices]
    sinks: list[SinkSlices]
    counts: Optional[str]


class SinkPart(NamedTuple):
    """What a slice gives a sink: how many of its items are dropped, and at which item of the whole the others stand."""

    sink: str
    drop: int
    stands: int


class Slice(NamedTuple):
    """Where a slice begins: how many iterations of each source it leaves out, and what it gives each sink."""

    leaves_out: int
    parts: list[SinkPart]


def tested(slicing: Any, names: list[str]) -> Any:
    """The answer of a call about slices that is not refused."""
    if slicing.number != NO_SLICES:
        if slicing.number:
            raise refused(slicing.number, "", slicing.status == 4)
        return slicing
    if slicing.block == NO_BLOCK:
        raise refused(NO_SLICES, "rates", reason="they have no balance, or slices would overlap too far")
    raise refused(NO_SLICES, names[slicing.block], reason="what it gives rests on all that it was given")


def plan_of(held: Any, tags: bool) -> Slices:
    """How the runs of a graph are cut that is held."""
    names = [it.name for it in held.blocks]
    sources, sinks = (CutSource * len(names))(), (CutSink * len(names))()
    with held._lock:
        slicing = held._calls.magbelu_bytes_slices(
            ctypes.byref(held._plant), flag(tags, "tags"), ctypes.addressof(sources), len(names),
            ctypes.addressof(sinks), len(names),
        )
    tested(slicing, names)
    return Slices(
        slicing.iterations,
        [SourceSlices(names[it.block], it.period, it.overlap) for it in sources[: slicing.source_count]],
        [SinkSlices(names[it.block], it.period, it.drop) for it in sinks[: slicing.sink_count]],
        None if slicing.block == NO_BLOCK else names[slicing.block],
    )


def slice_of(held: Any, begins: SupportsIndex, tags: bool) -> Slice:
    """Where the slice begins, at an iteration, of a graph that is held."""
    names = [it.name for it in held.blocks]
    parts = (CutPart * len(names))()
    begins = count_of(begins, "an iteration", MOST)
    with held._lock:
        slicing = held._calls.magbelu_bytes_slice(
            ctypes.byref(held._plant), flag(tags, "tags"), begins, ctypes.addressof(parts), len(names)
        )
    tested(slicing, names)
    return Slice(
        slicing.iterations, [SinkPart(names[it.block], it.drop, it.stands) for it in parts[: slicing.sink_count]]
    )
