"""Blocks that go by the place of an item in a period: what of each one is kept, and what is put into each."""

from __future__ import annotations

from typing import Sequence

from .entries import ANY, MOST_PORTS
from .faults import Code
from .graph import ItemType
from .nodes import End, Node, Part
from .ranges import limit
from .settings import Settings

# How many items a period of `keep_m_in_n` has.
_MOST_PERIOD = limit("keep_m_in_n", "n")


def keep_m_in_n(settings: Settings) -> Node:
    """What is kept lies whole in its period, where GNU Radio's block may also keep its end and its beginning."""
    item = settings.item_type(ANY)
    n = settings.whole("n", 1, _MOST_PERIOD)
    m = settings.whole("m", 1, n)
    part = Part("keep_m_in_n", {"type": str(item), "m": m, "n": n, "offset": settings.whole("offset", 0, n - m)})
    return Node(settings.block, [item], [item], [part])


def deinterleave(settings: Settings) -> Node:
    """Blocks of more than one item are kept out of each round, those of each output by a block of its own."""
    item = settings.item_type(ANY)
    settings.ones("vlen")
    ports = settings.whole("num_streams", 1, MOST_PORTS)
    size = settings.whole("blocksize", 1, _MOST_PERIOD // ports)
    if size > 1:
        return _split(settings, item, [size] * ports)
    return Node(settings.block, [item], [item] * ports, [Part("deinterleave", {"type": str(item), "ports": ports})])


def stream_demux(settings: Settings) -> Node:
    """The lengths say how many outputs there are, and so does a number."""
    item = settings.item_type(ANY)
    settings.ones("vlen")
    lengths = settings.wholes("lengths", 1, _MOST_PERIOD, _MOST_PERIOD)
    if len(lengths) != settings.value("num_outputs"):
        raise settings.refused(
            "lengths", Code.BAD_PARAMETER, "it has %d lengths, and not one for each of its outputs" % len(lengths)
        )
    if sum(lengths) > _MOST_PERIOD:
        raise settings.refused(
            "lengths", Code.BAD_PARAMETER,
            "its lengths come to %d together; a kind takes %d" % (sum(lengths), _MOST_PERIOD),
        )
    settings.note(
        "gives whole rounds only, and puts tags where the rate does; GNU Radio's also gives the beginning of the last, "
        "and has a tag stay with its item"
    )
    return _split(settings, item, lengths)


def _split(settings: Settings, item: ItemType, lengths: Sequence[int]) -> Node:
    """So many items of each round to each output in turn."""
    parts, offset = [], 0
    for length in lengths:
        parts.append(Part("keep_m_in_n", {"type": str(item), "m": length, "n": sum(lengths), "offset": offset}))
        offset += length
    ends = [End(at) for at in range(len(parts))]
    return Node(settings.block, [item], [item] * len(parts), parts, takes=[ends], gives=ends, inner=[])


def vector_insert(settings: Settings) -> Node:
    """In GNU Radio a period begins with the values, and the offset is the place in it at which the output begins; here
    it is that of the values in what comes out."""
    item = settings.item_type(ANY)
    values = settings.wholes("vector", item.least, item.most, limit("insert", "values", "most_count"))
    if not values:
        raise settings.refused("vector", Code.BAD_PARAMETER, "it has no values")
    period = settings.whole("period", len(values) + 1, limit("insert", "period"))
    offset = settings.whole("offset", 0, period - 1)
    if 0 < offset < len(values):
        text = "its output begins amid its values: offset is 0, or %d to %d" % (len(values), period - 1)
        raise settings.refused("offset", Code.BAD_PARAMETER, text)
    settings.note(
        "gives whole periods only, and puts tags where the rate does; GNU Radio's ends with its last item, and has a "
        "tag stay with its own"
    )
    part = Part("insert", {"type": str(item), "values": values, "period": period, "offset": (period - offset) % period})
    return Node(settings.block, [item], [item], [part])
