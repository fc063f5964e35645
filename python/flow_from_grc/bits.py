"""Blocks that take the bits of items for one stream, in the order that GNU Radio calls endianness."""

from __future__ import annotations

from typing import Tuple

from .entries import ANY
from .faults import Code
from .graph import ItemType
from .nodes import Node, Part
from .ranges import limit
from .settings import Settings

_ORDERS = {"gr.GR_MSB_FIRST": "msb_first", "gr.GR_LSB_FIRST": "lsb_first"}


def repack_bits(settings: Settings) -> Node:
    """From so many bits in a byte to so many."""
    order = settings.word("endianness", _ORDERS)
    taken, given = (settings.whole(key, 1, limit("repack_bits", key)) for key in ("k", "l"))
    if settings.string("len_tag_key"):
        raise settings.refused("len_tag_key", Code.BAD_PARAMETER, "no tag gives the length of a packet here")
    settings.needs("align_output", "False", "a stream here has no packets whose ends could be aligned")
    part = Part("repack_bits", {"order": order, "k": taken, "l": given})
    return _node(settings, ItemType.BYTE, part, taken, given)


def packed_to_unpacked(settings: Settings) -> Node:
    """From all bits of an item to so many."""
    item, part, bits = _packing(settings, "packed_to_unpacked")
    return _node(settings, item, part, item.bits, bits)


def unpacked_to_packed(settings: Settings) -> Node:
    """From so many bits in an item to all."""
    item, part, bits = _packing(settings, "unpacked_to_packed")
    return _node(settings, item, part, bits, item.bits)


def _packing(settings: Settings, kind: str) -> Tuple[ItemType, Part, int]:
    """The items, the kind, and how many bits the unpacked items have."""
    item = settings.item_type(ANY)
    settings.ones("num_ports")
    bits = settings.whole("bits_per_chunk", 1, item.bits)
    return item, Part(kind, {"type": str(item), "order": settings.word("endianness", _ORDERS), "bits": bits}), bits


def _node(settings: Settings, item: ItemType, part: Part, taken: int, given: int) -> Node:
    """A block that takes so many bits of an item and gives so many. Where neither number divides the other, a round has
    several items on both sides."""
    if taken % given and given % taken:
        settings.note("gives whole rounds only; GNU Radio's also gives the full items of the last")
    return Node(settings.block, [item], [item], [part])
