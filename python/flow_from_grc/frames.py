"""Blocks that put the items of each frame into another order: interleavers, and those that take items out of a frame or
put some in."""

from __future__ import annotations

from typing import Dict, List, Sequence

from .entries import ANY, BYTES, MOST_PORTS
from .faults import Code
from .graph import ItemType
from .nodes import Node, Part
from .ranges import limit
from .settings import Settings

_MOST_FRAME = limit("permute", "order", "most_count")
# (GNU Radio turns a pattern of 32 bits round in a number with a sign, so that it becomes another.)
_MOST_PUNCTURED = 31


def block_interleaver(settings: Settings) -> Node:
    """The order is a parameter. Packed bytes are put in order bit by bit, the highest bit first."""
    item = settings.item_type(ANY)
    order = _tested(
        settings, "interleaver_indices", settings.wholes("interleaver_indices", 0, _MOST_FRAME - 1, _MOST_FRAME)
    )
    if (
        settings.word("interleaver_mode", {"interleave": "interleave", "deinterleave": "deinterleave"})
        == "deinterleave"
    ):
        order = _inverse(order)
    if item is ItemType.BYTE and settings.truth("is_packed"):
        if len(order) % item.bits:
            raise settings.refused(
                "interleaver_indices", Code.BAD_PARAMETER,
                "packed bytes have 8 bits each, and interleaver_indices has %d" % len(order),
            )
        parts = [
            Part("unpack_k_bits", {"k": item.bits}), _permute(ItemType.BYTE, order),
            Part("pack_k_bits", {"k": item.bits}),
        ]
        return Node(settings.block, [item], [item], parts)
    return Node(settings.block, [item], [item], [_permute(item, order)])


def matrix_interleaver(settings: Settings) -> Node:
    """A frame is written into a matrix by rows and read by columns, or the other way round."""
    item = settings.item_type(ANY)
    settings.ones("vlen")
    rows, columns = (settings.whole(key, 1, _MOST_FRAME) for key in ("rows", "cols"))
    if rows == 1 or columns == 1:
        return Node(settings.block, [item], [item])
    _test_frame(settings, "rows", rows * columns)
    order = [row * columns + column for column in range(columns) for row in range(rows)]
    if settings.truth("deint"):
        order = _inverse(order)
    settings.note("has a tag stay at its place; GNU Radio's gives one for each row")
    return Node(settings.block, [item], [item], [_permute(item, order)])


def permutation(settings: Settings) -> Node:
    """The order is one of symbols, which are so many items each."""
    item = settings.item_type(ANY)
    settings.ones("vlen")
    count = settings.whole("interleaver_size", 1, _MOST_FRAME)
    order = _tested(settings, "table", settings.wholes("table", 0, _MOST_FRAME - 1, _MOST_FRAME))
    if len(order) != count:
        raise settings.refused(
            "table", Code.BAD_PARAMETER, "table has %d numbers, and interleaver_size is %d" % (len(order), count)
        )
    size = settings.whole("syms_per_block", 1, _MOST_FRAME)
    _test_frame(settings, "syms_per_block", count * size)
    return Node(
        settings.block, [item], [item], [_permute(item, [at * size + place for at in order for place in range(size)])]
    )


def patterned_interleaver(settings: Settings) -> Node:
    """The items of a frame come from the inputs that the pattern names: as many of each input in turn, and then in its
    order."""
    item = settings.item_type(ANY)
    settings.ones("vlen")
    pattern = settings.wholes("pattern", 0, MOST_PORTS - 1, _MOST_FRAME)
    lengths = [pattern.count(port) for port in range(max(pattern, default=-1) + 1)]
    if not lengths or 0 in lengths:
        raise settings.refused("pattern", Code.BAD_PARAMETER, "pattern does not name each of its inputs")
    places = {port: sum(lengths[:port]) for port in range(len(lengths))}
    settings.note("has a tag stay with its place in a round; GNU Radio's puts it at the number that it had")
    parts = [Part("stream_mux", {"type": str(item), "lengths": lengths}), _permute(item, _in_turn(pattern, places))]
    return Node(settings.block, [item] * len(lengths), [item], parts)


def puncture(settings: Settings) -> Node:
    """The items that stay come first, and are kept."""
    settings.item_type(BYTES)
    kept = _pattern(settings)
    order = [at for at, it in enumerate(kept) if it] + [at for at, it in enumerate(kept) if not it]
    parts = [
        _permute(ItemType.BYTE, order),
        Part("keep_m_in_n", {"type": str(ItemType.BYTE), "m": sum(kept), "n": len(kept)}),
    ]
    return Node(settings.block, [ItemType.BYTE], [ItemType.BYTE], parts)


def depuncture(settings: Settings) -> Node:
    """The symbols that were left out are put before the items of their frame, and then each at its place."""
    kept = _pattern(settings)
    symbol = settings.whole("sym", ItemType.BYTE.least, ItemType.BYTE.most)
    missing = len(kept) - sum(kept)
    if not missing:
        # (as there, of a last frame that is not whole nothing is given)
        whole = Part("keep_m_in_n", {"type": str(ItemType.BYTE), "m": len(kept), "n": len(kept)})
        return Node(settings.block, [ItemType.BYTE], [ItemType.BYTE], [whole])
    insert = Part(
        "insert", {"type": str(ItemType.BYTE), "values": [symbol] * missing, "period": len(kept), "offset": 0}
    )
    order = _in_turn([int(it) for it in kept], {0: 0, 1: missing})
    return Node(settings.block, [ItemType.BYTE], [ItemType.BYTE], [insert, _permute(ItemType.BYTE, order)])


def _pattern(settings: Settings) -> List[bool]:
    """Which items of a frame stay: those at the bits of the pattern, from the highest of its size on, so many places
    later."""
    size = settings.whole("puncsize", 1, _MOST_PUNCTURED)
    bits = settings.whole("puncpat", 1, (1 << size) - 1)
    delay = max(settings.whole("delay", ItemType.INT.least, ItemType.INT.most), 0)
    return [bool(bits >> (size - 1 - (at - delay) % size) & 1) for at in range(size)]


def _in_turn(sources: Sequence[int], places: Dict[int, int]) -> List[int]:
    """The order in which the items of a frame come that stand source by source, from these places on, where each is the
    next of one of the sources."""
    order, places = [], dict(places)
    for source in sources:
        order.append(places[source])
        places[source] += 1
    return order


def _tested(settings: Settings, key: str, order: List[int]) -> List[int]:
    """An order, which has each number of its places once."""
    if not order or sorted(order) != list(range(len(order))):
        raise settings.refused(
            key, Code.BAD_PARAMETER, "%s has not each number from 0 to one less than its length once" % key
        )
    return order


def _inverse(order: Sequence[int]) -> List[int]:
    """The order that undoes this one."""
    return sorted(range(len(order)), key=lambda at: order[at])


def _test_frame(settings: Settings, key: str, count: int) -> None:
    if count > _MOST_FRAME:
        raise settings.refused(
            key, Code.BAD_PARAMETER, "a frame has %d items; the kind `permute` takes %d" % (count, _MOST_FRAME)
        )


def _permute(item: ItemType, order: Sequence[int]) -> Part:
    return Part("permute", {"type": str(item), "order": list(order)})
