"""Scramblers, whose registers GNU Radio describes the other way round."""

from __future__ import annotations

from typing import Tuple

from .faults import Code
from .graph import ItemType
from .nodes import End, Node, Part
from .ranges import limit
from .registers import given_bits, init_before, reversed_bits, seed_that_goes_on
from .settings import Settings

_BYTE = ItemType.BYTE
_MOST_BITS = limit("scrambler", "bits")
# How many bits a register of GNU Radio has at most.
_MOST_BITS_THERE = 64
# How many bytes a list has that begins anew: of a pattern, and of a machine.
_MOST_VALUES, _MOST_OUTPUTS = limit("pattern", "values", "most_count"), limit("state_machine", "next", "most_count")


def scrambler(settings: Settings) -> Node:
    """The same items, but for those of the seed in front of them."""
    mask, seed, bits = _register(settings, _MOST_BITS)
    settings.note("comes %d items sooner; GNU Radio's gives the bits of its seed first" % bits)
    return _row(settings, _scrambling("scrambler", bits, mask, reversed_bits(seed, bits)))


def descrambler(settings: Settings) -> Node:
    """The same items."""
    mask, seed, bits = _register(settings, _MOST_BITS)
    return _row(settings, _scrambling("descrambler", bits, mask, reversed_bits(seed, bits)))


def additive_scrambler(settings: Settings) -> Node:
    """The same items. A register that goes on for ever is a kind; one that begins anew gives the same list again and
    again."""
    if settings.string("reset_tag_key"):
        raise settings.refused("reset_tag_key", Code.BAD_PARAMETER, "no tag resets a register here")
    width, count = settings.whole("bits_per_byte", 1, _BYTE.bits), settings.whole("count", 0, _MOST_OUTPUTS)
    if count > 0:
        return _begun_anew(settings, width, count)
    register = _going_on(settings)
    if width > 1:
        return _widened(settings, register, width)
    settings.note("gives bits alone; GNU Radio's keeps the higher bits of each byte")
    return _row(settings, register)


def _going_on(settings: Settings) -> Part:
    """The kind, with the register as it was so many items before GNU Radio's."""
    mask, seed, bits = _register(settings, _MOST_BITS)
    fitting = seed_that_goes_on(mask, seed, bits)
    if fitting != seed:
        text = (
            "no register here begins with bits that its mask does not read; the seed 0x%X gives the same items but for "
            "these"
            % fitting
        )
        raise settings.refused("seed", Code.BAD_PARAMETER, text)
    return _scrambling("additive_scrambler", bits, mask, init_before(mask, seed, bits))


def _widened(settings: Settings, register: Part, width: int) -> Node:
    """As many bits of the register as a byte takes, its lowest bit first: the register has so many zeros for each byte,
    and what it gives is packed."""
    zeros = Part("and_const", {"type": str(_BYTE), "value": 0, "tags": "none"})
    parts = [zeros, Part("repeat", {"type": str(_BYTE), "n": width}), register,
        Part("repack_bits", {"k": 1, "l": width, "order": "lsb_first"})]
    return _joined(settings, *parts)


def _begun_anew(settings: Settings, width: int, count: int) -> Node:
    """What a register adds to so many bytes is a list, which begins anew behind its last."""
    bits = given_bits(*_register(settings, _MOST_BITS_THERE))
    added = [sum(next(bits) << at for at in range(width)) for _ in range(count)]
    if count <= _MOST_VALUES:
        return _joined(settings, Part("pattern", {"type": str(_BYTE), "values": added, "tags": "none"}))
    following = [*range(1, count), 0]
    keys = {"symbols": 1, "next": following, "output": added, "init": 0, "tags": "none"}
    return _joined(settings, Part("state_machine", keys))


def _register(settings: Settings, most_bits: int) -> Tuple[int, int, int]:
    """The mask, the seed and the number of bits of a register of GNU Radio, whose length is one less."""
    bits = settings.whole("len", 1, most_bits - 1) + 1
    return settings.whole("mask", 1, (1 << bits) - 1), settings.whole("seed", 0, (1 << bits) - 1), bits


def _scrambling(kind: str, bits: int, mask: int, init: int) -> Part:
    return Part(kind, {"bits": bits, "mask": reversed_bits(mask, bits), "init": init})


def _row(settings: Settings, *parts: Part) -> Node:
    return Node(settings.block, [_BYTE], [_BYTE], list(parts))


def _joined(settings: Settings, *made: Part) -> Node:
    """The exclusive or of the input with what a row of parts makes, an item for each of the input."""
    ends = [End(at) for at in range(1, len(made) + 1)]
    inner = [*zip(ends, ends[1:]), (ends[-1], End(0, 1))]
    parts = [Part("xor", {"type": str(_BYTE)}), *made]
    return Node(settings.block, [_BYTE], [_BYTE], parts, takes=[[End(0), ends[0]]], gives=[End(0)], inner=inner)
