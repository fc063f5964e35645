"""Encoders and decoders of mu-law and A-law, whose bytes are floats of one sign bit, three bits of exponent and four of
mantissa."""

from __future__ import annotations

from typing import Callable

from .entries import Entry
from .graph import ItemType
from .nodes import Node, Part
from .settings import Settings

_SIGN, _MANTISSA = 0x80, 0x0F


def ulaw_sample(byte: int) -> int:
    """The sample of a byte of mu-law."""
    bits = ~byte & 0xFF
    size = (((bits & _MANTISSA) * 8 + 132) << (bits >> 4 & 7)) - 132
    return -size if bits & _SIGN else size


def alaw_sample(byte: int) -> int:
    """The sample of a byte of A-law."""
    bits = byte ^ 0x55
    exponent = bits >> 4 & 7
    size = (bits & _MANTISSA) * 16 + 8
    if exponent:
        size = (size + 256) << (exponent - 1)
    return size if bits & _SIGN else -size


def decoder(sample: Callable[[int], int]) -> Entry:
    """A table of the samples of all bytes."""

    def make(settings: Settings) -> Node:
        values = [sample(it) for it in range(ItemType.BYTE.most + 1)]
        part = Part("table", {"to": str(ItemType.SHORT), "values": values})
        return Node(settings.block, [ItemType.BYTE], [ItemType.SHORT], [part])

    return Entry({}, make)


def encoder(kind: str) -> Entry:
    """A block of this kind of shorts."""

    def make(settings: Settings) -> Node:
        return Node(settings.block, [ItemType.SHORT], [ItemType.BYTE], [Part(kind, {"type": str(ItemType.SHORT)})])

    return Entry({}, make)
