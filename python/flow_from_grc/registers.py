"""The shift registers of GNU Radio's scramblers as the parameters that kinds have for them.

GNU Radio's register of so many bits gives its lowest bit, and moves in from the top the sum of the bits that the mask
selects: so its bits are the items that it gives next, the lowest bit the first of them. A kind counts the items of the
same sequence back from the one that is made: the lowest bit is the item just before that.
"""

from __future__ import annotations

from typing import Dict, Iterator


def given_bits(mask: int, seed: int, bits: int) -> Iterator[int]:
    """The bits that GNU Radio's register gives."""
    while True:
        yield seed & 1
        seed = seed >> 1 | (bin(seed & mask).count("1") & 1) << (bits - 1)


def reversed_bits(number: int, bits: int) -> int:
    """The number with its lowest bits in reverse order."""
    return int(format(number, "0%db" % bits)[::-1], 2)


def _items(mask: int, seed: int, bits: int) -> Dict[int, int]:
    """The items of a register's sequence by their numbers: those of the seed from the lowest bit of the mask on, and as
    many before them, which are found from what the register made of them. The register does not read the bits of the
    seed below the mask, so that these may not be what comes out here."""
    low = (mask & -mask).bit_length() - 1
    items = {at: seed >> at & 1 for at in range(low, bits)}
    for at in range(low - 1, low - bits - 1, -1):
        item = items[at + bits - low]
        for bit in range(low + 1, bits):
            item ^= (mask >> bit & 1) & items[at + bit - low]
        items[at] = item
    return items


def seed_that_goes_on(mask: int, seed: int, bits: int) -> int:
    """The seed with the bits below the mask that a register makes: the same one, where a register has made all of its
    bits."""
    items = _items(mask, seed, bits)
    return sum(items[at] << at for at in range(bits))


def init_before(mask: int, seed: int, bits: int) -> int:
    """The `init` of the kind that gives the bits of such a seed first, and then goes on as GNU Radio's register."""
    items = _items(mask, seed, bits)
    return sum(items.get(-at, 0) << (at - 1) for at in range(1, bits + 1))
