"""What callers hand in, as the library takes it."""

from __future__ import annotations

import array
import collections.abc
import operator
import os
from typing import Any, Iterable, Union

from ._library import Lent, Mark

numpy: Any = None
try:
    import numpy
except ImportError:
    pass

#: A name or a text.
Text = Union[str, bytes, bytearray]

MOST = 2**64 - 1
# The least and the greatest number of 64 bits with a sign. Neither is an item, nor the value of a setting.
LOW, HIGH = -(2**63), 2**63 - 1
BOOLS: set[type] = {bool} if numpy is None else {bool, numpy.bool_}
# What may be a masked item: it lends the number behind its mask.
MASKED: set[type] = set() if numpy is None else {numpy.ma.MaskedArray, type(numpy.ma.masked)}


def unmasked(data: Any, what: str) -> Any:
    """What is no masked array of numpy: such an array lends the numbers behind its mask too."""
    if numpy is not None and isinstance(data, numpy.ma.MaskedArray):
        raise TypeError(
            "%s is no masked array, whose masked items have no value (its filled() or compressed() has one for each)"
            % what
        )
    return data


def bytes_of(text: Text) -> bytes:
    """The bytes of a name or of a text. (Of a number `bytes` makes so many zeros.)"""
    if isinstance(text, str):
        return text.encode()
    if isinstance(text, (bytes, bytearray)):
        return bytes(text)
    hint = " (Graph.from_file and Stream.from_file open the file of a path)" if isinstance(text, os.PathLike) else ""
    raise TypeError("a str or bytes is wanted, and not %r%s" % (type(text).__name__, hint))


def index(it: Any, what: str) -> int:
    """An integer as one of Python."""
    unmasked(it, what)
    if type(it) in BOOLS:
        raise TypeError("%s is an integer, and no truth value" % what)
    try:
        return operator.index(it)
    except TypeError:
        raise TypeError("%s is an integer, and no %r" % (what, type(it).__name__)) from None


def count_of(it: Any, what: str, most: int) -> int:
    """An integer from 0 on, cut to `most`, behind which a greater one means nothing else."""
    number = index(it, what)
    if number < 0:
        raise ValueError("%s is not negative: %d" % (what, number))
    return min(number, most)


def flag(it: Any, what: str) -> bool:
    if type(it) not in BOOLS:
        raise TypeError("%s is True or False, and no %r" % (what, type(it).__name__))
    return bool(it)


def within(number: int) -> int:
    """A number that 64 bits hold: itself, or the nearest one, which is refused where the number would be."""
    return min(max(number, LOW), HIGH)


def is_bytes(data: Any) -> bool:
    """Whether an object lends bytes, and not wider items."""
    try:
        view = memoryview(data)
    except TypeError:
        return False
    return view.format in ("B", "b", "c") and view.ndim == 1


def numbers_of(items: Any) -> array.array[int]:
    """Integers as an array of 64 bits each."""
    if numpy is not None and isinstance(items, numpy.ndarray) and items.dtype.kind != "O":
        if items.dtype.kind not in "iu":
            raise TypeError("items are integers, and not of dtype %s" % items.dtype)
        if items.ndim != 1:
            raise ValueError("items stand in one row, and not in an array of %d dimensions" % items.ndim)
        if items.dtype.kind == "u" and items.dtype.itemsize == 8:
            items = numpy.minimum(items, numpy.uint64(HIGH))
        return array.array("q", items.astype("=i8").tobytes())
    if isinstance(items, (str, collections.abc.Mapping, collections.abc.Set)):
        raise TypeError("items are integers in a row, or bytes, and no %r" % type(items).__name__)
    try:
        items = list(items)
    except NotImplementedError as error:
        # (of a memoryview with a format of its own, or with more than one dimension)
        raise TypeError(str(error)) from None
    except TypeError:
        raise TypeError("items are integers in a row, or bytes, and no %r" % type(items).__name__) from None
    types = set(map(type, items))
    if not (BOOLS | MASKED).isdisjoint(types):
        items = [index(it, "an item") for it in items]
    elif types != {int}:
        # (before Python 3.10 an array takes what has only `__int__`, and cuts it)
        try:
            items = list(map(operator.index, items))
        except TypeError:
            items = [index(it, "an item") for it in items]
    try:
        return array.array("q", items)
    except OverflowError:
        return array.array("q", [within(it) for it in items])


# What the library reads where there are no tags.
NO_MARKS = (Mark * 1)()


def parts_of(tag: Any) -> tuple[Any, Any, Any]:
    """The offset, the key and the value of a tag."""
    try:
        offset, key, value = tag
    except (TypeError, ValueError) as error:
        kind = TypeError if isinstance(error, TypeError) else ValueError
        raise kind("a tag is (offset, key, value), and not %r" % (tag,)) from None
    return offset, key, value


def marks_of(tags: Iterable[tuple[Any, Any, Any]]) -> tuple[Any, list[Lent]]:
    """Tags of a feed as C has them, and their keys, which have to be kept. (An offset beyond 64 bits is on no item, as
    the greatest is.)"""
    if isinstance(tags, (tuple, list)) and not tags:
        return NO_MARKS, []
    kept, marks = [], []
    for offset, key, value in map(parts_of, tags):
        offset, value, lent = (
            index(offset, "the offset of a tag"), index(value, "the value of a tag"), Lent(bytes_of(key)),
        )
        if not LOW <= value <= HIGH:
            raise ValueError("the value of a tag has 64 bits with its sign: %d" % value)
        kept.append(lent)
        marks.append(Mark(offset if 0 <= offset <= MOST else MOST, value, lent.at, lent.len))
    return (Mark * max(len(marks), 1))(*marks), kept


def place_of(at: Any) -> int:
    if at is None:
        return MOST
    place = index(at, "the place of a setting")
    # (the greatest number of 64 bits stands for none)
    if not 0 <= place < MOST:
        raise ValueError("the place of a setting is from 0 to 2**64 - 2: %d" % place)
    return place


def taps_of(value: Iterable[Any]) -> array.array[int]:
    """Taps as shorts. (Where one is none, there are no taps at all, which no filter takes either.)"""
    taps = [index(it, "a tap") for it in value]
    try:
        return array.array("h", taps)
    except OverflowError:
        return array.array("h")
