"""Filters of shorts. Companion has none: it draws a filter of floats between a Short To Float and a Float To Short,
whose scale is the filter's shift here."""

from __future__ import annotations

from .faults import Code
from .graph import ItemType
from .nodes import Floats, Node, Part
from .ranges import limit
from .settings import Settings

_MOST_TAPS = limit("fir", "taps", "most_count")
_MOST_SHIFT = limit("fir", "shift")
# Floats hold each sum of shorts exactly if the taps come to no more than this together.
_MOST_EXACT = (1 << 24) // (1 << 15)


def fir(settings: Settings) -> Node:
    """A filter that may decimate."""
    return _filter(settings, "fir", "decimation", "decim")


def interp_fir(settings: Settings) -> Node:
    """A filter that interpolates."""
    return _filter(settings, "interp_fir", "interpolation", "interp")


def short_to_float(settings: Settings) -> Node:
    """A wire, whose floats are the shorts."""
    settings.ones("vlen", "scale")
    return Node(settings.block, [ItemType.SHORT], [Floats.SHORTS])


def float_to_short(settings: Settings) -> Node:
    """A wire behind a filter, which does what its scale says."""
    settings.ones("vlen")
    scale = settings.number("scale")
    for shift in range(_MOST_SHIFT + 1):
        if scale * (1 << shift) == 1:
            if shift:
                settings.note("rounds a half up; GNU Radio's rounds it to the even number")
            return Node(settings.block, [Floats.SUMS], [ItemType.SHORT], shift=shift)
    raise settings.refused("scale", Code.BAD_PARAMETER, "its scale is not 1 / 2^n, with n from 0 to %d" % _MOST_SHIFT)


def _filter(settings: Settings, kind: str, rate: str, rate_there: str) -> Node:
    form = settings.choice("type")
    if form not in ("fff", "fsf"):
        raise settings.refused(
            "type", Code.WRONG_TYPE, "its type is %s; a filter here is fff or fsf, behind a Short To Float" % form
        )
    if settings.value("samp_delay") != 0:
        raise settings.refused("samp_delay", Code.BAD_PARAMETER, "a filter here delays no tags")
    taps = settings.wholes("taps", ItemType.SHORT.least, ItemType.SHORT.most, _MOST_TAPS)
    if not taps:
        raise settings.refused("taps", Code.BAD_PARAMETER, "it has no taps")
    if sum(abs(it) for it in taps) > _MOST_EXACT:
        settings.note("has exact sums; GNU Radio's are floats, which these taps may take beyond 24 bits")
    if form == "fsf":
        settings.note("clamps what exceeds 16 bits; GNU Radio's keeps the lowest bits")
    part = Part(
        kind, {"type": str(ItemType.SHORT), "taps": taps, rate: settings.whole(rate_there, 1, limit(kind, rate))}
    )
    return Node(settings.block, [Floats.SHORTS], [ItemType.SHORT if form == "fsf" else Floats.SUMS], [part])
