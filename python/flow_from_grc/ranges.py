"""Numbers of what the parameters of kinds may be."""

from __future__ import annotations

from .kind_ranges import RANGES


def limit(kind: str, key: str, number: str = "most") -> int:
    """A number that the range of a parameter has: `least` or `most`, of a list `least_count`, `most_count` or
    `together` too."""
    return RANGES[kind][key][number]
