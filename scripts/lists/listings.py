"""Compares a list of a source with what a table makes of it."""

from __future__ import annotations

from dataclasses import dataclass
from typing import Iterator, List, Sequence, Tuple

Entries = Sequence[Tuple[str, str]]


@dataclass(frozen=True)
class Listing:
    """A list that stands in a source: its entries, each with what it says, if it says something, and those that a table
    makes."""

    file: str
    what: str
    table: str
    found: Entries
    wanted: Entries
    in_order: bool = True
    # Whether other entries may stand among them.
    is_part: bool = False

    def faults(self) -> Iterator[str]:
        """What is wrong with the list, a line for each entry."""
        wanted, found = dict(self.wanted), dict(self.found)
        names = [name for name, _ in self.found if name in wanted]
        for name in wanted:
            if name not in found:
                has = f", and {self.table} has {wanted[name]}" if wanted[name] else ""
                yield self._fault(name, f"it is lacking{has}")
            elif found[name] != wanted[name]:
                yield self._fault(name, f"it is {_shown(found[name])}, and in {self.table} {_shown(wanted[name])}")
        for name in found:
            if name not in wanted and not self.is_part:
                yield self._fault(name, f"{self.table} has no such entry")
        for name in wanted:
            if names.count(name) > 1:
                yield self._fault(name, "it stands there twice")
        if self.in_order and set(names) == set(wanted) and len(names) == len(wanted):
            yield from self._order(names)

    def _order(self, names: List[str]) -> Iterator[str]:
        """The first entry that stands elsewhere than in the table."""
        for found, (wanted, _) in zip(names, self.wanted):
            if found != wanted:
                yield self._fault(found, f"it stands where {self.table} has {wanted}")
                return

    def _fault(self, name: str, text: str) -> str:
        return f"{self.file}: {self.what}: {name}: {text}"


def _shown(text: str) -> str:
    return text or "nothing"


def named(names: Sequence[str]) -> Entries:
    """Entries that say nothing but their names."""
    return [(name, "") for name in names]
