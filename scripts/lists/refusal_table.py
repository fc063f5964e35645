"""refusals.toml: the refusals by their numbers. The comment at its head says what each key means."""

from __future__ import annotations

from dataclasses import dataclass
from functools import lru_cache
from typing import Any, Mapping, Optional, Sequence

from .tables import WrongTable, entry, of_sort, only, snake, tables_in

FILE = "refusals.toml"
C, GRC = "C", "flow-from-grc"
_LISTS = (C, GRC)


@dataclass(frozen=True)
class Refusal:
    """A refusal."""

    number: int
    name: str
    sentence: str
    of: Sequence[str]
    more: str
    in_c: str
    by: Sequence[str]
    library: Sequence[str]
    lists: Sequence[str]
    machine: Optional[str]

    @property
    def head(self) -> str:
        """The number and the name, as a line has them."""
        return f"{self.number} {self.name}"

    @property
    def constant(self) -> str:
        """The name as a constant has it: `BAD_KEY`."""
        return snake(self.name).upper()


@lru_cache(maxsize=None)
def read_refusals(text: str) -> Sequence[Refusal]:
    """The refusals of a text, in its order, which is that of their numbers."""
    refusals = [_refusal(number, table) for number, table in tables_in(text, FILE, ("refusal",))["refusal"].items()]
    for before, behind in zip(refusals, refusals[1:]):
        if before.number >= behind.number:
            raise WrongTable(f"{FILE}: refusal.{behind.number} stands behind refusal.{before.number}")
    return refusals


def _refusal(number: str, table: Mapping[str, Any]) -> Refusal:
    where = f"{FILE}: refusal.{number}"
    only(table, ("name", "of", "sentence", "more", "in_c", "by", "library", "lists", "machine"), where)
    if not number.isdecimal():
        raise WrongTable(f"{where}: {number} is no number")
    lists = table.get("lists", [])
    if not set(lists) <= set(_LISTS):
        raise WrongTable(f"{where}: lists: there are only {', '.join(_LISTS)}")
    sentence = entry(table, "sentence", str, where)
    return Refusal(
        int(number),
        entry(table, "name", str, where),
        sentence,
        of_sort(table.get("of", [""]), list, where),
        table.get("more", ""),
        table.get("in_c", sentence),
        entry(table, "by", list, where),
        table.get("library", []),
        lists,
        table.get("machine"),
    )
