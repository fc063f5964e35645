"""Reading of the tables: files of TOML whose keys are all known."""

from __future__ import annotations

import re
from typing import Any, Dict, Iterable, Mapping, Type, TypeVar

try:
    import tomllib
except ModuleNotFoundError:  # (before Python 3.11; Debian's package is python3-tomli)
    import tomli as tomllib

Kept = TypeVar("Kept")


class WrongTable(Exception):
    """A table says what it may not say."""


def camel(name: str) -> str:
    """A name in words as a type has it: `moving_sum` as `MovingSum`."""
    return "".join(word.capitalize() for word in name.split("_"))


def snake(name: str) -> str:
    """A type's name in words: `BadLine` as `bad_line`."""
    return re.sub(r"(?<=[a-z0-9])(?=[A-Z])", "_", name).lower()


def tables_in(text: str, file: str, sorts: Iterable[str]) -> Dict[str, Mapping[str, Any]]:
    """The tables of a file by their sorts, which are all that it has."""
    try:
        found = tomllib.loads(text)
    except tomllib.TOMLDecodeError as fault:
        raise WrongTable(f"{file}: {fault}") from fault
    only(found, sorts, file)
    return {sort: found.get(sort, {}) for sort in sorts}


def only(table: Mapping[str, Any], known: Iterable[str], where: str) -> None:
    """Refuses a key that a table does not have."""
    for key in table:
        if key not in known:
            raise WrongTable(f"{where}: it has no key `{key}`; it has: {', '.join(known)}")


def has(table: Mapping[str, Any], key: str, where: str) -> None:
    """Refuses a table that lacks a key."""
    if key not in table:
        raise WrongTable(f"{where}: it lacks `{key}`")


def entry(table: Mapping[str, Any], key: str, sort: Type[Kept], where: str) -> Kept:
    """What stands at a key that a table has to have."""
    has(table, key, where)
    return of_sort(table[key], sort, f"{where}: {key}")


def of_sort(value: Any, sort: Type[Kept], where: str) -> Kept:
    """A value, which has to be of this type."""
    if type(value) is not sort:
        raise WrongTable(f"{where}: {value!r} is no {sort.__name__}")
    return value
