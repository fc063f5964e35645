"""kinds.toml: the kinds of blocks, their parameters and the ranges of these. The comment at its head says what each key
means."""

from __future__ import annotations

from dataclasses import dataclass
from functools import lru_cache
from typing import Any, Dict, Mapping, Optional, Sequence, Tuple, Union

from .tables import WrongTable, camel, entry, has, of_sort, only, tables_in

FILE = "kinds.toml"
ITEMS = ("any", "wide", "bytes")
ENDS = ("source", "sink")
_OPTIONAL = (
    "end", "rate", "example", "parameters", "setting", "drawn", "gives", "inputs", "tried", "least", "kept", "called",
    "gnu_radio",
)
Value = Union[int, str, Sequence[int]]
# How many ports a block of GNU Radio has: so many, or as many as its parameter of this name says.
Ports = Union[int, str]
_GREATEST_32 = (1 << 32) - 1
NUMBERS = ("least", "most", "least_count", "most_count", "together")


@dataclass(frozen=True)
class Parameter:
    """A parameter of blocks. `key` is its name in a graph file."""

    name: str
    key: str
    default: Optional[Value]
    called: Sequence[str]
    differs: Mapping[str, str]

    @property
    def variant(self) -> str:
        """The variant of `Parameter`."""
        return camel(self.name)


@dataclass(frozen=True)
class Range:
    """What a parameter may be. `rust` is the variant of `Range` with what stands in it; `words` are those of a page;
    `form` is that of a value in a file."""

    rust: Tuple[str, ...]
    words: str
    form: str = "number"
    kept: bool = False
    least: Optional[int] = None
    most: Optional[int] = None
    least_count: Optional[int] = None
    most_count: Optional[int] = None
    together: Optional[int] = None


@dataclass(frozen=True)
class GnuRadioBlock:
    """A block of GNU Radio for which a kind stands alone. `parameters` has of each of the kind's its name and its
    default there."""

    id: str
    items: str
    parameters: Mapping[str, Tuple[str, str]]
    inputs: Ports
    outputs: Ports
    ones: Optional[Sequence[str]]
    ignored: Sequence[str]
    choices: Mapping[str, Tuple[str, str]]
    first_type: Optional[str]
    first_count: Optional[str]
    note: Optional[str]


@dataclass(frozen=True)
class Kind:
    """A kind of blocks."""

    name: str
    type: str
    doc: str
    family: str
    items: str
    end: Optional[str]
    line: str
    rate: str
    example: str
    parameters: Mapping[str, Range]
    setting: Optional[str]
    drawn: Optional[str]
    gives: Optional[str]
    inputs: int
    tried: Mapping[str, Value]
    least: Mapping[str, Value]
    kept: bool
    called: Sequence[str]
    gnu_radio: Sequence[GnuRadioBlock]


@dataclass(frozen=True)
class KindTable:
    """All that kinds.toml has, in its order."""

    kinds: Sequence[Kind]
    parameters: Mapping[str, Parameter]
    ranges: Mapping[str, Range]


@lru_cache(maxsize=None)
def read_kinds(text: str) -> KindTable:
    """The table that a text is."""
    tables = tables_in(text, FILE, ("kind", "parameter", "range"))
    parameters = {name: _parameter(name, table) for name, table in tables["parameter"].items()}
    ranges = {name: _range(name, table) for name, table in tables["range"].items()}
    kinds = [_kind(name, table, parameters, ranges) for name, table in tables["kind"].items()]
    types = [kind.type for kind in kinds]
    for kind in kinds:
        if types.count(kind.type) > 1:
            raise WrongTable(f"{FILE}: kind.{kind.name}: another kind has the type {kind.type}")
    return KindTable(kinds, parameters, ranges)


def _parameter(name: str, table: Mapping[str, Any]) -> Parameter:
    only(table, ("key", "default", "called", "differs"), f"{FILE}: parameter.{name}")
    return Parameter(
        name, table.get("key", name), table.get("default"), table.get("called", ()), table.get("differs", {})
    )


def _range(name: str, table: Mapping[str, Any]) -> Range:
    where = f"{FILE}: range.{name}"
    only(table, ("form", "kept", "words", *NUMBERS), where)
    numbers = {key: of_sort(table[key], int, f"{where}: {key}") for key in NUMBERS if key in table}
    form = table.get("form", "number")
    if form not in ("number", "numbers", "text"):
        raise WrongTable(f"{where}: form: {form!r} is none")
    try:
        words = entry(table, "words", str, where).format(**numbers)
    except KeyError as lacking:
        raise WrongTable(f"{where}: words: it has no number {lacking}") from lacking
    return Range((camel(name),), words, form, table.get("kept", False), **numbers)


def _kind(
    name: str, table: Mapping[str, Any], parameters: Mapping[str, Parameter], ranges: Mapping[str, Range]
) -> Kind:
    where = f"{FILE}: kind.{name}"
    needed = ("type", "doc", "family", "items", "line")
    only(table, (*needed, *_OPTIONAL), where)
    texts = {key: entry(table, key, str, where) for key in needed}
    own: Dict[str, Range] = {}
    for key, value in table.get("parameters", {}).items():
        if key not in parameters:
            raise WrongTable(f"{where}: there is no parameter.{key}")
        own[key] = _range_of(value, parameters, ranges, f"{where}: parameters.{key}")
    _test_kind(table, own, [key for key in own if parameters[key].default is None], where)
    return Kind(
        name,
        **texts,
        end=table.get("end"),
        rate=table.get("rate", ""),
        example=table.get("example", ""),
        parameters=own,
        setting=table.get("setting"),
        drawn=table.get("drawn"),
        gives=table.get("gives"),
        inputs=of_sort(table.get("inputs", 1), int, f"{where}: inputs"),
        tried=table.get("tried", {}),
        least=table.get("least", {}),
        kept=of_sort(table.get("kept", False), bool, f"{where}: kept"),
        called=table.get("called", ()),
        gnu_radio=[_gnu_radio(id, it, own, texts["items"], where) for id, it in table.get("gnu_radio", {}).items()],
    )


def _test_kind(table: Mapping[str, Any], own: Mapping[str, Range], needed: Sequence[str], where: str) -> None:
    """Refuses an entry that does not fit the kind's own parameters, some of which a graph file needs."""
    if table["items"] not in ITEMS:
        raise WrongTable(f"{where}: items: {table['items']!r} is none of {', '.join(ITEMS)}")
    if table.get("end", "sink") not in ENDS or ("end" in table) == ("rate" in table):
        raise WrongTable(f"{where}: it has either a `rate` or an `end`, which is one of {', '.join(ENDS)}")
    for key, names in (("tried", own), ("least", needed)):
        only(table.get(key, {}), own, f"{where}: {key}")
        for name in names:
            has(table.get(key, {}), name, f"{where}: {key}")
    for key in ("setting", "drawn"):
        if key in table and table[key] not in own:
            raise WrongTable(f"{where}: {key}: it has no parameter {table[key]!r}")


def _range_of(value: Any, parameters: Mapping[str, Parameter], ranges: Mapping[str, Range], where: str) -> Range:
    """The range that stands at a parameter of a kind."""
    if isinstance(value, str) and value in ranges:
        return ranges[value]
    if isinstance(value, list) and len(value) == 2:
        least, most = (of_sort(it, int, where) for it in value)
        if most <= _GREATEST_32:
            return Range(("Number", str(least), str(most)), f"{least} to {most}", least=least, most=most)
        if least == 0:
            return Range(("Long", str(most)), f"0 to {most}", least=0, most=most)
    if isinstance(value, dict) and set(value) == {"at_least", "most"} and value["at_least"] in parameters:
        least_one, most = parameters[value["at_least"]], of_sort(value["most"], int, where)
        return Range(("AtLeast", least_one.variant, str(most)), f"{least_one.key} to {most}", most=most)
    if isinstance(value, dict) and set(value) == {"register"}:
        least = of_sort(value["register"], int, where)
        return Range(("Register", str(least)), f"{least} to 2^bits - 1", least=least)
    raise WrongTable(f"{where}: {value!r} is no range")


def _gnu_radio(id: str, table: Mapping[str, Any], own: Mapping[str, Range], items: str, where: str) -> GnuRadioBlock:
    where = f"{where}: gnu_radio.{id}"
    options = ("types", "inputs", "outputs", "ones", "ignored", "choices", "first_type", "first_count", "note")
    only(table, (*own, *options), where)
    return GnuRadioBlock(
        id,
        table.get("types", items),
        {key: _pair(table[key], f"{where}: {key}") for key in own if key in table},
        table.get("inputs", 1),
        table.get("outputs", 1),
        table.get("ones"),
        table.get("ignored", ()),
        {key: _pair(pair, f"{where}: choices.{key}") for key, pair in table.get("choices", {}).items()},
        table.get("first_type"),
        table.get("first_count"),
        table.get("note"),
    )


def _pair(value: Any, where: str) -> Tuple[str, str]:
    if not isinstance(value, list) or [type(it) for it in value] != [str, str]:
        raise WrongTable(f"{where}: {value!r} is not two texts")
    return value[0], value[1]
