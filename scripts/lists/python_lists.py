"""The lists of kinds that python/magbelu has."""

from __future__ import annotations

import json
import textwrap
from typing import Iterator, List

from .kind_lists import parameters_of
from .kind_table import FILE, Kind, KindTable, Range
from .trees import Written, headed

# How long a line is before its parts stand in lines of their own.
_WIDE = 120
_MODULE = '''from __future__ import annotations

from typing import Iterable, Literal, Mapping, NamedTuple, Optional, Sequence, SupportsIndex, Union, overload

#: A type of items, the order of bits in an item, and which tags a block passes on.
Type = Literal["byte", "short", "int"]
Order = Literal["msb_first", "lsb_first"]
Policy = Literal["all", "one", "none"]
#: A number or several, as `feed` takes them.
Number = SupportsIndex
Numbers = Iterable[SupportsIndex]


class Kind(NamedTuple):
    """A kind of blocks: what it gives, the types that a block may have, what each parameter may be, how many items it
    gives for how many, an example, the parameter that may be set while it runs, and values for those that a block
    needs, whatever its type."""

    name: str
    equation: str
    types: Sequence[str]
    parameters: Mapping[str, str]
    rate: str
    example: str
    setting: Optional[str]
    least: Mapping[str, Union[int, str, list[int]]]

    @property
    def page(self) -> str:
        """What `flow kinds` prints of it."""
        rows = [*self.parameters.items(), ("rate", self.rate), ("example", self.example)]
        said = ("    %%s: %%s\\n" %% row for row in rows if row[1])
        return "".join(["%%s: %%s\\n" %% (self.name, self.equation), *said])


#: The kinds by their names, in the order of `flow kinds`.
KIND_ROWS: Mapping[str, Kind] = {
%s
}

#: What `flow kinds` prints of each kind, by its name.
KINDS: Mapping[str, str] = {name: it.page for name, it in KIND_ROWS.items()}


class KindBlocks:
    """The keywords of each kind's parameters, for those who look at types. A parameter that may be left out has the
    value `...` here."""
%s

    def block(self, name: str, kind: str, **keys: object) -> str:
        """Adds a block of this kind, with its parameters by their keys in a graph file, and gives its name."""
        return self._add(name, kind, keys)

    def _add(self, name: str, kind: str, keys: Mapping[str, object]) -> str:
        raise NotImplementedError
'''
_TYPES = {"any": "Type", "wide": 'Literal["short", "int"]'}


def written(table: KindTable) -> Iterator[Written]:
    """What is written of kinds for python/magbelu."""
    rows = [f"    {json.dumps(kind.name)}: {_row(table, kind)}," for kind in table.kinds]
    blocks = [line for kind in table.kinds for line in _overload(table, kind)]
    doc = "The kinds of blocks: what is said of each, and the types of its parameters."
    yield headed("python/magbelu/_kinds.py", FILE, doc, _MODULE % ("\n".join(rows), "\n".join(blocks)))


def _row(table: KindTable, kind: Kind) -> str:
    """A kind as Python writes it, a line for each parameter."""
    keys = {name: table.parameters[name].key for name in kind.parameters}
    least = {keys[name]: value for name, value in kind.least.items() if table.parameters[name].default is None}
    setting = json.dumps(keys[kind.setting]) if kind.setting else None
    parameters = [
        line for key, says in parameters_of(table, kind).items() for line in _text(says, 12, f"{json.dumps(key)}: ")
    ]
    lines = [
        *_parts(_text(kind.name), _text(kind.line), [f"{_types_of(kind)},"]),
        *(["        {", *parameters, "        },"] if parameters else ["        {},"]),
        *_parts(_text(kind.rate), _text(kind.example), [f"{setting},"], [f"{json.dumps(least)},"]),
    ]
    return "\n".join(["Kind(", *lines, "    )"])


def _text(text: str, indent: int = 8, before: str = "") -> List[str]:
    """A text as Python writes it, behind what stands before it, in as many literals as its lines need."""
    parts = textwrap.wrap(text, _WIDE - indent - len(before) - 4, drop_whitespace=False) or [""]
    lines = [json.dumps(it) for it in parts]
    lines[0] = before + lines[0]
    return [" " * indent + it for it in [*lines[:-1], lines[-1] + ","]]


def _parts(*parts: List[str]) -> List[str]:
    """Arguments, each by its lines: in one line where they fit, and else each from a line of its own on."""
    whole = f"        {' '.join(it[0].strip() for it in parts)}"
    if all(len(it) == 1 for it in parts) and len(whole) <= _WIDE:
        return [whole]
    return [f"        {line.strip()}" for lines in parts for line in lines]


def _types_of(kind: Kind) -> str:
    types = {"any": ("byte", "short", "int"), "wide": ("short", "int")}.get(kind.items, ())
    return f"({', '.join(json.dumps(it) for it in types)})"


def _overload(table: KindTable, kind: Kind) -> List[str]:
    """How a block of a kind is called for."""
    keys = [f"type: {_TYPES[kind.items]}"] if kind.items in _TYPES else []
    for name, range in kind.parameters.items():
        parameter = table.parameters[name]
        keys.append(f"{parameter.key}: {_type(name, range)}" + ("" if parameter.default is None else " = ..."))
    if not kind.end:
        keys += ["tags: Policy = ...", "multiple: Number = ..."]
    if kind.end != "sink":
        keys.append("capacity: Number = ...")
    words = ["self", "name: str", f"kind: Literal[{json.dumps(kind.name)}]", *(["*", *keys] if keys else [])]
    line = f"    def block({', '.join(words)}) -> str: ..."
    if len(line) <= _WIDE:
        return ["", "    @overload", line]
    return ["", "    @overload", "    def block(", *(f"        {it}," for it in words), "    ) -> str: ..."]


def _type(name: str, range: Range) -> str:
    """The type of a parameter's values."""
    if range.form == "number":
        return "Number"
    if range.form == "numbers":
        return "Numbers"
    return {"to": "Type", "order": "Order"}.get(name, "str")
