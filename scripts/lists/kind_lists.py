"""The lists of kinds outside crates/."""

from __future__ import annotations

import json
from typing import Dict, Iterator, List, Mapping, Sequence, Union

from .kind_table import FILE, Kind, KindTable, Value
from .trees import Written, marked

# How long a line of a test is before its parts stand in lines of their own.
_WIDE = 100
_TYPES = {"any": '"byte", "short" or "int"', "wide": '"short" or "int"'}


def written(table: KindTable) -> Iterator[Written]:
    """What is written of kinds."""
    kinds = table.kinds
    names = ", ".join(kind.name for kind in kinds)
    yield marked("docs/user/KINDS.md", FILE, "page of kinds", _page(table))
    yield marked("tests/graph_files/each_kind.rs", FILE, "KINDS", _tried(table))
    yield marked("tests/graph_files/drawings.rs", FILE, "KINDS", _drawn(table))
    # (In these no line can say by what they are written.)
    yield Written("tests/cases/explained/far_kind/stderr", names, "; there are: ", "\n")
    yield Written(
        "README.md", str(len(kinds)), "[refusals](docs/user/REFUSALS.md), [the ", " kinds](docs/user/KINDS.md), "
    )
    spaced = " ".join(kind.name for kind in kinds)
    yield Written(
        "share/bash-completion/completions/flow", spaced, '_flow_kinds() { echo "', '"; }\n\n# _flow_kind OPTION'
    )
    yield Written("share/zsh/site-functions/_flow", spaced, 'local kinds="', '"\n    local curcontext=')
    yield Written(
        "share/fish/vendor_completions.d/flow.fish", spaced, "__flow_is kinds new' -a '",
        "'\ncomplete -c flow -n 'not __flow_is help' -s h",
    )


def _page(table: KindTable) -> str:
    lines = ["```", "$ ./flow kinds"]
    for kind in table.kinds:
        lines += page_of(table, kind)
    return "\n".join([*lines, "```", ""])


def page_of(table: KindTable, kind: Kind) -> List[str]:
    """The lines that `flow kinds` prints of a kind."""
    rows = {**parameters_of(table, kind), "rate": kind.rate, "example": kind.example}
    return [f"{kind.name}: {kind.line}", *(f"    {key}: {says}" for key, says in rows.items() if says)]


def parameters_of(table: KindTable, kind: Kind) -> Dict[str, str]:
    """What the type and each parameter may be, by its key."""
    rows = {"type": _TYPES[kind.items]} if kind.items in _TYPES else {}
    for name, range in kind.parameters.items():
        parameter = table.parameters[name]
        missing = "" if parameter.default is None else f", {_toml(parameter.default)} where it is missing"
        settable = ", may be set" if name == kind.setting else ""
        rows[parameter.key] = f"{range.words}{missing}{settable}"
    return rows


def _toml(value: Value) -> str:
    return json.dumps(value)


def _keys(table: KindTable, kind: Kind, item: str, values: Mapping[str, Value]) -> List[str]:
    """The lines of a block of a graph file, on items of this type where the kind has types."""
    typed = [] if kind.items == "bytes" else [f'type = "{item}"']
    return typed + [
        f"{table.parameters[name].key} = {_toml(values[name])}" for name in kind.parameters if name in values
    ]


def _tried(table: KindTable) -> str:
    rows = []
    for kind in table.kinds:
        keys = _keys(table, kind, "short", kind.tried)
        if kind.drawn:
            # (what ends or moves its stream has no multiple)
            keys += ['tags = "none"', "multiple = 1"]
        elif not kind.end:
            keys += ['tags = "one"', "multiple = 2"]
        if kind.end != "sink":
            keys.append("capacity = 8")
        rows.append([kind.name, "".join(it + "\n" for it in keys)])
    return _const("KINDS", "(&str, &str)", rows)


def _drawn(table: KindTable) -> str:
    rows = []
    for kind in table.kinds:
        if not kind.end:
            item = "byte" if kind.items == "bytes" else "int"
            keys = "\n".join(_keys(table, kind, "int", kind.least))
            rows.append(
                [kind.name, keys, item, str(kind.least.get("to", kind.gives or item)), _note(kind), kind.inputs]
            )
    return _const("KINDS", "(&str, &str, &str, &str, &str, usize)", rows)


def _note(kind: Kind) -> str:
    """What a drawing shows below the kind's name: the setting, or what ends or moves a stream."""
    value = kind.least.get(kind.setting or kind.drawn or "")
    if value is None:
        return ""
    if isinstance(value, list):
        return f"{len(value)} taps<br/>"
    return f"{'value' if kind.setting else kind.drawn} {value}<br/>"


def _const(name: str, row: str, rows: Sequence[Sequence[Union[str, int]]]) -> str:
    """An array of tuples of texts and numbers in Rattle."""
    lines = [f"const {name}: [{row}; {len(rows)}] = ["]
    for texts in rows:
        parts = [json.dumps(it) for it in texts]
        whole = f"    ({', '.join(parts)}),"
        lines += [whole] if len(whole) <= _WIDE else ["    (", *(f"        {it}," for it in parts), "    ),"]
    return "\n".join([*lines, "];", ""])
