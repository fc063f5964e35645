"""The lists of `flow-from-grc`: which blocks of GNU Radio a kind stands for, and what its parameters may be."""

from __future__ import annotations

import json
from typing import Iterator, Sequence

from .kind_table import FILE, NUMBERS, GnuRadioBlock, Kind, KindTable, Range
from .trees import Written, headed

_FOLDER = "python/flow_from_grc"
# How long an entry is before its parts stand in lines of their own.
_WIDE = 120
_RANGES = '''from __future__ import annotations

from typing import Mapping

# By the kind and the parameter. What depends on other parameters, or on the type of items, has no number.
RANGES: Mapping[str, Mapping[str, Mapping[str, int]]] = {
%s
}
'''
_KINDS = '''from __future__ import annotations

from typing import Mapping

from . import notes
from .entries import ANY, BYTES, WIDE, Choice, Entry, Number, Numbers, Truth, block

SINGLE_KINDS: Mapping[str, Entry] = {
%s
}
'''


def written(table: KindTable) -> Iterator[Written]:
    """What is written of kinds for `flow-from-grc`."""
    rows = []
    for kind in table.kinds:
        ranges = [f"{_text(table.parameters[name].key)}: {_range(range)}" for name, range in kind.parameters.items()]
        whole = f"    {_text(kind.name)}: {{{', '.join(ranges)}}},"
        if len(whole) <= _WIDE:
            rows += [whole] if ranges else []
        else:
            rows += [f"    {_text(kind.name)}: {{", *(f"        {it}," for it in ranges), "    },"]
    doc = "The ranges of the parameters of kinds, as far as they are numbers."
    yield headed(f"{_FOLDER}/kind_ranges.py", FILE, doc, _RANGES % "\n".join(rows))
    rows = [f"    {_text(it.id)}: {_block(table, kind, it)}" for kind in table.kinds for it in kind.gnu_radio]
    doc = "The blocks of GNU Radio for which a kind stands alone."
    yield headed(f"{_FOLDER}/single_kinds.py", FILE, doc, _KINDS % "\n".join(rows))


def _text(text: str) -> str:
    return json.dumps(text)


def _range(range: Range) -> str:
    """The numbers of a range by their names."""
    numbers = {key: getattr(range, key) for key in NUMBERS}
    return json.dumps({key: number for key, number in numbers.items() if number is not None})


def _block(table: KindTable, kind: Kind, it: GnuRadioBlock) -> str:
    """The entry of a block of GNU Radio."""
    words = [_text(kind.name), it.items.upper()]
    for name, (there, default) in it.parameters.items():
        sort = {"Switch": "Truth", "Bytes": "Numbers"}.get(kind.parameters[name].rust[0], "Number")
        words.append(f"{sort}({_text(table.parameters[name].key)}, {_text(there)}, {_text(default)})")
    for key, ports in (("inputs", it.inputs), ("outputs", it.outputs)):
        words += [f"{key}={json.dumps(ports)}"] if ports != 1 else []
    words += [f"ones={_tuple(it.ones)}"] if it.ones is not None else []
    words += [f"ignored={_tuple(it.ignored)}"] if it.ignored else []
    choices = [f"Choice({_text(key)}, {_text(wanted)}, {_text(why)})" for key, (wanted, why) in it.choices.items()]
    words += [f"choices=({', '.join(choices)},)"] if choices else []
    words += [f"first_type={_text(it.first_type)}"] if it.first_type else []
    words += [f"first_count={_text(it.first_count)}"] if it.first_count else []
    words += [f"note=notes.{it.note}"] if it.note else []
    whole = f"block({', '.join(words)}),"
    if len(f"    {_text(it.id)}: {whole}") <= _WIDE:
        return whole
    return "block(\n%s    )," % "".join(f"        {word},\n" for word in words)


def _tuple(texts: Sequence[str]) -> str:
    return f"({', '.join(map(_text, texts))}{',' if len(texts) == 1 else ''})"
