"""The lists of refusals outside crates/."""

from __future__ import annotations

import json
from typing import Iterator, Sequence

from .refusal_table import FILE, GRC, C, Refusal
from .trees import Written, marked


def written(refusals: Sequence[Refusal]) -> Iterator[Written]:
    """What is written of refusals."""
    in_c = [it for it in refusals if C in it.lists]
    yield marked("docs/user/REFUSALS.md", FILE, "refusals", _page(refusals))
    yield marked("python/magbelu/_errors.py", FILE, "ROWS", _python(in_c))
    yield marked("c/magbelu.h", FILE, "numbers", "".join(f"#define MAGBELU_{it.constant} {it.number}\n" for it in in_c))
    rows = "".join(f"        {{{it.number}, {json.dumps(it.name)}, {json.dumps(it.in_c)}}},\n" for it in in_c)
    yield marked("c/magbelu.h", FILE, "rows", rows, " " * 8)
    codes = "".join(f"    {it.constant} = ({it.number}, {json.dumps(it.name)})\n" for it in refusals if GRC in it.lists)
    yield marked("python/flow_from_grc/faults.py", FILE, "causes", codes, " " * 4)


def _page(refusals: Sequence[Refusal]) -> str:
    """The table of docs/user/REFUSALS.md."""
    lines = ["| refusal | the cause |", "|---|---|"]
    for it in refusals:
        ways = [f"`{of}`" if of and at else f"`{it.head} {of}".rstrip() + "`" for at, of in enumerate(it.of)]
        alone = f"of the library in {' and in '.join(it.library)} alone: " if it.library else ""
        lines.append(f"| {', '.join(ways)} | {alone}{it.sentence}{it.more} |")
    return "\n".join([*lines, ""])


def _python(refusals: Sequence[Refusal]) -> str:
    """The dictionary of python/magbelu."""
    rows = (f"    {it.number}: ({json.dumps(it.name)}, {json.dumps(it.in_c)}),\n" for it in refusals)
    return "ROWS = {\n" + "".join(rows) + "}\n"
