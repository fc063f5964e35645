"""Edits of a graph file's text: a block or a connection more, in the manner in which the file has its others."""

from __future__ import annotations

import re
from typing import Any, Optional, Union

from .._kinds import Kind
from .file import TOKEN
from .graphs import GraphFile

Value = Union[int, str, list[int]]


def table_of(name: str, kind: Kind, item_type: str) -> dict[str, Value]:
    """A block of a kind, with values that its parameters may have."""
    types = {"type": item_type if item_type in kind.types else kind.types[0]} if kind.types else {}
    return {"name": name, "kind": kind.name, **types, **kind.least}


def free_name(kind: str, names: list[str]) -> str:
    """A name for a block that no other has."""
    short = kind[:24]
    return next(it for it in ("%s%d" % (short, number) for number in range(1, len(names) + 2)) if it not in names)


def shown(value: Value) -> str:
    return '"%s"' % value if isinstance(value, str) else str(value)


def with_table(text: str, array: str, table: dict[str, Value]) -> str:
    """The text with a table more in an array: in the array's brackets where it has such, and else as a header with its
    keys at the end."""
    entries = ["%s = %s" % (key, shown(value)) for key, value in table.items()]
    place = end_of_array(text, array)
    if place is None:
        return (
            "%s\n\n[[%s]]\n%s\n" % (text.rstrip("\n"), array, "\n".join(entries))
            if text.strip()
            else "[[%s]]\n%s\n" % (array, "\n".join(entries))
        )
    end, needs_comma, last = place
    line = "    { %s },\n" % ", ".join(entries)
    return text[:last] + ("," if needs_comma else "") + text[last:end].rstrip(" \n") + "\n" + line + text[end:]


def end_of_array(text: str, array: str) -> Optional[tuple[int, bool, int]]:
    """Of the array `array = [..]` at the top of a file, where its closing bracket stands, whether its last entry lacks
    a comma, and where that entry ends."""
    depth, before = 0, ""
    words = [it for it in TOKEN.finditer(text) if not it[0].isspace() and it[0][0] not in "#\ufeff"]
    for at, it in enumerate(words):
        is_array = depth == 0 and it[0] == array and [word[0] for word in words[at + 1 : at + 3]] == ["=", "["]
        if is_array:
            return closing_of(words[at + 2 :])
        if depth == 0 and it[0] == "[" and before != "=":
            # (a header: what stands behind it is no key of the top)
            return None
        depth += (it[0] in "[{") - (it[0] in "]}")
        before = it[0]
    return None


def closing_of(words: list[re.Match[str]]) -> Optional[tuple[int, bool, int]]:
    """The same of an array whose opening bracket is the first of these words."""
    depth = 0
    for at, it in enumerate(words):
        depth += (it[0] in "[{") - (it[0] in "]}")
        if depth == 0:
            last = words[at - 1]
            return it.start(), last[0] not in ("[", ","), last.end()
    return None


def connect_of(start: str, from_port: int, end: str, to_port: int) -> dict[str, Any]:
    """A connection, as a file has it. (Port 0 is the default.)"""
    ports = {"from_port": from_port, "to_port": to_port}
    return {"from": start, "to": end, **{key: it for key, it in ports.items() if it}}


def watched(graph: GraphFile, name: str, port: int = 0) -> tuple[str, str]:
    """The text with a sink behind an output of a block, where none is there yet, and the name of the sink. A sink is
    its own."""
    sinks = graph.named("vector_sink")
    if graph.block(name) is None:
        raise ValueError("no block has the name %r" % name)
    there = [
        it["to"] for it in graph.connects if (it["from"], it.get("from_port", 0)) == (name, port) and it["to"] in sinks
    ]
    if name in sinks or there:
        return graph.text, name if name in sinks else there[0]
    sink = free_name(name + "_", [it["name"] for it in graph.blocks])
    text = with_table(graph.text, "block", {"name": sink, "kind": "vector_sink", "type": graph.type_of(name)})
    return with_table(text, "connect", connect_of(name, port, sink, 0)), sink
