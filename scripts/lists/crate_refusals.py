"""The numbers and names of refusals in the crates."""

from __future__ import annotations

import re
from typing import Dict, Iterator, List, Sequence, Tuple

from .listings import Listing
from .refusal_table import FILE, Refusal
from .sources import found_in
from .trees import Tree

MACHINE = "crates/stream_model/specs/Machine.antt"
_ARM = re.compile(r'(?m)^ *(?:\| )?(\w+)::.*=>\s*\((\d+), "(\w+)"\)')
_TEXT = re.compile(r'"(?:flow: refused )?(\d+) ([A-Z]\w+)[ "\\]')
_ROW = re.compile(r'\((\d+), codes "(\w+)"\)')
_CONST = re.compile(r"(?m)^const ([A-Z_]+): u32 = (\d+);")
# (a status has one digit)
_REPLY = re.compile(r"\brefused\((\d\d+), ")

# The files that have the refusals of a type, or of a crate, with their names and numbers.
Given = Dict[str, Tuple[List[str], List[Tuple[str, str]]]]


def listings(tree: Tree, refusals: Sequence[Refusal]) -> Iterator[Listing]:
    """Of each type or crate that gives refusals, and of each file of definitions that has them, the numbers by their
    names."""
    wanted: Dict[str, List[Tuple[str, str]]] = {}
    for it in refusals:
        for giver in it.by:
            wanted.setdefault(giver, []).append((it.name, str(it.number)))
    given = _given(tree, refusals)
    for giver in sorted({*wanted, *given}):
        files, entries = given.get(giver, ([f"crates/{giver.split()[0]}"], []))
        what = f"the refusals of {giver.split()[-1]}"
        yield Listing(", ".join(files), what, FILE, _once(entries), wanted.get(giver, []), in_order=False)
    yield from _definitions(tree, refusals)


def _given(tree: Tree, refusals: Sequence[Refusal]) -> Given:
    """The refusals in the code of crates, by who gives them."""
    given: Given = {}
    constants = {it.constant: it.name for it in refusals}
    names = {str(it.number): it.name for it in refusals}
    for file in tree.files("crates/*/src/**/*.rt"):
        crate, text = file.split("/")[1], tree.text(file)
        found = [(f"{crate} {type}", name, number) for type, number, name in found_in(_ARM, text)]
        found += [(crate, name, number) for number, name in found_in(_TEXT, text)]
        if crate == "magbelu_c":
            found += [(crate, constants[name], number) for name, number in _CONST.findall(text) if name in constants]
            found += [(crate, names.get(number, number), number) for number in _REPLY.findall(text)]
        for giver, name, number in found:
            files, entries = given.setdefault(giver, ([], []))
            entries.append((name, number))
            if file not in files:
                files.append(file)
    return given


def _definitions(tree: Tree, refusals: Sequence[Refusal]) -> Iterator[Listing]:
    """The rows of specs/, and the numbers of the machine."""
    for file in tree.files("crates/*/specs/**/*.antt"):
        rows = _once([(name, number) for number, name in found_in(_ROW, tree.text(file))])
        if rows:
            yield Listing(file, "its rows", FILE, rows, _as_in_table(rows, refusals), in_order=False)
    wanted = [(it.machine, str(it.number)) for it in refusals if it.machine]
    found = re.findall(r"(?m)^(\w+) = (\d+)$", tree.text(MACHINE))
    yield Listing(MACHINE, "its numbers", FILE, found, wanted)


def _as_in_table(rows: Sequence[Tuple[str, str]], refusals: Sequence[Refusal]) -> List[Tuple[str, str]]:
    """The same names with the numbers of the table, which has one name for two numbers."""
    wanted = []
    for name, number in rows:
        numbers = [str(it.number) for it in refusals if it.name == name]
        wanted += [(name, number if number in numbers else numbers[0])] if numbers else []
    return wanted


def _once(entries: Sequence[Tuple[str, str]]) -> List[Tuple[str, str]]:
    """Entries, each of which may have been found several times."""
    return sorted(set(entries))
